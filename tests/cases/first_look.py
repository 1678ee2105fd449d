"""A case of the first look: what `./dbgrec` does in a fresh clone, where nothing is proved. It compiles the whole program."""

import os
import shutil
import subprocess

from cases import REPOSITORY, Skipped, group
from program import same

CASES, case = group()

# minutes, also where the machine has much else to do
PATIENCE = 1800

SAYS = b"dbgrec: this program isn't proved yet; `tools/build dbgrec` proves it, in one to two hours of four cores"

# what examples/first.script is answered
ANSWERS = b"""ok
ok
entry 0
covered 1
ok
file 0 length 98 gate 01
0 receive {trace,<nonode@nohost.80.0.0>,'receive',ok}
end_of_trace
"""


def cloned(folder):
    """A clone of what is committed, with nothing that was built."""
    if not (shutil.which("git") and shutil.which("rt")):
        raise Skipped("there is no git, or no rt")
    clone = folder / "clone"
    made = subprocess.run(["git", "clone", "-q", "--no-hardlinks", str(REPOSITORY), str(clone)], capture_output=True)
    if made.returncode or not (clone / "tools" / "first-look").exists():
        raise Skipped("git clones no such repository")
    return clone


def looked(clone, *words, stdin=b""):
    """How a first look ended: its status, and both outputs."""
    ran = subprocess.run(["./dbgrec", *words], input=stdin, cwd=clone, timeout=PATIENCE, capture_output=True)
    return ran.returncode, ran.stdout, ran.stderr


@case
def a_fresh_clone_answers_before_any_proof(program):
    clone = cloned(program.folder)
    refused = b"dbgrec: `list` needs files, and this program isn't proved yet: `tools/build dbgrec` proves it, in one to two hours of four cores; `./dbgrec --unproved list ..` does without\n"
    same(looked(clone, "list", "t"), (1, b"", refused))
    same(os.path.exists(clone / "out"), False)
    script = (clone / "examples" / "first.script").read_bytes()
    same(looked(clone, "sim", stdin=script), (0, ANSWERS, SAYS + b"; it is compiled first, in some two minutes\n"))
    # what was compiled is kept, and standard input and the status are the program's
    says = SAYS + b"\n"
    same(looked(clone, "stream", stdin=b"\1\0\0\0\7"), (0, b"0 drop 7\nend_of_trace\n", says))
    same(looked(clone, "list", "--help"), (0, program.good("list", "--help"), says))
    status, output, errors = looked(clone, "stream", stdin=b"\1")
    ended = program.run("stream", stdin=b"\1")
    same((status, output, errors), (ended.status, ended.output, says + ended.errors))
    # where it is asked for, files are worked on where they lie
    same(looked(clone, "--unproved", "import", "t", stdin=b"\1\0\0\0\7"), (0, b"created\nsealed 1\n", says))
    same(looked(clone, "--unproved", "list", "t"), (0, b"0 drop 7\nend_of_trace\n", says))
    same((clone / "crates" / "dbgrec" / "out").exists(), False)
