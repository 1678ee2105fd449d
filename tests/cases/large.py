"""Cases of traces of a gigabyte, each command over which has 24 MB of addresses."""

import contextlib
import hashlib
import json
import re
import shutil
import subprocess

from cases import Skipped, group
from entries import message, opaque
from program import PATIENCE, Outcome, same
from segments import FILE_HEADER, batch, wrap_header

CASES, case = group()

LIMITED = ("bash", "-c", 'ulimit -v 24000; exec "$@"', "bash")

ENTRY = opaque(60_000)

# what it lists as, without its number
LINE = b" opaque 60000\n"

# the entries of a run of a wrap of this size: as many as exceed it, but not without the last
SIZE = 120_000_000
RUN = SIZE // len(ENTRY) + 1

WRAP = ("--kind", "wrap", "--size", str(SIZE))


def write(path, header, count):
    """Writes a file of so many batches of one entry each."""
    one = batch(ENTRY)
    with open(path, "wb") as file:
        file.write(b"\1" + header)
        for _ in range(count):
            file.write(one)
        file.write(b"\0")


def ask_for_room(program, count):
    """Skips a case whose so many entries, and a quarter more, are too much for the disk."""
    if shutil.disk_usage(program.folder).free < count * len(ENTRY) * 5 // 4:
        raise Skipped(f"the disk has no room for {count} entries of {len(ENTRY)} bytes")


def file_trace(program, name, count):
    ask_for_room(program, count)
    write(program.folder / name, FILE_HEADER, count)
    return count


def wrap_trace(program, name, runs, last):
    """A standard wrap of 8 runs, of which all but the last are so long."""
    ask_for_room(program, 7 * runs + last)
    for generation in range(8):
        header = wrap_header(generation, before=generation * runs, size=SIZE if runs == RUN else runs * len(ENTRY) - 1, count=8)
        write(program.folder / f"{name}{generation}", header, runs if generation < 7 else last)
    return 7 * runs + last


def summed(program, *words):
    """How many bytes a command writes, with their sum, where it ends well."""
    command = [*LIMITED, program.path, *words]
    ran = subprocess.Popen(command, cwd=program.folder, stdin=subprocess.DEVNULL, stdout=subprocess.PIPE, stderr=subprocess.PIPE)
    with ran:
        digest, size = hashlib.sha256(), 0
        while piece := ran.stdout.read(1 << 20):
            digest.update(piece)
            size += len(piece)
        errors = ran.stderr.read()
    same((ran.returncode, errors), (0, b""))
    return size, digest.hexdigest()


def sum_of(pieces):
    digest, size = hashlib.sha256(), 0
    for piece in pieces:
        digest.update(piece)
        size += len(piece)
    return size, digest.hexdigest()


def lines_of(count):
    return b"".join(str(number).encode() + LINE for number in range(count))


def told(program, *words, stdin=b""):
    return program.run(*words, stdin=stdin, before=LIMITED)


def check(program, name, kind, count):
    """A trace of so many entries is read and gone on with."""
    same(summed(program, "export", name), sum_of(ENTRY for _ in range(count)))
    same(told(program, "list", name), Outcome(0, lines_of(count) + b"end_of_trace\n", b""))
    found = json.loads(told(program, "info", "--json", name).output)
    same(found["entries"], count)
    same(told(program, "import", name, *kind, "--keep-open", stdin=ENTRY), Outcome(0, f"resumed {count}\nkept {count + 1}\n".encode(), b""))
    same(told(program, "record", name, *kind, stdin=b"abandon\n"), Outcome(0, f"resumed {count + 1}\nok\n".encode(), b""))


def check_followed(program, name, kind, count):
    """A trace of so many entries is followed until it is sealed."""
    follower = subprocess.Popen([*LIMITED, program.path, "list", "-f", name], cwd=program.folder, stdout=subprocess.PIPE, stderr=subprocess.PIPE, bufsize=0)
    with contextlib.closing(follower.stdout):
        some = follower.stdout.read(1)
        same(told(program, "record", name, *kind, stdin=b"seal\n").status, 0)
        output, errors = follower.communicate(timeout=PATIENCE)
    same((some + output, errors, follower.returncode), (lines_of(count) + b"end_of_trace\n", b"", 0))


def damage(path, at):
    """Makes an entry of a batch none."""
    with open(path, "r+b") as file:
        file.seek(at)
        file.write(b"\7")


def refusals(program, name, kind):
    """What each command says of a damaged trace, but for the numbers."""
    found = []
    for words in (("list", name), ("list", "-f", name), ("export", name), ("info", name), ("import", name, *kind, "--keep-open"), ("record", name, *kind)):
        outcome = program.run(*words, stdin=ENTRY, before=LIMITED)
        same((words, outcome.status), (words, 1))
        found.append(re.sub(rb"\d+", b"N", outcome.errors).replace(name.encode(), b"NAME"))
        (program.folder / f"{name}.failed").unlink(missing_ok=True)
    return found


@case
def a_file_of_a_gigabyte_is_read_and_gone_on_with_in_24_megabytes(program):
    count = file_trace(program, "t", 17_000)
    check(program, "t", (), count)
    check_followed(program, "t", (), count + 1)


@case
def a_wrap_of_a_gigabyte_is_read_and_gone_on_with_in_24_megabytes(program):
    count = wrap_trace(program, "w", RUN, RUN - 100)
    check(program, "w", WRAP[:2], count)
    check_followed(program, "w", WRAP[:2], count + 1)


@case
def a_file_of_a_gigabyte_that_is_damaged_is_refused_as_a_small_one(program):
    said = []
    for name, count in (("small", 10), ("large", 17_000)):
        file_trace(program, name, count)
        damage(program.folder / name, 36 + (len(ENTRY) + 5) * (count // 2) + 5)
        said.append(refusals(program, name, ()))
    same(said[1], said[0])


@case
def a_wrap_of_a_gigabyte_that_is_damaged_is_refused_as_a_small_one(program):
    said = []
    for name, runs, last in (("small", 10, 5), ("large", RUN, RUN - 100)):
        wrap_trace(program, name, runs, last)
        damage(program.folder / f"{name}3", 36 + (len(ENTRY) + 5) * (runs // 2) + 5)
        said.append(refusals(program, name, WRAP[:2]))
    same(said[1], said[0])
