"""Cases of the package: what it holds, how it is installed, and what its completion offers."""

import gzip
import hashlib
import os
import shutil
import subprocess

from cases import REPOSITORY, Skipped, group, is_root
from choosing import KINDS
from program import PATIENCE, Program, same
from wording import COMMANDS, PAGE

CASES, case = group()

FILES = {
    "usr/bin/dbgrec": 0o755,
    "usr/share/bash-completion/completions/dbgrec": 0o644,
    "usr/share/doc/dolvirkh/FORMATS.md": 0o644,
    "usr/share/doc/dolvirkh/copyright": 0o644,
    "usr/share/man/man1/dbgrec.1.gz": 0o644,
}

VALUES = {
    "--kind": ["file", "wrap"],
    "--flush": ["always", "never", "paused"],
    "--only": sorted([*KINDS, "part"]),
    "--not": sorted([*KINDS, "part"]),
    "--as": ["folded", "perfetto", "stream"],
    "--color": ["always", "auto", "never"],
    "--by": ["function", "kind", "process"],
    "--sort": ["count", "exceptions", "longest", "mean", "total", "waiting"],
}

# what a completion of these words would put in the place of the last one
COMPLETING = """
source "$1"; shift
COMP_WORDS=("$@") COMP_CWORD=$(($# - 1))
_dbgrec
printf '%s\\n' "${COMPREPLY[@]}"
"""


def ran(*words, **options):
    return subprocess.run(words, capture_output=True, timeout=PATIENCE, check=True, **options).stdout


def packaged(program, folder="."):
    """The path of a package of the program."""
    if not shutil.which("dpkg-deb"):
        raise Skipped("there is no dpkg-deb")
    said = ran(str(REPOSITORY / "tools" / "package"), folder, program.path, cwd=program.folder, text=True)
    return program.folder / said.strip()


def files_under(root):
    """The files under a folder, each with its mode."""
    found = [path for path in root.rglob("*") if path.is_file()]
    return {str(path.relative_to(root)): path.stat().st_mode & 0o777 for path in found}


def check_starts(program, root):
    """Fails unless the program that is installed there does its work."""
    installed = Program(str(root / "usr/bin/dbgrec"), program.folder)
    same(installed.good("--version"), program.good("--version"))
    same(installed.good("import", "t", stdin=b"\1\0\0\0\7"), b"created\nsealed 1\n")
    same(installed.good("list", "t"), b"0 drop 7\nend_of_trace\n")
    installed.good("wipe", "t")


@case
def the_package_holds_program_page_completion_and_copyright(program):
    package = packaged(program)
    version = program.good("--version").decode().split()[1]
    same(package.name, f"dolvirkh_{version}_amd64.deb")
    root = program.folder / "root"
    ran("dpkg-deb", "-x", str(package), str(root))
    same(files_under(root), FILES)
    same((root / "usr/bin/dbgrec").read_bytes(), open(program.path, "rb").read())
    same(gzip.decompress((root / "usr/share/man/man1/dbgrec.1.gz").read_bytes()), PAGE.read_bytes())
    check_starts(program, root)


@case
def what_the_package_says_of_itself_is_so(program):
    package = packaged(program, "out")
    wanted = {"Package": "dolvirkh", "Architecture": "amd64", "Version": program.good("--version").decode().split()[1]}
    for field, value in wanted.items():
        same((field, ran("dpkg-deb", "-f", str(package), field, text=True).strip()), (field, value))
    needs = ran("dpkg-deb", "-f", str(package), "Depends", text=True)
    assert needs.startswith("libc6 (>= 2."), needs
    ran("dpkg-deb", "-R", str(package), "parts", cwd=program.folder)
    parts = program.folder / "parts"
    sums = dict(reversed(line.split("  ")) for line in (parts / "DEBIAN" / "md5sums").read_text().splitlines())
    same(sums, {name: hashlib.md5((parts / name).read_bytes()).hexdigest() for name in FILES})
    owners = {line.split()[1] for line in ran("dpkg-deb", "-c", str(package), text=True).splitlines()}
    same(owners, {"root/root"})


@case
def the_same_program_gives_the_same_package(program):
    same(packaged(program, "one").read_bytes(), packaged(program, "two").read_bytes())


@case
def dpkg_installs_the_package_and_removes_it(program):
    package = packaged(program)
    if not is_root() or not shutil.which("dpkg"):
        raise Skipped("only root installs a package")
    root = program.folder / "root"
    for folder in ("info", "updates"):
        (root / "var/lib/dpkg" / folder).mkdir(parents=True)
    (root / "var/lib/dpkg/status").touch()
    # the C library isn't a package under that root
    dpkg = ("dpkg", f"--root={root}", "--force-depends")
    path = {**os.environ, "PATH": f"{os.environ['PATH']}:/usr/sbin:/sbin"}
    ran(*dpkg, "--install", str(package), env=path)
    same({name: mode for name, mode in files_under(root).items() if name.startswith("usr/")}, FILES)
    check_starts(program, root)
    ran(*dpkg, "--purge", "dolvirkh", env=path)
    same([name for name in files_under(root) if name.startswith("usr/")], [])


def offered(program, *words):
    """What the completion offers in the place of the last word, in order."""
    completion = str(REPOSITORY / "packaging" / "dbgrec.bash")
    said = ran("bash", "-c", COMPLETING, "bash", completion, "dbgrec", *words, cwd=program.folder, text=True)
    return sorted(said.split())


@case
def the_completion_offers_what_the_help_names(program):
    same(offered(program, ""), sorted([*COMMANDS, "--help", "--version"]))
    same(offered(program, "imp"), ["import"])
    for command, options in COMMANDS.items():
        same((command, offered(program, command, "--")), (command, sorted([*options, "--help"])))
        for option in options & set(VALUES):
            same(offered(program, command, option, ""), VALUES[option])
            same(offered(program, command, "trace", option, "=", ""), VALUES[option])
            same(offered(program, command, "trace", option, "="), VALUES[option])
    same(offered(program, "list", "--count", ""), [])
    same(offered(program, "list", "--only", "call,re"), ["call,receive", "call,register", "call,return", "call,return_to"])


@case
def the_completion_offers_files_for_a_trace(program):
    for name in ("trace", "trace2", "other"):
        (program.folder / name).touch()
    for command, options in COMMANDS.items():
        same((command, offered(program, command, "tr")), (command, ["trace", "trace2"] if "--suffix" in options else []))
