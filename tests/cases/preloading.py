"""Runs the program with a library preloaded, which notes calls of the system, fails them or interrupts them."""

import pathlib
import shutil
import subprocess

from cases import Skipped
from program import PATIENCE, same

SOURCE = pathlib.Path(__file__).resolve().parent / "preloaded.c"

# how many words come before the path of a call
WORDS = {"make": 1, "sync": 1, "cut": 2, "write": 3, "rename": 2, "remove": 1}


def with_library(program, **wanted):
    """Words that run a command with the library preloaded, and the calls as they are wanted."""
    library = program.folder.parent / "preloaded.so"
    if not library.exists():
        if not shutil.which("cc"):
            raise Skipped("there is no C compiler")
        subprocess.run(["cc", "-shared", "-fPIC", "-O1", "-o", str(library), str(SOURCE)], check=True, timeout=PATIENCE)
    return ("env", f"LD_PRELOAD={library}", *(f"{name}={value}" for name, value in wanted.items()))


def calls_of(program, *words, stdin=b"", status=0):
    """The calls of a command on files, each as its words, of which the last is the path."""
    log = program.folder.parent / f"{program.folder.name}.calls"
    log.unlink(missing_ok=True)
    outcome = program.run(*words, stdin=stdin, before=with_library(program, CALLS=log))
    same(outcome.status, status)
    lines = log.read_text().splitlines() if log.exists() else []
    log.unlink(missing_ok=True)
    return [line.split(" ", WORDS[line.split(" ", 1)[0]]) for line in lines]
