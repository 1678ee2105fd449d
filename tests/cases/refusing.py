"""Runs the program with a library preloaded that refuses it memory."""

import concurrent.futures
import itertools
import os
import pathlib
import shutil
import subprocess

from cases import Skipped
from program import PATIENCE, Outcome, Program

SOURCE = pathlib.Path(__file__).resolve().parent / "refusing.c"

# no run asks for memory so often
EACH = 1_000_000

# so many runs go on at once
RUNS = 4


class Refused(Program):
    """The program, run in a folder of its own, that is refused memory from its call `first` to its call `last`."""

    def __init__(self, path, folder, library, first, last):
        super().__init__(path, folder)
        self.library = library
        self.first = first
        self.last = last
        self.was_refused = False

    def short(self, *words, stdin=b""):
        """Runs a command that is refused memory, and answers how it ended."""
        mark = self.folder.parent / f"{self.folder.name}.refused"
        wanted = {"LD_PRELOAD": self.library, "REFUSE_FROM": self.first, "REFUSE_TO": self.last, "REFUSED": mark}
        # the input is a file, so that how much a read gives doesn't change
        given = self.folder.parent / f"{self.folder.name}.given"
        given.write_bytes(stdin)
        environment = os.environ | {name: str(value) for name, value in wanted.items()}
        with open(given, "rb") as reader:
            how = {"stdin": reader, "cwd": self.folder, "timeout": PATIENCE, "capture_output": True, "check": False}
            ran = subprocess.run([self.path, *words], env=environment, **how)
        given.unlink()
        if mark.exists():
            mark.unlink()
            self.was_refused = True
        return Outcome(ran.returncode, ran.stdout, ran.stderr)


def library_in(folder):
    """The path of the library."""
    library = folder / "refusing.so"
    if not library.exists():
        if not shutil.which("cc"):
            raise Skipped("there is no C compiler")
        subprocess.run(["cc", "-shared", "-fPIC", "-O1", "-o", str(library), str(SOURCE)], check=True, timeout=PATIENCE)
    return str(library)


def each_refusal(program, check, first=1, what="it"):
    """Has each call for memory refused that a run makes, from the `first` one on: it alone, and it with all behind it.

    `check` does the run in a fresh folder, and fails where what came of it isn't right. It answers how many runs had a
    call refused; the last of each kind had none."""
    library = library_in(program.folder.parent)
    counted = 0

    def try_one(call, last):
        folder = program.folder / f"{call}-{last}"
        folder.mkdir()
        refused = Refused(program.path, folder, library, call, last)
        try:
            check(refused)
        except Exception as fault:
            raise AssertionError(f"{what}, with the calls {call} to {last} refused: {fault}") from fault
        shutil.rmtree(folder)
        return refused.was_refused

    with concurrent.futures.ThreadPoolExecutor(RUNS) as pool:
        for alone in (True, False):
            for begin in itertools.count(first, 4 * RUNS):
                calls = range(begin, begin + 4 * RUNS)
                were_refused = list(pool.map(try_one, calls, calls if alone else [EACH] * len(calls)))
                counted += sum(were_refused)
                if not all(were_refused):
                    break
    return counted
