"""Tests of the built program: python3 tests/cases PROGRAM [--only WORD] [--and PASSED FAILED].

Each case has a fresh folder of its own. The last line counts the cases, and what `--and` says was counted before.
"""

import sys

sys.dont_write_bytecode = True

import argparse
import os
import pathlib
import shutil
import signal
import tempfile
import traceback

import absent
import choosing
import crashes
import documents
import emitting
import faults
import first_look
import folding
import following
import foreign
import forms
import fragments
import images
import importing
import info
import installing
import json_listing
import keeping
import large
import libraries
import listing
import live
import locking
import long_messages
import machine
import memory
import perfetto
import pretty
import reaching
import readings
import recording
import replacing
import rows
import salvage
import scripts
import showing
import telling
import top
import windows
import wording
from cases import Skipped
from program import Program

GROUPS = (rows, scripts, emitting, readings, listing, pretty, long_messages, fragments, forms, choosing, json_listing, recording, importing, info, top, folding, perfetto, foreign, absent, keeping, telling, crashes, images, machine, faults, locking, replacing, live, following, showing, windows, salvage, large, wording, documents, installing, memory, libraries, reaching, first_look)


def words():
    parser = argparse.ArgumentParser()
    parser.add_argument("program")
    parser.add_argument("--only", default="", help="the cases whose names hold this word")
    parser.add_argument("--and", nargs=2, type=int, default=(0, 0), dest="counted", metavar=("PASSED", "FAILED"))
    return parser.parse_args()


def copied(program, folder):
    """A copy that anybody may run."""
    os.chmod(folder, 0o755)
    copy = folder / "dbgrec"
    shutil.copyfile(program, copy)
    os.chmod(copy, 0o755)
    return str(copy)


def run(case, program, folder):
    """Runs a case, and answers what is told of it. Its files go with it: some are of a gigabyte."""
    folder.mkdir()
    try:
        case(Program(program, folder))
    except Skipped as why:
        return f"skipped ({why})"
    except Exception:
        return "FAILED\n" + traceback.format_exc()
    finally:
        shutil.rmtree(folder, ignore_errors=True)
    return "ok"


def main():
    asked = words()
    # a shell that starts this in the background has an interrupt ignored, also by what is started here
    signal.signal(signal.SIGINT, signal.default_int_handler)
    passed, failed = asked.counted
    top = pathlib.Path(tempfile.mkdtemp(prefix="dbgrec-cases-"))
    try:
        program = copied(asked.program, top)
        for case in (case for group in GROUPS for case in group.CASES if asked.only in case.__name__):
            told = run(case, program, top / case.__name__)
            print(f"{case.__name__}: {told}", flush=True)
            passed += told == "ok"
            failed += told.startswith("FAILED")
    finally:
        shutil.rmtree(top, ignore_errors=True)
    print(f"{passed} passed, {failed} failed")
    return 1 if failed else 0


sys.exit(main())
