"""What the modules of cases share."""

import os
import pathlib

REPOSITORY = pathlib.Path(__file__).resolve().parents[2]

STREAMS = pathlib.Path(__file__).resolve().parents[1] / "otp"


class Skipped(Exception):
    """The machine doesn't let a case run."""


def group():
    """The cases of a module, and the decorator that adds one."""
    found = []

    def case(function):
        found.append(function)
        return function

    return found, case


def is_root():
    return os.geteuid() == 0


def stored(folder):
    """The bytes of each file of a folder, by its name."""
    return {entry.name: entry.read_bytes() for entry in folder.iterdir() if entry.is_file()}
