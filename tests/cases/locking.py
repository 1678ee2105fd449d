"""Cases of two recorders whose files are the same, in whole or in part."""

import contextlib

from cases import group, stored
from entries import EXAMPLE, drop, listing, message
from program import same

CASES, case = group()

WRAP = ("--kind", "wrap", "--size", "0")

# enough entries for each file of the wrap to be there
TEN = (*WRAP, "--count", "10")


def in_use(program, file, *commands):
    """Fails unless each command is told that another process has the file, and changes nothing."""
    before = stored(program.folder)
    for command in commands:
        program.refused(*command, stdin=message(EXAMPLE), says=f'dbgrec: "{file}" is in use by another process')
        same((command, stored(program.folder)), (command, before))


@case
def a_file_of_a_wrap_that_is_recorded_is_in_use(program):
    program.good("import", "trace", *WRAP, "--keep-open", stdin=drop(1) * 20)
    with program.start("import", "trace", *WRAP) as running:
        same(running.opens(b"\1"), "resumed 20")
        for number in (0, 3, 8):
            name = f"trace{number}"
            in_use(program, name, ("wipe", name), ("wipe", name, "--force"))
            for command in ("import", "record"):
                # the file that is written next has nothing, and is told as one of the wrap
                if number != 3:
                    in_use(program, name, (command, name))
                else:
                    program.refused(command, name, says=f"dbgrec: {name}: no such trace\n{name} is a file of the wrap trace: dbgrec {command} trace")
        in_use(program, "trace0", ("import", "trace", *WRAP), ("record", "trace", *WRAP), ("wipe", "trace"))
        running.write(drop(1))
        same(running.end().output, b"sealed 21\n")
    same(program.good("wipe", "trace"), b"ok\n")


@case
def a_wrap_of_which_a_file_is_recorded_is_in_use(program):
    with program.start("record", "trace3") as running:
        same(running.line(), "created")
        before = (program.folder / "trace3").read_bytes()
        for command in ("import", "record"):
            program.refused(command, "trace", *WRAP, says='dbgrec: "trace3" is in use by another process')
        same((program.folder / "trace3").read_bytes(), before)
        same(running.end().status, 0)
    same(program.good("list", "trace3"), listing(0, 0, []))


@case
def two_wraps_that_share_a_file_are_told_of_it(program):
    program.good("import", "t", *TEN, "--keep-open", stdin=drop(1) * 20)
    with program.start("import", "t", *TEN) as running:
        same(running.opens(b"\1"), "resumed 20")
        in_use(program, "t10", ("import", "t1", *WRAP), ("record", "t1", *WRAP), ("wipe", "t1", "--kind", "wrap", "--force"))
        running.write(drop(1))
        same(running.end().output, b"sealed 21\n")


@case
def a_wrap_that_comes_second_is_told_of_the_shared_file(program):
    with program.start("record", "t1", *WRAP) as running:
        same(running.line(), "created")
        before = stored(program.folder)
        for command in ("import", "record"):
            program.refused(command, "t", *TEN, says='dbgrec: "t10" is in use by another process')
        same({name: stored(program.folder)[name] for name in before}, before)
        same(running.end().status, 0)


@case
def a_file_that_comes_in_the_place_of_a_later_one_stays(program):
    with program.start("import", "w", *WRAP) as running:
        same(running.opens(b"\1"), "created")
        running.write(drop(1))
        same(program.good("import", "w3", stdin=message(EXAMPLE)), b"created\nsealed 1\n")
        before = (program.folder / "w3").read_bytes()
        with contextlib.suppress(BrokenPipeError):
            running.write(drop(1) * 9)
        outcome = running.end()
    same(outcome.status, 1)
    assert outcome.errors.startswith(b'dbgrec: "w3" is in use by another process\n'), outcome
    same((program.folder / "w3").read_bytes(), before)


@case
def a_link_that_is_put_there_later_is_a_fault(program):
    with program.start("import", "w", *WRAP) as running:
        same(running.opens(b"\1"), "created")
        (program.folder / "w1").symlink_to("original")
        with contextlib.suppress(BrokenPipeError):
            running.write(drop(1) * 9)
        outcome = running.end()
    same(outcome.status, 1)
    assert outcome.errors.startswith(b'dbgrec: refused 1 Device: "w1": File exists (os error 17)\n'), outcome
    assert not (program.folder / "original").exists()


@case
def a_lock_makes_no_file(program):
    program.refused("wipe", "w", says="dbgrec: w: no such trace\nneither w nor w0 is there: import begins a trace")
    same(stored(program.folder), {})
    with program.start("import", "w", *WRAP) as running:
        same(running.opens(b"\1"), "created")
        same(list(stored(program.folder)), ["w0"])
        # the others are made since they were looked for
        in_use(program, "w0", ("import", "w", *WRAP), ("record", "w", *WRAP), ("wipe", "w"))
        running.write(drop(1))
        same(running.end().status, 0)


@case
def a_killed_recorder_leaves_no_lock(program):
    for words in (("t",), ("w", *TEN)):
        with program.start("import", *words) as running:
            same(running.opens(), "created")
            running.kill()
        same(program.good("import", *words, stdin=drop(1)), b"resumed 0\nsealed 1\n")


@case
def readers_take_no_lock(program):
    program.good("import", "w", *TEN, "--keep-open", stdin=drop(1) * 20)
    with program.start("import", "w", *TEN) as running:
        same(running.opens(b"\1"), "resumed 20")
        same(len(program.good("list", "w").splitlines()), 11)
        same(program.good("export", "w"), drop(1) * 9)
        running.write(drop(1))
        same(running.end().output, b"sealed 21\n")
