"""Cases of library calls that the program doesn't make: memory is refused to each growth alone, and to each with all behind it.

The calls are those of the modules of tests whose names begin with `refused_memory`, which begin anew what was refused.
No run may end by a signal or with a status other than 0."""

from cases import REPOSITORY, Skipped, group
from program import Program, same
from refusing import each_refusal

CASES, case = group()

CRATES = ("tests_values", "tests_reading", "tests_desks")


def tests_of(crate):
    """The program of its tests, which `rt ci` leaves there, and so does `rt test` in that crate."""
    return REPOSITORY / "crates" / crate / "out" / f"{crate}_tests"


def names_in(tests):
    """The names of the tests that a program of tests has, where memory may be refused to them."""
    *lines, counted = tests.good("--list").decode().splitlines()
    same(counted, f"tests: {len(lines)}")
    names = [line.removesuffix(": test") for line in lines]
    return [name for name in names if "refused_memory" in name]


@case
def a_library_call_that_is_refused_memory_is_made_again(program):
    for crate in CRATES:
        if not tests_of(crate).exists():
            raise Skipped(f"the tests of {crate} aren't built: rt test in crates/{crate} builds them")
    for crate in CRATES:
        (program.folder / crate).mkdir()
        tests = Program(str(tests_of(crate)), program.folder / crate)
        names = names_in(tests)
        assert names, crate
        for name in names:

            def check(refused):
                outcome = refused.short(name)
                same((outcome.status, outcome.output.strip(), outcome.errors), (0, b"test result: ok", b""))

            assert each_refusal(tests, check, what=name), f"{name} was refused nothing"
