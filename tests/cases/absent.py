"""Cases of traces that aren't there, of traces that hold nothing, and of wraps that say what they are."""

from cases import group, stored
from entries import EXAMPLE, drop, example_line, listing, message
from program import Outcome, same
from segments import STORED

CASES, case = group()

WRAP = ("--kind", "wrap")

READERS = ("list", "export", "wipe")

NOTHING = {"list": b"end_of_trace\n", "export": b"", "wipe": b"ok\n"}

# three runs of one entry each, the last one empty
SMALL = (*WRAP, "--count", "3", "--size", "0")


def not_there(name, why):
    """What is told where there is no trace of a name."""
    return f"dbgrec: {name}: no such trace\n{why}: import begins a trace"


def is_absent(program, says, *words):
    """Fails unless each command says so and makes no file."""
    before = stored(program.folder)
    for command in READERS:
        program.refused(command, *words, says=says)
        same((command, stored(program.folder)), (command, before))


def holds_nothing(program, *words):
    """Fails unless the trace is there and empty."""
    for command in READERS:
        same(program.good(command, *words), NOTHING[command])


@case
def a_trace_that_is_not_there_is_told_and_is_not_made(program):
    for name in ("nosuch", "a-b_c.d+e,f:g@h%i"):
        is_absent(program, not_there(name, f"neither {name} nor {name}0 is there"), name)
        is_absent(program, not_there(name, f"{name}0 isn't there"), name, *WRAP)
        is_absent(program, not_there(name, f"{name} isn't there"), name, "--kind", "file")
    is_absent(program, not_there('"no such"', 'neither "no such" nor "no such0" is there'), "no such")


@case
def a_folder_that_is_not_there_is_told(program):
    for name, folder in (("nodir/x", "nodir"), ("/nodir/x", "/nodir"), ("no dir/x", '"no dir"')):
        shown = f'"{name}"' if " " in name else name
        there = f"there is no folder {folder}: give another one, or make it"
        for words in ((), WRAP, ("--kind", "file")):
            is_absent(program, f"dbgrec: {shown}: no such trace\n{there}", name, *words)
        for command in ("import", "record"):
            quoted = '"%s"' % folder.strip('"')
            unsynced = f"its folder {quoted} can't be synced: No such file or directory (os error 2)"
            device = f'dbgrec: refused 5 Recover 4 Device: "{name}": {unsynced}'
            program.refused(command, name, says=f"{device}\n{there}", stdin=drop(1) if command == "import" else b"")


@case
def a_link_to_a_file_that_is_not_there_is_told(program):
    (program.folder / "t").symlink_to("gone")
    leads = "t is a link to gone, which isn't there: give another name, or remove the link"
    is_absent(program, f"dbgrec: t: no such trace\n{leads}", "t")
    for command in ("import", "record"):
        device = 'dbgrec: refused 3 Device: "t": File exists (os error 17)'
        program.refused(command, "t", says=f"{device}\n{leads}", stdin=drop(1) if command == "import" else b"")
    same(stored(program.folder), {})


@case
def empty_files_are_no_trace(program):
    for name in ("t", "w0", "w1"):
        (program.folder / name).touch()
    is_absent(program, not_there("t", "t is there and holds nothing"), "t")
    is_absent(program, not_there("w", "w is there and holds nothing"), "w")
    is_absent(program, not_there("w", "w is there and holds nothing"), "w", *WRAP)
    is_absent(program, not_there("t", "t0 isn't there"), "t", *WRAP)
    same(stored(program.folder), {"t": b"", "w0": b"", "w1": b""})


@case
def a_wrap_that_is_asked_for_as_one_file_is_named(program):
    program.good("import", "w", *WRAP, stdin=message(EXAMPLE))
    program.good("import", "x", *WRAP, "--suffix", ".trc", stdin=message(EXAMPLE))
    is_absent(program, "dbgrec: w: no such trace\nthere is w0: a wrap; try --kind wrap", "w", "--kind", "file")
    program.refused("list", "w", "--suffix", ".trc", says=not_there("w", "neither w nor w0.trc is there"))
    program.refused("list", "x", says=not_there("x", "neither x nor x0 is there"))


@case
def a_file_that_a_wrap_has_cleared_is_told_as_one_of_the_wrap(program):
    for base, suffix in (("w", ""), ("w1", ""), ("w", ".trc1"), ("my 7", "")):
        words = ("--suffix", suffix) if suffix else ()
        program.good("import", base, *SMALL, *words, "--keep-open", stdin=drop(1) * 9)
        before = stored(program.folder)
        # the next file is cleared when a run begins
        closed = [name for name, data in before.items() if data == b"\0"]
        same(len(closed), 1)
        name, asked = (f'"{closed[0]}"', f'"{base}"') if " " in base else (closed[0], base)
        for command in ("list", "show", "export", "info", "top", "import", "record"):
            shown = "list" if command == "show" else command
            says = f"dbgrec: {name}: no such trace\n{name} is a file of the wrap {asked}: dbgrec {shown} {asked}" + (f" --suffix {suffix}" if suffix else "")
            program.refused(command, closed[0], stdin=drop(1) if command == "import" else b"", says=says)
        same(stored(program.folder), before)
        for each in before:
            (program.folder / each).unlink()
    # a closed file that no wrap has is an empty trace
    (program.folder / "w1").write_bytes(b"\0")
    holds_nothing(program, "w1")
    program.good("import", "w", *WRAP, "--count", "1", stdin=drop(1))
    (program.folder / "w2").write_bytes(b"\0")
    holds_nothing(program, "w2")


@case
def a_file_that_is_asked_for_as_a_wrap_is_named(program):
    (program.folder / "a").write_bytes(STORED)
    is_absent(program, "dbgrec: a: no such trace\na is one file: try without --kind", "a", *WRAP)
    is_absent(program, "dbgrec: a: no such trace\na is one file: try without --kind", "a", *WRAP, "--count", "3")


@case
def a_trace_that_holds_no_entry_lists_as_empty(program):
    for number, words in enumerate(((), (*WRAP, "--count", "2"))):
        program.good("record", f"a{number}", *words)
        holds_nothing(program, f"a{number}")
        program.good("record", f"c{number}", *words, stdin=b"abandon\n")
        holds_nothing(program, f"c{number}")


@case
def a_wiped_trace_lists_as_empty(program):
    for number, words in enumerate(((), (*WRAP, "--count", "2", "--size", "0"))):
        name = f"t{number}"
        program.good("import", name, *words, stdin=message(EXAMPLE) * 9)
        before = sorted(stored(program.folder))
        same(program.good("wipe", name), b"ok\n")
        holds_nothing(program, name)
        holds_nothing(program, name, *words[:2])
        same(sorted(stored(program.folder)), before)


@case
def a_blank_store_of_a_script_lists_as_empty(program):
    same(program.good("sim", stdin=b"list\nwipe\n"), b"end_of_trace\nok\n")


@case
def a_wrap_is_found_without_its_options(program):
    lines = [example_line(number) for number in (5, 6)]
    for number, suffix in enumerate(((), ("--suffix", ".trc"), ("--suffix=-7",))):
        name = f"w{number}"
        program.good("import", name, *SMALL, *suffix, stdin=message(EXAMPLE) * 7)
        for words in ((), WRAP, (*WRAP, "--count", "3"), ("--count", "3")):
            same(program.good("list", name, *suffix, *words), listing(5, 0, lines))
            same(program.good("export", name, *suffix, *words), message(EXAMPLE) * 2)
    for number, suffix in enumerate(((), ("--suffix", ".trc"), ("--suffix=-7",))):
        same(program.good("wipe", f"w{number}", *suffix), b"ok\n")
    same({len(data) for data in stored(program.folder).values()}, {1})


@case
def a_wrap_of_any_count_is_found(program):
    for count in (1, 2, 8, 9, 1_000):
        program.good("import", f"c{count}", *WRAP, "--count", str(count), "--size", "0", stdin=message(EXAMPLE) * (count + 3))
        # the last run is empty
        lines = [example_line(number) for number in range(4, count + 3)]
        same(program.good("list", f"c{count}"), listing(4, 0, lines))
        same(program.good("wipe", f"c{count}"), b"ok\n")
    same({len(data) for data in stored(program.folder).values()}, {1})


@case
def a_wrap_by_time_is_found(program):
    program.good("import", "t", *WRAP, "--count", "5", "--time", "1000000", stdin=drop(3))
    same(program.good("list", "t"), listing(0, 0, ["0 drop 3"]))


@case
def a_file_goes_before_a_wrap_of_the_same_name(program):
    program.good("import", "t", stdin=message(EXAMPLE))
    program.good("import", "t", *WRAP, stdin=drop(3))
    same(program.good("export", "t"), message(EXAMPLE))
    same(program.good("export", "t", *WRAP), drop(3))
    same(program.good("wipe", "t"), b"ok\n")
    same(program.good("export", "t", *WRAP), drop(3))


@case
def a_count_that_is_not_that_of_the_trace_is_refused(program):
    program.good("import", "w", *SMALL, stdin=message(EXAMPLE) * 7)
    program.good("import", "v", *WRAP, stdin=message(EXAMPLE))
    before = stored(program.folder)
    for command in READERS:
        for words in ((), WRAP):
            program.refused(command, "w", *words, "--count", "2", says="dbgrec: w: --count is 2, and the trace's is 3")
            program.refused(command, "w", *words, "--count", "1000", says="dbgrec: w: --count is 1000, and the trace's is 3")
            program.refused(command, "v", *words, "--count", "3", says="dbgrec: v: --count is 3, and the trace's is 8")
    same(stored(program.folder), before)


def goes_on(program, name, words, *says):
    """Fails unless an import and a record go on with the wrap, and say this on standard error."""
    errors = "".join(f"dbgrec: {name} goes on with its own {line}\n" for line in says).encode()
    for command, given in (("record", b"abandon\n"), ("import", drop(1))):
        keep = ("--keep-open",) if command == "import" else ()
        outcome = program.run(command, name, *WRAP, *words, *keep, stdin=given)
        same(sorted(outcome.errors.split(b"\n")), sorted(errors.split(b"\n")))
        same(outcome.status, 0)
        assert outcome.output.startswith(b"resumed "), outcome


@case
def a_wrap_that_is_gone_on_with_keeps_its_own_options(program):
    program.good("import", "w", *WRAP, "--keep-open", stdin=message(EXAMPLE))
    goes_on(program, "w", ())
    goes_on(program, "w", ("--count", "8", "--size", "131072"))
    goes_on(program, "w", ("--count", "3"), "--count 8, not 3")
    goes_on(program, "w", ("--count", "9"), "--count 8, not 9")
    goes_on(program, "w", ("--size", "100"), "--size 131072, not 100")
    goes_on(program, "w", ("--time", "20"), "--size 131072, not --time 20")
    goes_on(program, "w", ("--count", "1", "--size", "0"), "--count 8, not 1", "--size 131072, not 0")
    same(program.good("list", "w"), listing(0, 0, [example_line(0), *(f"{number} drop 1" for number in range(1, 8))]))


@case
def a_wrap_by_time_that_is_gone_on_with_keeps_its_own_options(program):
    program.good("import", "t", *WRAP, "--count", "2", "--time", "20", "--keep-open", stdin=message(EXAMPLE))
    goes_on(program, "t", ("--time", "20"))
    goes_on(program, "t", ("--time", "30"), "--time 20, not 30")
    goes_on(program, "t", ("--size", "100"), "--time 20, not --size 100")


@case
def a_wrap_that_is_gone_on_with_takes_its_own_count_of_files(program):
    program.good("import", "w", *SMALL, "--keep-open", stdin=message(EXAMPLE))
    says = b"dbgrec: w goes on with its own --count 3, not 1\n"
    same(program.run("import", "w", *WRAP, "--count", "1", stdin=message(EXAMPLE) * 6), Outcome(0, b"resumed 1\nsealed 7\n", says))
    same(sorted(stored(program.folder)), ["w0", "w1", "w2", "w3"])
    same(program.good("export", "w"), message(EXAMPLE) * 2)


@case
def sizes_are_taken_in_powers_of_1024(program):
    sizes = {"0K": 0, "1K": 1_024, "128K": 131_072, "1M": 1_048_576, "3G": 3_221_225_472, "4194303K": 4_294_966_272, "77": 77, "4G": 2**32 - 1, "4194304k": 2**32 - 1, "1m": 1_048_576}
    for text, size in sizes.items():
        program.good("record", f"w{text}-", *WRAP, "--size", text)
        same((program.folder / f"w{text}-0").read_bytes()[8:12], size.to_bytes(4, "big"))
    before = stored(program.folder)
    for text in ("5G", "4194305K", "4097M", "4294967296", "K", "1KB", "1 K", "1.5K", "-1K", "1T", "18446744073709551616K", "18014398509481984K"):
        outcome = program.run("import", "t", *WRAP, f"--size={text}")
        assert outcome.status == 2 and outcome.errors and not outcome.output, f"{text}: {outcome}"
    same(stored(program.folder), before)


@case
def options_without_effect_are_told_once(program):
    program.good("record", "t", stdin=b"abandon\n")
    words = {"--size": "100", "--time": "20", "--count": "3", "--suffix": ".x"}
    for option, value in words.items():
        says = f"dbgrec: {option} has no effect on one file\n".encode()
        same(program.run("import", f"new{option}", option, value, stdin=drop(1)), Outcome(0, b"created\nsealed 1\n", says))
        same(program.run("record", "t", option, value, stdin=b"abandon\n"), Outcome(0, b"resumed 0\nok\n", says))
        if option in ("--count", "--suffix"):
            for command in READERS:
                same(program.run(command, "t", "--kind", "file", option, value), Outcome(0, NOTHING[command], says))
            program.good("record", "t", stdin=b"abandon\n")
    same(program.run("list", "t", "--suffix", ".x"), Outcome(0, NOTHING["list"], b"dbgrec: --suffix has no effect on one file\n"))


@case
def a_size_beside_a_time_is_told_once(program):
    says = b"dbgrec: --size has no effect beside --time\n"
    words = (*WRAP, "--size", "100", "--time", "20")
    same(program.run("import", "w", *words, stdin=drop(1)), Outcome(0, b"created\nsealed 1\n", says))
    same(program.run("record", "v", *words), Outcome(0, b"created\n", says))
