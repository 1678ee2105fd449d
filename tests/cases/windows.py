"""Cases of `list` and `export` of a wrap that is written out as its files are read, and of which no entry is held."""

import pathlib
import time

from cases import group
from entries import EXAMPLE, example_line, listing, message, opaque, split, window
from program import PATIENCE, same
from segments import segment, wrap_header

CASES, case = group()

# 8 MB of addresses, of which the program needs 4 to list anything
SMALL = ("bash", "-c", 'ulimit -v 8000; exec "$@"', "bash")


@case
def a_wrap_of_60_megabytes_is_listed_and_exported_in_8(program):
    sizes = [95, 195, 295]
    entries = [opaque(sizes[number % 3]) for number in range(400_000)]
    wrap = ("--kind", "wrap", "--size", "8000000", "--count", "8")
    program.good("import", "t", *wrap, stdin=b"".join(entries))
    first, kept = window(entries, 8_000_000, 8)
    assert first > 0 and sum(map(len, kept)) > 60_000_000, (first, len(kept))
    exported = program.run("export", "t", *wrap[:2], before=SMALL)
    same((exported.status, exported.errors), (0, b""))
    assert exported.output == b"".join(kept)
    listed = program.run("list", "t", *wrap[:2], before=SMALL)
    same((listed.status, listed.errors), (0, b""))
    lines = [f"{number} opaque {len(entry) - 5}" for number, entry in enumerate(kept, first)]
    assert listed.output == listing(first, 0, lines)


@case
def a_large_wrap_that_is_written_is_listed_and_exported_in_8_too(program):
    entries = [opaque(60_000)] * 2_200
    wrap = ("t", "--kind", "wrap", "--size", "30000000", "--count", "4")
    with program.start("import", *wrap, "--flush", "always") as importer:
        same(importer.opens(), "created")
        importer.write(b"".join(entries))
        deadline = time.monotonic() + PATIENCE
        while b"2199 opaque" not in program.run("list", *wrap[:3], before=SMALL).output:
            assert time.monotonic() < deadline
        first, kept = window(entries, 30_000_000, 4)
        exported = program.run("export", *wrap[:3], before=SMALL)
        same((exported.status, exported.errors), (0, b""))
        assert exported.output == b"".join(kept)
        listed = program.run("list", *wrap[:3], before=SMALL)
        same((listed.status, listed.errors), (0, b""))
        assert listed.output == listing(first, 0, [f"{number} opaque 60000" for number in range(first, len(entries))])
        same(importer.end().status, 0)


def written_in_8(program, wrap, size, count, entries):
    """A wrap that is written is listed and exported in 8 MB, as its entries are kept."""
    last = f"\n{len(entries) - 1} opaque ".encode()
    with program.start("import", "t", *wrap) as importer:
        same(importer.opens(), "created")
        importer.write(b"".join(entries))
        deadline = time.monotonic() + PATIENCE
        while last not in program.run("list", "t", *wrap[:2]).output:
            assert time.monotonic() < deadline
        first, kept = window(entries, size, count)
        exported = program.run("export", "t", *wrap[:2], before=SMALL)
        same((exported.status, exported.errors), (0, b""))
        assert exported.output == b"".join(kept)
        listed = program.run("list", "t", *wrap[:2], before=SMALL)
        same((listed.status, listed.errors), (0, b""))
        assert listed.output == listing(first, 0, [f"{number} opaque {len(entry) - 5}" for number, entry in enumerate(kept, first)])
        same(importer.end().status, 0)


@case
def a_standard_wrap_that_is_written_is_listed_and_exported_in_8(program):
    entries = [opaque(95 + number % 3) for number in range(60_000)]
    written_in_8(program, ("--kind", "wrap"), 131_072, 8, entries)


@case
def a_standard_wrap_of_messages_of_1_byte_that_is_written_is_listed_and_exported_in_8(program):
    written_in_8(program, ("--kind", "wrap"), 131_072, 8, [opaque(1)] * 250_000)


@case
def a_standard_wrap_of_messages_of_10_bytes_that_is_written_is_listed_and_exported_in_8(program):
    written_in_8(program, ("--kind", "wrap"), 131_072, 8, [opaque(10)] * 120_000)


@case
def a_small_wrap_of_messages_of_1_byte_that_is_written_is_listed_and_exported_in_8(program):
    written_in_8(program, ("--kind", "wrap", "--size", "7000"), 7_000, 8, [opaque(1)] * 30_000)


@case
def a_wrap_of_5_megabytes_that_is_written_is_listed_and_exported_in_8(program):
    entries = [opaque(95 + number % 3) for number in range(60_000)]
    written_in_8(program, ("--kind", "wrap", "--size", "1000000", "--count", "5"), 1_000_000, 5, entries)


def three_files(program, *before):
    """A wrap of three files with two entries each, by how many entries each header says come before it."""
    entry = message(EXAMPLE)
    for file, count in enumerate(before):
        (program.folder / f"t{file}").write_bytes(segment(wrap_header(file, count=4, before=count), entry * 2))
    return ("t", "--kind", "wrap", "--count", "4"), entry


def lines_up_to(count):
    return "".join(f"{example_line(number)}\n" for number in range(count)).encode()


@case
def a_wrap_whose_middle_file_is_damaged_is_listed_up_to_its_damage(program):
    wrap, entry = three_files(program, 0, 2, 4)
    same(program.good("list", *wrap), lines_up_to(6) + b"end_of_trace\n")
    same(program.good("export", *wrap), entry * 6)
    damaged = bytearray((program.folder / "t1").read_bytes())
    damaged[41] = 2
    (program.folder / "t1").write_bytes(damaged)
    for command, done, output in (("list", "listed", lines_up_to(2)), ("export", "written", entry * 2)):
        says = f"dbgrec: refused 1 Damaged file 1 at 36\nt1 is damaged there: the 2 entries before it are {done}"
        program.refused(command, *wrap, says=says, output=output)


@case
def a_wrap_whose_header_is_damaged_is_not_listed(program):
    wrap, _ = three_files(program, 0, 2, 4)
    damaged = bytearray((program.folder / "t1").read_bytes())
    # no trace has this kind
    damaged[5] = 9
    (program.folder / "t1").write_bytes(damaged)
    for command, done in (("list", "listed"), ("export", "written")):
        says = f"dbgrec: refused 1 Damaged file 1 at 0\nt1 is damaged there: no entry is {done}"
        program.refused(command, *wrap, says=says)


@case
def a_wrap_in_which_an_entry_is_missing_has_no_last_line(program):
    wrap, entry = three_files(program, 0, 3, 5)
    for command, output in (("list", lines_up_to(6)), ("export", entry * 6)):
        outcome = program.run(command, *wrap)
        same((outcome.status, outcome.output), (1, output))
        assert outcome.errors.startswith(b"dbgrec: refused 3 Sequence\n"), outcome


def three_large_files(program, middle_size, *before):
    """A wrap of three files of 10 megabytes each, the middle one of this size, by how many entries each header says come before it."""
    batches = [opaque(95) * 1000] * 100
    for file, count in enumerate(before):
        size = middle_size if file == 1 else 9_999_999
        (program.folder / f"t{file}").write_bytes(segment(wrap_header(file, count=4, before=count, size=size), *batches))


def refused_in_8(program, says):
    """A trace is refused so by each command that reads it, in 8 MB."""
    for command in ("list", "export", "info"):
        outcome = program.run(command, "t", before=SMALL)
        same((outcome.status, outcome.errors[: len(says)]), (1, says))


@case
def a_large_wrap_that_is_refused_is_refused_in_8_megabytes(program):
    three_large_files(program, 9_999_999, 0, 100_000, 200_000)
    same(program.run("list", "t", before=SMALL).status, 0)
    middle = program.folder / "t1"
    whole = middle.read_bytes()
    # the first entry of the last batch is none
    place = len(whole) - 100_006
    middle.write_bytes(whole[: place + 5] + b"\2" + whole[place + 6 :])
    refused_in_8(program, f"dbgrec: refused 1 Damaged file 1 at {place}\n".encode())
    middle.write_bytes(whole[:5] + b"\t" + whole[6:])
    refused_in_8(program, b"dbgrec: refused 1 Damaged file 1 at 0\n")
    three_large_files(program, 9_999_998, 0, 100_000, 200_000)
    refused_in_8(program, b"dbgrec: refused 2 Mixed\nt0 and t1 don't belong together: list --salvage shows each\n")
    three_large_files(program, 9_999_999, 0, 100_000, 200_001)
    refused_in_8(program, b"dbgrec: refused 3 Sequence\nt1 and t2 don't belong together: list --salvage shows each\n")


@case
def the_first_line_of_a_wrap_comes_before_its_files_are_read(program):
    entries = [opaque(95)] * 390_000
    wrap = ("--kind", "wrap", "--size", "8000000", "--count", "4")
    program.good("import", "t", *wrap, stdin=b"".join(entries))
    with program.start("list", "t") as lister:
        first = lister.line()
        assert first.startswith("before entries "), first
        # it waits for its reader now, with a piece of the listing written
        read = pathlib.Path(f"/proc/{lister.process.pid}/io").read_text(encoding="ascii").split()[1]
    assert int(read) < 3_000_000, read


@case
def each_wrap_is_listed_as_its_entries_are_kept(program):
    entries = split(b"".join(opaque(1 + number % 40) for number in range(60)))
    for count in (1, 2, 3):
        for size in (0, 50, 99):
            wrap = ("--kind", "wrap", "--size", str(size), "--count", str(count))
            for many in (1, 2, 3, 4, 17, 60):
                name = f"t{count}.{size}.{many}."
                program.good("import", name, *wrap, stdin=b"".join(entries[:many]))
                first, kept = window(entries[:many], size, count)
                lines = [f"{number} opaque {len(entry) - 5}" for number, entry in enumerate(kept, first)]
                same(program.good("list", name, *wrap[:2]), listing(first, 0, lines))
                same(program.good("export", name, *wrap[:2]), b"".join(kept))
