"""Cases of `list` and `export` with `--salvage`: what each file of a trace holds by itself."""

import json

from cases import group
from entries import EXAMPLE, drop, example_line, message
from program import same
from segments import STORED, batch, segment, wrap_header

CASES, case = group()

ENTRY = message(EXAMPLE)

WRAP = ("t", "--kind", "wrap")

COUNT = 4


def told(entries, files, missing, passed="", of=""):
    """What standard error says at the end."""
    entries_of = f"{entries} {'entry' if entries == 1 else 'entries'} of {files} {'file' if files == 1 else 'files'}"
    head = "dbgrec: this isn't the trace, but what its files hold one by one: "
    over = f"; passed over: {passed}" if passed else ""
    return f"{head}{of}{entries_of}, and {missing} missing as far as their headers tell{over}; list without --salvage says why it is refused"


def file_of(generation, before, entries=ENTRY * 2, lost=0):
    return segment(wrap_header(generation, count=COUNT, before=before, lost=lost), entries)


def put(program, **files):
    for name, data in files.items():
        (program.folder / name).write_bytes(data)


def lines(*numbers):
    return [example_line(number) for number in numbers]


def text(*some):
    return "".join(f"{line}\n" for line in some).encode()


def salvaged(program, *words, said, shown=(), exported=None):
    """Both commands, with these outputs."""
    program.refused("list", "--salvage", *words, says=said, output=text(*shown))
    if exported is not None:
        program.refused("export", "--salvage", *words, says=said, output=exported)


def three(program):
    """A wrap of three files with two entries each."""
    put(program, t0=file_of(0, 0), t1=file_of(1, 2), t2=file_of(2, 4))


@case
def a_healthy_wrap_is_salvaged_whole(program):
    three(program)
    same(program.good("list", *WRAP), text(*lines(*range(6)), "end_of_trace"))
    salvaged(program, *WRAP, said=told(6, 3, 0), shown=lines(*range(6)), exported=ENTRY * 6)


@case
def a_wrap_without_its_oldest_file_is_salvaged(program):
    three(program)
    (program.folder / "t0").unlink()
    same(program.run("list", *WRAP).output, b"")
    salvaged(program, *WRAP, said=told(4, 2, 2), shown=["before entries 2 dropped 0", *lines(2, 3, 4, 5)], exported=ENTRY * 4)


@case
def a_wrap_without_a_middle_file_is_salvaged(program):
    put(program, t0=file_of(0, 0, ENTRY + drop(5)), t2=file_of(2, 7, lost=8))
    same(program.run("list", *WRAP).output, b"")
    shown = [*lines(0), "1 drop 5", "missing entries 5 dropped 3", *lines(7, 8)]
    exported = ENTRY + drop(5) + drop(5) + ENTRY * 2
    salvaged(program, *WRAP, said=told(4, 2, 5), shown=shown, exported=exported)
    listed = program.good("stream", stdin=exported)
    same(listed, text(*lines(0), "1 drop 5", "2 drop 5", *lines(3, 4), "end_of_trace"))
    same(program.run("import", "copy", stdin=exported).status, 0)
    same(program.good("list", "copy"), listed)


@case
def a_damaged_middle_file_is_salvaged_up_to_its_damage(program):
    damaged = bytearray(segment(wrap_header(1, count=COUNT, before=2), ENTRY, ENTRY * 2))
    # the gate and length of the second batch, and the first byte of its first entry
    damaged[37 + 4 + len(ENTRY) + 5] = 2
    put(program, t0=file_of(0, 0), t1=bytes(damaged), t2=file_of(2, 5))
    same(program.run("list", *WRAP).output, text(*lines(0, 1, 2)))
    shown = [*lines(0, 1, 2), "missing entries 2 dropped 0", *lines(5, 6)]
    salvaged(program, *WRAP, said=told(5, 3, 2), shown=shown, exported=ENTRY * 3 + drop(2) + ENTRY * 2)


@case
def the_entries_of_a_batch_before_its_damage_are_salvaged(program):
    damaged = bytearray(file_of(1, 2, ENTRY * 3))
    damaged[41 + 2 * len(ENTRY)] = 2
    put(program, t0=file_of(0, 0), t1=bytes(damaged), t2=file_of(2, 5))
    shown = [*lines(0, 1, 2, 3), "missing entries 1 dropped 0", *lines(5, 6)]
    salvaged(program, *WRAP, said=told(6, 3, 1), shown=shown, exported=ENTRY * 4 + drop(1) + ENTRY * 2)


@case
def a_file_trace_with_a_damaged_tail_is_salvaged(program):
    put(program, t=STORED[:-1] + batch(ENTRY)[:-3])
    same(program.run("list", "t").output, text(*lines(0)))
    salvaged(program, "t", said=told(1, 1, 0), shown=lines(0), exported=ENTRY)


@case
def files_of_two_traces_are_salvaged_each_with_its_numbers(program):
    put(program, t0=file_of(0, 0), t1=file_of(1, 9, lost=3), t2=file_of(2, 4), t3=file_of(3, 6))
    shown = [*lines(0, 1), "missing entries 7 dropped 3", *lines(9, 10, 4, 5, 6, 7)]
    salvaged(program, *WRAP, said=told(8, 4, 7), shown=shown, exported=ENTRY * 2 + drop(7) + ENTRY * 6)


@case
def files_are_salvaged_in_the_order_of_their_generations(program):
    put(program, t0=file_of(5, 10), t1=file_of(6, 12), t2=file_of(2, 4), t3=file_of(3, 6), t4=file_of(4, 8))
    shown = ["before entries 4 dropped 0", *lines(*range(4, 14))]
    salvaged(program, *WRAP, said=told(10, 5, 4), shown=shown, exported=ENTRY * 10)


@case
def what_is_no_open_segment_is_passed_over_and_named(program):
    headless = b"\1" + b"DBT9" + bytes(60)
    put(program, t0=file_of(0, 0), t1=b"", t2=b"a letter\n", t3=headless, t4=file_of(4, 8))
    shown = [*lines(0, 1), "missing entries 6 dropped 0", *lines(8, 9)]
    salvaged(program, *WRAP, said=told(4, 2, 6, passed="t2, t3"), shown=shown, exported=ENTRY * 2 + drop(6) + ENTRY * 2)


@case
def closed_files_are_passed_over_in_silence(program):
    three(program)
    (program.folder / "t1").write_bytes(b"\0")
    salvaged(program, *WRAP, said=told(4, 2, 2), shown=[*lines(0, 1), "missing entries 2 dropped 0", *lines(4, 5)])


@case
def more_missing_entries_than_a_drop_record_can_say_are_several(program):
    most = 2**32 - 1
    put(program, t0=file_of(0, 0), t2=file_of(2, 2 * most + 5))
    shown = [*lines(0, 1), f"missing entries {2 * most + 3} dropped 0", *lines(2 * most + 5, 2 * most + 6)]
    exported = ENTRY * 2 + drop(most) * 2 + drop(3) + ENTRY * 2
    salvaged(program, *WRAP, said=told(4, 2, 2 * most + 3), shown=shown, exported=exported)
    put(program, t2=file_of(2, most + 2))
    salvaged(program, *WRAP, said=told(4, 2, most), exported=ENTRY * 2 + drop(most) + ENTRY * 2, shown=[*lines(0, 1), f"missing entries {most} dropped 0", *lines(most + 2, most + 3)])


@case
def a_salvage_is_readable_and_in_objects(program):
    put(program, t0=file_of(0, 0), t2=file_of(2, 7, lost=8))
    same(program.run("list", "-p", "--salvage", *WRAP).output, program.run("list", "--salvage", *WRAP).output)
    objects = [json.loads(line) for line in program.run("list", "--json", "--salvage", *WRAP).output.splitlines()]
    same([found.get("n") for found in objects], [0, 1, None, 7, 8])
    same(objects[2], {"kind": "missing", "entries": 5, "dropped": 8})


@case
def a_salvage_shows_the_chosen_entries_and_what_is_missing(program):
    put(program, t0=file_of(0, 0), t2=file_of(2, 7))
    gap = "missing entries 5 dropped 0"
    program.refused("list", "--salvage", "--only", "call", *WRAP, says=told(4, 2, 5, of="0 of "), output=text(gap))
    program.refused("list", "--salvage", "--from", "8", *WRAP, says=told(4, 2, 5, of="1 of "), output=text(gap, *lines(8)))
    program.refused("list", "--salvage", "--only", "receive", *WRAP, says=told(4, 2, 5), output=text(*lines(0, 1), gap, *lines(7, 8)))


@case
def there_is_nothing_to_salvage_where_no_trace_is(program):
    ran = program.run("list", "--salvage", "t")
    same((ran.status, ran.output), (1, b""))
    assert ran.errors.startswith(b"dbgrec: t: no such trace\n"), ran


@case
def a_salvage_doesn_t_follow(program):
    three(program)
    ran = program.run("list", "--salvage", "-f", *WRAP)
    same((ran.status, ran.output), (2, b""))
    same([path.name for path in sorted(program.folder.iterdir())], ["t0", "t1", "t2"])
