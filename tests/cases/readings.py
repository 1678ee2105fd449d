"""Cases of files and of stores that are put together byte by byte: what is read of them, and by how many device calls."""

import json

from cases import group
from entries import EXAMPLE, drop, listing_of, message
from program import same
from scripts import GREATEST_LIMIT, SEAL, answers
from segments import STORED, batch

CASES, case = group()

RESUME_FILE = f"resume file {GREATEST_LIMIT}"

GATE = b"\0"

# how many bytes of a file are read at once
PIECE = 16_384

# entries of one batch: two messages without bytes, and one with seven lost messages
TWO = [message(b"")] * 2

LOST = [message(b""), drop(7)]

# a batch of which nothing but its length is there
TORN = bytes.fromhex("010000ffff")

# a batch of a message and a drop record, and one of a message
THREE = [message(b"\x83j"), drop(259), message(b"\x83")]

TWO_BATCHES = batch(THREE[0] + THREE[1]) + batch(THREE[2]) + GATE

# headers of a file, of a wrap by size and of two wraps by time
FILE = (2, 0, 0, 0, 0, 0, 0)

WRAP = (1, 1, 1000, 131_072, 9, 260, 7)

TIMED = (2, 2, 1, 1, 256, 5, 512)

TIMED_THIRD = (2, 2, 2, 10, 3, 6, 1)


def header(version, kind, count, size, generation, before, lost):
    """The header of a segment, with its open gate."""
    numbers = [(kind, 1), (count, 2), (size, 4), (generation, 8), (before, 8), (lost, 8)]
    return f"\1DBT{version}".encode() + b"".join(value.to_bytes(length, "big") for value, length in numbers)


def text(*fields, entries=(), end=GATE):
    """A segment with one batch of these entries, or none."""
    return header(*fields) + (batch(b"".join(entries)) if entries else b"") + end


def with_byte(data, place, byte):
    return data[:place] + bytes([byte]) + data[place + 1 :]


def put_into_store(files):
    """The lines that put these bytes into the files of a store, and what they answer."""
    script = [f"store {len(files)}"] + [f"bytes {file} {data.hex() or '-'}" for file, data in enumerate(files)]
    return script, ["ok"] * len(script)


def tells(program, files, *told):
    """Each line of a script over a store of these files answers these lines."""
    script, wanted = put_into_store(files)
    for line, *lines in told:
        script.append(line)
        wanted += lines
    answers(program, script, wanted)


def lines_of(entries, first=0, lost=0):
    """The listing's lines."""
    return listing_of(entries, first, lost).decode().splitlines()


def numbers_of(program, files):
    """What `info` tells of a trace with these files."""
    for number, data in enumerate(files):
        (program.folder / f"w{number}").write_bytes(data or GATE)
    told = json.loads(program.run("info", "w", "--json").output)
    for number in range(len(files)):
        (program.folder / f"w{number}").unlink()
    return told


def holds(program, files, spec, first, lost, entries, sealed=False):
    """A store of these files is listed so, is gone on with where it isn't sealed, and is told in such numbers."""
    resumed = "refused 1 Sealed" if sealed else f"resumed {first + len(entries)}"
    tells(program, files, ("list", *lines_of(entries, first, lost)), ("resume wrap", resumed))
    told = numbers_of(program, files)
    same({name: value for name, value in told["trace"].items() if name != "version"}, spec)
    counted = (told["first"], told["lost_before"], told["entries"], told["state"])
    same(counted, (first, lost, len(entries), "sealed" if sealed else "open"))
    same(told["lost"], sum(int.from_bytes(entry[1:], "big") for entry in entries if entry[0] == 1))


BY_SIZE = {"kind": "wrap by size", "count": 2, "size": 5}

BY_TIME = {"kind": "wrap by time", "count": 2, "time": 5}


@case
def a_store_without_a_segment_holds_nothing(program):
    tells(program, [b"", b"", b""], ("list", "end_of_trace"), ("resume wrap", "refused 2 Blank"))
    told = numbers_of(program, [b"", b"", b""])
    same((told["trace"], told["state"], told["entries"], told["lost"]), (None, "empty", 0, 0))


@case
def a_file_holds_all_up_to_its_closed_gate(program):
    for version, entries, end in ((1, TWO, GATE), (2, TWO, GATE), (1, TWO, SEAL), (2, [], GATE), (2, LOST, GATE)):
        data = text(version, *FILE[1:], entries=entries, end=end)
        resumed = "refused 1 Sealed" if end == SEAL else f"resumed {len(entries)}"
        tells(program, [data, b"", b""], ("list", *lines_of(entries)), (RESUME_FILE, resumed))
        (program.folder / "t").write_bytes(data)
        same(program.good("export", "t"), b"".join(entries))
        told = json.loads(program.good("info", "t", "--json"))
        same(told["trace"], {"kind": "file", "version": version})
        same((told["state"], told["entries"]), ("sealed" if end == SEAL else "open", len(entries)))


@case
def a_half_done_wrap_holds_what_a_whole_one_does(program):
    oldest = text(1, 1, 2, 5, 0, 0, 0, entries=TWO)
    second = text(1, 1, 2, 5, 1, 2, 0, entries=TWO)
    newest = text(1, 1, 2, 5, 2, 4, 0)
    for files in ([oldest, second, b""], [oldest, second, newest], [b"", second, newest]):
        holds(program, files, BY_SIZE, 2, 0, TWO)
    holds(program, [b"", second, text(1, 1, 2, 5, 2, 4, 0, end=SEAL)], BY_SIZE, 2, 0, TWO, sealed=True)


@case
def what_was_lost_before_is_counted(program):
    oldest = text(1, 1, 2, 5, 0, 0, 0, entries=LOST)
    # the oldest run fell out with its drop record
    holds(program, [oldest, text(1, 1, 2, 5, 1, 2, 7, entries=TWO), b""], BY_SIZE, 2, 7, TWO)
    holds(program, [b"", text(1, 1, 2, 5, 1, 2, 0, entries=LOST), text(1, 1, 2, 5, 2, 4, 7)], BY_SIZE, 2, 0, LOST)
    holds(program, [oldest, text(1, 1, 2, 5, 1, 2, 7, entries=LOST), b""], BY_SIZE, 2, 7, LOST)
    timed = [text(2, 2, 2, 5, 3, 6, 7, entries=LOST), b"", text(2, 2, 2, 5, 2, 4, 7, entries=TWO)]
    holds(program, timed, BY_TIME, 4, 7, TWO + LOST)


@case
def a_wrap_by_time_holds_its_last_runs(program):
    oldest = text(2, 2, 2, 5, 0, 0, 0, entries=TWO)
    second = text(2, 2, 2, 5, 1, 2, 0, entries=TWO)
    newest = text(2, 2, 2, 5, 2, 4, 0)
    holds(program, [oldest, second, b""], BY_TIME, 0, 0, TWO * 2)
    # one more than the count, without entries
    holds(program, [oldest, second, newest], BY_TIME, 2, 0, TWO)
    holds(program, [b"", second, newest], BY_TIME, 2, 0, TWO)
    holds(program, [text(2, 2, 2, 5, 0, 0, 0), text(2, 2, 2, 5, 1, 0, 0, entries=TWO), b""], BY_TIME, 0, 0, TWO)
    greatest = 2**64 - 1
    last = text(2, 2, 2, 5, greatest, 2, 0, entries=TWO)
    holds(program, [last, b"", text(2, 2, 2, 5, greatest - 1, 2, 0)], BY_TIME, 2, 0, TWO)


@case
def the_second_version_follows_the_first(program):
    then = [text(version, 1, 2, 5, 1, 2, 0, entries=TWO) for version in (1, 2)]
    last = [text(version, 1, 2, 5, 2, 4, 0) for version in (1, 2)]
    tells(program, [b"", then[1], last[0]], ("list", "refused 3 Sequence"))
    holds(program, [b"", then[0], last[1]], BY_SIZE, 2, 0, TWO)
    holds(program, [b"", then[1], last[1]], BY_SIZE, 2, 0, TWO)


@case
def a_wrap_of_one_run_keeps_its_counts(program):
    for size, generation, before in ((0, 3, 2), (100, 1, 2**64 - 1)):
        spec = {"kind": "wrap by size", "count": 1, "size": size}
        holds(program, [b"", text(1, 1, 1, size, generation, before, 0)], spec, before, 0, [])


@case
def stores_out_of_sequence_are_refused(program):
    greatest = 2**64 - 1
    newest = text(1, 1, 2, 5, 2, 4, 0)
    stores = [
        # a generation left out
        [text(1, 1, 2, 5, 6, 0, 0), text(1, 1, 2, 5, 4, 0, 0), b""],
        # an older one that is sealed
        [b"", text(1, 1, 2, 5, 1, 2, 0, entries=TWO, end=SEAL), newest],
        # entries, and then lost messages, that aren't those before it
        [b"", text(1, 1, 2, 5, 1, 3, 0, entries=TWO), newest],
        [b"", text(1, 1, 2, 5, 1, 2, 0, entries=LOST), newest],
        # more entries than can be counted
        [b"", text(1, 1, 1, 100, 1, greatest, 0, entries=TWO), b""],
        # the last generation of a wrap by size exceeds the size
        [text(1, 1, 2, 5, greatest, 2, 0, entries=TWO), b"", text(1, 1, 2, 5, greatest - 1, 0, 0, entries=TWO)],
        # one more than the count, with entries
        [text(2, 2, 2, 5, run, 2 * run, 0, entries=TWO) for run in range(3)],
    ]
    for files in stores:
        tells(program, files, ("list", "refused 3 Sequence"), ("resume wrap", "refused 5 Recover 3 Sequence"))


@case
def other_stores_are_refused(program):
    file = text(1, *FILE[1:])
    by_time = text(2, 2, 2, 5, 0, 0, 0, entries=TWO)
    by_size = text(2, 1, 2, 5, 1, 2, 0, entries=TWO)
    torn = text(1, 1, 2, 5, 1, 0, 0, end=TORN)
    rows = [
        ([file, by_size, b""], "2 Mixed"),
        ([by_time, by_size, b""], "2 Mixed"),
        ([by_time, text(2, 2, 2, 6, 1, 2, 0, entries=TWO), b""], "2 Mixed"),
        ([file, torn, b""], "1 Damaged file 1 at 36"),
        ([text(1, 2, 2, 5, 0, 0, 0, entries=TWO), torn, b""], "1 Damaged file 0 at 0"),
    ]
    for files, fault in rows:
        tells(program, files, ("list", f"refused {fault}"), ("resume wrap", f"refused 5 Recover {fault}"))
    tells(program, [b"", b"", b""], ("fuse 2", "ok"), ("list", "refused 4 Device"))


# The newest segment has 10 bytes of entries, and its closed gate at 51.
@case
def a_wrap_goes_on_behind_its_newest_segment(program):
    def goes_on(size, entries, *told):
        before = len(entries)
        oldest = text(1, 1, 2, size, 0, 0, 0, entries=entries)
        newest = text(2, 1, 2, size, 1, before, 7, entries=TWO)
        tells(program, [oldest, newest, b""], ("resume wrap", f"resumed {before + 2}"), *told)

    full = ("files", "file 0 length 1 gate 00", "file 1 length 52 gate 01", "file 2 length 37 gate 01")
    goes_on(5, LOST, ("abandon", "ok"), full, ("list", *lines_of(TWO, 2, 7)))
    # the next entry takes the run beyond its size, or doesn't
    turned = ("files", "file 0 length 1 gate 00", "file 1 length 62 gate 01", "file 2 length 37 gate 01")
    goes_on(14, [message(b""), *LOST], ("lose 1", "entry 5"), ("flush", "covered 6"), ("abandon", "ok"), turned)
    stays = ("files", "file 0 length 62 gate 01", "file 1 length 62 gate 01", "file 2 length 0 gate --")
    goes_on(15, [message(b"")] * 2 + LOST, ("lose 1", "entry 6"), ("flush", "covered 7"), ("abandon", "ok"), stays)


@case
def a_header_is_told_as_its_bytes_say(program):
    same(text(*FILE)[:-1], b"\1DBT2" + bytes(31))
    same(text(*WRAP)[:-1], b"\1DBT1" + bytes.fromhex("0103e8000200000000000000000009000000000000010400000000000000" + "07"))
    same(text(*TIMED)[:-1], b"\1DBT2" + bytes.fromhex("0200010000000100000000000001000000000000000005000000000000" + "0200"))
    (program.folder / "t").write_bytes(text(*FILE))
    same(json.loads(program.good("info", "t", "--json"))["trace"], {"kind": "file", "version": 2})
    told = numbers_of(program, [text(*WRAP)])
    same(told["trace"], {"kind": "wrap by size", "version": 1, "count": 1000, "size": 131_072})
    same((told["files"][0]["generation"], told["first"], told["lost_before"]), (9, 260, 7))
    told = numbers_of(program, [text(*TIMED)])
    same(told["trace"], {"kind": "wrap by time", "version": 2, "count": 1, "time": 1})
    same((told["files"][0]["generation"], told["first"], told["lost_before"]), (256, 5, 512))
    tells(program, [text(*TIMED)], ("list", "before entries 5 dropped 512", "end_of_trace"))


@case
def an_unlawful_header_is_damage_at_place_0(program):
    rows = [(FILE, place, byte) for place, byte in ((1, 100), (4, 48), (4, 51), (5, 3), (6, 1), (11, 1), (19, 1), (27, 1), (35, 1))]
    rows += [(WRAP, place, byte) for place, byte in ((5, 0), (5, 2), (7, 233))]
    rows += [(TIMED, place, byte) for place, byte in ((4, 49), (7, 0), (11, 0))]
    # of two runs: another magic, the first version, no runs, more than 1,000, and no time
    rows += [(TIMED_THIRD, place, byte) for place, byte in ((4, 51), (4, 49), (7, 0), (6, 4), (11, 0))]
    for fields, place, byte in rows:
        spoiled = with_byte(text(*fields), place, byte)
        tells(program, [spoiled], ("list", "refused 1 Damaged file 0 at 0"))
        (program.folder / "t").write_bytes(spoiled)
        damaged = program.run("list", "t")
        same((fields, place, byte, damaged.status, damaged.output), (fields, place, byte, 1, b""))
        assert damaged.errors.startswith(b"dbgrec: "), damaged


@case
def a_segment_of_any_kind_is_read(program):
    same(len(STORED), 98)
    same(STORED, text(1, *FILE[1:], entries=[message(EXAMPLE)]))
    (program.folder / "t").write_bytes(STORED)
    told = json.loads(program.good("info", "t", "--json"))
    same([(file["generation"], file["entries"], file["bytes"]) for file in told["files"]], [(0, 1, 56)])
    told = numbers_of(program, [text(*TIMED_THIRD, entries=[message(EXAMPLE)])])
    same([(file["generation"], file["entries"], file["bytes"]) for file in told["files"]], [(3, 1, 56)])
    same((told["first"], told["lost_before"]), (6, 1))
    for calls in range(3):
        tells(program, [STORED], (f"fuse {calls}", "ok"), ("list", "refused 4 Device"))
    tells(program, [STORED], ("fuse 3", "ok"), ("list", *lines_of([message(EXAMPLE)])))


@case
def a_text_cut_short_is_closed_or_damaged(program):
    for length in range(len(STORED)):
        told = "refused 1 Damaged file 0 at 36" if length >= 37 else "end_of_trace"
        tells(program, [STORED[:length]], ("list", told))


@case
def a_text_ends_at_a_gate_at_the_seal_or_at_damage(program):
    # what stands behind the header, and whether it is the seal, or the place of the damage
    rows = [("02", False), ("00", False), ("0000000000010000", False), ("0100000000", True), ("010000000001ff", True)]
    rows += [("010000ffff", 36), ("0100000005010000000000", 36), ("010000", 36), ("010000000501000000070100000005", 46)]
    for behind, ending in rows:
        files = [text(1, *FILE[1:], end=bytes.fromhex(behind))]
        if ending is True:
            tells(program, files, ("list", "end_of_trace"), (RESUME_FILE, "refused 1 Sealed"))
        elif ending is False:
            goes_on = [("lose 1", "entry 0"), ("flush", "covered 1"), ("abandon", "ok"), ("files", "file 0 length 47 gate 01")]
            tells(program, files, ("list", "end_of_trace"), (RESUME_FILE, "resumed 0"), *goes_on, ("list", *lines_of([drop(1)])))
        else:
            damaged = f"Damaged file 0 at {ending}"
            tells(program, files, ("list", f"refused 1 {damaged}"), (RESUME_FILE, f"refused 5 Recover 1 {damaged}"))


def counted_up(length):
    """So many bytes, none of which is as the one before."""
    return bytes(number % 251 for number in range(length))


def up_to(place, fields=FILE):
    """A segment of one message, whose next gate is at this place."""
    return text(*fields, entries=[message(counted_up(place - 46))], end=b"")


def reads(program, data, calls, *told):
    """A file is listed so by so many device calls."""
    tells(program, [data], (f"fuse {calls}", "ok"), ("list", *told))
    tells(program, [data], (f"fuse {calls - 1}", "ok"), ("list", "refused 4 Device"))


# The second batch stands at each place round the end of the first piece: its gate is the last byte of that piece or the
# first of the next, and its length, the head of its message and the gate after it lie across. What comes after isn't read.
@case
def a_batch_lies_across_two_pieces(program):
    for place in range(PIECE - 26, PIECE + 4):
        entries = [message(counted_up(place - 46)), message(counted_up(3))]
        behind = batch(entries[1]) + GATE + counted_up(36_000)
        data = up_to(place) + behind
        # the last byte that is looked at is the closed gate
        reads(program, data, 3 if place + 13 < PIECE else 4, *lines_of(entries))
        goes_on = [("lose 1", "entry 2"), ("flush", "covered 3"), ("abandon", "ok")]
        tells(program, [data], (RESUME_FILE, "resumed 2"), *goes_on, ("list", *lines_of([*entries, drop(1)])))
        (program.folder / "t").write_bytes(data)
        same(program.good("export", "t"), b"".join(entries))
        (program.folder / "w0").write_bytes(up_to(place, (2, 1, 1, 36_000, 0, 0, 0)) + behind)
        same(program.good("export", "w", "--kind", "wrap"), b"".join(entries))


@case
def entries_of_two_batches_lie_across_two_pieces(program):
    for place in range(PIECE - 30, PIECE + 4):
        first = message(bytes([7]) * (place - 46))
        data = text(*FILE, entries=[first], end=b"") + TWO_BATCHES + bytes([9]) * 36_000
        (program.folder / "t").write_bytes(data)
        same(program.good("export", "t"), first + b"".join(THREE))
        same(program.good("list", "t"), listing_of([first, *THREE]))
        tells(program, [data], ("list", *lines_of([first, *THREE])))


@case
def a_seal_lies_across_two_pieces(program):
    for place in range(PIECE - 10, PIECE + 4):
        data = up_to(place) + SEAL + counted_up(36_000)
        entries = [message(counted_up(place - 46))]
        reads(program, data, 3 if place <= PIECE - 5 else 4, *lines_of(entries))
        tells(program, [data], (RESUME_FILE, "refused 1 Sealed"))


@case
def a_batch_cut_short_is_damaged_at_its_gate(program):
    for place in range(PIECE - 16, PIECE + 4):
        whole = up_to(place) + batch(message(counted_up(3)))
        script, wanted = [], []
        for cut in range(13):
            lines, told = put_into_store([whole[: len(whole) - cut]])
            script += [*lines, "fuse 4", "list"]
            wanted += [*told, "ok", f"refused 1 Damaged file 0 at {place}"]
        answers(program, script, wanted)


# Bytes of a batch that are no lawful entry: another first byte, a drop record of none, and a message longer than its
# batch, than any and than the file.
@case
def an_unlawful_entry_across_two_pieces_is_damage(program):
    for place in range(PIECE - 10, PIECE + 1):
        for entry in ("0200000000", "0100000000", "0000000001", "000000fffc", "00ffffffff"):
            data = up_to(place) + batch(bytes.fromhex(entry)) + counted_up(70_000)
            tells(program, [data], ("fuse 4", "ok"), ("list", f"refused 1 Damaged file 0 at {place}"))


@case
def the_longest_message_is_read(program):
    # the text has four pieces and 42 bytes
    reads(program, up_to(65_577) + GATE, 7, "0 opaque 65531", "end_of_trace")
    reads(program, up_to(65_578) + GATE, 3, "refused 1 Damaged file 0 at 36")


@case
def a_fault_at_any_piece_ends_the_read(program):
    data = up_to(65_577) + GATE
    for calls in range(7):
        tells(program, [data], (f"failonce {calls}", "ok"), ("list", "refused 4 Device"))
    tells(program, [data], ("failonce 7", "ok"), ("list", "0 opaque 65531", "end_of_trace"))


@case
def entries_of_two_batches_come_in_order(program):
    data = text(*FILE, end=TWO_BATCHES)
    (program.folder / "t").write_bytes(data)
    same(program.good("list", "t"), b"0 other []\n1 drop 259\n2 opaque 1\nend_of_trace\n")
    same(program.good("export", "t"), b"".join(THREE))


# Where a text is damaged, what stands before that comes all the same.
@case
def entries_come_up_to_the_damage(program):
    # a place after the header, a byte that is put there, how many entries come, and the damage
    rows = [(17, 0, 2, None), (18, 255, 2, 53), (21, 7, 2, 53), (22, 2, 2, 53), (26, 2, 2, 53)]
    rows += [(12, 2, 1, 36), (5, 1, 1, 36), (4, 11, 1, 36), (4, 13, 2, 36), (9, 7, 2, None)]
    for place, byte, count, damage in rows:
        (program.folder / "t").write_bytes(text(*FILE, end=with_byte(TWO_BATCHES, place, byte)))
        listed = program.run("list", "t")
        lines = listed.output.splitlines()
        same((place, byte, listed.status), (place, byte, 0 if damage is None else 1))
        if damage is None:
            same(lines.pop(), b"end_of_trace")
        else:
            assert listed.errors.startswith(f"dbgrec: refused 1 Damaged file 0 at {damage}\n".encode()), listed
        same((place, byte, [line.split()[0] for line in lines]), (place, byte, [b"%d" % number for number in range(count)]))


@case
def a_closed_file_has_no_entries(program):
    head = text(*FILE, end=b"")
    for data in (head, GATE + head[1:], b"", GATE + head[1:] + GATE):
        calls = 2 if len(data) >= 37 else 1
        tells(program, [data], (f"fuse {calls}", "ok"), ("list", "end_of_trace"))
        tells(program, [data], (f"fuse {calls - 1}", "ok"), ("list", "refused 4 Device"))
        if data:
            (program.folder / "t").write_bytes(data)
            same(program.good("list", "t"), b"end_of_trace\n")
