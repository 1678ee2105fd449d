"""Cases of `import`, and of what goes from OTP through the program and back."""

import os
import random
import re
import shutil
import subprocess
import time

from cases import STREAMS, Skipped, group, stored
from entries import EXAMPLE, LONGEST, drop, example_line, exported, goes_on, kept, listing, listing_of, lost_in, message, opaque, split, window
from preloading import with_library
from program import PATIENCE, Outcome, same

CASES, case = group()

WRAP = ("--kind", "wrap")

SEALED = "dbgrec: refused 1 Sealed\n{} is sealed: export keeps its entries, wipe clears it"

TRACES = ("plain", "stamped", "mono", "wrap", "ip", "node", "forms")


def stream_of(name):
    """A stream that OTP wrote. Those of a wrap's files are joined in the order of their writing."""
    names = ("wrap3", "wrap0", "wrap1") if name == "wrap" else (name,)
    return b"".join((STREAMS / f"{part}.trc").read_bytes() for part in names)


def imports(program, stream, *words):
    """Imports a stream whole into a new trace."""
    count = len(kept(stream))
    same(program.good("import", "t", *words, stdin=stream), f"created\nsealed {count}\n".encode())


@case
def an_import_is_sealed_at_the_end_of_its_input(program):
    imports(program, message(EXAMPLE) + drop(3))
    same(program.good("list", "t"), listing(0, 0, [example_line(0), "1 drop 3"]))
    program.refused("import", "t", stdin=message(EXAMPLE), says=SEALED.format("t"))
    program.refused("record", "t", says=SEALED.format("t"))
    same(program.good("export", "t"), message(EXAMPLE) + drop(3))
    same(program.good("wipe", "t"), b"ok\n")
    imports(program, drop(4))


NOTHING = Outcome(0, b"", b"dbgrec: nothing came\n")


@case
def an_input_without_a_byte_does_nothing(program):
    for number, kind in enumerate(((), WRAP)):
        name = f"t{number}"
        for options in ((), ("--flush", "never"), ("--skip", "9"), ("--after-failure",)):
            same(program.run("import", name, *kind, *options), NOTHING)
        # of one of many, as those of a loop, it is told on a terminal alone
        same(program.run("import", name, *kind, "--keep-open"), Outcome(0, b"", b""))
        same(stored(program.folder), {})
        program.good("import", name, *kind, "--keep-open", stdin=drop(1))
        before = stored(program.folder)
        same(program.run("import", name, *kind), NOTHING)
        same(program.run("import", name, *kind, "--keep-open"), Outcome(0, b"", b""))
        same(stored(program.folder), before)
        # a sealed one stays as it is, too
        program.good("record", name, *kind)
        before = stored(program.folder)
        same(program.run("import", name, *kind), NOTHING)
        same(stored(program.folder), before)
        program.refused("import", name, *kind, stdin=drop(1), says=SEALED.format(name))
        for file in before:
            (program.folder / file).unlink()


@case
def an_import_waits_for_its_first_byte_before_it_does_anything(program):
    with program.start("import", "t") as importer:
        time.sleep(0.2)
        same(stored(program.folder), {})
        importer.write(drop(1)[:1])
        same(importer.line(), "created")
        importer.write(drop(1)[1:])
        same(importer.end(), Outcome(0, b"sealed 1\n", b""))


@case
def what_can_be_refused_by_looking_is_refused_before_the_input_is_read(program):
    (program.folder / "notes").write_bytes(b"not a trace")
    program.good("import", "w", *WRAP, "--keep-open", stdin=drop(1))
    with program.start("import", "u", "--keep-open") as holder:
        holder.write(drop(1))
        same(holder.line(), "created")
        for words in (("notes",), ("u",), ("u", "--keep-open"), ("w", "--kind", "file", "--count", "0")):
            with program.start("import", *words) as importer:
                # its input is open, and nothing comes
                same(importer.process.wait(PATIENCE) in (1, 2), True)
                same(importer.process.stdout.read(), b"")


@case
def bytes_that_are_skipped_are_passed_over(program):
    entries = [opaque(1_000, number % 256) for number in range(200)]
    stream, size = b"".join(entries), len(entries[0])
    for count in (0, 1, 7, 130, 199):
        told = program.good("import", "t", "--skip", str(count * size), stdin=stream)
        same(told, f"created\nsealed {200 - count}\n".encode())
        same(program.good("export", "t"), b"".join(entries[count:]))
        program.good("wipe", "t")
        (program.folder / "t").unlink()
    for skipped in (len(stream), len(stream) + 1, 2**64 - 1):
        same(program.run("import", "t", "--skip", str(skipped), stdin=stream), NOTHING)
    same(stored(program.folder), {})
    # one that comes byte by byte
    with program.start("import", "t", "--skip", "5") as importer:
        for place in range(12):
            importer.write((drop(1) + drop(2) + drop(3))[place : place + 1])
            time.sleep(0.01)
        same(importer.line(), "created")
        importer.write(drop(3)[2:])
        same(importer.end(), Outcome(0, b"sealed 2\n", b""))
    same(program.good("export", "t"), drop(2) + drop(3))


@case
def an_import_goes_on_with_a_trace(program):
    program.good("record", "t", stdin=b"tracee 0 8 10 r\nemit 0 receive 8377026f6b\nflushfor 0\nabandon\n")
    same(program.good("import", "t", stdin=drop(2)), b"resumed 1\nsealed 2\n")
    same(program.good("list", "t"), listing(0, 0, [example_line(0), "1 drop 2"]))


@case
def streams_of_otp_come_back_byte_for_byte(program):
    for name in TRACES:
        stream = stream_of(name)
        expected = kept(stream)
        for kind in ((), WRAP):
            imports(program, stream, *kind, *(("--size", "4294967295") if kind else ()))
            same(program.good("export", "t", *kind), stream)
            listed = program.good("list", "t", *kind)
            same(listed, program.good("stream", stdin=b"".join(expected)))
            same(listed, listing_of(expected))
            same(program.good("wipe", "t", *kind), b"ok\n")


TOO_LONG = {
    1: "dbgrec: 1 message is longer than --longest {}: a drop record of 1 stands instead\n",
    2: "dbgrec: 2 messages are longer than --longest {}: a drop record of 1 stands instead of each\n",
}


@case
def a_message_that_is_too_long_is_a_drop_of_1(program):
    expected = kept(stream_of("node"), LONGEST)
    same([number for number, entry in enumerate(expected) if entry == drop(1)], [71, 72, 373, 374])
    longest, longer = opaque(LONGEST), opaque(LONGEST + 1)
    stream = longest + longer + longest + drop(7) + longer
    outcome = program.run("import", "t", "--longest", "65531", stdin=stream)
    same(outcome, Outcome(0, b"created\nsealed 5\n", TOO_LONG[2].format(LONGEST).encode()))
    same(program.good("export", "t"), longest + drop(1) + longest + drop(7) + drop(1))
    program.good("wipe", "t")
    for words, most in ((("--longest", "65532"), 65_532), (("--longest=64K",), 1 << 16), (("--longest", "1m"), 1 << 20), ((), 16 << 20)):
        stream = opaque(most) + opaque(most + 1) + longer
        told = f"created\nsealed {len(kept(stream, most))}\n".encode()
        same(program.run("import", "t", *words, stdin=stream), Outcome(0, told, TOO_LONG[1].format(most).encode()))
        same(program.good("export", "t") == opaque(most) + drop(1) + longer, True)
        program.good("wipe", "t")
    # it is told of a stream that breaks, too, and of what this import passed over alone
    outcome = program.run("import", "t", "--longest", "65531", stdin=drop(3) + longer + longer + b"\2")
    place = len(drop(3) + longer + longer)
    errors = f"{TOO_LONG[2].format(LONGEST)}dbgrec: refused 4 BadOp at {place}\n{goes_on(3, place)}"
    same(outcome, Outcome(1, b"created\nkept 3\n", errors.encode()))
    same(program.run("import", "t", "--longest", "65531", stdin=longer), Outcome(0, b"resumed 3\nsealed 4\n", TOO_LONG[1].format(LONGEST).encode()))


@case
def a_long_message_is_kept_as_its_fragments(program):
    sizes = (65_532, 65_512 + 65_513, 65_513 + 65_513, 1_000_000)
    stream = b"".join(drop(3) + message((bytes([131, *range(1, 256)]) * (size // 256 + 1))[:size]) for size in sizes)
    for kind in ((), (*WRAP, "--size", "4294967295")):
        for flush in ("always", "paused", "never"):
            imports(program, stream, *kind, "--flush", flush)
            same(program.good("list", "t", *kind[:2]), listing_of(kept(stream)))
            same(program.good("export", "t", *kind[:2]), stream)
            program.good("wipe", "t", *kind[:2])
    # one that isn't there whole leaves no fragment
    for cut in (1, 65_531, 999_999):
        stops(program.run("import", "t", "--keep-open", stdin=stream[:-cut]), f"refused 3 Truncated at {len(stream) - 1_000_005}", f"created\nkept {len(kept(stream[:-1_000_005]))}\n")
        same(program.good("list", "t"), listing_of(kept(stream[:-1_000_005])))
        program.good("wipe", "t")


@case
def a_longest_of_an_import_that_is_none_is_refused(program):
    for value in ("257M", "256.5M", "-1", "x", "", "4G", "16 M", "268435457", "0", "63k", "65530"):
        says = f"error: invalid value '{value}' for '--longest <SIZE>': a number of bytes, from 65531 to 268435456; k, M and G after it stand for powers of 1,024, as in 64M\n\nFor more information, try '--help'."
        program.refused("import", "t", f"--longest={value}", stdin=drop(1), status=2, says=says)
    same(stored(program.folder), {})
    for value in ("65531", "64k", "256M", "268435456"):
        same(program.run("import", f"t{value}", "--longest", value, stdin=drop(1)), Outcome(0, b"created\nsealed 1\n", b""))
    for command in ("list", "export", "info", "wipe", "record"):
        same(program.run(command, "t65531", "--longest", "1M").status, 2)


@case
def a_stream_in_small_pieces_is_the_same_stream(program):
    stream = stream_of("node") + stream_of("plain")
    for kind in ((), (*WRAP, "--size", "4294967295")):
        with program.start("import", "t", *kind) as importer:
            sizes, at = (1, 2, 4, 5, 7, 333, 4_097, 65_537, 70_001), 0
            for turn in range(len(stream)):
                size = sizes[turn % len(sizes)]
                importer.write(stream[at : at + size])
                at += size
                if at >= len(stream):
                    break
            outcome = importer.end()
        same((outcome.status, outcome.errors), (0, b""))
        same(outcome.output, f"created\nsealed {len(kept(stream))}\n".encode())
        same(program.good("export", "t", *kind[:2]), stream)


@case
def a_stream_byte_by_byte_is_the_same_stream(program):
    stream = stream_of("ip") + opaque(300) + drop(4)
    with program.start("import", "t") as importer:
        for place in range(len(stream)):
            importer.write(stream[place : place + 1])
        same(importer.end().errors, b"")
    same(program.good("export", "t"), stream)


@case
def each_way_to_flush_keeps_the_same(program):
    stream = stream_of("plain")
    for name in ("always", "paused", "never"):
        imports(program, stream, "--flush", name)
        same(program.good("export", "t"), stream)
        program.good("wipe", "t")


@case
def a_wrap_keeps_the_last_runs_of_a_stream(program):
    stream = stream_of("node") + drop(9) + stream_of("stamped")
    entries = kept(stream)
    for size, count in ((0, 1), (100, 3), (2_000, 4), (65_536, 2), (131_072, 8)):
        imports(program, stream, *WRAP, "--size", str(size), "--count", str(count))
        first, left = window(entries, size, count)
        same(program.good("export", "t", *WRAP, "--count", str(count)), exported(left))
        listed = program.good("list", "t", *WRAP, "--count", str(count))
        same(listed, listing_of(left, first, lost_in(entries[:first])))
        program.good("wipe", "t", *WRAP, "--count", str(count))


def broken_streams():
    """Streams that end in a fault: what comes whole before it, the bytes that fault, and what is told."""
    good = message(EXAMPLE) + drop(3) + opaque(65_532)
    for bad in (b"\0", b"\0\0\0\0", message(EXAMPLE)[:-1], b"\1\0\0\0", opaque(65_532)[:-1], opaque(70_000)[:6]):
        yield good, bad, "3 Truncated"
    yield good, b"\2", "4 BadOp"
    yield good, b"\xff" + bytes(10), "4 BadOp"
    yield good, drop(0), "5 ZeroDrop"
    for bad in (message(b""), message(b"\x82x"), message(bytes(9)), message(bytes(70_000)), message(b"x" * 70_000)[:6]):
        yield good, bad, "8 BadMessage"
    yield good, message(bytes(70_000))[:5], "3 Truncated"


def stops(outcome, fault, output):
    """Fails unless an import ended with this fault, which the first line on standard error tells."""
    same((outcome.status, outcome.output), (1, output.encode()))
    same(outcome.errors.split(b"\n")[0], f"dbgrec: {fault}".encode())


@case
def a_cut_or_broken_stream_is_kept_up_to_its_fault_and_gone_on_with(program):
    for number, (good, bad, fault) in enumerate(broken_streams()):
        for kind in ((), (*WRAP, "--size", "4294967295")):
            name, read, count = f"t{number}-{len(kind)}", kind[:2], len(kept(good))
            stops(program.run("import", name, *kind, stdin=good + bad), f"refused {fault} at {len(good)}", f"created\nkept {count}\n")
            same(program.good("export", name, *read), good)
            # the same command once more
            told = program.good("import", name, *kind, stdin=drop(5))
            same(told, f"resumed {count}\nsealed {count + 1}\n".encode())
            same(program.good("export", name, *read), good + drop(5))


NO_STREAM = "dbgrec: refused {}\nthat is no entry stream, as a node writes it: list shows a stored trace\n"


@case
def no_file_is_made_of_what_is_no_stream(program):
    for stream, fault in (
        (bytes(20_000), "8 BadMessage at 0"),
        (message(b""), "8 BadMessage at 0"),
        (message(b"\x82") * 9, "8 BadMessage at 0"),
        (message(bytes(70_000)), "8 BadMessage at 0"),
        (message(bytes(99) * 1_000_000), "8 BadMessage at 0"),
        (drop(0), "5 ZeroDrop at 0"),
        (b"some text\n", "4 BadOp at 0"),
    ):
        for words in ((), WRAP, ("--flush", "always")):
            same(program.run("import", "z", *words, stdin=stream), Outcome(1, b"", NO_STREAM.format(fault).encode()))
        same(stored(program.folder), {})
    # behind what is passed over it is an offset that is told
    same(program.run("import", "z", "--skip", "3", stdin=bytes(9)), Outcome(1, b"", b"dbgrec: refused 8 BadMessage at 3\n"))
    same(stored(program.folder), {})
    # where a trace is, it stays, and is gone on with
    program.good("import", "z", "--keep-open", stdin=drop(1))
    stops(program.run("import", "z", stdin=bytes(20_000)), "refused 8 BadMessage at 0", "resumed 1\nkept 1\n")
    same(program.good("export", "z"), drop(1))


@case
def a_message_of_no_node_is_refused_once_its_first_byte_has_come(program):
    for size in (9, 70_000, 20_000_000):
        with program.start("import", "t", "--flush", "always") as importer:
            importer.write(message(EXAMPLE))
            same(importer.line(), "created")
            importer.write(b"\0" + size.to_bytes(4, "big") + b"\x82")
            # its input stays open
            same(importer.process.wait(PATIENCE), 1)
        same(program.good("export", "t"), message(EXAMPLE))
        program.good("wipe", "t")


@case
def what_a_stream_lists_begins_with_any_byte(program):
    same(program.good("stream", stdin=message(b"") + message(b"x")), listing(0, 0, ["0 opaque 0", "1 opaque 1"]))


@case
def an_import_that_begins_inside_an_entry_leaves_its_trace_open(program):
    entries = [message(bytes([131, 97, number])) for number in range(20)]
    whole = b"".join(entries)
    with program.start("import", "t") as importer:
        importer.write(whole[: 10 * len(entries[0]) + 6])
        wait_for(lambda: program.run("export", "t").output == b"".join(entries[:10]))
        importer.kill()
    # the rest begins with a byte of a message
    stops(program.run("import", "t", stdin=whole[10 * len(entries[0]) + 6 :]), "refused 4 BadOp at 0", "resumed 10\nkept 10\n")
    same(program.good("import", "t", stdin=b"".join(entries[11:])), b"resumed 10\nsealed 19\n")
    same(program.good("export", "t"), b"".join(entries[:10] + entries[11:]))


@case
def streams_that_are_cut_anywhere_lose_nothing(program):
    chance = random.Random(5)
    entries = [opaque(chance.choice((1, 40, 3_000)), number % 256) for number in range(600)]
    for kind in ((), (*WRAP, "--size", "20000", "--count", "100")):
        name, read = f"t{len(kind)}", kind[:2] + kind[4:]
        opened, at = "created", 0
        while at < len(entries) - 1:
            upto = min(at + chance.randrange(100), len(entries) - 1)
            came = b"".join(entries[at:upto])
            part = entries[upto][: chance.randrange(1, len(entries[upto]))]
            flush = chance.choice(("always", "paused", "never"))
            outcome = program.run("import", name, *kind, "--flush", flush, stdin=came + part)
            stops(outcome, f"refused 3 Truncated at {len(came)}", f"{opened}\nkept {upto}\n")
            same(program.good("export", name, *read), b"".join(entries[:upto]))
            opened, at = f"resumed {upto}", upto
        same(program.good("import", name, *kind, stdin=entries[-1]), f"{opened}\nsealed {len(entries)}\n".encode())
        same(program.good("export", name, *read), b"".join(entries))


@case
def an_import_that_is_to_keep_its_trace_open_does(program):
    for kind in ((), WRAP):
        name = f"t{len(kind)}"
        same(program.good("import", name, *kind, "--keep-open", stdin=message(EXAMPLE)), b"created\nkept 1\n")
        same(program.good("import", name, *kind, "--keep-open", "--flush", "never", stdin=drop(2)), b"resumed 1\nkept 2\n")
        same(program.good("export", name, *kind), message(EXAMPLE) + drop(2))
        stops(program.run("import", name, *kind, "--keep-open", stdin=drop(0)), "refused 5 ZeroDrop at 0", "resumed 2\nkept 2\n")
        same(program.good("import", name, *kind, stdin=drop(3)), b"resumed 2\nsealed 3\n")
        stops(program.run("import", name, *kind, "--keep-open", stdin=drop(1)), "refused 1 Sealed", "")


def passed_over(count):
    """What is told of bytes before the first entry."""
    told = "1 byte of a message that began before is" if count == 1 else f"{count} bytes of a message that began before are"
    return f"dbgrec: {told} passed over\n".encode()


FOLLOWING = [drop(7), message(EXAMPLE), opaque(300), opaque(65_600), message(EXAMPLE)]


def begins_within(program, name, rest, *words, entries=FOLLOWING):
    """Imports the rest of a message and entries behind it. All of these are kept, and no byte before."""
    stored_entries = kept(b"".join(entries))
    outcome = program.run("import", name, *words, "--keep-open", stdin=rest + b"".join(entries))
    same(outcome, Outcome(0, f"created\nkept {len(stored_entries)}\n".encode(), passed_over(len(rest))))
    same(program.good("export", name, *words), b"".join(entries))


@case
def an_import_that_is_to_keep_its_trace_open_begins_anywhere(program):
    whole = message(EXAMPLE)
    for cut in range(1, len(whole)):
        begins_within(program, f"t{cut}", whole[cut:])
    for cut in range(1, 5):
        begins_within(program, f"d{cut}", drop(1)[cut:])
    begins_within(program, "message", whole[9:], entries=FOLLOWING[1:])
    begins_within(program, "one", whole[9:], entries=[whole])
    begins_within(program, "w", whole[9:], *WRAP)
    # it goes on with a trace, and passes over nothing where its input begins with an entry
    same(program.run("import", "one", "--keep-open", stdin=whole[20:] + whole), Outcome(0, b"resumed 1\nkept 2\n", passed_over(len(whole) - 20)))
    same(program.good("import", "one", "--keep-open", stdin=b"".join(FOLLOWING[:3])), b"resumed 2\nkept 5\n")
    # without --keep-open it is refused
    same(program.run("import", "z", stdin=whole[9:] + whole), Outcome(1, b"", NO_STREAM.format("4 BadOp at 0").encode()))


@case
def in_the_midst_of_a_binary_nothing_is_taken_for_an_entry(program):
    like_heads = (
        # a message, and behind it none; one that is too long; drop records in a row, and before a message of no node
        b"\0\0\0\0\3\x83ab" + b"\2",
        b"\0\xf0\0\0\0\x83",
        b"\0\0\0\0\x09\x83" + bytes(8) + drop(0),
        drop(5) + drop(6) + b"\3",
        drop(5) + message(b"\x82abc"),
        message(b"") + b"\x83",
    )
    chance = random.Random(11)
    for number, (size, most) in enumerate(((100, 40), (50_000, 40), (200_000, 4_000), (1_000_000, 4_000))):
        binary = b"".join(chance.choice(like_heads) + bytes([chance.randrange(2, 131)]) * chance.randrange(most) for _ in range(3 * size // most + 9))
        assert len(binary) >= size
        begins_within(program, f"t{number}", b"x" + binary[:size] + b"x")
    # a message that would be there whole only behind the input's end
    begins_within(program, "part", b"x" * 70_000 + b"\0\0\x20\0\0\x83" + b"x" * 500)
    # no entry follows: it is refused where it begins
    for stream in (b"x" * 200_000, b"x" + message(EXAMPLE)[:-1], b"x" + drop(1)):
        same(program.run("import", "z", "--keep-open", stdin=stream), Outcome(1, b"", NO_STREAM.format("4 BadOp at 0").encode()))


@case
def bytes_of_a_message_that_began_before_count_in_each_offset(program):
    rest, entries = opaque(5_000)[100:], b"".join(FOLLOWING)
    outcome = program.run("import", "t", "--skip", "3", "--keep-open", stdin=b"\0\0\0" + rest + entries + b"\2")
    place, count = 3 + len(rest) + len(entries), len(kept(entries))
    errors = passed_over(len(rest)) + f"dbgrec: refused 4 BadOp at {place}\n{goes_on(count, place)}".encode()
    same(outcome, Outcome(1, f"created\nkept {count}\n".encode(), errors))
    same(program.good("import", "t", "--skip", str(place + 1), "--keep-open", stdin=rest[:3] + bytes(3 + len(entries)) + rest[3:] + b"\2" + message(EXAMPLE)), f"resumed {count}\nkept {count + 1}\n".encode())


@case
def what_stands_behind_the_rest_of_a_message_is_kept_as_it_comes(program):
    whole = message(EXAMPLE)
    with program.start("import", "t", "--keep-open") as importer:
        # its first entry is there before it goes on
        importer.write(whole)
        same(importer.line(), "created")
        wait_for(lambda: program.run("export", "t").output == whole)
        importer.write(drop(2))
        wait_for(lambda: program.run("export", "t").output == whole + drop(2))
        same(importer.end(), Outcome(0, b"kept 2\n", b""))
    for number, sizes in enumerate(((1,), (7, 1, 30), (100_000,))):
        name, rest = f"u{number}", opaque(400, 9)[17:]
        stream, at, turn = rest + whole, 0, 0
        with program.start("import", name, "--keep-open") as importer:
            while at < len(stream):
                importer.write(stream[at : at + sizes[turn % len(sizes)]])
                at, turn = at + sizes[turn % len(sizes)], turn + 1
                time.sleep(0.001)
            same(importer.line(), "created")
            wait_for(lambda: program.run("export", name).output == whole)
            importer.write(drop(3))
            wait_for(lambda: program.run("export", name).output == whole + drop(3))
            same(importer.end(), Outcome(0, b"kept 2\n", passed_over(len(rest))))


def kept_of(outcome):
    """How many entries an import tells that it kept, and the byte up to which."""
    second = outcome.errors.decode().split("\n")[1]
    if second == goes_on(0, 0)[:-1]:
        return 0, 0
    found = re.fullmatch(r"(\d+) entr(?:y|ies) of this input (?:is|are) kept, up to byte (\d+): .* with --skip (\d+)", second)
    assert found and found[2] == found[3], second
    return int(found[1]), int(found[2])


@case
def what_is_told_as_kept_is_skipped_and_nothing_is_doubled(program):
    chance = random.Random(7)
    entries = [opaque(chance.choice((1, 40, 3_000)), number % 256) for number in range(300)]
    entries[150:151] = [opaque(65_532), drop(4)]
    stream = b"".join(entries)
    for kind in ((), (*WRAP, "--size", "9000", "--count", "200")):
        name, read = f"t{len(kind)}", kind[:2] + kind[4:]
        place, total = 0, 0
        while place < len(stream) - 10:
            upto = min(place + chance.randrange(90_000), len(stream) - 1)
            flush = chance.choice(("always", "paused", "never"))
            outcome = program.run("import", name, *kind, "--flush", flush, "--skip", str(place), stdin=stream[:upto])
            if outcome.status == 0:
                # it ended between two entries, or nothing came: a seal would end the case
                assert outcome.errors == b"dbgrec: nothing came\n", outcome
                continue
            count, then = kept_of(outcome)
            place, total = max(place, then), total + count
            same(program.good("export", name, *read), stream[:place])
        same(program.good("import", name, *kind, "--skip", str(place), stdin=stream), f"resumed {total}\nsealed {len(kept(stream))}\n".encode())
        same(program.good("export", name, *read), stream)


@case
def what_a_device_that_fails_kept_is_told(program):
    entries = [opaque(7 + number % 900, number % 256) for number in range(1_500)]
    stream = b"".join(entries)
    for number, kind in enumerate(((), (*WRAP, "--size", "300000", "--count", "9"), (*WRAP, "--size", "1000", "--count", "999"))):
        for flush in ("always", "paused", "never"):
            for after in (3, 8, 40):
                name = f"t{number}{flush}{after}"
                failing = with_library(program, FAIL_SYNC=f"/{name}", FAIL_AFTER=after)
                outcome = program.run("import", name, *kind, "--flush", flush, stdin=stream, before=failing)
                if outcome.status == 0:
                    continue
                found = re.search(r"with --skip (\d+)", outcome.errors.decode())
                place = int(found[1]) if found else 0
                left = program.run("export", name, *kind[:2]).output
                same(left, stream[:place])
                told = program.run("import", name, *kind, "--after-failure", "--skip", str(place), stdin=stream)
                goes_on = f"resumed {len(split(left))}\nsealed {len(entries)}\n" if place < len(stream) else ""
                same(told.output, goes_on.encode())
                same(program.run("export", name, *kind[:2]).output, stream)


@case
def a_trace_whose_count_is_full_is_kept(program):
    # a segment of a wrap behind as many entries as u64 can count
    head = "01" + "44425432" + "01" + "0001" + "00000064" + "0000000000000001" + "f" * 16 + "0" * 16 + "00"
    (program.folder / "w1").write_bytes(bytes.fromhex(head))
    most = 2**64 - 1
    told = f"resumed {most}\nkept {most}\n"
    for _ in range(2):
        stops(program.run("import", "w", *WRAP, "--count", "1", stdin=drop(1)), "refused 4 CountFull", told)


@case
def an_input_that_can_not_be_read_is_told_and_nothing_is_done(program):
    folder = os.open(program.folder, os.O_RDONLY)
    command = [program.path, "import", "t"]
    ran = subprocess.run(command, cwd=program.folder, stdin=folder, capture_output=True, timeout=PATIENCE, check=False)
    os.close(folder)
    same((ran.returncode, ran.stdout), (1, b""))
    same(ran.stderr.split(b"\n")[0], b"dbgrec: refused 1 Read")
    same(stored(program.folder), {})


@case
def an_input_that_does_not_wait_is_waited_for(program):
    entries = [opaque(50, number) for number in range(12)]
    reading, writing = os.pipe()
    os.set_blocking(reading, False)
    pipe = subprocess.PIPE
    importer = subprocess.Popen([program.path, "import", "t"], cwd=program.folder, stdin=reading, stdout=pipe, stderr=pipe)
    os.close(reading)
    for entry in entries:
        time.sleep(0.03)
        os.write(writing, entry[:7])
        time.sleep(0.03)
        os.write(writing, entry[7:])
    wait_for(lambda: program.run("export", "t").output == b"".join(entries))
    os.close(writing)
    output, errors = importer.communicate(timeout=PATIENCE)
    same((importer.returncode, output, errors), (0, b"created\nsealed 12\n", b""))


INTERRUPTING = r"""
#define _GNU_SOURCE
#include <dlfcn.h>
#include <errno.h>
#include <fcntl.h>
#include <unistd.h>

/* two of three reads of standard input are interrupted, and the file `interrupted` tells that they were */
ssize_t read(int descriptor, void *buffer, size_t size)
{
    static ssize_t (*real)(int, void *, size_t);
    static unsigned calls;
    if (!real)
        real = (ssize_t (*)(int, void *, size_t))dlsym(RTLD_NEXT, "read");
    if (descriptor == 0 && calls++ % 3 < 2) {
        close(open("interrupted", O_CREAT | O_WRONLY, 0644));
        errno = EINTR;
        return -1;
    }
    return real(descriptor, buffer, size);
}
"""


@case
def a_read_that_is_interrupted_is_tried_again(program):
    if not shutil.which("cc"):
        raise Skipped("there is no C compiler")
    (program.folder / "interrupting.c").write_text(INTERRUPTING)
    library = program.folder / "interrupting.so"
    subprocess.run(["cc", "-shared", "-fPIC", "-o", library, program.folder / "interrupting.c", "-ldl"], check=True)
    stream = b"".join(opaque(1_000, number % 256) for number in range(300))
    outcome = program.run("import", "t", stdin=stream, env={**os.environ, "LD_PRELOAD": str(library)})
    same((outcome.status, outcome.output, outcome.errors), (0, b"created\nsealed 300\n", b""))
    same(program.good("export", "t"), stream)
    assert (program.folder / "interrupted").exists(), "no read was interrupted"


def wait_for(what):
    """Waits until a condition holds."""
    deadline = time.monotonic() + 30
    while not what():
        assert time.monotonic() < deadline, "it doesn't come to hold"
        time.sleep(0.002)


@case
def what_a_pausing_writer_wrote_is_covered(program):
    entries, stored_entries = split(stream_of("node")), kept(stream_of("node"))
    for kind in ((), (*WRAP, "--size", "65536", "--count", "20")):
        name = f"t{len(kind)}"
        read = kind[:2] + kind[4:]
        at = 0
        with program.start("import", name, *kind) as importer:
            for upto in (1, 2, 50, 51, 200, 375):
                # the writer writes all of its entries, and half of the next one
                importer.write(b"".join(entries[at:upto]))
                if at == 0:
                    same(importer.line(), "created")
                at = upto
                expected = b"".join(entries[:upto])
                wait_for(lambda: program.run("export", name, *read).output == expected)
            importer.write(message(EXAMPLE)[:20])
            importer.kill()
        same(program.good("list", name, *read), listing_of(stored_entries))
        same(program.good("record", name, *kind), f"resumed {len(stored_entries)}\n".encode())


@case
def an_import_that_never_flushes_keeps_whole_batches(program):
    entries = [opaque(1_000, number % 256) for number in range(200)]
    with program.start("import", "t", "--flush", "never") as importer:
        importer.write(b"".join(entries))
        same(importer.line(), "created")
        # 65 of these entries are at most 65,536 bytes
        wait_for(lambda: len(program.run("export", "t").output) == 3 * 65 * 1_005)
        importer.kill()
    same(program.good("export", "t"), b"".join(entries[:195]))


@case
def an_import_over_a_wrap_by_time_turns_while_the_writer_writes(program):
    timed = (*WRAP, "--count", "3")
    entries = [message(bytes([131, 97, number])) for number in range(6)]
    with program.start("import", "t", *timed, "--time", "20") as importer:
        for entry in entries:
            importer.write(entry)
            if entry == entries[0]:
                same(importer.line(), "created")
            wait_for(lambda: program.run("export", "t", *timed).output.endswith(entry))
            time.sleep(0.05)
        same(importer.end().output, b"sealed 6\n")
    # each entry but the first came behind a cut
    same(program.good("list", "t", *timed), listing_of(entries[3:], 3))


@case
def an_import_reads_a_fifo(program):
    os.mkfifo(program.folder / "fifo")
    (program.folder / "in").write_bytes(stream_of("plain"))
    script = 'cat in > fifo & "$0" import t < fifo'
    ran = subprocess.run(["sh", "-c", script, program.path], cwd=program.folder, capture_output=True, timeout=PATIENCE, check=False)
    same((ran.returncode, ran.stdout, ran.stderr), (0, b"created\nsealed 137\n", b""))
    same(program.good("export", "t"), stream_of("plain"))
    same(sorted(stored(program.folder)), ["in", "t"])
