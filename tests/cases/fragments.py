"""Cases of long messages that are stored: as fragments, in several entries. What is to be listed and exported is computed by
the definition in entries.py."""

import concurrent.futures
import random
import resource
import struct
import time

from cases import STREAMS, group, stored
from choosing import Asked, Listed, put_together
from crashes import resumed, unread
from entries import EXAMPLE, HEAD, LOAD, LONGEST, drop, example_line, exported, fragments, goes_on, joined, kept, listing, listing_of, lost_in, message, opaque, split, window
from info import counted, words_of
from json_listing import check_all, objects_of
from long_messages import LIMITED, MEGABYTE, PID, atom, binary, integer, of_size, string
from program import Outcome, Program, same
from segments import FILE_HEADER, batch, segment, wrap_header
from terms import Writer, stored_lines, told

CASES, case = group()

WRAP = ("--kind", "wrap")

# streams whose imports are killed, and so many runs of them at once
KILLED = 200
RUNS = 4

# files of a wrap that keeps all of such a stream
KEEPING = (*WRAP, "--size", "1000000", "--count", "20")


def term(size, letter=b"x"):
    """A message of so many bytes, and what is listed of it."""
    spelled, text = binary(letter * (size - 6))
    return b"\x83" + spelled, f"other {text}"


def entries_in(data):
    """The entries of a file, by its gates."""
    found, at = b"", 36
    while data[at] == 1:
        (size,) = struct.unpack_from(">I", data, at + 1)
        if size == 0:
            break
        found += data[at + 5 : at + 5 + size]
        at += 5 + size
    return found


def check(program, entries, *words, before=(), first=0, lost=0):
    """Fails unless stored entries are listed and exported so: readable and as objects put together, plain as they are."""
    pretty = listing(first, lost, stored_lines(entries, first))
    by_number = {first + number: entry for number, entry in put_together(entries).items()}
    expected = {("list", "-p"): pretty, ("list", "--json"): objects_of(pretty, by_number), ("export",): exported(entries), ("list",): listing_of(entries, first, lost)}
    for command, output in expected.items():
        outcome = program.run(*command, *words, before=before)
        same((command, outcome), (command, Outcome(0, output, b"")))


# ---- what an import makes of a long message, and what readers make of it


@case
def a_message_of_65532_bytes_stands_in_these_two_entries(program):
    data, text = term(65_532)
    first = bytes.fromhex("000000fffb" "8345" "000000000000fffc" "0000000000000002" "00") + data[:65_512]
    second = bytes.fromhex("0000000026" "8346" "000000000000fffc" "0000000000000001") + data[65_512:]
    same((len(first), len(second), fragments(data)), (65_536, 43, [first, second]))
    for kind in ((), WRAP):
        name = f"t{len(kind)}"
        same(program.good("import", name, *kind, stdin=message(data) + drop(5)), b"created\nsealed 3\n")
        same(b"".join(entries_in(file) for _, file in sorted(stored(program.folder).items()) if file[:1] == b"\1" and file[5] == len(kind) // 2), first + second + drop(5))
        same(program.good("list", "-p", name), f"0 {text}\n2 drop 5\nend_of_trace\n".encode())
        same(program.good("list", name), b"0 opaque 65531\n1 opaque 38\n2 drop 5\nend_of_trace\n")
        same(program.good("export", name), message(data) + drop(5))
        objects = ['{"n":0,"kind":"other","text":' + f'"{text[6:]}"'.replace('<<"', '<<\\"').replace('">>', '\\">>') + "}", '{"n":2,"kind":"drop","count":5}', '{"kind":"end_of_trace"}']
        same(program.good("list", "--json", name).decode().splitlines(), objects)


@case
def an_entry_of_a_message_that_is_not_whole_is_told_as_its_part(program):
    parts = fragments(term(200_000)[0])
    (program.folder / "t").write_bytes(segment(FILE_HEADER, parts[1] + message(EXAMPLE), parts[3] + parts[0]))
    lines = ["0 part 2 of 4 of a message of 200000 bytes", example_line(1), "2 part 4 of 4 of a message of 200000 bytes", "3 part 1 of 4 of a message of 200000 bytes"]
    same(program.good("list", "-p", "t"), listing(0, 0, lines))
    # only one message has its first part there
    same(program.good("export", "t"), message(EXAMPLE) + drop(1))
    objects = program.good("list", "--json", "t").decode().splitlines()
    same(objects[0], '{"n":0,"kind":"part","part":2,"of":4,"size":200000}')
    same(objects[3], '{"n":3,"kind":"part","part":1,"of":4,"size":200000}')


@case
def a_stream_of_a_node_comes_back_with_its_long_messages(program):
    stream = (STREAMS / "node.trc").read_bytes()
    entries = kept(stream)
    same(len(entries) - len(split(stream)), 6)
    for number, kind in enumerate(((), (*WRAP, "--size", "4294967295"), (*WRAP, "--size", "50000", "--count", "30"))):
        name = f"t{number}"
        same(program.good("import", name, *kind, stdin=stream), f"created\nsealed {len(entries)}\n".encode())
        same(program.good("export", name), stream)
        listed = program.good("list", "-p", name).decode().splitlines()
        same(listed, [*stored_lines(entries), "end_of_trace"])
        same([line for line in listed if line.split(" ")[1:2] in (["opaque"], ["part"], ["drop"])], [])
        # what is exported is stored as it was
        same(program.good("import", f"{name}again", stdin=program.good("export", name)), f"created\nsealed {len(entries)}\n".encode())
        same(program.good("list", f"{name}again"), listing_of(entries))


@case
def long_messages_of_each_size_are_listed_whole(program):
    chance = random.Random(81)
    sizes = [LONGEST, LONGEST + 1, LOAD - 1 + LOAD, 2 * LOAD, 2 * LOAD + 1, 131_000, MEGABYTE, *(chance.randrange(LONGEST + 1, 4 * MEGABYTE) for _ in range(3))]
    found = [term(size, bytes([97 + number])) for number, size in enumerate(sizes)]
    stream = b"".join(message(data) + drop(number + 1) for number, (data, _) in enumerate(found))
    entries = kept(stream)
    texts = dict(found)
    lines = [f"{at} {texts[what if word == 'message' else what[5:]] if what[0] != 1 else f'drop {lost_in([what])}'}" for at, word, what in joined(entries)]
    for kind in ((), (*WRAP, "--size", "1M", "--count", "30")):
        name = f"t{len(kind)}"
        same(program.good("import", name, *kind, stdin=stream), f"created\nsealed {len(entries)}\n".encode())
        same(program.good("list", "-p", name) == listing(0, 0, lines), True)
        same(program.good("export", name) == stream, True)


@case
def plain_listings_and_simulations_show_the_entries(program):
    data, _ = term(150_000)
    parts = fragments(data)
    program.good("import", "t", stdin=message(data) + message(EXAMPLE))
    lines = ["0 opaque 65531", "1 opaque 65531", f"2 opaque {len(parts[2]) - 5}", example_line(3)]
    for words in (("list",), ("list", "--follow")):
        same((words, program.good(*words, "t")), (words, listing(0, 0, lines)))
    script = ["create file 999999", *(f"put {entry[5:].hex()}" for entry in (*parts, message(EXAMPLE))), "close", "list"]
    told_so = ["ok", *(f"entry {number}" for number in range(4)), "closed", *lines, "end_of_trace"]
    same(program.good("sim", stdin="".join(f"{line}\n" for line in script).encode()).decode().splitlines(), told_so)
    # a stream has such entries as they are, too
    same(program.good("stream", "-p", stdin=b"".join(parts) + message(EXAMPLE)), listing(0, 0, lines))


@case
def the_numbers_of_a_trace_are_those_of_its_entries(program):
    data, _ = term(150_000)
    stream = message(EXAMPLE) + message(data) + drop(4) + message(term(70_000)[0])
    program.good("import", "t", stdin=stream)
    entries = kept(stream)
    size = len(b"".join(entries))
    lines = ["kind: file", "version: 2", "state: sealed", "entries: 7 (0 to 6)", "drop records: 1, messages lost: 4", f"bytes: {size}"]
    lines += [f"file t: entries 7, bytes {size}", "receive: 1", "other: 2"]
    same(program.good("info", "t").decode().splitlines(), lines)


def sealed(data):
    """A file that ends at a gate, sealed there."""
    return data[:-1] + b"\1" + bytes(4)


@case
def a_listing_that_follows_puts_long_messages_together(program):
    parts, data = fragments(term(200_000)[0]), term(70_000)[0]
    whole = [message(EXAMPLE), *parts, drop(2), *fragments(data), message(EXAMPLE)]
    for number, entries in enumerate((whole, whole[:3], [*parts[:2], *whole], parts[1:], [*parts, parts[0]])):
        (program.folder / f"t{number}").write_bytes(sealed(segment(FILE_HEADER, *entries)))
        lines = listing(0, 0, stored_lines(entries))
        for words in (("list", "-p"), ("list", "-p", "-f")):
            same((words, program.good(*words, f"t{number}")), (words, lines))
        same(words_of(program.good("info", f"t{number}").decode().splitlines()), counted(entries))
    # of a wrap that is read as a whole first, each file of which begins within a message
    sizes = {"size": 65_000, "count": 4}
    for file, entry in enumerate(parts):
        data = segment(wrap_header(file, before=file, **sizes), entry)
        (program.folder / f"w{file}").write_bytes(sealed(data) if file + 1 == len(parts) else data)
    same(program.good("list", "-p", "-f", "w"), listing(0, 0, stored_lines(parts)))


# ---- choices


def choosable(chance):
    """A stream with long messages of two processes and of two functions, and parts of others."""
    writer = Writer(chance)

    def told_of(word, last):
        return b"\x83h\4" + atom("trace")[0] + PID + atom(word)[0] + last

    def call(name, size):
        arguments = b"l\0\0\0\1" + of_size(string(9), size)[0][1:] + b"j"
        return message(told_of("call", b"h\3" + atom("m")[0] + atom(name)[0] + arguments))

    parts = fragments(term(200_000)[0])
    some = [call("f", 70_000), message(EXAMPLE), call("g", 140_000), drop(3), parts[0], parts[1], message(told_of("receive", of_size(string(9), 90_000)[0][1:]))]
    some += [parts[3], opaque(66_000), *(message(b"\x83" + writer.message(0)) for _ in range(5)), call("f", 100_000), drop(2), message(b"\x83")]
    return b"".join(some)


def words_chosen(program, *options):
    """The kinds of the lines of a choice, but for drop records."""
    words = [line.split(" ")[1] for line in program.good("list", "file", *options).decode().splitlines()[:-1]]
    return [word for word in words if word != "drop"]


@case
def long_messages_are_chosen_by_what_they_tell(program):
    listed = Listed(program, choosable(random.Random(82)))
    for word in ("call", "receive", "opaque", "drop", "other"):
        assert listed.shows(Asked(kinds=(word,)), "--only", word) > 0
    assert listed.shows(Asked(processes=("<n.7.0.1>",)), "--pid", "n.7.0.1") > 0
    assert listed.shows(Asked(functions=(("m",),)), "--mfa", "m") > 0
    listed.shows(Asked(functions=(("m", "g"),)), "--mfa", "m:g")
    listed.shows(Asked(functions=(("m", "f", 1),)), "--mfa", "m:f/1")
    listed.shows(Asked(functions=(("m", "f", 2),)), "--mfa", "m:f/2")
    listed.shows(Asked(first=2, last=9, kinds=("call",), processes=("<n.7.0.1>",)), "--from", "2", "--to=9", "--only", "call", "--pid", "n.7.0.1")
    # a part is chosen by its own word, and with messages that aren't read
    same(words_chosen(program, "--only", "opaque"), ["part"] * 3 + ["opaque"] * 2)
    same(words_chosen(program, "--only", "part"), ["part"] * 3)
    same(words_chosen(program, "--only", "opaque", "--not", "part"), ["opaque"] * 2)
    same({"part", "opaque"} & set(words_chosen(program, "--not", "part")), {"opaque"})
    same({"part", "opaque"} & set(words_chosen(program, "--not", "opaque")), set())
    same(program.good("export", "file", "--only", "part"), drop(3) + drop(1) + drop(2))


@case
def a_long_message_has_the_number_of_its_first_entry(program):
    stream = choosable(random.Random(83))
    listed = Listed(program, stream)
    last = len(kept(stream)) - 1
    for number in range(last + 2):
        listed.shows(Asked(first=number), "--from", str(number))
        listed.shows(Asked(last=number), "--to", str(number))
    for first, end in ((0, 1), (1, 1), (1, 2), (3, 5), (4, 4), (last - 1, last)):
        listed.shows(Asked(first=first, last=end), "--from", str(first), "--to", str(end))
    # the numbers 0 and 1 are those of one message
    same(program.good("list", "-p", "file", "--to", "1").count(b"\n"), 1)
    same(program.chosen("list", "-p", "file", "--from", "1", "--to", "1"), b"")


@case
def long_messages_and_parts_are_objects(program):
    check_all(program, choosable(random.Random(84)))


# ---- what a wrap, a broken file or a hostile writer leaves


@case
def a_wrap_that_begins_within_a_long_message_has_its_rest_as_parts(program):
    chance = random.Random(85)
    stream = b"".join(drop(number + 1) + message(term(size)[0]) for number, size in enumerate((70_000, 400_000, 300_000, 100_000, 500_000)))
    entries, began_within = kept(stream), 0
    for count in (1, 2, 3, 5):
        for size in (0, 60_000, 65_536, 70_000, 140_000, chance.randrange(400_000)):
            name = f"t{count}.{size}."
            program.good("import", name, *WRAP, "--size", str(size), "--count", str(count), stdin=stream)
            first, left = window(entries, size, count)
            check(program, left, name, first=first, lost=lost_in(entries[:first]))
            parts = 0
            while [word for _, word, _ in joined(left)][: parts + 1] == ["part"] * (parts + 1):
                parts += 1
            same(program.good("export", name), exported(left[parts:]))
            began_within += parts > 0
    assert began_within > 6, began_within


def is_cut(program, entries, name, place, file=0):
    """Fails unless a trace that is damaged at this place has the text of these entries, and is refused."""
    pretty = listing(0, 0, stored_lines(entries)).removesuffix(b"end_of_trace\n")
    expected = {("list", "-p"): pretty, ("list", "--json"): objects_of(pretty, put_together(entries)), ("export",): exported(entries), ("list",): listing_of(entries).removesuffix(b"end_of_trace\n")}
    for command, output in expected.items():
        outcome = program.run(*command, name)
        same((command, outcome.status, outcome.output), (command, 1, output))
        same(outcome.errors.split(b"\n")[0], f"dbgrec: refused 1 Damaged file {file} at {place}".encode())


@case
def damage_within_a_long_message_leaves_its_first_fragments_as_parts(program):
    first, second, third, last = fragments(term(200_000)[0])
    entries = [message(EXAMPLE), first, second, third, last, drop(2)]
    for count in range(1, len(entries) + 1):
        # behind the last of so many batches of one entry each stands a gate that has no batch
        data = segment(FILE_HEADER, *entries[:count])
        (program.folder / "t").write_bytes(data[:-1] + b"\1\0\0\xff\xff")
        is_cut(program, entries[:count], "t", len(data) - 1)
        # in a batch of the entries so far one is none
        data = b"\1" + FILE_HEADER + batch(message(b"\x83")) + batch(b"".join(entries[:count]) + b"\2") + b"\0"
        (program.folder / "u").write_bytes(data)
        is_cut(program, [message(b"\x83"), *entries[:count]], "u", 1 + len(FILE_HEADER) + len(batch(message(b"\x83"))))
    # a line stands for each entry of a long message
    for words in (("list", "-p"), ("list", "--json"), ("list",)):
        outcome = program.run(*words, "u")
        same(outcome.errors.split(b"\n")[1], f"u is damaged there: the {1 + len(entries)} entries before it are listed".encode())
    # of a wrap one file is damaged, in which a long message goes on
    sizes = {"size": 65_000, "count": 4}
    (program.folder / "w0").write_bytes(segment(wrap_header(0, **sizes), message(EXAMPLE) + first))
    data = segment(wrap_header(1, before=2, **sizes), second)
    (program.folder / "w1").write_bytes(data[:-1] + b"\1\0\0\xff\xff")
    is_cut(program, entries[:3], "w", len(data) - 1, file=1)


def forged(mark, size, left, load):
    """An entry that looks like a fragment."""
    return message(struct.pack(">BBQQ", 131, mark, size, left) + load)


def out_of_order():
    """Fragments that don't stand one after the other, or of which some are missing, and those that do."""
    first, second, third = (fragments(term(150_000, letter)[0]) for letter in (b"x", b"y", b"z"))
    other = fragments(term(150_001)[0])
    yield first
    yield first + second
    yield first[::-1]
    yield [first[0], first[2], first[1]]
    yield [first[0], first[1], first[1], first[2]]
    yield [first[0], first[2]]
    yield first[1:]
    yield first[:2]
    yield [*first[:2], *first]
    yield [first[0], *second, *first[1:]]
    yield [first[0], message(EXAMPLE), *first[1:]]
    yield [first[0], drop(1), *first[1:]]
    yield [first[0], other[1], first[2]]
    yield [first[0], other[1], other[2]]
    # those of three messages of one size are those of a fourth
    yield [first[0], second[1], third[2]]


def lying():
    """Entries that say a size or a number that isn't theirs, or nearly are fragments."""
    whole, part = bytes(LOAD), b"\0" + b"x" * (LOAD - 1)
    for size in (2**16, 2**28 - 1, 2**28, 2**28 + 1, 2**32, 2**40, 2**63, 2**64 - 1):
        count = size // LOAD + 1
        last = size + 1 - LOAD * (count - 1)
        yield [forged(69, size, count, part), forged(70, size, count - 1, whole), forged(70, size, count - 2, whole)]
        yield [forged(70, size, 1, bytes(last)), forged(70, size, 1, bytes(last - 1)), forged(70, size, 1, bytes(last + 1))]
        yield [forged(69, size, count + 1, part), forged(69, size, count - 1, part), forged(69, size, 0, part), forged(70, size, 2**64 - 1, whole)]
        yield [forged(69, size, count, b"\1" + part[1:]), forged(69, size, count, part[:-1]), forged(70, size, count, part)]
    first, *others = fragments(term(150_000)[0])
    for lie in (-1, 1, LOAD, 2**32):
        lies = [message(entry[5:7] + struct.pack(">Q", 150_000 + lie) + entry[15:]) for entry in (first, *others)]
        yield lies
        yield [lies[0], *others]
        yield [first, lies[1], others[1]]
    # of a message that one entry holds there are none
    yield [forged(69, LONGEST, 2, part), forged(70, LONGEST, 1, bytes(LONGEST + 1 - LOAD))]
    yield [message(data) for data in (b"\x83", b"\x83E", b"\x83F", b"\x83E" + bytes(16), b"\x83E" + bytes(17), b"\x83D" + first[7:], b"\x82" + first[6:])]


@case
def fragments_that_are_out_of_order_or_lie_are_parts_or_opaque(program):
    for number, entries in enumerate((*out_of_order(), *lying())):
        (program.folder / f"t{number}").write_bytes(segment(FILE_HEADER, *entries))
        check(program, entries, f"t{number}", before=LIMITED)
        if any(entry[0] == 0 and entry[5:6] != b"\x83" for entry in entries):
            continue
        # and so they are where a stream has them
        same(program.good("import", f"u{number}", stdin=b"".join(entries)), f"created\nsealed {len(entries)}\n".encode())
        check(program, entries, f"u{number}", before=LIMITED)
        outcome = program.run("info", f"u{number}", before=LIMITED)
        same((outcome.status, outcome.errors), (0, b""))
        same(words_of(outcome.output.decode().splitlines()), counted(entries))


@case
def a_size_that_lies_takes_no_memory(program):
    for size in (16 * MEGABYTE, 256 * MEGABYTE, 256 * MEGABYTE + 1, 0xFFFFFFFF):
        for longest in ("65531", "16M", "256M"):
            for come in (0, 1, 70_000, MEGABYTE):
                name = f"t{size}.{longest}.{come}"
                outcome = program.run("import", name, "--longest", longest, stdin=b"\0" + struct.pack(">I", size) + (b"\x83" + bytes(come))[:come], before=LIMITED)
                same(outcome, Outcome(1, b"created\nkept 0\n", f"dbgrec: refused 3 Truncated at 0\n{goes_on(0, 0)}".encode()))
    # what is passed over takes none at all
    stream = opaque(40 * MEGABYTE) + message(EXAMPLE)
    outcome = program.run("import", "t", stdin=stream, before=LIMITED)
    same(outcome, Outcome(0, b"created\nsealed 2\n", b"dbgrec: 1 message is longer than --longest 16777216: a drop record of 1 stands instead\n"))


@case
def a_message_for_which_there_is_no_memory_is_told(program):
    data, _ = term(40 * MEGABYTE)
    stream = message(EXAMPLE) + message(data)
    outcome = program.run("import", "t", "--longest", "64M", stdin=stream, before=LIMITED)
    same(outcome, Outcome(1, b"created\nkept 1\n", f"dbgrec: refused 7 NoMemory\n{goes_on(1, 56)}".encode()))
    same(program.good("import", "t", "--longest", "64M", "--skip", "56", stdin=stream), f"resumed 1\nsealed {1 + len(fragments(data))}\n".encode())
    same(program.good("export", "t") == stream, True)
    for command, output in ((("list", "-p"), f"{example_line(0)}\n".encode()), (("export",), message(EXAMPLE))):
        outcome = program.run(*command, "t", before=LIMITED)
        same((outcome.status, outcome.output), (1, output))
        same(outcome.errors.split(b"\n")[0].split(b" ")[-1], b"NoMemory")
    # plainly it needs none
    outcome = program.run("list", "t", before=LIMITED)
    same((outcome.status, outcome.output.count(b"\n"), outcome.errors), (0, 2 + len(fragments(data)), b""))


@case
def a_file_that_may_not_grow_is_left_with_first_fragments(program):
    data, text = term(400_000)
    stream = message(EXAMPLE) + message(data) + drop(2)
    parts = fragments(data)

    def limit():
        resource.setrlimit(resource.RLIMIT_FSIZE, (250_000, 250_000))

    outcome = program.run("import", "t", stdin=stream, preexec_fn=limit, restore_signals=False)
    same((outcome.status, outcome.output), (1, b"created\n"))
    left = program.good("list", "t").count(b"\n") - 1
    assert 1 < left < 5, left
    same(outcome.errors, b'dbgrec: refused 1 Device: "t": File too large (os error 27)\n' + goes_on(left, 56).encode())
    check(program, [message(EXAMPLE), *parts[: left - 1]], "t")
    # it is gone on with at the first byte of the message
    same(program.good("import", "t", "--skip", "56", stdin=stream), f"resumed {left}\nsealed {left + len(parts) + 1}\n".encode())
    lines = [example_line(0), *(f"{number} part {number} of {len(parts)} of a message of 400000 bytes" for number in range(1, left)), f"{left} {text}", f"{left + len(parts)} drop 2"]
    same(program.good("list", "-p", "t"), listing(0, 0, lines))
    same(program.good("export", "t"), message(EXAMPLE) + drop(1) + message(data) + drop(2))


# ---- imports that are killed


class Killed:
    """A stream whose imports are killed, and what its trace has."""

    def __init__(self, program, name, words, chance):
        self.program = program
        self.name = name
        self.words = words
        self.texts = {}
        self.messages = [self.one(chance, number) for number in range(chance.randrange(2, 6))]
        if chance.randrange(12) == 0:
            self.messages.append(self.of(chance.randrange(MEGABYTE, 4 * MEGABYTE), len(self.messages)))
        # the entries that are stored, and how many messages are there whole
        self.entries = []
        self.whole = 0
        self.kills = 0

    def of(self, size, number):
        data, text = term(size, bytes([97 + number]))
        self.texts[data] = text
        return message(data)

    def one(self, chance, number):
        size = chance.choice((LONGEST, LONGEST + 1, 131_000, 0, 50, chance.randrange(LONGEST + 1, 300_000)))
        return self.of(size, number) if size else drop(number + 2)

    def left(self):
        """The messages that aren't there whole."""
        return self.messages[self.whole :]

    def line(self, at, word, what):
        if word == "part":
            return f"{at} part {what[0]} of {what[1]} of a message of {what[2]} bytes"
        return f"{at} drop {lost_in([what])}" if word == "entry" and what[0] == 1 else f"{at} {self.texts[what if word == 'message' else what[5:]]}"

    def kill(self, chance):
        """Has an import killed that goes on, mostly where a message has just come whole."""
        left = self.left()
        data = b"".join(left)
        upto = len(b"".join(left[: chance.randrange(1, len(left) + 1)])) if chance.randrange(4) else chance.randrange(len(data))
        with self.program.start("import", self.name, *self.words, "--keep-open", "--flush", chance.choice(("always", "paused", "never"))) as importer:
            same(resumed(importer.opens(data[:1])), len(self.entries))
            importer.write(data[: max(upto, 1)])
            deadline = time.monotonic() + 10
            while unread(importer) and time.monotonic() < deadline:
                time.sleep(0.0002)
            time.sleep(chance.choice((0, 0.001, 0.003, 0.01)) * chance.random())
            shown = self.program.run("list", self.name).output if chance.randrange(3) == 0 else b""
            importer.kill()
        self.kills += 1
        return self.check(shown)

    def check(self, shown=b""):
        """Fails unless the trace has what it had, what was shown of it, and the first entries of what came; and answers how
        many parts it lists."""
        count = self.program.good("list", self.name).count(b"\n") - 1
        assert count >= max(len(self.entries), shown.removesuffix(b"end_of_trace\n").count(b"\n")), (count, len(self.entries))
        self.entries += kept(b"".join(self.left()))[: count - len(self.entries)]
        same(len(self.entries), count)
        told_of = joined(self.entries)
        listed = self.program.good("list", "-p", self.name)
        same(listed == listing(0, 0, [self.line(*it) for it in told_of]), True)
        same(self.program.good("export", self.name) == exported(self.entries), True)
        # all that isn't a part is a beginning of the stream, and a kill leaves the parts of one message at most
        whole = [message(what) if word == "message" else what for _, word, what in told_of if word != "part"]
        same(whole == self.messages[: len(whole)], True)
        self.whole = len(whole)
        parts = [what for _, word, what in told_of if word == "part"]
        begun = [place for place, (part, _, _) in enumerate(parts) if part == 1]
        assert len(begun) <= self.kills and begun[:1] == [0][: len(parts)], (parts, self.kills)
        return len(parts)

    def end(self):
        """Imports the rest, and fails unless all is there."""
        rest = kept(b"".join(self.left()))
        if rest:
            opened = f"resumed {len(self.entries)}" if self.entries or stored(self.program.folder) else "created"
            told_so = self.program.good("import", self.name, *self.words, stdin=b"".join(self.left())).decode()
            same(told_so.split("\n")[1:], [f"sealed {len(self.entries) + len(rest)}", ""])
            same(resumed(told_so.split("\n")[0]), len(self.entries)) if opened != "created" else None
        self.check()
        same(self.whole, len(self.messages))
        for file in self.program.folder.glob(f"{self.name}*"):
            file.unlink()


def kill_some(program, seed):
    """Kills the imports of some streams, and answers how many parts were left."""
    chance = random.Random(seed)
    program.folder.mkdir()
    parts = 0
    for number in range(KILLED // RUNS):
        one = Killed(program, f"t{number}", chance.choice(((), KEEPING)), chance)
        for _ in range(chance.randrange(1, 4)):
            if one.left():
                parts += one.kill(chance)
        one.end()
    return parts


@case
def killed_imports_of_200_streams_leave_whole_messages_and_first_fragments(program):
    programs = [Program(program.path, program.folder / str(number)) for number in range(RUNS)]
    with concurrent.futures.ThreadPoolExecutor(RUNS) as pool:
        parts = sum(pool.map(kill_some, programs, range(90, 90 + RUNS)))
    assert parts > 0, "no kill came within a long message"
