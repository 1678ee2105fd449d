"""Cases of messages that are longer than an entry may be. Each message is made here with its text beside it."""

import json
import random
import struct
import time

from cases import STREAMS, group
from entries import LONGEST, drop, listing, message, split
from program import Outcome, same
from terms import told

CASES, case = group()

MEGABYTE = 1 << 20

DEFAULT = 16 * MEGABYTE

GREATEST = 256 * MEGABYTE

LIMITED = ("bash", "-c", 'ulimit -v 24000; exec "$@"', "bash")

PID = b"X" + b"w\1n" + struct.pack(">III", 7, 0, 1)


# ---- terms: how they are spelled, and their text


def integer(number):
    if 0 <= number < 256:
        return b"a" + bytes([number]), str(number)
    return b"b" + struct.pack(">i", number), str(number)


def atom(name):
    return b"w" + bytes([len(name)]) + name.encode(), name


def binary(data):
    """A binary of bytes that aren't text, unless each is a letter."""
    text = f'"{data.decode()}"' if data.isalpha() else ",".join(map(str, data))
    return b"m" + struct.pack(">I", len(data)) + data, f"<<{text}>>"


def numbers(count, chance):
    """A list of numbers, the first of which is no character."""
    spelled, texts = zip(*(integer(number) for number in (1, *(chance.choice((0, 65, 255, 256, -1)) for _ in range(count)))))
    return b"l" + struct.pack(">I", count + 1) + b"".join(spelled) + b"j", f"[{','.join(texts)}]"


def string(count):
    """A list of letters, each an integer."""
    return b"l" + struct.pack(">I", count) + b"ax" * count + b"j", f'"{"x" * count}"'


def improper(count):
    return b"l" + struct.pack(">I", count) + b"ax" * count + b"w\1y", f"[{','.join(['120'] * count)}|y]"


def lists_of_strings(count):
    return b"l" + struct.pack(">I", count) + b"k\0\2hi" * count + b"j", "[" + ",".join(['"hi"'] * count) + "]"


def tuple_of(*terms):
    return b"i" + struct.pack(">I", len(terms)) + b"".join(spelled for spelled, _ in terms), f"{{{','.join(text for _, text in terms)}}}"


def map_of(count):
    keys = [(integer(number), atom("v")) for number in range(count)]
    spelled = b"".join(key[0] + value[0] for key, value in keys)
    return b"t" + struct.pack(">I", count) + spelled, f"#{{{','.join(f'{key[1]} => {value[1]}' for key, value in keys)}}}"


def nested(term, depth):
    """A term in tuples of one, and in lists of one."""
    for place in range(depth):
        spelled, text = term
        term = (b"h\1" + spelled, f"{{{text}}}") if place % 2 else (b"l\0\0\0\1" + spelled + b"j", f"[{text}]")
    return term


def sorts(count, chance):
    """Terms of each sort, of about so many bytes, and of some more than a few."""
    yield nested(binary(b"\1" * count), 250)
    yield binary(b"x" * count)
    yield numbers(count // 4, chance)
    yield string(count // 2)
    yield improper(count // 2)
    yield lists_of_strings(count // 5)
    yield tuple_of(*(atom("a") for _ in range(count // 3)))
    yield map_of(count // 8)
    yield nested(tuple_of(*(nested(numbers(3, chance), 20) for _ in range(count // 100))), 200)


def of_size(term, size):
    """A message of exactly so many bytes that has this term, with its text."""
    room = size - len(tuple_of(term, binary(b""))[0]) - 1
    spelled, text = tuple_of(term, binary(b"z" * room))
    same(len(spelled) + 1, size)
    return b"\x83" + spelled, text


def messages_of(sizes, chance):
    """A message of each size, with its text. The terms are of each sort in turn, and so many bytes of them as fit."""
    for size in sizes:
        yield from (of_size(term, size) for term in sorts(min(size // 8, 20_000), chance))


def listed(texts):
    return listing(0, 0, [f"{number} other {text}" for number, text in enumerate(texts)])


def stream_of(messages):
    return b"".join(message(data) for data, _ in messages)


# ---- cases


@case
def long_messages_are_listed_in_full(program):
    chance = random.Random(61)
    sizes = (LONGEST, LONGEST + 1, 131_000, *(chance.randrange(LONGEST + 1, 4 * MEGABYTE) for _ in range(3)))
    found = list(messages_of(sizes, chance))
    texts = [text for _, text in found]
    same(program.good("stream", "-p", stdin=stream_of(found)), listed(texts))
    objects = [json.dumps({"n": number, "kind": "other", "text": text}, ensure_ascii=False, separators=(",", ":")) for number, text in enumerate(texts)]
    wanted = "".join(f"{it}\n" for it in [*objects, '{"kind":"end_of_trace"}'])
    same(program.good("stream", "--json", stdin=stream_of(found)), wanted.encode())


@case
def a_nodes_long_messages_are_listed_as_any_other(program):
    entries = split((STREAMS / "node.trc").read_bytes())
    long = [number for number, entry in enumerate(entries) if len(entry) > 5 + LONGEST]
    lines = [f"{number} {told(entry[5:], DEFAULT)}" for number, entry in enumerate(entries)]
    same((long, [number for number, line in enumerate(lines) if " opaque " in line]), ([71, 72, 373, 374], []))
    same(program.good("stream", "-p", stdin=b"".join(entries)), listing(0, 0, lines))
    calls = [number for number in long if lines[number].split()[1] == "call"]
    kinds = {line.split()[1] for line in (lines[number] for number in long)}
    same(program.good("stream", "--only", ",".join(sorted(kinds)), "--from", "71", "--to", "72", stdin=b"".join(entries)).splitlines(), [line.encode() for line in lines[71:73]])
    for number in calls:
        module, name = lines[number].split("call,{")[1].split(",")[:2]
        found = program.good("stream", "--mfa", f"{module}:{name}", stdin=b"".join(entries)).decode().splitlines()
        same(lines[number] in found, True)


@case
def a_message_is_listed_in_full_up_to_the_longest(program):
    for size in (LONGEST + 1, 70_000, MEGABYTE):
        data, text = of_size(string(100), size)
        stream = message(data) + drop(2) + message(b"\x83j")
        whole, opaque = (listing(0, 0, [first, "1 drop 2", "2 other []"]) for first in (f"0 other {text}", f"0 opaque {size}"))
        same(program.good("stream", "-p", stdin=stream), whole)
        for longest, wanted in ((size, whole), (size - 1, opaque), (0, opaque), (GREATEST, whole), ("256M", whole)):
            same(program.good("stream", "--longest", str(longest), stdin=stream), wanted)
    # an entry's own bytes are read in any case, and those of a longer message are of no kind but opaque where they aren't
    data, text = of_size(string(100), LONGEST)
    same(program.good("stream", "--longest", "0", stdin=message(data)), listed([text]))
    stream = message(of_size(string(9), LONGEST + 1)[0])
    same(program.good("stream", "--longest", "64K", "--only", "other", stdin=stream), b"0 other " + of_size(string(9), LONGEST + 1)[1].encode() + b"\nend_of_trace\n")
    same(program.good("stream", "--longest", "64000", "--only", "other", stdin=stream), b"end_of_trace\n")
    same(program.good("stream", "--longest", "64000", "--only", "opaque", stdin=stream), b"0 opaque 65532\nend_of_trace\n")
    same(program.good("stream", "--longest", "64000", "--pid", "<n.7.0.1>", stdin=stream), b"end_of_trace\n")


@case
def a_long_message_is_chosen_by_what_it_tells(program):
    data, text = of_size(string(100), 100_000)
    body = b"\x83h\4" + atom("trace")[0] + PID + atom("receive")[0] + data[1:]
    line = f"1 receive {{trace,<n.7.0.1>,'receive',{text}}}\n".encode()
    stream = message(b"\x83j") + message(body) + message(b"\x83j")
    for words in (("--pid", "<n.7.0.1>"), ("--only", "receive"), ("--only", "receive", "--from", "1"), ("--pid", "n.7.0.1", "--only", "send,receive")):
        same(program.good("stream", *words, stdin=stream), line + b"end_of_trace\n")
    same(program.good("stream", "--pid", "<n.7.0.1>", "--to", "1", stdin=stream), line)
    same(program.good("stream", "--pid", "<n.8.0.1>", stdin=stream), b"end_of_trace\n")
    told_so = json.loads(program.good("stream", "--json", stdin=stream).splitlines()[1])
    same(told_so, {"n": 1, "kind": "receive", "pid": "<n.7.0.1>", "text": line[10:-1].decode()})


@case
def a_plain_listing_ends_at_a_long_message(program):
    stream = message(b"\x83j") + message(of_size(string(100), LONGEST + 1)[0])
    program.refused("stream", stdin=stream, says="dbgrec: refused 6 TooLong at 7\n-p lists it", output=b"0 other []\n")


@case
def a_stream_that_ends_in_a_long_message_is_truncated_there(program):
    chance = random.Random(7)
    data, text = of_size(numbers(1_000, chance), 300_000)
    stream = message(b"\x83j") + message(data)
    for cut in (1, 2, 4_096, 234_463, 234_464, 234_465, *(chance.randrange(1, 300_000) for _ in range(20))):
        for longest in ("16M", "65531"):
            program.refused("stream", "--longest", longest, stdin=stream[:-cut], says="dbgrec: refused 3 Truncated at 7", output=b"0 other []\n")
    with program.start("stream", "-p") as lister:
        lister.write(stream[:-1])
        same(lister.line(), "0 other []")
        lister.write(stream[-1:] + message(b"\x83j"))
        same((lister.line(), lister.line()), (f"1 other {text}", "2 other []"))
        lister.write(stream[:200_000])
        same(lister.line(), "3 other []")
        lister.process.stdin.close()
        same(lister.process.wait(60), 1)
        same(lister.process.stderr.read(), b"dbgrec: refused 3 Truncated at 300026\n")


@case
def a_length_that_lies_takes_no_memory(program):
    for length in (DEFAULT, DEFAULT + 1, GREATEST, GREATEST + 1, 0xFFFFFFFF):
        for longest in (DEFAULT, GREATEST):
            for come in (0, 1, 5_000, MEGABYTE):
                stream = b"\0" + struct.pack(">I", length) + bytes(come)
                outcome = program.run("stream", "--longest", str(longest), stdin=stream, before=LIMITED)
                same(outcome, Outcome(1, b"", b"dbgrec: refused 3 Truncated at 0\n"))
    # what is passed over takes none at all
    stream = message(bytes(40 * MEGABYTE)) + message(b"\x83j")
    outcome = program.run("stream", "-p", stdin=stream, before=LIMITED)
    same(outcome, Outcome(0, b"0 opaque 41943040\n1 other []\nend_of_trace\n", b""))


@case
def a_longest_that_is_none_is_refused(program):
    for value in ("256.5M", "257M", "268435457", "4G", "x", "", "16 M", "M", "1T", "99999999999"):
        says = f"error: invalid value '{value}' for '--longest <SIZE>': a number of bytes, at most 268435456; k, M and G after it stand for powers of 1,024, as in 64M\n\nFor more information, try '--help'."
        program.refused("stream", "-p", "--longest", value, status=2, says=says)
    for value in ("0", "65531", "64k", "256m", "268435456"):
        same(program.good("stream", "--longest", value, stdin=b""), b"end_of_trace\n")
    same(program.run("list", "t", "--longest", "1M").status, 2)


@case
def a_message_of_16_megabytes_is_listed_in_time_linear_in_its_bytes(program):
    """A term of each sort takes at most twelve times as long as one of an eighth of its bytes, and a second."""
    chance = random.Random(16)
    for small, large in zip(sorts(2 * MEGABYTE - 3_000, chance), sorts(DEFAULT - 24_000, chance)):
        took = []
        for (spelled, text), size in ((small, 2 * MEGABYTE), (large, DEFAULT)):
            data, whole = of_size((spelled, text), size)
            started = time.monotonic()
            outcome = program.good("stream", "-p", stdin=message(data))
            took.append(time.monotonic() - started)
            same(outcome == listed([whole]), True)
        same((took, took[1] <= 12 * took[0] + 1), (took, True))
