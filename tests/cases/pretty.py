"""Cases of `list -p` and `stream -p`."""

import itertools
import random
import sys
import time

from cases import STREAMS, group
from entries import EXAMPLE, example_line, kept, listing, listing_of, message, split
from program import same
from terms import LONGEST_MESSAGE, OTHER_WORDS, Writer, fun_with, short_atom, stored_lines, told

CASES, case = group()

WRAP = ("--kind", "wrap")

# the most bytes of a message that a listing of a stream reads unless it is told
LONGEST_OF_STREAM = 16 << 20


def pretty_listing(messages, longest=LONGEST_MESSAGE):
    return listing(0, 0, [f"{number} {told(data, longest)}" for number, data in enumerate(messages)])


def lists_stream(program, messages):
    """Messages of a stream are listed as the tables say."""
    stream = b"".join(map(message, messages))
    for option in ("-p", "--pretty"):
        same(program.good("stream", option, stdin=stream), pretty_listing(messages, LONGEST_OF_STREAM))


def lists(program, messages):
    """The same, and those that begin as a node's do as stored in a file and in a wrap."""
    lists_stream(program, messages)
    stored = [data for data in messages if data.startswith(b"\x83")]
    stream = b"".join(map(message, stored))
    for kind in ((), WRAP):
        program.good("import", "t", *kind, *(("--size", "4294967295") if kind else ()), stdin=stream)
        for option in ("-p", "--pretty"):
            same(program.good("list", option, "t", *kind), pretty_listing(stored))
        program.good("wipe", "t", *kind)


def too_long(stream):
    """The numbers of the messages that are too long for an entry, and their sizes."""
    sizes = [(number, len(entry) - 5) for number, entry in enumerate(split(stream))]
    return [(number, size) for number, size in sizes if size > LONGEST_MESSAGE]


@case
def each_stored_term_of_otp_is_listed_as_otp_prints_it(program):
    stream = (STREAMS / "every_term.trc").read_bytes()
    lines = (STREAMS / "every_term.txt").read_bytes().splitlines()
    same(too_long(stream), [(86, 140_007)])
    same((len(lines), lines[86]), (693, b"86 opaque 140007"))
    whole = told(split(stream)[86][5:], LONGEST_OF_STREAM)
    program.good("import", "t", stdin=stream)
    # the long one stands in three entries, and those after it have numbers that are greater by two
    after = [f"{number} {line.decode().split(' ', 1)[1]}" for number, line in enumerate(lines[87:-1], 89)]
    same(program.good("list", "-p", "t").decode().splitlines(), [*(line.decode() for line in lines[:86]), f"86 {whole}", *after, "end_of_trace"])
    program.good("wipe", "t")
    same(program.run("import", "t", "--longest", "65531", stdin=stream).status, 0)
    same(program.good("list", "-p", "t").splitlines(), [*lines[:86], b"86 drop 1", *lines[87:]])


@case
def each_stored_message_of_a_nodes_own_trace_has_its_term(program):
    stream = (STREAMS / "node.trc").read_bytes()
    long = [number for number, _ in too_long(stream)]
    same(long, [71, 72, 373, 374])
    program.good("import", "t", stdin=stream)
    listed = program.good("list", "-p", "t").decode().splitlines()
    same([line.split(" ", 1)[1] for line in listed[:-1]], [told(entry[5:], LONGEST_OF_STREAM) for entry in split(stream)])
    same(listed, [*stored_lines(kept(stream)), "end_of_trace"])
    same([line for line in listed if line.split()[1:2] in (["opaque"], ["part"])], [])


@case
def each_term_that_otp_wrote_is_listed_as_otp_prints_it(program):
    stream = (STREAMS / "every_term.trc").read_bytes()
    lines = (STREAMS / "every_term.txt").read_bytes()
    same(program.good("stream", "-p", "--longest", "65531", stdin=stream), lines)
    whole = f"86 {told(split(stream)[86][5:], LONGEST_OF_STREAM)}".encode()
    same(program.good("stream", "-p", stdin=stream), lines.replace(b"86 opaque 140007", whole))


@case
def of_a_nodes_own_trace_only_what_is_too_long_is_opaque(program):
    stream = (STREAMS / "node.trc").read_bytes()
    lines = program.good("stream", "-p", "--longest", "0", stdin=stream).decode().splitlines()
    opaque = [line for line in lines if line.split()[1:2] == ["opaque"]]
    same(opaque, [f"{number} opaque {size}" for number, size in too_long(stream)])
    same(lines[-1], "end_of_trace")
    same(len(lines), len(split(stream)) + 1)


@case
def a_readable_listing_has_any_term(program):
    data = bytes.fromhex("8368026b0003616263463ff8000000000000")
    same(program.good("stream", "-p", stdin=message(data)), b'0 other {"abc",1.5}\nend_of_trace\n')


@case
def a_readable_listing_passes_over_a_long_message(program):
    long = message(bytes(70_000))
    wanted = listing(0, 0, ["0 opaque 70000", example_line(1)])
    same(program.good("stream", "-p", stdin=long + message(EXAMPLE)), wanted)
    program.refused("stream", "-p", stdin=long[:-1], says="dbgrec: refused 3 Truncated at 0")


@case
def a_binary_of_70000_bytes_is_listed(program):
    data = b"\x83\x6d" + (70_000).to_bytes(4, "big") + bytes(70_000)
    lists_stream(program, [b"\x83\x6a", data, b"\x83\x61\x05"])


@case
def without_the_option_the_subset_alone_is_listed(program):
    writer = Writer(random.Random(5))
    terms = [entry for entry in split((STREAMS / "every_term.trc").read_bytes()) if len(entry) - 5 <= LONGEST_MESSAGE]
    terms += [message(writer.spelling()) for _ in range(2000)]
    stream = b"".join(terms)
    same(program.good("stream", stdin=stream), listing_of(terms))
    for kind in ((), WRAP):
        program.good("import", "t", *kind, *(("--size", "4294967295") if kind else ()), stdin=stream)
        same(program.good("list", "t", *kind), listing_of(terms))
        program.good("wipe", "t", *kind)


@case
def random_terms_are_listed_as_the_tables_say(program):
    writer = Writer(random.Random(1))
    lists(program, [writer.spelling() for _ in range(10_000)])


@case
def random_terms_with_a_byte_changed_are_listed_or_opaque(program):
    dice = random.Random(2)
    writer = Writer(dice)
    changed = []
    while len(changed) < 3000:
        data = bytearray(writer.spelling())
        data[dice.randrange(len(data))] = dice.randrange(256)
        changed.append(bytes(data))
    lists(program, changed)


@case
def terms_with_bytes_behind_them_or_cut_short_are_opaque(program):
    writer = Writer(random.Random(3))
    whole = [writer.spelling() for _ in range(300)]
    lists(program, [data + b"\x6a" for data in whole] + [data[:-1] for data in whole] + [b"", b"\x83"])


@case
def the_kind_goes_by_the_sorts_of_the_members(program):
    node = short_atom("n")
    pid, port, atom = b"\x58" + node + bytes(12), b"\x59" + node + bytes(8), b"\x77\x02ok"
    text, improper = b"\x6b\x00\x02ab", b"\x6c\x00\x00\x00\x01" + atom + atom
    of = {last: b"\x68\x03" + atom + atom + last for last in (b"\x61\x02", b"\x6a", text, improper, atom)}
    arity, reason = of[b"\x61\x02"], b"\x68\x02" + atom + text
    rows = [[], [text], [improper, text], [text, text, text], *([function] for function in of.values())]
    rows += [[arity, text], [of[b"\x6a"], text], [arity, reason], [of[b"\x6a"], reason], [arity, b"\x68\x02" + text + atom]]
    rows += [[*row, b"\x61\x03"] for row in rows]
    stamps = [[], [b"\x61\x09"], [b"\x68\x03" + b"\x61\x01" * 3], [b"\x68\x02" + b"\x61\x01" * 2], [b"\x68\x01\x61\x01"], [b"\x6e\x09\x00" + bytes([255]) * 9]]
    words = [*OTHER_WORDS, "call", "return_from", "exception_from", "send", "send_to_non_existing_process", "receive", "seq_trace"]
    messages = []
    for head, tracee, word, row, stamp in itertools.product(("trace", "trace_ts", "seq_trace"), (pid, port, atom), words, rows, stamps):
        parts = [short_atom(head), tracee, short_atom(word), *row, *stamp]
        messages.append(b"\x83\x68" + bytes([len(parts)]) + b"".join(parts))
    lists(program, messages)


@case
def control_characters_beyond_ascii_are_told_by_their_numbers(program):
    atom, node = b"\x77\x06a\xc2\x9b31m", b"\x77\x05n\xc2\x80@h"
    texts = {
        atom: r"'a\23331m'",
        b"\x73\x02\x9f\xa0": "'\\237\u00a0'",
        b"\x58" + node + bytes(12): r"<'n\200@h'.0.0.0>",
        b"\x59" + node + bytes(8): r"#Port<'n\200@h'.0.0>",
        b"\x5a\x00\x01" + node + bytes(8): r"#Ref<'n\200@h'.0.0>",
        b"\x71" + atom + atom + b"\x61\x02": r"fun 'a\23331m':'a\23331m'/2",
    }
    # the pid comes twice: the text of the one before may be kept
    listed = [f"{number} other {text}" for number, text in enumerate([*texts.values()] * 2)]
    same(program.good("stream", "-p", stdin=b"".join(message(b"\x83" + data) for data in [*texts] * 2)), listing(0, 0, listed))


@case
def a_binary_is_text_of_utf8_where_it_can_be(program):
    texts = {
        "h\u00e5ll".encode(): '<<"h\u00e5ll"/utf8>>',
        b"l\xe5ng": '<<"l\u00e5ng">>',
        "\u20ac\n\"\U0001f600".encode(): '<<"\u20ac\\n\\"\U0001f600"/utf8>>',
        "\u00e5\u0085".encode(): "<<195,165,194,133>>",
        "\ufffe".encode(): "<<239,191,190>>",
        b"\xc3\xa5\xc3": '<<"\u00c3\u00a5\u00c3">>',
        b"abc": '<<"abc">>',
        b"\x7f": "<<127>>",
    }
    stream = b"".join(message(b"\x83\x6d" + len(data).to_bytes(4, "big") + data) for data in texts)
    same(program.good("stream", "-p", stdin=stream), listing(0, 0, [f"{number} other {text}" for number, text in enumerate(texts.values())]))


@case
def a_depth_of_256_is_listed_and_257_is_opaque(program):
    openings = [b"\x68\x01", b"\x69\x00\x00\x00\x01", b"\x6c\x00\x00\x00\x01\x61\x09", b"\x74\x00\x00\x00\x01\x61\x09"]
    messages = [b"\x83" + opening * depth + b"\x77\x01x" for opening in openings for depth in (255, 256, 257)]
    messages += [b"\x83" + b"\x68\x01" * depth + b"\x6b\x00\x01a" for depth in (255, 256)]
    messages += [b"\x83" + b"\x68\x01" * depth + fun_with(b"\x6a") for depth in (255, 256)]
    messages += [b"\x83" + b"\x68\x01" * depth + fun_with(b"\x68\x00") for depth in (254, 255)]
    lists(program, messages)


@case
def lengths_beyond_the_bytes_are_opaque(program):
    most = b"\xff\xff\xff\xff"
    node = short_atom("n")
    fun = b"\x70" + most + bytes(21) + bytes(4) + node + b"\x61\x01\x61\x01\x58" + node + bytes(12)
    free = b"\x70\x00\x00\x00\x34" + bytes(21) + most + node + b"\x61\x01\x61\x01\x58" + node + bytes(12)
    forms = [b"\x69" + most, b"\x6c" + most, b"\x6d" + most, b"\x6f" + most + b"\0", b"\x74" + most, b"\x4d" + most + b"\x08"]
    forms += [b"\x5a\xff\xff" + node + bytes(40), b"\x72\xff\xff" + node + bytes(40), b"\x6b\xff\xff", b"\x76\xff\xff", b"\x64\xff\xff"]
    forms += [b"\x68\xff", b"\x6e\xff\0", b"\x77\xff", b"\x73\xff", fun, free]
    lists(program, [b"\x83" + form + rest for form in forms for rest in (b"", b"\x61\x01", bytes(100))])


def big(size, digits, sign):
    """An integer of so many bytes behind the tag that its size wants."""
    count = b"\x6e" + bytes([size]) if size < 256 else b"\x6f" + size.to_bytes(4, "big")
    return b"\x83" + count + bytes([sign]) + digits


@case
def integers_of_many_sizes_are_listed(program):
    dice = random.Random(6)
    messages = []
    for size in [*range(41), *range(48, 58), *range(62, 72), 127, 128, 129, *range(245, 260), 511, 512, 513, 700, 1024]:
        last = max(size - 1, 0)
        plain = [bytes(size), b"\xff" * size, (bytes(last) + b"\x01")[:size], (b"\x01" + bytes(last))[:size], (b"\xff" * last + b"\0")[:size]]
        several = [*plain, *(dice.randbytes(size) for _ in range(4))]
        messages += [big(size, digits, sign) for digits in several for sign in (0, 1)]
    lists_stream(program, messages)


@case
def integers_about_powers_of_ten_are_listed(program):
    numbers = [10**power + more for power in [*range(80), 324, 342, 360] for more in (-1, 0, 1, 6 * 10**power)]
    sizes = [(number.bit_length() + 7) // 8 for number in numbers]
    lists_stream(program, [big(size, number.to_bytes(size, "little"), 1) for number, size in zip(numbers, sizes)])


@case
def an_integer_of_65500_bytes_is_listed_within_a_second(program):
    data = big(65_500, bytes([255]) * 65_500, 1)
    began = time.monotonic()
    listed = program.good("stream", "-p", stdin=message(data))
    took = time.monotonic() - began
    sys.set_int_max_str_digits(0)
    same(listed, pretty_listing([data]))
    assert took < 1, f"it took {took} seconds"
