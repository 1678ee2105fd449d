"""Cases of tracees: which events are asked for, how each message is spelled, and what is as long or as deep as may be."""

import itertools

from cases import group
from entries import EXAMPLE, message
from program import same
from scripts import EMIT, GREATEST_LIMIT, answers, lines

CASES, case = group()

# <nonode@nohost.80.0.0> in the External Term Format
PROCESS = EXAMPLE[10:38]

MODULE = b"w\x05listsw\x03seq"

# events of the process, and how each is spelled behind it: the flag arity or not, the parts of its message, and their bytes
EVENTS = [
    ("call lists seq 836b00020102", "", 4, b"w\x04callh\x03" + MODULE + b"k\x00\x02\x01\x02"),
    ("call lists seq 836b00020102", "a", 4, b"w\x04callh\x03" + MODULE + b"a\x02"),
    ("return lists seq 255 836107", "", 5, b"w\x0breturn_fromh\x03" + MODULE + b"a\xffa\x07"),
    ("exception lists seq 2 error 836107", "", 5, b"w\x0eexception_fromh\x03" + MODULE + b"a\x02h\x02w\x05errora\x07"),
    ("send 836107 836108", "", 5, b"w\x04senda\x07a\x08"),
    ("sendlost 836107 836108", "", 5, b"w\x1csend_to_non_existing_processa\x07a\x08"),
    ("receive 836107", "", 4, b"w\x07receivea\x07"),
]

# the flags of a time stamp, the first word, and the last part
STAMPS = [
    ("", b"w\x05trace", b""),
    ("m", b"w\x08trace_ts", b"a\x07"),
    ("t", b"w\x08trace_ts", b"h\x03a\x01a\x02a\x03"),
    ("tm", b"w\x08trace_ts", b"h\x03a\x01a\x02a\x03"),
]


@case
def each_event_is_spelled_with_each_time_stamp(program):
    for (event, arity, count, row), (stamp, head, end) in itertools.product(EVENTS, STAMPS):
        parts = bytes([0x83, 0x68, count + bool(stamp)]) + head + PROCESS + row + end
        script = ["stamp 1 2 3", "mono 7", f"tracee 0 1 1 csr{arity}{stamp}", f"emit 0 {event}", "flushfor 0"]
        told = program.good("record", "t", stdin=lines(*script).encode())
        same((event, stamp, told), (event, stamp, b"created\nok\nok\nok\nkept\nreceipt 0 1 covered 1\n"))
        same((event, stamp, program.good("export", "t")), (event, stamp, message(parts)))
        program.good("wipe", "t")


@case
def each_event_is_asked_for_by_its_flag(program):
    asked = {"call": "c", "return": "c", "exception": "c", "send": "s", "sendlost": "s", "receive": "r"}
    events = [event for event, arity, *_ in EVENTS if not arity]
    same([event.split()[0] for event in events], list(asked))
    script, wanted = [f"create file {GREATEST_LIMIT}", "desk"], ["ok", "ok"]
    for number, (flag, event) in enumerate(itertools.product("csr", events)):
        script += [f"tracee {number} 1 1 {flag}", f"emit {number} {event}", f"counts {number}"]
        is_asked = asked[event.split()[0]] == flag
        counts = "offered 1 waiting 1" if is_asked else "offered 0 waiting 0"
        wanted += ["ok", "kept" if is_asked else "unasked", f"{counts} unsent 0 handed 0 lost 0"]
    answers(program, script, wanted)


def binary(length):
    """The receipt of a binary of so many bytes."""
    return "emit 0 receive 836d" + length.to_bytes(4, "big").hex() + "00" * length


@case
def an_entry_has_at_most_65536_bytes(program):
    for flags, longest in (("r", 65_479), ("rm", 65_474)):
        script = ["store 1", f"create file {GREATEST_LIMIT}", "desk", "mono 7", f"tracee 0 1 1 {flags}"]
        script += [binary(longest + 1), binary(longest), "flushfor 0", "abandon", "files"]
        # a header, a gate, a length and the next gate
        told = ["refused 1 TooLong", "kept", "receipt 0 1 covered 1", "ok", f"file 0 length {36 + 1 + 4 + 65_536 + 1} gate 01"]
        answers(program, script, ["ok"] * 5 + told)


def nested(depth):
    """The receipt of the number 7 in a list in a list, so many times."""
    return "emit 0 receive 83" + "6c00000001" * depth + "6107" + "6a" * depth


@case
def a_message_is_nested_64_deep_at_most(program):
    script = [f"create file {GREATEST_LIMIT}", "desk", "tracee 0 2 1 r", nested(63), nested(64), "counts 0"]
    told = ["kept", "refused 2 TooDeep", "offered 1 waiting 1 unsent 0 handed 0 lost 0"]
    answers(program, script, ["ok"] * 3 + told)


@case
def a_tracee_of_the_greatest_capacity_has_room_for_65536_messages(program):
    script = [f"create file {GREATEST_LIMIT}", "desk", "tracee 0 65536 1 r", *[EMIT] * 65_537, "counts 0"]
    told = ["kept"] * 65_536 + ["dropped", "offered 65537 waiting 65536 unsent 1 handed 0 lost 0"]
    answers(program, script, ["ok"] * 3 + told)
