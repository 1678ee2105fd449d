"""Cases of `list --json` and `stream --json`. Each line of the readable listing is parted here, what it tells of a process and
a function is found in its message, and Python's own json writes and reads the objects."""

import json
import random
import struct

from cases import group
from choosing import ATOM_OF_EVENT, STYLES, Asked, Listed, call_with, chosen, stream_of, told_by
from entries import drop, kept, message, split
from program import same
from segments import FILE_HEADER, segment, wrap_header
from terms import AnyReader, Unread, Writer

CASES, case = group()

COUNTED = {"drop": "count", "opaque": "size"}


def tells_process(entry):
    """Whether the message of an entry has a process or a port where that of a trace message stands."""
    try:
        sort, parts = AnyReader(entry[5:]).whole()
    except Unread:
        return False
    return sort == "tuple" and len(parts) > 2 and parts[1][0] in ("pid", "port")


def told_of_message(kind, text, entry):
    """The members after number and kind of an entry that is told by its term."""
    found, told = {}, told_by(entry)
    if told.process and tells_process(entry):
        found["pid"] = told.process
    if told.function and kind in ATOM_OF_EVENT:
        module, name, arity = told.function
        found["mfa"] = f"{module}:{name}/{arity}" if arity is not None and arity >= 0 else f"{module}:{name}"
    return found | {"text": text}


def object_of(line, entries):
    """The object of a line of a readable listing."""
    words = line.split(" ", 2)
    if words[0] == "before":
        _, _, first, _, lost = line.split(" ")
        return {"kind": "before", "entries": int(first), "dropped": int(lost)}
    if len(words) == 1:
        return {"kind": words[0]}
    number, kind, rest = int(words[0]), words[1], words[2]
    if kind == "part":
        part, _, count, _, _, _, _, size, _ = rest.split(" ")
        return {"n": number, "kind": kind, "part": int(part), "of": int(count), "size": int(size)}
    if kind in COUNTED:
        return {"n": number, "kind": kind, COUNTED[kind]: int(rest)}
    return {"n": number, "kind": kind} | told_of_message(kind, rest, entries[number])


def objects_of(listing, entries):
    """The objects of a listing's lines, each on one line. Python escapes quotes, backslashes and control characters alone."""
    assert listing == b"" or listing.endswith(b"\n"), listing[-80:]
    found = [object_of(line.decode(), entries) for line in listing.split(b"\n")[:-1]]
    return "".join(json.dumps(it, ensure_ascii=False, separators=(",", ":")) + "\n" for it in found).encode()


def members(line):
    """The members of an object in their order, none twice."""
    found = json.loads(line, object_pairs_hook=list)
    same(len(dict(found)), len(found))
    return found


def check(listing, entries, output):
    """Checks the objects of a listing, byte for byte, and that each line is one object."""
    same(output, objects_of(listing, entries))
    same(len([members(line) for line in output.split(b"\n")[:-1]]), listing.count(b"\n"))


def check_all(program, stream):
    """Checks each readable listing of a stream, as it is, in a file and in a wrap: objects have its texts, with -p and without."""
    listed = Listed(program, stream)
    for words, data, _ in listed.listings(("-p",)):
        listing, entries = listed.whole[words]
        check(listing, entries, program.good(*words, "--json", stdin=data))
        check(listing, entries, program.good(*(word for word in words if word != "-p"), "--json", stdin=data))
    return listed


def inside(program, name):
    """The same program in a folder of its own."""
    here = type(program)(program.path, program.folder / name)
    here.folder.mkdir()
    return here


@case
def each_line_of_a_listing_is_an_object(program):
    for name in ("node", "plain", "stamped", "mono", "every_term", "wrap0"):
        check_all(inside(program, name), stream_of(name))


@case
def the_objects_of_an_example_are_these(program):
    call = call_with(random.Random(0), None, 0)
    stream = message(call) + drop(7) + message(b"\x83")
    wanted = [
        '{"n":0,"kind":"call","pid":"<n@h.0.0.0>","mfa":"m:f/0","text":"{trace,<n@h.0.0.0>,call,{m,f,[]}}"}',
        '{"n":1,"kind":"drop","count":7}',
        '{"n":2,"kind":"opaque","size":1}',
        '{"kind":"end_of_trace"}',
    ]
    for words in (("--json",), ("-p", "--json")):
        same(program.good("stream", *words, stdin=stream).decode().splitlines(), wanted)


@case
def drop_records_are_objects_in_a_wrap_too(program):
    entries = split(stream_of("plain"))
    stream = b"".join(entry + (drop(number + 1) if number % 3 == 0 else b"") for number, entry in enumerate(entries))
    check_all(program, stream * 9)
    lines = program.good("list", "wrap", "--json").splitlines()
    same(members(lines[0])[0], ("kind", "before"))
    same([name for name, _ in members(lines[0])], ["kind", "entries", "dropped"])
    assert any(b'"kind":"drop"' in line for line in lines)
    same(lines[-1], b'{"kind":"end_of_trace"}')


@case
def numbers_are_whole_up_to_the_greatest(program):
    entry = message(b"x" * 60)
    first, lost = 2**64 - 9, 2**64 - 1
    (program.folder / "t1").write_bytes(segment(wrap_header(1, before=first, lost=lost), entry * 2))
    (program.folder / "t2").write_bytes(segment(wrap_header(2, before=first + 2, lost=lost), entry))
    found = [json.loads(line) for line in program.good("list", "t", "--json").splitlines()]
    same(found[0], {"kind": "before", "entries": first, "dropped": lost})
    same([it["n"] for it in found[1:-1]], [first, first + 1, first + 2])


@case
def the_objects_of_chosen_lines_are_written(program):
    stream = stream_of("node")
    listed = Listed(program, stream)
    process = "<nonode@nohost.9.0.0>"
    for asked, options in (
        (Asked(first=3, last=300, kinds=("call", "return", "drop")), ("--from", "3", "--to=300", "--only", "call,return,drop")),
        (Asked(processes=(process, "<nonode@nohost.3.0.0>")), ("--pid", process, "--pid", "nonode@nohost.3.0.0")),
        (Asked(no_kinds=("send",), no_processes=(process,), no_functions=(("gen_server", "call", 2),)), ("--not", "send", "--not-pid", process, "--not-mfa", "gen_server:call/2")),
    ):
        for style in STYLES:
            for words, data, _ in listed.listings(style):
                listing, entries = listed.whole_for(words, asked)
                check(chosen(listing, entries, asked), entries, program.chosen(*words, *options, "--json", stdin=data))


@case
def what_is_listed_of_a_broken_stream_are_objects_too(program):
    stream = stream_of("plain")
    whole = program.run("stream", "-p", stdin=stream[:-1])
    for style in STYLES:
        outcome = program.run("stream", *style, "--json", stdin=stream[:-1])
        same((outcome.status, outcome.errors), (whole.status, whole.errors))
        check(whole.output, split(stream), outcome.output)
    (program.folder / "t").write_bytes(segment(FILE_HEADER, split(stream)[0])[:-1] + b"\1\0\0\xff\xff")
    whole, outcome = program.run("list", "-p", "t"), program.run("list", "t", "--json")
    same((outcome.status, outcome.errors), (whole.status, whole.errors))
    check(whole.output, split(stream), outcome.output)


def atom(name):
    data = name.encode()
    return b"\x76" + struct.pack(">H", len(data)) + data


def call_of(node, module, name, last):
    """A call at a node of this name."""
    return b"\x83\x68\x04" + atom("trace") + b"\x58" + atom(node) + bytes(12) + atom("call") + b"\x68\x03" + atom(module) + atom(name) + last


NAMES = ["n@h", "a>b", "a,b", "{", "a'b", 'a"b', "a\\b", "\\", "a\nb\t\x01\x7f", "\x80\x9f", "\u2028\u2029\ufeff", "Ünïcode@höst", "😀", "", "trace,<", "<<", "=>", "a b"]


@case
def names_may_have_any_characters(program):
    dice = random.Random(74)
    lasts = [b"\x61\x02", b"\x6a", b"\x6b\x00\x03a\"\\", b"\x6c\x00\x00\x00\x01" + atom("a,]}>'") + b"\x6a"]
    calls = [call_of(node, module, dice.choice(NAMES), last) for node in NAMES for module in NAMES for last in lasts]
    check_all(program, b"".join(map(message, calls)))


@case
def random_messages_are_objects(program):
    dice = random.Random(75)
    writer = Writer(dice)
    messages = [b"\x83" + writer.message(0) for _ in range(600)] + [call_with(dice, writer, dice.randrange(6)) for _ in range(200)]
    check_all(program, b"".join(map(message, messages)))


@case
def a_message_that_is_no_trace_message_tells_no_process(program):
    tuples = [b"\x68\x02" + atom("trace") + atom("a"), b"\x68\x03" + atom("trace") + b"\x61\x05" + atom("x"), b"\x68\x03" + atom("trace") + b"\x6d\x00\x00\x00\x01\x01" + atom("x"), b"\x6a", b"\x61\x07"]
    stream = b"".join(message(b"\x83" + it) for it in tuples)
    check_all(program, stream)
    for line in program.good("stream", "--json", stdin=stream).splitlines()[:-1]:
        same([name for name, _ in members(line)], ["n", "kind", "text"])
    same(len(kept(stream)), len(tuples))
