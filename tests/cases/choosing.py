"""Cases of the options that choose the lines of a listing. Which lines are to be shown is found in the messages
themselves, read by the tables; the lines are those of the whole listing, readable where the option looks at a message."""

import collections
import dataclasses
import json
import random
import struct
import subprocess

from cases import STREAMS, group
from entries import drop, joined, kept, message, split
from program import PATIENCE, same
from telling import damaged
from terms import AnyReader, OTHER_WORDS, Unread, Writer, kind, name_text, short_atom, text

CASES, case = group()

STYLES = ((), ("-p",))

KINDS = [*"call return exception send send_lost receive seq_trace other opaque drop".split(), *OTHER_WORDS]

WRAP = ("--kind", "wrap", "--count", "3", "--size", "4000")

ATOM_OF_EVENT = {"call": "call", "return": "return_from", "exception": "exception_from"}


@dataclasses.dataclass
class Told:
    """What a message tells, as far as it is read: a process, and a function with the number of its arguments."""

    kind: str = "opaque"
    process: str = ""
    function: tuple = ()


def told_by(entry, name=name_text):
    """What the message of an entry tells, by the text of an atom."""
    try:
        term = AnyReader(entry[5:]).whole()
    except Unread:
        return Told()
    found = Told(kind(term))
    sort, parts = term
    if sort == "tuple" and len(parts) > 2 and parts[0] in (("atom", "trace"), ("atom", "trace_ts")):
        found.process = text(parts[1], name)
        if parts[2] == ("atom", ATOM_OF_EVENT.get(found.kind)):
            module, function, last = parts[3][1]
            found.function = (text(module, name), text(function, name), arity_of(last))
    return found


def arity_of(last):
    """A number of arguments; None where they are an improper list."""
    if last[0] == "int":
        return last[1]
    members, tail = last[1]
    return len(members) if tail is None else None


@dataclasses.dataclass
class Asked:
    """What is asked for, where it is, and kinds, processes and functions of which nothing is shown."""

    first: int = None
    last: int = None
    kinds: tuple = None
    processes: tuple = None
    functions: tuple = None
    no_kinds: tuple = ()
    no_processes: tuple = ()
    no_functions: tuple = ()

    def is_of_messages(self):
        """Whether more than a number is asked for."""
        return (self.kinds, self.processes, self.functions, self.no_kinds, self.no_processes, self.no_functions) != (None, None, None, (), (), ())

    def lets(self, number, shown, found):
        """Whether the line of an entry is shown: its number, the word of its kind, and what its message tells. A part of a
        message is chosen as an opaque one."""
        if self.last is not None and self.last < number:
            return False
        if shown == "drop":
            return True
        if self.first is not None and number < self.first:
            return False
        word = "opaque" if shown == "part" else shown
        function = found.function if shown in ATOM_OF_EVENT else ()
        if word in self.no_kinds or found.process in self.no_processes or is_one_of(function, self.no_functions):
            return False
        if self.kinds is not None and word not in self.kinds:
            return False
        if self.processes is not None and found.process not in self.processes:
            return False
        return self.functions is None or is_one_of(function, self.functions)


def is_one_of(function, asked):
    """Whether a function, if there is one, begins as one of those that are asked for."""
    return any(function[: len(parts)] == parts for parts in asked)


def chosen(listing, entries, asked):
    """The lines of a whole listing that are asked for, up to the last entry that may be."""
    found = []
    for line in listing.decode().splitlines(keepends=True):
        number = line.split(" ")[0]
        if not number.isdigit():
            found.append(line)
            continue
        shown = line.split(" ")[1].rstrip()
        told = Told() if shown in ("drop", "opaque", "part") else told_by(entries[int(number)])
        if asked.lets(int(number), shown, told):
            found.append(line)
        if asked.last is not None and asked.last <= int(number):
            break
    return "".join(found).encode()


def exported(listing, entries, asked):
    """The entries of an export that are asked for, by a whole readable listing; a message that isn't whole is a lost one, where
    its first part stands."""
    found = []
    for line in listing.decode().splitlines():
        number, _, rest = line.partition(" ")
        if not number.isdigit():
            continue
        shown = rest.split(" ")[0]
        if shown == "part" and rest.split(" ")[1] != "1":
            continue
        entry = drop(1) if shown == "part" else entries[int(number)]
        told = Told() if shown in ("drop", "opaque", "part") else told_by(entry)
        if asked.lets(int(number), shown, told):
            found.append(entry)
    return found


def put_together(entries):
    """The entries of a readable listing by their numbers: a long message stands where its first fragment does."""
    return {number: message(what) if word == "message" else what for number, word, what in joined(entries)}


class Listed:
    """A stream, and the whole listings of it: as it is, stored in a file, and stored in a wrap."""

    def __init__(self, program, stream):
        self.program = program
        self.stream = stream
        program.good("import", "file", stdin=stream)
        program.good("import", "wrap", *WRAP, stdin=stream)
        self.whole = {}
        for style in STYLES:
            for words, data, entries in self.listings(style):
                listing = program.run(*words, stdin=data).output
                self.whole[words] = (listing, entries)

    def listings(self, style):
        """The words of each listing in a style, what they read, and the entries that are listed."""
        stored = kept(self.stream)
        listed = put_together(stored) if style else stored
        yield ("list", *style, "file"), b"", listed
        yield ("list", *style, "wrap"), b"", listed
        if style or stored == split(self.stream):
            yield ("stream", *style), self.stream, split(self.stream)

    def whole_for(self, words, asked):
        """The whole listing and the entries of which these words show those that are asked for."""
        if asked.is_of_messages() and "-p" not in words:
            words = (words[0], "-p", *words[1:])
        return self.whole[words]

    def shows(self, asked, *options, styles=STYLES):
        """Checks each listing with these options, which ask for that."""
        lines = 0
        for style in styles:
            for words, data, _ in self.listings(style):
                listing, entries = self.whole_for(words, asked)
                expected = chosen(listing, entries, asked)
                same(self.program.chosen(*words, *options, stdin=data), expected)
                lines += expected.count(b"\n")
        for trace in ("file", "wrap"):
            self.exports(trace, asked, *options)
        return lines

    def exports(self, trace, asked, *options):
        """Checks the export of a trace with these options, and how many messages its table counts."""
        found = exported(*self.whole["list", "-p", trace], asked)
        same(self.program.good("export", trace, *options), b"".join(found))
        table = json.loads(self.program.good("top", "--json", trace, *options))
        messages = [entry for entry in found if entry[0] == 0]
        assert table["messages"] == len(messages), (table["messages"], len(messages), options)


def stream_of(name):
    return (STREAMS / f"{name}.trc").read_bytes()


def functions_in(stream):
    """The functions that the messages tell of, with a number of arguments."""
    found = {told_by(entry).function for entry in split(stream) if entry[0] == 0}
    return sorted(function for function in found if function and function[2] is not None)


@case
def the_numbers_of_the_first_and_the_last_entry_are_chosen(program):
    stream = stream_of("node")
    listed = Listed(program, stream)
    last = len(split(stream)) - 1
    for first, end in ((0, 0), (0, last), (5, 9), (last, last), (last + 1, 2**64 - 1), (9, 5), (71, 72)):
        listed.shows(Asked(first=first, last=end), "--from", str(first), "--to", str(end))
        listed.shows(Asked(first=first), "--from", str(first))
        listed.shows(Asked(last=end), f"--to={end}")


@case
def a_listing_ends_behind_the_last_entry_that_is_asked_for(program):
    data, place = damaged(drop(1), drop(2), drop(3))
    (program.folder / "t").write_bytes(data)
    same(program.chosen("list", "t", "--to", "1"), b"0 drop 1\n1 drop 2\n")
    same(program.chosen("list", "t", "--to", "1", "--from", "1", "--json"), b'{"n":0,"kind":"drop","count":1}\n{"n":1,"kind":"drop","count":2}\n')
    same(program.chosen("list", "t", "--to", "2"), b"0 drop 1\n1 drop 2\n2 drop 3\n")
    outcome = program.run("list", "t", "--to", "3")
    same((outcome.status, outcome.output), (1, b"0 drop 1\n1 drop 2\n2 drop 3\n"))
    salvaged = program.run("list", "t", "--salvage", "--to", "1")
    same((salvaged.status, salvaged.output), (1, b"0 drop 1\n1 drop 2\n"))
    with program.start("stream", "--to", "1") as stream:
        stream.write(drop(1) + drop(2) + drop(3))
        same([stream.line(), stream.line(), stream.process.wait(PATIENCE)], ["0 drop 1", "1 drop 2", 0])
        same((stream.process.stdout.read(), stream.process.stderr.read()), (b"", b""))


@case
def a_choice_whose_lines_cannot_be_written_is_told(program):
    program.good("import", "t", stdin=drop(1) * 3)
    for words in (("--to", "1"), ("--to", "1", "--json"), ("--from", "0")):
        with open("/dev/full", "wb") as full:
            ran = subprocess.run([program.path, "list", "t", *words], cwd=program.folder, stdin=subprocess.DEVNULL, stdout=full, stderr=subprocess.PIPE, timeout=PATIENCE, check=False)
        why = b"standard output can't be written: No space left on device (os error 28)\n"
        same((ran.returncode, ran.stderr), (1, b"dbgrec: refused 2 Write\n" + why))


@case
def each_kind_is_chosen_by_its_word(program):
    listed = Listed(program, stream_of("node"))
    for word in KINDS:
        listed.shows(Asked(kinds=(word,)), "--only", word)
    listed.shows(Asked(kinds=("send", "receive", "call")), "--only", "send,receive,call")
    listed.shows(Asked(kinds=("spawn", "exit")), "--only=spawn,exit")
    listed.shows(Asked(kinds=("spawn", "exit", "call")), "--only", "spawn", "--only=exit,call")
    listed.shows(Asked(no_kinds=("spawn", "exit", "call")), "--not", "spawn", "--not=exit,call")


@case
def each_process_is_chosen_with_or_without_its_brackets(program):
    for name in ("node", "plain"):
        stream = stream_of(name)
        processes = sorted({told_by(entry).process for entry in split(stream)} - {""})
        here = type(program)(program.path, program.folder / name)
        here.folder.mkdir()
        listed = Listed(here, stream)
        for process in processes[:6]:
            assert listed.shows(Asked(processes=(process,)), "--pid", process) > len(listed.whole)
            if process.startswith("<"):
                listed.shows(Asked(processes=(process,)), "--pid", process[1:-1])
        listed.shows(Asked(processes=("<a@b.1.0.0>",)), "--pid", "a@b.1.0.0")


@case
def each_function_is_chosen_by_its_module_name_and_arity(program):
    for name in ("node", "plain", "stamped", "mono"):
        stream = stream_of(name)
        here = type(program)(program.path, program.folder / name)
        here.folder.mkdir()
        listed = Listed(here, stream)
        for module, function, arity in functions_in(stream)[:8]:
            assert listed.shows(Asked(functions=((module,),)), "--mfa", module) > len(listed.whole)
            listed.shows(Asked(functions=((module, function),)), "--mfa", f"{module}:{function}")
            for count in (arity, arity + 1):
                listed.shows(Asked(functions=((module, function, count),)), "--mfa", f"{module}:{function}/{count}")
            listed.shows(Asked(functions=((module, function, arity),)), "--mfa", f"{module.strip(chr(39))}:{function.strip(chr(39))}/{arity}")


@case
def a_port_is_chosen_and_a_name_with_a_stroke(program):
    head = b"\x83\x68\x05" + short_atom("trace")
    pid = b"\x58" + short_atom("n@h.example") + struct.pack(">III", 90, 0, 7)
    port = b"\x59" + short_atom("n@h") + struct.pack(">II", 4, 7)
    opened = head + port + short_atom("open") + pid + short_atom("driver")
    names = ("/", "-f/1-fun-0-", "f")
    calls = [b"\x83\x68\x04" + short_atom("trace") + pid + short_atom("call") + b"\x68\x03" + short_atom("m") + short_atom(name) + b"\x61\x02" for name in names]
    stream = b"".join(map(message, [opened, *calls, head + pid + short_atom("send") + b"\x6a" + port]))
    listed = Listed(program, stream)
    listed.shows(Asked(processes=("#Port<n@h.4.7>",)), "--pid", "#Port<n@h.4.7>")
    for words in ("'n@h.example'.90.0.7", "<'n@h.example'.90.0.7>"):
        listed.shows(Asked(processes=("<'n@h.example'.90.0.7>",)), "--pid", words)
    for name in names:
        bare = (f"m:{name}",) if name.endswith("-") else ()
        for words in (f"m:{name}/2", f"m:'{name}'/2", f"m:'{name}'", *bare):
            if "'" not in words or name != "f":
                listed.shows(Asked(functions=(("m", name if name == "f" else f"'{name}'"),)), "--mfa", words)


@case
def several_options_narrow(program):
    stream = stream_of("node")
    listed = Listed(program, stream)
    module, function, arity = functions_in(stream)[0]
    process = next(found.process for found in map(told_by, split(stream)) if found.function == (module, function, arity))
    asked = Asked(3, 300, ("call", "return"), (process,), ((module, function),))
    options = ("--from", "3", "--to", "300", "--only", "call,return", "--pid", process, "--mfa", f"{module}:{function}")
    listed.shows(asked, *options)


def common(found, count):
    """The most common of what is found, as many as that, but for what tells of nothing."""
    return [one for one, _ in collections.Counter(one for one in found if one).most_common(count)]


def words_of(function):
    """A function as an option names it."""
    return "{}:{}/{}".format(*function)


def each_after(option, names):
    """An option for each of these names."""
    return [word for name in names for word in (option, name)]


@case
def an_entry_of_one_of_several_is_shown(program):
    stream = stream_of("node")
    listed = Listed(program, stream)
    processes = common((told_by(entry).process for entry in split(stream)), 4)
    for several in (processes[:2], processes[2:], processes[::-1], [processes[0]] * 2, ["<a@b.1.0.0>", processes[3]]):
        assert listed.shows(Asked(processes=tuple(several)), *each_after("--pid", several)) > len(listed.whole)
    listed.shows(Asked(processes=tuple(processes[:2])), "--pid", processes[0][1:-1], f"--pid={processes[1]}")
    stream = stream_of("plain")
    here = type(program)(program.path, program.folder / "plain")
    here.folder.mkdir()
    listed = Listed(here, stream)
    functions = common((told_by(entry).function for entry in split(stream)), 4)
    for several in (functions[:2], functions[1:], functions[::-1], [functions[2], ("nowhere", "f", 1)]):
        assert listed.shows(Asked(functions=tuple(several)), *each_after("--mfa", map(words_of, several))) > len(listed.whole)
    module, name, _ = functions[1]
    listed.shows(Asked(functions=((module, name), functions[2])), "--mfa", f"{module}:{name}", "--mfa", words_of(functions[2]))
    listed.shows(Asked(functions=(functions[2], (module,))), "--mfa", words_of(functions[2]), "--mfa", module)
    listed.shows(Asked(functions=(("nowhere",), ("elsewhere",))), "--mfa", "nowhere", "--mfa", "elsewhere")


@case
def what_is_not_to_be_shown_is_passed_over(program):
    stream = stream_of("node")
    listed = Listed(program, stream)
    for word in KINDS:
        listed.shows(Asked(no_kinds=(word,)), "--not", word)
    listed.shows(Asked(no_kinds=("send", "receive")), "--not", "send,receive")
    processes = common((told_by(entry).process for entry in split(stream)), 4)
    for several in (processes[:1], processes[1:3], processes, ["<a@b.1.0.0>"]):
        listed.shows(Asked(no_processes=tuple(several)), *each_after("--not-pid", several))
    listed.shows(Asked(no_processes=(processes[0],)), "--not-pid", processes[0][1:-1])
    for name in ("plain", "stamped"):
        stream = stream_of(name)
        here = type(program)(program.path, program.folder / name)
        here.folder.mkdir()
        listed = Listed(here, stream)
        functions = common((told_by(entry).function for entry in split(stream)), 4)
        for several in (functions[:1], functions[1:3], functions, [("nowhere", "f", 1)]):
            listed.shows(Asked(no_functions=tuple(several)), *each_after("--not-mfa", map(words_of, several)))
        module, function, arity = functions[1]
        listed.shows(Asked(no_functions=((module,),)), "--not-mfa", module)
        listed.shows(Asked(no_functions=((module, function),)), "--not-mfa", f"{module}:{function}")
        listed.shows(Asked(no_functions=((module, function, arity + 1),)), "--not-mfa", f"{module}:{function}/{arity + 1}")


@case
def what_is_shown_and_what_is_not_are_told_together(program):
    stream = stream_of("plain")
    listed = Listed(program, stream)
    process = common((told_by(entry).process for entry in split(stream)), 1)[0]
    first, second, third = common((told_by(entry).function for entry in split(stream)), 3)
    module = first[0]
    for asked, options in (
        (Asked(kinds=("call", "return"), no_functions=(first,)), ("--only", "call,return", "--not-mfa", words_of(first))),
        (Asked(functions=((module,),), no_functions=(first, second)), ("--mfa", module, *each_after("--not-mfa", map(words_of, (first, second))))),
        (Asked(processes=(process,), no_kinds=("send", "receive")), ("--pid", process, "--not", "send,receive")),
        (Asked(processes=(process,), no_processes=(process,)), ("--pid", process, "--not-pid", process)),
        (Asked(kinds=("call", "send"), no_kinds=("call",)), ("--only", "call,send", "--not", "call")),
        (Asked(9, 90, no_kinds=("receive",), no_processes=("<a@b.1.0.0>",), no_functions=(third,)), ("--from", "9", "--to=90", "--not", "receive", "--not-pid", "a@b.1.0.0", "--not-mfa", words_of(third))),
        (Asked(9, 90, ("call", "exception"), (process, "<a@b.1.0.0>"), (first, second), ("exception",)), ("--from", "9", "--to=90", "--only", "call,exception", "--pid", process, "--pid", "a@b.1.0.0", *each_after("--mfa", map(words_of, (first, second))), "--not", "exception")),
    ):
        listed.shows(asked, *options)
        for words in (("list", "-p", "file"), ("list", "-p", "wrap")):
            expected = chosen(*listed.whole[words], asked)
            same(program.chosen("list", "-f", words[2], *options), expected)


@case
def what_cannot_be_read_is_passed_over_as_an_opaque_message(program):
    call = b"\x83\x68\x04" + short_atom("trace") + b"\x58" + short_atom("n@h") + bytes(12) + short_atom("call") + b"\x68\x03" + short_atom("m") + short_atom("f") + b"\x61\x02"
    program.good("import", "t", stdin=message(call) + message(b"\x83") + drop(4))
    told = f"0 call {text(AnyReader(call).whole())}\n".encode()
    opaque, lost, end = b"1 opaque 1\n", b"2 drop 4\n", b"end_of_trace\n"
    for options, shown in (
        (("--not", "opaque"), told + lost),
        (("--not", "call"), opaque + lost),
        (("--not", "drop"), told + opaque + lost),
        (("--not", "call,opaque"), lost),
        (("--not-pid", "n@h.0.0.0"), opaque + lost),
        (("--not-mfa", "m"), opaque + lost),
        (("--not-pid", "n@h.1.0.0", "--not-mfa", "m:g"), told + opaque + lost),
        (("--only", "opaque,call", "--not", "opaque"), told + lost),
        (("--only", "opaque", "--not", "call"), opaque + lost),
        (("--pid", "n@h.1.0.0", "--pid", "n@h.0.0.0", "--not", "opaque"), told + lost),
    ):
        same(program.chosen("list", "t", *options), shown + end)


@case
def drop_records_are_always_shown(program):
    entries = split(stream_of("plain"))
    stream = b"".join(entry + (drop(number + 1) if number % 3 == 0 else b"") for number, entry in enumerate(entries))
    listed = Listed(program, stream)
    listed.shows(Asked(first=2**40), "--from", str(2**40))
    listed.shows(Asked(last=4), "--to", "4")
    listed.shows(Asked(first=3, last=4, kinds=("exception",)), "--from=3", "--to=4", "--only", "exception")
    listed.shows(Asked(kinds=("exception",)), "--only", "exception")
    listed.shows(Asked(processes=("<a@b.1.0.0>",)), "--pid", "<a@b.1.0.0>")
    listed.shows(Asked(functions=(("nowhere",),)), "--mfa", "nowhere")
    listed.shows(Asked(last=9, no_kinds=("drop", "call")), "--to", "9", "--not", "drop,call")


@case
def the_line_before_a_wraps_window_and_the_last_line_are_as_before(program):
    listed = Listed(program, stream_of("node"))
    lines = program.chosen("list", "wrap", "--from", str(2**40)).decode().splitlines()
    assert lines[0].startswith("before entries "), lines
    same(lines[-1], "end_of_trace")
    same(listed.whole["list", "wrap"][0].decode().splitlines()[0], lines[0])


def call_with(dice, writer, count):
    """A call of m:f with so many random arguments."""
    head = b"\x83\x68\x04" + short_atom("trace") + b"\x58" + short_atom("n@h") + bytes(12) + short_atom("call") + b"\x68\x03" + short_atom("m") + short_atom("f")
    if count == 0:
        return head + b"\x6a"
    if dice.random() < 0.3:
        return head + b"\x6b" + struct.pack(">H", count) + bytes(dice.choice([10, 27, 34, 39, 44, 92, 93, 160, 200, 255]) for _ in range(count))
    return head + b"\x6c" + struct.pack(">I", count) + writer.members(0, count) + b"\x6a"


@case
def random_arguments_are_counted(program):
    dice = random.Random(72)
    writer = Writer(dice)
    stream = b"".join(message(call_with(dice, writer, dice.randrange(6))) for _ in range(400))
    listed = Listed(program, stream)
    for count in range(7):
        listed.shows(Asked(functions=(("m", "f", count),)), "--mfa", f"m:f/{count}")


@case
def arguments_that_are_no_proper_list_have_no_number(program):
    """`[1|2]`, `[1,2|3]`, and integers as a number of arguments, the greatest beyond 64 bits."""
    tails = [b"\x6c\x00\x00\x00\x01\x61\x01\x61\x02", b"\x6c\x00\x00\x00\x02\x61\x01\x61\x02\x61\x03", b"\x61\x01", b"\x62\xff\xff\xff\xff", b"\x6e\x09\x00" + bytes(8) + b"\x01"]
    head = b"\x83\x68\x04" + short_atom("trace") + b"\x58" + short_atom("n@h") + bytes(12) + short_atom("call") + b"\x68\x03" + short_atom("m") + short_atom("f")
    listed = Listed(program, b"".join(message(head + tail) for tail in tails))
    for count in range(4):
        listed.shows(Asked(functions=(("m", "f", count),)), "--mfa", f"m:f/{count}")


@case
def random_messages_are_chosen(program):
    dice = random.Random(73)
    writer = Writer(dice)
    stream = b"".join(message(b"\x83" + writer.message(0)) for _ in range(600))
    listed = Listed(program, stream)
    for module, name, arity in functions_in(stream)[:5]:
        if "'" not in module + name:
            listed.shows(Asked(functions=((module, name, arity),)), "--mfa", f"{module}:{name}/{arity}")
    for word in ("call", "other", "spawn"):
        listed.shows(Asked(kinds=(word,)), "--only", word)


@case
def what_is_listed_of_a_broken_stream_is_chosen_too(program):
    stream = stream_of("plain")
    whole = program.run("stream", "-p", stdin=stream[:-1])
    outcome = program.run("stream", "--only", "call", stdin=stream[:-1])
    same((outcome.status, outcome.errors), (whole.status, whole.errors))
    same(outcome.output, chosen(whole.output, split(stream), Asked(kinds=("call",))))


def misused(program, *words, says):
    """A command line that is refused, and what is said of it."""
    outcome = program.run(*words, stdin=b"")
    same((outcome.status, outcome.output), (2, b""))
    assert says in outcome.errors.decode(), outcome


@case
def what_no_listing_can_show_is_refused(program):
    for command in (("stream",), ("list", "t"), ("export", "t"), ("top", "t")):
        for option in ("--only", "--not"):
            misused(program, *command, option, "calls", says="'calls' for '--only or --not <KIND[,KIND..]>'")
            misused(program, *command, option, "call,", says="call, return, exception, send")
        misused(program, *command, "--from", "x", says="--from")
        misused(program, *command, "--to=-1", says="--to")
        for option in ("--mfa", "--not-mfa"):
            for function in ("", ":f", "m:", "m:f/", "m:f/x", "m:/2", "m,n", "m:f/1,m:g/2"):
                misused(program, *command, option, function, says=f"'{function}' for '--mfa or --not-mfa <M[:F[/A]]>'")
            misused(program, *command, option, "m", option, "m:", says="'m:'")
        for option in ("--pid", "--not-pid"):
            for process in ("", "<>", "80.0.0", "Shell", "my-shell", ".1.0.0", "0.1.0.0", "a@b.1.0.x", "<a@b.1.0.0", "@b.1.0.0", "a@b.1.0.0,a@b.2.0.0"):
                misused(program, *command, option, process, says=f"'{process}' for '--pid or --not-pid <PID>': a process as a listing shows it")
            misused(program, *command, option, "<0.80.0>", option, "a@my-host.1.0", option, "80", says="'80'")
    misused(program, "info", "t", "--from", "1", says="--from")
    # a stream is read once, so that no name is looked up in it
    for command in (("stream",), ("list", "-"), ("show", "-"), ("export", "-"), ("top", "-")):
        for option in ("--pid", "--not-pid"):
            for name in ("shell", "'my shell'"):
                misused(program, *command, option, name, says=f"'{name}' for '--pid or --not-pid <PID>'")


# ---- registered names


def pid_of(number):
    return f"<n@h.{number}.0.1>"


def told_of(number, word, *members):
    """The entry of a trace message of a process of the node n@h."""
    parts = [short_atom("trace"), b"\x58" + short_atom("n@h") + struct.pack(">III", number, 0, 1), short_atom(word), *members]
    return message(b"\x83\x68" + bytes([len(parts)]) + b"".join(parts))


def at_work(number):
    return told_of(number, "receive", b"\x61\x07")


WORKER, NAMED = short_atom("worker"), short_atom("my name")

# worker is a name of two processes, one after the other; the fourth has none
REGISTERED = [
    at_work(1),
    told_of(1, "register", WORKER),
    told_of(2, "register", NAMED),
    told_of(2, "send", b"\x61\x07", WORKER),
    at_work(1),
    drop(2),
    told_of(1, "unregister", WORKER),
    told_of(3, "register", WORKER),
    at_work(3),
    at_work(4),
    told_of(4, "send", b"\x61\x07", WORKER),
    at_work(2),
]

NO_NAME = "dbgrec: t: no register message names {}: trace with the flag procs to have those\n"


@case
def a_registered_name_is_each_process_that_had_it(program):
    for trace, kind in (("t", ()), ("w", WRAP)):
        program.good("import", trace, *kind, stdin=b"".join(REGISTERED))
        listing = program.good("list", "-p", trace)
        for options, only, other in (
            (("--pid", "worker"), (1, 3), ()),
            (("--pid", "'my name'"), (2,), ()),
            (("--pid", "worker", "--pid=worker"), (1, 3), ()),
            (("--pid", "worker", "--pid", "'my name'"), (1, 2, 3), ()),
            (("--pid", "worker", "--pid", "<0.4.0>"), (1, 3, 4), ()),
            (("--not-pid", "worker"), (), (1, 3)),
            (("--pid", "n@h.2.0", "--pid", "worker", "--not-pid", "'my name'"), (1, 2, 3), (2,)),
        ):
            asked = Asked(processes=tuple(map(pid_of, only)) or None, no_processes=tuple(map(pid_of, other)))
            same(program.chosen("list", trace, *options), chosen(listing, REGISTERED, asked))
            same(program.chosen("list", "-f", trace, *options), chosen(listing, REGISTERED, asked))
            found = exported(listing, REGISTERED, asked)
            same(program.good("export", trace, *options), b"".join(found))
            # all else is as with the numbers of the processes
            numbers = [*each_after("--pid", map(pid_of, only)), *each_after("--not-pid", map(pid_of, other))]
            for words in (("show", trace), ("show", "--last", "2", trace), ("list", "--json", trace), ("top", trace), ("top", trace, "--json"), ("top", trace, "--by", "process"), ("export", trace, "--as", "perfetto")):
                same(program.run(*words, *options), program.run(*words, *numbers))


@case
def a_name_that_no_message_tells_is_told_and_means_nothing(program):
    program.good("import", "t", stdin=b"".join(REGISTERED))
    listing = program.good("list", "-p", "t")
    for command in ("list", "export"):
        outcome = program.run(command, "t", "--not-pid", "nobody", "--not-pid", "worker", "--not-pid", "'no one'")
        same((outcome.status, outcome.errors.decode()), (0, NO_NAME.format("nobody") + NO_NAME.format('"\'no one\'"')))
    outcome = program.run("list", "t", "--pid", "nobody", "--pid", "'my name'")
    same((outcome.status, outcome.output, outcome.errors.decode()), (0, chosen(listing, REGISTERED, Asked(processes=(pid_of(2),))), NO_NAME.format("nobody")))
    outcome = program.run("list", "t", "--pid", "nobody")
    same((outcome.status, outcome.output), (0, b"5 drop 2\nend_of_trace\n"))
    told = "dbgrec: t: no message is shown: it has entries 0 to 11\nthere is no message of the process nobody\n"
    same(outcome.errors.decode(), NO_NAME.format("nobody") + told)


@case
def names_are_not_looked_up_in_what_is_no_trace(program):
    data, _ = damaged(*REGISTERED)
    (program.folder / "t").write_bytes(data)
    (program.folder / "text").write_bytes(b"no trace")
    for words in (("list", "t"), ("list", "none"), ("list", "text"), ("top", "t"), ("export", "none")):
        same(program.run(*words, "--pid", "worker"), program.run(*words, "--pid", "a@b.1.0.0"))
    same(program.run("list", "t", "--not-pid", "worker"), program.run("list", "t", "-p"))


@case
def the_server_that_is_registered_as_jobs_is_found(program):
    program.good("import", "t", stdin=stream_of("backlog"))
    for words in (("list", "t"), ("top", "t", "--json")):
        same(program.good(*words, "--pid", "jobs"), program.good(*words, "--pid", "<nonode@nohost.80.0.0>"))
