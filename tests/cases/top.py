"""Cases of `top`. What is to be counted is counted here, of the terms that the entries spell, by the text of
docs/FORMATS.md."""

import dataclasses
import json
import struct
import subprocess

from cases import STREAMS, group, stored
from choosing import told_by
from entries import drop, fragments, joined, kept, message, split
from importing import TRACES, stream_of
from program import PATIENCE, Outcome, same
from segments import FILE_HEADER, segment, wrap_header
from telling import damaged
from terms import AnyReader, name_text, short_atom, text, Unread

CASES, case = group()

WRAP = ("--kind", "wrap")

# the most calls of a process that are open
MOST_OPEN = 1_000

# the most bars
MOST_BARS = 60


# ---- messages


def pid(number):
    """A process of the node n@h."""
    return b"\x58" + short_atom("n@h") + struct.pack(">III", number, 0, 1)


def pid_text(number):
    return f"<n@h.{number}.0.1>"


def whole(value):
    """An integer of at most 64 bits."""
    return b"\x6e\x08" + bytes([value < 0]) + struct.pack("<Q", abs(value))


def stamp(micros):
    """The time {Mega,Sec,Micro}."""
    seconds, micro = divmod(micros, 1_000_000)
    return b"\x68\x03" + b"".join(map(whole, (*divmod(seconds, 1_000_000), micro)))


def told_at(number, word, *members, at=None):
    """The entry of a trace message of a process, at a time in microseconds where one is told."""
    parts = [short_atom("trace" if at is None else "trace_ts"), pid(number), short_atom(word), *members]
    if at is not None:
        parts.append(stamp(at))
    return message(b"\x83\x68" + bytes([len(parts)]) + b"".join(parts))


def function(name, last):
    """{m,NAME,LAST}."""
    return b"\x68\x03" + short_atom("m") + short_atom(name) + last


def call(number, name, at=None):
    """A call of m:NAME/2 with its arguments."""
    return told_at(number, "call", function(name, b"\x6b\x00\x02\x07\x08"), at=at)


def returns(number, name, at=None):
    return told_at(number, "return_from", function(name, b"\x61\x02"), short_atom("ok"), at=at)


def fails(number, name, at=None):
    reason = b"\x68\x02" + short_atom("error") + short_atom("badarg")
    return told_at(number, "exception_from", function(name, b"\x61\x02"), reason, at=at)


def sends(number, at=None, word="send", what=b"\x61\x07", to=pid(99)):
    return told_at(number, word, what, to, at=at)


def receives(number, at=None, what=b"\x61\x07"):
    return told_at(number, "receive", what, at=at)


# ---- the count


@dataclasses.dataclass
class Function:
    calls: int = 0
    returns: int = 0
    exceptions: int = 0
    # the times of its outermost calls, and of all its calls without the calls within them
    times: list = dataclasses.field(default_factory=list)
    own: list = dataclasses.field(default_factory=list)


@dataclasses.dataclass
class Open:
    """An open call: its function, its time, and how long the calls within it took that ended."""

    function: str
    time: int
    inner: int = 0


@dataclasses.dataclass
class Process:
    calls: int = 0
    sent: int = 0
    received: int = 0
    waiting: int = 0


def exported(entries):
    """The entries of an export: a long message is one again, and one that isn't whole is a lost message, where its first part
    stands."""
    found = {"entry": lambda entry: entry, "message": message, "part": lambda _: drop(1)}
    return [found[word](what) for _, word, what in joined(entries) if word != "part" or what[0] == 1]


def time_of(entry):
    """The nanoseconds of a message's time stamp, None where it has none."""
    sort, parts = AnyReader(entry[5:]).whole()
    if sort != "tuple" or len(parts) < 3 or parts[0] != ("atom", "trace_ts"):
        return None
    sort, value = parts[-1]
    if sort == "int":
        return value
    if sort != "tuple" or [sort for sort, _ in value] not in (["int"] * 2, ["int"] * 3):
        return None
    numbers = [number for _, number in value]
    if len(numbers) == 2:
        return numbers[0]
    mega, seconds, micros = numbers
    return ((mega * 1_000_000 + seconds) * 1_000_000 + micros) * 1_000


def member_of(entry, place):
    """A member of a message's tuple, as a term."""
    return AnyReader(entry[5:]).whole()[1][place]


def function_text(term):
    """M:F/A, of a function with the number of its arguments; None where it is undefined."""
    if term[0] != "tuple":
        return None
    module, name, arity = term[1]
    return f"{text(module, name_text)}:{text(name, name_text)}/{arity[1]}"


class Count:
    """What is counted of the entries of an export."""

    def __init__(self, entries):
        self.functions, self.processes, self.kinds = {}, {}, {}
        self.messages = self.unread = self.lost = 0
        self.open, self.moments, self.waiting, self.names = {}, [], {}, {}
        self.paired = 0
        # of each entry the time since the first one that is told, and how many messages it is, and says were lost
        self.course = []
        for entry in exported(entries):
            self.take(entry)
            passed = max(0, self.moments[-1] - self.moments[0]) if self.moments else 0
            self.course.append((passed, int(entry[0] == 0), struct.unpack(">I", entry[1:])[0] if entry[0] == 1 else 0))

    def take(self, entry):
        if entry[0] == 1:
            self.lost += struct.unpack(">I", entry[1:])[0]
            self.open.clear()
            return
        self.messages += 1
        try:
            AnyReader(entry[5:]).whole()
        except Unread:
            self.unread += 1
            self.open.clear()
            return
        told, time = told_by(entry), time_of(entry)
        self.kinds[told.kind] = self.kinds.get(told.kind, 0) + 1
        self.moments += [] if time is None else [time]
        if told.kind in ("call", "send", "send_lost", "receive"):
            process = self.processes.setdefault(told.process, Process())
            process.calls += told.kind == "call"
            process.sent += told.kind in ("send", "send_lost")
            process.received += told.kind == "receive"
        if told.kind == "send" and member_of(entry, 4)[0] in ("pid", "atom"):
            to = text(member_of(entry, 4), name_text)
            self.wait(self.names.get(to, to), 1)
        if told.kind == "register":
            self.names[text(member_of(entry, 3), name_text)] = told.process
        if told.kind == "unregister":
            self.names.pop(text(member_of(entry, 3), name_text), None)
        if told.kind == "receive":
            self.wait(told.process, -1)
        if told.kind == "exit":
            self.open.pop(told.process, None)
        if told.kind == "return_to":
            self.come_back(self.open.get(told.process, []), function_text(member_of(entry, 3)))
        if told.kind in ("call", "return", "exception"):
            self.take_of_function(told, time)

    def wait(self, process, more):
        """One message more, or less, waits for a process."""
        self.waiting[process] = max(0, self.waiting.get(process, 0) + more)
        row = self.processes.setdefault(process, Process())
        row.waiting = max(row.waiting, self.waiting[process])

    def take_of_function(self, told, time):
        module, name, arity = told.function
        text = f"{module}:{name}" if arity is None or arity < 0 else f"{module}:{name}/{arity}"
        row = self.functions.setdefault(text, Function())
        calls = self.open.setdefault(told.process, [])
        if told.kind == "call":
            row.calls += 1
            if len(calls) == MOST_OPEN:
                self.forget_one(calls)
            calls.append(Open(text, time))
            return
        row.returns += told.kind == "return"
        row.exceptions += told.kind == "exception"
        places = [place for place, call in enumerate(calls) if call.function == text]
        if not places:
            return
        self.paired += 1
        call, inner = calls[places[-1]], sum(call.inner for call in calls[places[-1] :])
        del calls[places[-1] :]
        is_timed = None not in (call.time, time)
        took = max(0, time - call.time) if is_timed else inner
        if calls:
            calls[-1].inner += took
        if is_timed:
            row.own.append(max(0, took - inner))
            row.times += [] if places[:-1] else [took]

    def has_end(self, function):
        """Whether an end of it is told up to here."""
        return bool(self.functions[function].returns or self.functions[function].exceptions)

    def forget_one(self, calls):
        """Forgets the oldest call of a function of which no end is told, or else the oldest."""
        silent = [place for place, call in enumerate(calls) if not self.has_end(call.function)]
        place = silent[0] if silent else 0
        forgotten = calls.pop(place)
        if place:
            calls[place - 1].inner += forgotten.inner

    def come_back(self, calls, function):
        """What was called after the newest open call of the function is over."""
        places = [place for place, call in enumerate(calls) if call.function == function]
        if places:
            calls[places[-1]].inner = sum(call.inner for call in calls[places[-1] :])
            del calls[places[-1] + 1 :]

    def open_of(self, function):
        return sum(call.function == function for calls in self.open.values() for call in calls) if self.has_end(function) else 0

    def unpaired(self):
        """How many calls have no end, and ends no call."""
        rows = self.functions.values()
        return sum(row.calls for row in rows) - self.paired, sum(row.returns + row.exceptions for row in rows) - self.paired

    def rows(self, by):
        """All rows by their names, each with its numbers."""
        if by == "function":
            return {name: numbers_of(row) | {"open": self.open_of(name)} for name, row in self.functions.items()}
        return {name: vars(row) | {"waiting": known(name, row.waiting)} for name, row in self.processes.items()} if by == "process" else {name: {"count": count} for name, count in self.kinds.items()}

    def ranked(self, by):
        """The same, of a name with how many messages were sent to it."""
        return {name: vars(row) for name, row in self.processes.items()} if by == "process" else self.rows(by)

    def shares(self):
        """The length of a share, and of each how many messages there are, and were lost."""
        places = [passed if self.moments else number for number, (passed, _, _) in enumerate(self.course)]
        share, last = 1, max(places, default=0)
        while last // share >= MOST_BARS:
            share *= 2
        kept = [[0, 0] for _ in range(last // share + 1)]
        for place, (_, messages, lost) in zip(places, self.course):
            kept[place // share][0] += messages
            kept[place // share][1] += lost
        return share, [messages for messages, _ in kept], [lost for _, lost in kept]

    def summary(self):
        """What is told of all messages."""
        moments = self.moments or [None]
        share, messages, lost = self.shares()
        told = {"messages": self.messages, "unread": self.unread, "lost": self.lost, "from": moments[0], "to": moments[-1]}
        told |= dict(zip(("calls_without_end", "ends_without_call"), self.unpaired()))
        return told | {"share": share, "bars": messages, "lost_bars": lost}


def known(name, waiting):
    """The most messages that waited for a process; None where none is told to be sent to it, and of a name."""
    return waiting or None if name[:1] in "<#" else None


def numbers_of(row):
    """The numbers of a function, by their names in an object."""
    total = sum(row.times)
    times = {"total": total, "mean": total // len(row.times), "longest": max(row.times)} if row.times else dict.fromkeys(("total", "mean", "longest"))
    times["own"] = sum(row.own) if row.own else None
    return {"calls": row.calls, "returns": row.returns, "exceptions": row.exceptions} | times


# ---- what is told


def micros(*values):
    """Times in nanoseconds."""
    return [value * 1_000 for value in values]


def told_rows(said, by):
    """The rows of an object, by their names."""
    return {row[by]: {name: value for name, value in row.items() if name != by} for row in said["rows"]}


def top(program, *words, stdin=b""):
    """The object of a table, which stands on one line."""
    said = program.good("top", "--json", *words, stdin=stdin)
    same((said.count(b"\n"), said[-1:]), (1, b"\n"))
    return json.loads(said)


def check(program, name, entries, *words, stdin=b""):
    """Fails unless each table has the rows that are counted here."""
    count = Count(entries)
    for by in ("function", "process", "kind"):
        said = top(program, name, *words, "--by", by, "--limit", "100000", stdin=stdin)
        same((name, by, told_rows(said, by)), (name, by, count.rows(by)))
        same({word: value for word, value in said.items() if word != "rows"}, {"by": by} | count.summary())
    return count


def stored_as(program, entries, name="t"):
    """Records entries in a file."""
    program.good("import", name, stdin=b"".join(entries))
    return entries


F, G = "m:f/2", "m:g/2"


def times_of(program, *entries):
    """The times that each function has, of a trace of these entries: in all, its own, the mean, the longest; and the calls that are
    open."""
    stored_as(program, entries)
    check(program, "t", entries)
    said = told_rows(top(program, "t"), "function")
    program.good("wipe", "t")
    return {name: tuple(row[word] for word in ("total", "own", "mean", "longest", "open")) for name, row in said.items()}


NO_TIME = (None, None, None, None)


@case
def the_time_of_a_call_is_that_until_its_return(program):
    found = times_of(program, call(1, "f", 10), call(1, "g", 20), returns(1, "g", 50), returns(1, "f", 100))
    same(found, {F: (*micros(90, 60, 90, 90), 0), G: (*micros(30, 30, 30, 30), 0)})
    # of a function that calls itself the outermost call counts
    found = times_of(program, call(1, "f", 10), call(1, "f", 60), returns(1, "f", 70), returns(1, "f", 100))
    same(found, {F: (*micros(90, 90, 90, 90), 0)})
    # also where another lies between
    found = times_of(program, call(1, "f", 0), call(1, "g", 1), call(1, "f", 2), returns(1, "f", 5), returns(1, "g", 9), returns(1, "f", 20))
    same(found, {F: (*micros(20, 15, 20, 20), 0), G: (*micros(8, 5, 8, 8), 0)})
    # an exception ends a call too
    found = times_of(program, call(1, "f", 10), call(1, "g", 20), fails(1, "g", 25), fails(1, "f", 26))
    same(found, {F: (*micros(16, 11, 16, 16), 0), G: (*micros(5, 5, 5, 5), 0)})
    # another process has calls of its own
    found = times_of(program, call(1, "f", 10), call(2, "f", 15), returns(2, "f", 25), returns(1, "f", 60))
    same(found, {F: (*micros(60, 60, 30, 50), 0)})
    # one that hasn't ended is open, where an end of its function is told
    found = times_of(program, call(1, "f", 10), call(2, "f", 15), call(2, "g", 16), returns(1, "f", 60))
    same(found, {F: (*micros(50, 50, 50, 50), 1), G: (*NO_TIME, 0)})


@case
def a_call_whose_end_is_not_told_has_no_time(program):
    # a tail call: the end of f is told, and that of g isn't
    tail = (call(1, "f", 0), call(1, "g", 10), returns(1, "f", 40))
    same(times_of(program, *tail), {F: (*micros(40, 40, 40, 40), 0), G: (*NO_TIME, 0)})
    # g isn't open any more
    same(times_of(program, *tail, returns(1, "g", 50)), {F: (*micros(40, 40, 40, 40), 0), G: (*NO_TIME, 0)})
    # what was called within g is no time of f's own
    within = (call(1, "f", 0), call(1, "g", 10), call(1, "h", 12), returns(1, "h", 30), returns(1, "f", 40))
    same(times_of(program, *within), {F: (*micros(40, 22, 40, 40), 0), G: (*NO_TIME, 0), "m:h/2": (*micros(18, 18, 18, 18), 0)})
    same(times_of(program, returns(1, "f", 40), fails(1, "g", 50)), {F: (*NO_TIME, 0), G: (*NO_TIME, 0)})
    # the calls of a process that exits have no end
    exits = told_at(1, "exit", short_atom("normal"), at=30)
    same(times_of(program, call(1, "f", 0), exits, returns(1, "f", 40)), {F: (*NO_TIME, 0)})
    # one of the two has no time stamp
    same(times_of(program, call(1, "f"), returns(1, "f", 40)), {F: (*NO_TIME, 0)})
    same(times_of(program, call(1, "f", 7), returns(1, "f")), {F: (*NO_TIME, 0)})
    # a clock that was set back
    same(times_of(program, call(1, "f", 40), returns(1, "f", 7)), {F: (0, 0, 0, 0, 0)})


@case
def of_a_thousand_open_calls_the_oldest_is_forgotten(program):
    many = MOST_OPEN + 1
    calls, ends = [call(1, "f", at) for at in range(many)], [returns(1, "f", many + at) for at in range(many)]
    same(times_of(program, *calls, ends[0]), {F: (*NO_TIME[:1], *micros(1), *NO_TIME[2:], MOST_OPEN - 1)})
    # the newest takes one microsecond, each before it two more, and the oldest has no time
    longest = 2 * MOST_OPEN - 1
    same(times_of(program, *calls, *ends), {F: (*micros(longest, longest, longest, longest), 0)})
    # calls of a function that tells no end are forgotten first
    silent = [call(1, "g", at) for at in range(2, 2 * MOST_OPEN)]
    found = times_of(program, call(2, "f", 0), returns(2, "f", 0), call(1, "f", 1), *silent, returns(1, "f", 2 * MOST_OPEN))
    same(found, {F: (1_999_000, 1_999_000, 999_500, 1_999_000, 0), G: (*NO_TIME, 0)})


def unpaired_in(program, *entries):
    """How many calls have no end and ends no call, of a trace of these entries."""
    stored_as(program, entries)
    said = top(program, "t")
    lines = program.good("top", "t").decode().splitlines()
    program.good("wipe", "t")
    found = said["calls_without_end"], said["ends_without_call"]
    same(f"{found[0]} calls without an end, {found[1]} ends without a call" in lines, found != (0, 0))
    return found


@case
def lost_messages_end_all_calls(program):
    began, ends = (call(1, "f", 0), call(1, "f", 10), call(2, "g", 20)), (returns(1, "f", 50), returns(2, "g", 60))
    same(times_of(program, *began, *ends), {F: (*NO_TIME[:1], *micros(40), *NO_TIME[2:], 1), G: (*micros(40, 40, 40, 40), 0)})
    same(unpaired_in(program, *began, *ends), (1, 0))
    # a drop record, and a message that isn't read
    for gone in (drop(1), message(b"\x83")):
        same(times_of(program, *began, gone, *ends), {F: (*NO_TIME, 0), G: (*NO_TIME, 0)})
        same(unpaired_in(program, *began, gone, *ends), (3, 2))
    # calls behind it are timed again
    same(times_of(program, began[0], drop(1), call(1, "f", 30), ends[0], returns(1, "f", 70)), {F: (*micros(20, 20, 20, 20), 0)})
    same(unpaired_in(program, drop(1)), (0, 0))


def comes_back(number, name, at=None):
    return told_at(number, "return_to", function(name, b"\x61\x02"), at=at)


@case
def a_return_to_a_function_ends_what_was_called_in_it(program):
    # g is over where the process is back in f, and so its later end has no call
    entries = (call(1, "f", 0), call(1, "g", 10), comes_back(1, "f", 15), returns(1, "g", 20), returns(1, "f", 40))
    same(times_of(program, *entries), {F: (*micros(40, 40, 40, 40), 0), G: (*NO_TIME, 0)})
    same(unpaired_in(program, *entries), (1, 1))
    # a function that isn't open, another process, and one that nothing tells of
    for back in (comes_back(1, "h", 15), comes_back(2, "f", 15), comes_back(1, "g", 15)):
        entries = (call(1, "f", 0), call(1, "g", 10), back, returns(1, "g", 20), returns(1, "f", 40))
        same(times_of(program, *entries), {F: (*micros(40, 30, 40, 40), 0), G: (*micros(10, 10, 10, 10), 0)})
    # the time of what ended within g isn't f's own
    entries = (call(1, "f", 0), call(1, "g", 10), call(1, "h", 11), returns(1, "h", 14), comes_back(1, "f", 15), returns(1, "f", 40))
    same(times_of(program, *entries)[F], (*micros(40, 37, 40, 40), 0))


@case
def traces_of_nodes_have_the_times_and_calls_that_they_tell(program):
    # a call of a millisecond, one whose end is lost, and one of a tenth of a millisecond
    program.good("import", "drop", stdin=(STREAMS / "drop_between.trc").read_bytes())
    said = top(program, "drop")
    same((said["rows"], said["calls_without_end"], said["ends_without_call"]), (
        [{"function": "m:f/1", "calls": 3, "returns": 3, "exceptions": 0} | dict(zip(("total", "own", "mean", "longest", "open"), (*micros(1_100, 1_100, 550, 1_000), 0)))],
        *(1, 1),
    ))
    for name in ("drop_between", "calls_without_returns", "shop", "backlog"):
        stream = (STREAMS / f"{name}.trc").read_bytes()
        program.good("import", name, stdin=stream)
        check(program, name, kept(stream))


@case
def monotonic_times_are_nanoseconds(program):
    def at(number, word, time, *members):
        parts = [short_atom("trace_ts"), pid(number), short_atom(word), *members, time]
        return message(b"\x83\x68" + bytes([len(parts)]) + b"".join(parts))

    def unique(value):
        return b"\x68\x02" + whole(value) + b"\x61\x01"

    of_f, ok = function("f", b"\x61\x02"), short_atom("ok")
    found = times_of(program, at(1, "call", whole(-5), of_f), at(1, "return_from", whole(12), of_f, ok))
    same(found, {F: (17, 17, 17, 17, 0)})
    found = times_of(program, at(1, "call", unique(2**40), of_f), at(1, "return_from", unique(2**40 + 3), of_f, ok))
    same(found, {F: (3, 3, 3, 3, 0)})


@case
def what_a_process_sends_and_receives_is_counted(program):
    lost = sends(2, word="send_to_non_existing_process")
    entries = [sends(1), sends(1, at=5), receives(1), lost, call(2, "f"), drop(3), message(b"\x83"), message(b"\x83\x61"), receives(3)]
    stored_as(program, entries)
    count = check(program, "t", entries)
    same((count.messages, count.unread, count.lost), (8, 2, 3))
    rows = {pid_text(1): Process(0, 2, 1), pid_text(2): Process(1, 1, 0), pid_text(3): Process(0, 0, 1), pid_text(99): Process(waiting=2)}
    same(count.processes, rows)
    same(count.kinds, {"send": 2, "receive": 2, "send_lost": 1, "call": 1})


def waiting_in(program, *entries):
    """The most messages that waited for each process, of a trace of these entries."""
    stored_as(program, entries)
    check(program, "t", entries)
    said = told_rows(top(program, "t", "--by", "process"), "process")
    program.good("wipe", "t")
    return {name: row["waiting"] for name, row in said.items()}


@case
def the_most_messages_that_wait_for_a_process_are_told(program):
    one, two, three = map(pid_text, (1, 2, 3))
    to = {"to": pid(2)}
    # two wait at once, before and after one is received; what anybody sends counts
    found = waiting_in(program, sends(1, **to), sends(3, **to), receives(2), sends(1, **to), receives(2), receives(2), sends(1, **to))
    same(found, {one: None, two: 2, three: None})
    # where none waits, none does after a receive
    same(waiting_in(program, receives(2), receives(2), sends(1, **to)), {one: None, two: 1})
    same(waiting_in(program, sends(2, **to), sends(2, **to), receives(2), receives(2)), {two: 2})
    # lost messages and times say nothing of it
    same(waiting_in(program, sends(1, 5, **to), drop(3), sends(1, 4, **to), message(b"\x83")), {one: None, two: 2})
    # a name with its node, what is neither, and a process that isn't there
    far = b"\x68\x02" + short_atom("worker") + short_atom("n@h")
    lost = sends(1, word="send_to_non_existing_process", **to)
    same(waiting_in(program, sends(1, to=far), sends(1, to=b"\x68\x01" + pid(2)), lost), {one: None})
    # the message may be any term, and more may stand behind the receiver
    bytes_of = b"\x6d\x00\x00\x00\x0a,{[<'\">}#,"
    what = b"\x68\x03" + short_atom("a,'b{") + b"\x74\x00\x00\x00\x01" + bytes_of + pid(3) + b"\x6b\x00\x05a,\"b{"
    added = told_at(1, "send", what, pid(2), bytes_of, b"\x61\x01", at=7)
    same(waiting_in(program, added, told_at(1, "send", what, pid(2), pid(3)), sends(1, 9, what=what, **to)), {one: None, two: 3})
    # a message of many members, and one that is none of a send
    same(waiting_in(program, told_at(1, "spawn", pid(3), b"\x6a", pid(2)), call(1, "f")), {one: None})


@case
def what_is_sent_to_a_name_waits_for_the_process_that_has_it(program):
    one, two, three = map(pid_text, (1, 2, 3))
    name, sent = short_atom("worker"), sends(1, to=short_atom("worker"))

    def gets(number, word="register"):
        return told_at(number, word, name)

    same(waiting_in(program, gets(2), sent, sent, receives(2), sends(1, to=pid(2))), {one: None, two: 2})
    # a name of which it isn't told who has it: before it is, and after none has it
    same(waiting_in(program, sent, gets(2), sent, gets(2, "unregister"), sent), {one: None, "worker": None, two: 1})
    # the next process that has it, and lost messages leave it
    same(waiting_in(program, gets(2), sent, gets(3), drop(1), sent, sent), {one: None, two: 1, three: 2})
    # a message to a process that isn't there is for nobody
    same(waiting_in(program, gets(2), sends(1, word="send_to_non_existing_process", to=name)), {one: None})
    # a name like a process
    odd = short_atom("<n@h.2.0.1>")
    same(waiting_in(program, sends(1, to=odd)), {one: None, "'<n@h.2.0.1>'": None})
    # of 500 messages to the server that is registered as jobs 299 are sent and not received at entry 704
    program.good("import", "backlog", stdin=(STREAMS / "backlog.trc").read_bytes())
    said = program.good("top", "backlog", "--by", "process", "--sort", "waiting").decode().splitlines()
    same(said[1].split(), ["0", "2", "668", "299", "<nonode@nohost.80.0.0>"])


@case
def processes_are_in_the_order_of_what_waits(program):
    to = {"to": pid(2)}
    stored_as(program, [call(1, "f"), call(1, "f"), call(2, "f"), sends(1, **to), sends(1, **to), receives(2), sends(1)])
    said = program.good("top", "t", "--by", "process", "--sort", "waiting").decode().splitlines()
    same([line.split() for line in said[:4]], [
        ["calls", "sent", "received", "waiting", "process"],
        ["1", "0", "1", "2", pid_text(2)],
        ["0", "0", "0", "1", pid_text(99)],
        ["2", "3", "0", "-", pid_text(1)],
    ])


@case
def a_long_message_is_counted_once_and_is_lost_where_its_first_part_stands(program):
    long = call(1, "f")[5:].replace(b"\x6b\x00\x02\x07\x08", b"\x6c\x00\x00\x00\x01\x6d" + struct.pack(">I", 90_000) + bytes(90_000) + b"\x6a")
    entries = [sends(1), message(long), receives(1)]
    program.good("import", "t", stdin=b"".join(entries))
    count = check(program, "t", kept(b"".join(entries)))
    same((count.messages, count.lost, list(count.functions)), (3, 0, ["m:f/1"]))
    first, second = fragments(long)
    (program.folder / "part").write_bytes(segment(FILE_HEADER, first, sends(1)))
    count = check(program, "part", [first, sends(1)])
    same((count.messages, count.lost), (1, 1))
    (program.folder / "w1").write_bytes(segment(wrap_header(1, before=2), sends(1) + second))
    (program.folder / "w2").write_bytes(segment(wrap_header(2, before=4), sends(2)))
    same(check(program, "w", [sends(1), second, sends(2)]).lost, 0)


@case
def what_otp_traced_is_counted(program):
    for name in TRACES:
        stream = stream_of(name)
        program.good("import", name, stdin=stream)
        check(program, name, kept(stream))
        program.good("import", f"{name}-wrap", *WRAP, "--size", "2000", "--count", "3", stdin=stream)
        check(program, f"{name}-wrap", split(program.good("export", f"{name}-wrap")))


@case
def a_stream_is_counted_as_its_trace_is(program):
    for name in TRACES:
        stream = stream_of(name)
        check(program, "-", kept(stream), stdin=stream)
    check(program, "-", MIXED[:2], "--only", "call", "--to", "2", stdin=b"".join(MIXED))
    # what comes before the end of a stream that ends within an entry, and before a byte that begins none
    stream = b"".join(MIXED)
    for rest, says in ((message(b"\x83j")[:-1], "3 Truncated"), (b"\2", "4 BadOp")):
        outcome = program.run("top", "--json", "-", stdin=stream + rest)
        same((outcome.status, outcome.errors), (1, f"dbgrec: refused {says} at {len(stream)}\n".encode()))
        same(told_rows(json.loads(outcome.output), "function"), Count(MIXED).rows("function"))
    # what a damaged trace holds before its damage
    data, _ = damaged(*MIXED)
    (program.folder / "t").write_bytes(data)
    check(program, "-", MIXED, stdin=program.run("export", "--salvage", "t").output)
    program.refused("top", "-", stdin=b"hello", says="dbgrec: refused 4 BadOp at 0\nthat is no entry stream, as a node writes it: list shows a stored trace")
    same(sorted(stored(program.folder)), ["t"])


@case
def a_table_counts_the_messages_of_a_listing(program):
    for name in TRACES:
        program.good("import", name, stdin=stream_of(name))
        listed = [json.loads(line) for line in program.good("list", "--json", name).splitlines()]
        kinds = [line["kind"] for line in listed if line["kind"] not in ("drop", "opaque", "part", "end_of_trace")]
        said = told_rows(top(program, name, "--by", "kind", "--limit", "100"), "kind")
        same(said, {kind: {"count": kinds.count(kind)} for kind in kinds})
        calls = [line["mfa"] for line in listed if line["kind"] == "call"]
        said = told_rows(top(program, name, "--limit", "100000"), "function")
        same({name: row["calls"] for name, row in said.items() if row["calls"]}, {name: calls.count(name) for name in calls})


# ---- order, limit and text

# the column by which each word puts functions in order
COLUMNS = {"count": "calls", "exceptions": "exceptions", "total": "total", "mean": "mean", "longest": "longest", "waiting": "calls"}

FIRST = {"process": "calls", "kind": "count"}


def column_of(by, words, column):
    """The column by which these words put rows in order, of which functions have this one."""
    return "waiting" if (by, words) == ("process", ("--sort", "waiting")) else FIRST.get(by, column)

MIXED = [
    *(call(1, "f", 10), call(1, "g", 20), fails(1, "g", 25), returns(1, "f", 3_000_100)),
    *(call(2, "g", 4_000_000), returns(2, "g", 4_000_007), call(3, "h", 4_000_010), sends(2, 4_000_011), drop(2)),
]


def ordered(rows, column):
    """The names of rows in the order of a column, the greatest first, and then of their texts."""
    return sorted(rows, key=lambda name: (-(rows[name][column] or 0), name.encode()))


def seconds(nanoseconds):
    return f"{nanoseconds // 10**9}.{nanoseconds // 1_000 % 10**6:06}"


def short(nanoseconds):
    """A time in a row."""
    if nanoseconds is None:
        return "-"
    if nanoseconds < 1_000:
        return f"{nanoseconds}ns"
    if nanoseconds < 10**6:
        return f"{nanoseconds // 1_000}us"
    if nanoseconds < 10**9:
        return f"{nanoseconds // 10**6}.{nanoseconds // 10**5 % 10}ms"
    return f"{nanoseconds // 10**9}.{nanoseconds // 10**6 % 1_000:03}s"


def course_of(count):
    """The lines of bars."""
    share, messages, lost = count.shares()
    most = max(messages)
    if not most:
        return
    yield "".join(" ▁▂▃▄▅▆▇█"[-(-8 * bar // most)] for bar in messages)
    if sum(lost):
        yield "".join("x" if bar else " " for bar in lost) + f" {sum(lost)} lost"
    passed = max(0, count.moments[-1] - count.moments[0]) if count.moments else 0
    if passed:
        yield f"{most * 10**9 // share} messages a second at the most, {count.messages * 10**9 // passed} on average"


def lines_of(count, by, names, more=0):
    """The words of the lines of a table with the rows of these names."""
    has_times = bool(count.moments)
    columns = {"function": ["calls", "exceptions", *(["total", "own", "mean", "longest"] if has_times else []), "open"], "process": ["calls", "sent", "received", "waiting"], "kind": ["count"]}[by]
    yield [*columns, by]
    for name in names:
        row = count.rows(by)[name]
        yield [*(short(row[column]) if column in ("total", "own", "mean", "longest") else str("-" if row[column] is None else row[column]) for column in columns), name]
    if more:
        yield f".. and {more} more".split()
    if by == "function" and count.unpaired() != (0, 0):
        yield "{} calls without an end, {} ends without a call".format(*count.unpaired()).split()
    if by == "function" and not has_times:
        yield "no times: trace with the flag timestamp or monotonic_timestamp to have them".split()
    yield from (line.split() for line in course_of(count))
    said = f"{count.messages} messages" + (f", {count.unread} unread" if count.unread else "") + (f", {count.lost} lost" if count.lost else "")
    yield (said + (f", over {seconds(max(0, count.moments[-1] - count.moments[0]))} seconds" if has_times else "")).split()


@case
def rows_are_in_the_order_that_is_asked_for(program):
    for name, stream in (("t", b"".join(MIXED)), *((name, stream_of(name)) for name in TRACES)):
        program.good("import", name, stdin=stream)
        count = Count(kept(stream))
        for by in ("function", "process", "kind"):
            for words, column in (((), "total" if count.moments else "calls"), *((("--sort", word), column) for word, column in COLUMNS.items())):
                said = top(program, name, "--by", by, *words, "--limit", "100000")
                same((name, by, words, [row[by] for row in said["rows"]]), (name, by, words, ordered(count.ranked(by), column_of(by, words, column))))


@case
def a_limit_shows_the_first_rows(program):
    count = Count(stored_as(program, MIXED))
    names = ordered(count.rows("function"), "total")
    same(names, ["m:f/2", "m:g/2", "m:h/2"])
    for limit in (0, 1, 2, 3, 4, 2**32 - 1):
        said = top(program, "t", "--limit", str(limit))
        same([row["function"] for row in said["rows"]], names[:limit])
        same(said["messages"], 8)
        lines = [line.split() for line in program.good("top", "t", f"--limit={limit}").decode().splitlines()]
        same((limit, lines), (limit, list(lines_of(count, "function", names[:limit], max(0, 3 - limit)))))
    entries = [call(1, f"f{number}") for number in range(30)]
    stored_as(program, entries, "many")
    same(len(top(program, "many")["rows"]), 20)


@case
def each_row_is_a_line_with_its_numbers(program):
    stored_as(program, MIXED)
    said = program.good("top", "t").decode().splitlines()
    same([line.split() for line in said[1:4]], [
        ["1", "0", "3.000s", "3.000s", "3.000s", "3.000s", "0", "m:f/2"],
        ["2", "1", "12us", "12us", "6us", "7us", "0", "m:g/2"],
        ["1", "0", "-", "-", "-", "-", "0", "m:h/2"],
    ])
    # 60 shares of 2^26 nanoseconds, of which three have 3, 1 and 4 messages
    same(said[4:], [
        "1 calls without an end, 0 ends without a call",
        "▆" + " " * 43 + "▂" + " " * 14 + "█",
        " " * 59 + "x 2 lost",
        "59 messages a second at the most, 1 on average",
        "8 messages, 2 lost, over 4.000001 seconds",
    ])
    assert all(len(line) < 80 for line in said), said
    # each number stands under the end of its column's name
    for line in said[1:4]:
        same(line[: said[0].index("  function")][-1], line.split("  m:")[0][-1])
        same(line.index("m:"), said[0].index("function"))
    for name in TRACES:
        entries = kept(stream_of(name))
        program.good("import", name, stdin=stream_of(name))
        count = Count(entries)
        for by in ("function", "process", "kind"):
            column = FIRST.get(by, "total" if count.moments else "calls")
            lines = [line.split() for line in program.good("top", name, "--by", by, "--limit", "9").decode().splitlines()]
            names = ordered(count.rows(by), column)
            same((name, by, lines), (name, by, list(lines_of(count, by, names[:9], max(0, len(names) - 9)))))


# ---- traces that are written, cleared, refused or not there


@case
def a_trace_is_counted_while_it_is_written_and_stays_as_it_is(program):
    for kind in ((), WRAP):
        with program.start("import", "t", "--keep-open", "--flush", "always", *kind) as importer:
            same(importer.opens(), "created")
            importer.write(call(1, "f", 5) + drop(2))
            while b"entries: 2 (0 to 1)" not in program.good("info", "t"):
                pass
            before = stored(program.folder)
            check(program, "t", [call(1, "f", 5), drop(2)])
            same(stored(program.folder), before)
            same(importer.end().output, b"kept 2\n")
        program.good("wipe", "t")
        said = top(program, "t")
        same(said, {"by": "function", "rows": []} | Count([]).summary())
        same(program.good("top", "t").decode().splitlines()[-1], "0 messages")
        for file in list(program.folder.glob("t*")):
            file.unlink()


@case
def a_wrap_is_counted_as_far_as_it_is_kept(program):
    entries = [call(number % 3, f"f{number % 4}", number) for number in range(60)] + [drop(4)] + [returns(number, "f1", 90) for number in range(3)]
    program.good("import", "t", *WRAP, "--size", "600", "--count", "2", "--suffix", ".bin", stdin=b"".join(entries))
    left = split(program.good("export", "t", "--suffix", ".bin"))
    assert 5 < len(left) < 40 and left == entries[-len(left) :], len(left)
    check(program, "t", left, "--suffix", ".bin", "--kind", "wrap", "--count", "2")
    says = "dbgrec: t: --count is 3, and the trace's is 2"
    program.refused("top", "t", "--suffix", ".bin", "--count", "3", says=says)


@case
def a_trace_that_is_refused_has_no_table(program):
    data, place = damaged(call(1, "f"), drop(1), call(1, "g"))
    (program.folder / "t").write_bytes(data)
    says = f"dbgrec: refused 1 Damaged file 0 at {place}\nt is damaged there: list shows the entries before it, wipe clears the trace"
    counted = "dbgrec export --salvage {} | dbgrec top - counts what its files hold"
    for words in ((), ("--json",), ("--by", "kind")):
        program.refused("top", "t", *words, says=f"{says}\n{counted.format('t')}")
    (program.folder / "w1").write_bytes(segment(wrap_header(1, before=2), drop(1) + drop(1)))
    (program.folder / "w2").write_bytes(segment(wrap_header(2, before=4, size=99), drop(1)))
    says = f"dbgrec: refused 2 Mixed\nw1 and w2 don't belong together: list --salvage shows each\n{counted.format('w')}"
    program.refused("top", "w", says=says)
    same(sorted(stored(program.folder)), ["t", "w1", "w2"])


@case
def what_is_no_trace_is_refused_by_top_as_by_list(program):
    (program.folder / "text").write_bytes(b"important text\n")
    (program.folder / "none").write_bytes(b"")
    (program.folder / "stream").write_bytes((STREAMS / "plain.trc").read_bytes())
    for name in ("text", "none", "stream", "nosuch"):
        for words in ((name,), (name, "--json")):
            said = program.run("list", name)
            same(said.status, 1)
            same(program.run("top", *words), Outcome(1, b"", said.errors))


@case
def a_word_that_top_does_not_know_is_refused(program):
    stored_as(program, MIXED)
    for words in (("--by", "module"), ("--by", ""), ("--sort", "size"), ("--limit", "x"), ("--limit", "4294967296"), ("--limit=-1",), ("--count", "0"), ("--follow",), ("x",)):
        outcome = program.run("top", "t", *words)
        same((words, outcome.status, outcome.output), (words, 2, b""))
        assert outcome.errors.startswith(b"error: "), outcome
    same((program.run("top").status, program.run("top").output), (2, b""))


@case
def a_table_that_cannot_be_written_is_told(program):
    stored_as(program, MIXED)
    for words in ((), ("--json",), ("--by", "process")):
        with open("/dev/full", "wb") as full:
            ran = subprocess.run([program.path, "top", "t", *words], cwd=program.folder, stdin=subprocess.DEVNULL, stdout=full, stderr=subprocess.PIPE, timeout=PATIENCE, check=False)
        why = b"standard output can't be written: No space left on device (os error 28)\n"
        same((ran.returncode, ran.stderr), (1, b"dbgrec: refused 2 Write\n" + why))


@case
def a_long_trace_is_counted_in_little_memory(program):
    entry = call(1, "f") + returns(1, "f")
    (program.folder / "t").write_bytes(segment(FILE_HEADER, *[entry * 1_000] * 200))
    small = ("bash", "-c", 'ulimit -v 24000; exec "$@"', "bash")
    outcome = program.run("top", "t", "--json", before=small)
    same((outcome.status, outcome.errors), (0, b""))
    same(told_rows(json.loads(outcome.output), "function"), {F: {"calls": 200_000, "returns": 200_000, "exceptions": 0, "open": 0} | dict.fromkeys(("total", "own", "mean", "longest"))})
