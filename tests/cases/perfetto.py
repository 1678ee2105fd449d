"""Cases of `export --as perfetto`. What is expected is worked out by hand, by the text of docs/FORMATS.md; `checked` has the
rules of the format that hold of each trace."""

import json
import os
import re
import shutil
import struct
import subprocess

from cases import STREAMS, Skipped, group, stored
from entries import drop, kept, message, opaque
from importing import TRACES, stream_of
from program import PATIENCE, Outcome, same
from telling import damaged
from terms import short_atom
from top import Count, call, exported, fails, function, pid, pid_text, returns, stored_as, told_at, whole

CASES, case = group()

ONE, TWO = pid_text(1), pid_text(2)

DRAWN = ("export", "--as", "perfetto")

NO_TIMES = b"dbgrec: no times: trace with the flag timestamp or monotonic_timestamp to have them\n"

# the events that an entry may have beside its own
BESIDE = ("M", "s", "f")


# ---- the rules of the format


class Track:
    """The events of one track, in order."""

    def __init__(self):
        self.now, self.open, self.before = 0.0, [], None

    def take(self, event):
        assert event["ts"] >= self.now, f"{event} is before {self.now}"
        self.now = event["ts"]
        if event["ph"] == "B":
            self.open.append(event["name"])
        elif event["ph"] == "E":
            same(event["name"], self.open.pop())
        elif event["ph"] == "X":
            same(event["dur"], 0)
        elif event["ph"] in "sf":
            slice_of_it = {"s": "send", "f": "receive"}[event["ph"]]
            same((self.before["ph"], self.before["name"], self.before["ts"]), ("X", slice_of_it, event["ts"]))
        self.before = event


def checked(events):
    """Events that follow the rules: each end is of the innermost slice of its track, times don't go back there, an arrow ends at
    most once and after it began, and each track is named before its first event."""
    same((events[0]["ph"], events[0]["name"], events[0]["tid"]), ("M", "process_name", 0))
    tracks, begun, ended = {}, set(), set()
    for event in events:
        same((event["pid"], type(event["name"])), (1, str))
        if event["ph"] == "M" and event["tid"]:
            same((event["name"], event["tid"]), ("thread_name", len(tracks) + 1))
            tracks[event["tid"]] = Track()
        elif event["tid"]:
            tracks[event["tid"]].take(event)
        elif event["ph"] != "M":
            same((event["ph"], event["s"]), ("i", "g"))
        if event["ph"] == "s":
            assert event["id"] not in begun, event
            begun.add(event["id"])
        elif event["ph"] == "f":
            same((event["id"] in begun, event["id"] in ended, event["bp"]), (True, False, "e"))
            ended.add(event["id"])
        elif event["ph"] == "i" and event["tid"]:
            same(event["s"], "t")
    for track in tracks.values():
        same(track.open, [])
    return events


def drawn_as(said):
    """The object that was written, each of whose events stands on a line."""
    lines = said.decode().splitlines()
    same(lines[0], '{"displayTimeUnit":"ns","traceEvents":[')
    for line in lines[1:-1]:
        assert isinstance(json.loads(line.removesuffix(",")), dict), line
    for time in re.findall(r'"ts":([^,}]*)', said.decode()):
        assert re.fullmatch(r"\d+\.\d{3}", time), time
    return json.loads(said)


def drawn(program, *entries, timed=True):
    """What is drawn of a trace of these entries."""
    stored_as(program, entries)
    outcome = program.run(*DRAWN, "t")
    same((outcome.status, outcome.errors), (0, b"" if timed else NO_TIMES))
    program.good("wipe", "t")
    told = drawn_as(outcome.output)
    events = checked(told["traceEvents"])
    # each entry has an event of its own, which tells it
    own = [event for event in events if event["ph"] not in BESIDE and "args" in event]
    same(len(own), len(exported(list(entries))))
    return told


def short(event):
    """An event in a line: what it is, its track, its microseconds, its name, and what else it has."""
    told = f"{event['ph']} {event['tid']} {event.get('ts', '-')} {event['name']}"
    return told + (f" {event['id']}" if "id" in event else "")


def events_of(program, *entries, timed=True):
    """The events of a trace in short, but for those that name something."""
    return [short(event) for event in drawn(program, *entries, timed=timed)["traceEvents"] if event["ph"] != "M"]


# ---- messages


def map_of(key, value):
    return b"\x74\x00\x00\x00\x01" + key + value


def binary(text):
    return b"\x6d" + struct.pack(">I", len(text)) + text


def string(text):
    return b"\x6b" + struct.pack(">H", len(text)) + text


def tuple_of(*members):
    return b"\x68" + bytes([len(members)]) + b"".join(members)


def sends(number, to, what, at=None):
    return told_at(number, "send", what, to if isinstance(to, bytes) else pid(to), at=at)


def receives(number, what, at=None):
    return told_at(number, "receive", what, at=at)


def exits(number, at=None):
    return told_at(number, "exit", short_atom("normal"), at=at)


# ---- slices


@case
def a_drawing_is_an_object_of_events(program):
    entries = (call(1, "f", 10), call(1, "g", 20), returns(1, "g", 50), sends(1, 2, b"\x61\x07", 60), receives(2, b"\x61\x07", 61), fails(1, "f", 100))
    args, arity = "{m,f,[7,8]}", "{m,f,2}"
    events = [
        {"name": "process_name", "ph": "M", "pid": 1, "tid": 0, "args": {"name": "Erlang trace"}},
        {"name": "thread_name", "ph": "M", "pid": 1, "tid": 1, "args": {"name": ONE}},
        {"name": "m:f/2", "ph": "B", "pid": 1, "tid": 1, "ts": 0.0, "args": {"call": f"{{trace_ts,{ONE},call,{args},{{0,0,10}}}}"}},
        {"name": "m:g/2", "ph": "B", "pid": 1, "tid": 1, "ts": 10.0, "args": {"call": f"{{trace_ts,{ONE},call,{{m,g,[7,8]}},{{0,0,20}}}}"}},
        {"name": "m:g/2", "ph": "E", "pid": 1, "tid": 1, "ts": 40.0, "args": {"return": f"{{trace_ts,{ONE},return_from,{{m,g,2}},ok,{{0,0,50}}}}"}},
        {"name": "send", "ph": "X", "pid": 1, "tid": 1, "ts": 50.0, "dur": 0, "args": {"send": f"{{trace_ts,{ONE},send,7,{TWO},{{0,0,60}}}}"}},
        {"name": "message", "ph": "s", "pid": 1, "tid": 1, "ts": 50.0, "cat": "message", "id": 1},
        {"name": "thread_name", "ph": "M", "pid": 1, "tid": 2, "args": {"name": TWO}},
        {"name": "receive", "ph": "X", "pid": 1, "tid": 2, "ts": 51.0, "dur": 0, "args": {"receive": f"{{trace_ts,{TWO},'receive',7,{{0,0,61}}}}"}},
        {"name": "message", "ph": "f", "pid": 1, "tid": 2, "ts": 51.0, "cat": "message", "id": 1, "bp": "e"},
        {"name": "m:f/2", "ph": "E", "pid": 1, "tid": 1, "ts": 90.0, "args": {"exception": f"{{trace_ts,{ONE},exception_from,{arity},{{error,badarg}},{{0,0,100}}}}"}},
    ]
    other = {"times": "from the first one, in microseconds", "first_time_in_nanoseconds": "10000"}
    whole = {"displayTimeUnit": "ns", "traceEvents": events, "otherData": other}
    same(drawn(program, *entries), whole)
    # and of the stream of them, also of one that ends within an entry
    stream = b"".join(entries)
    same(drawn_as(program.good(*DRAWN, "-", stdin=stream)), whole)
    outcome = program.run(*DRAWN, "-", stdin=stream + b"\0")
    same((outcome.status, drawn_as(outcome.output), outcome.errors), (1, whole, f"dbgrec: refused 3 Truncated at {len(stream)}\n".encode()))


@case
def a_slice_ends_with_the_one_that_it_is_within(program):
    # a function that calls itself
    found = events_of(program, call(1, "f", 0), call(1, "f", 1), returns(1, "f", 2), fails(1, "f", 3))
    same(found, ["B 1 0.0 m:f/2", "B 1 1.0 m:f/2", "E 1 2.0 m:f/2", "E 1 3.0 m:f/2"])
    # the ends of tail calls aren't told: these have nothing to tell
    entries = (call(1, "f", 0), call(1, "g", 1), call(1, "h", 2), returns(1, "f", 40), returns(1, "g", 41), returns(2, "f", 42), returns(2, "h", 43))
    told = [event for event in drawn(program, *entries)["traceEvents"] if event["ph"] in "Ei"]
    same([(short(event), "args" in event) for event in told], [("E 1 40.0 m:h/2", False), ("E 1 40.0 m:g/2", False), ("E 1 40.0 m:f/2", True), ("i 1 41.0 return", True), ("i 2 42.0 return", True), ("i 2 43.0 return", True)])
    # a process that is back in a function is in none that it called
    back = [told_at(1, "return_to", function(name, b"\x61\x02"), at=at) for name, at in (("f", 25), ("h", 30))]
    found = events_of(program, call(1, "f", 0), call(1, "g", 10), *back, returns(1, "f", 40), returns(2, "g", 50))
    same(found, ["B 1 0.0 m:f/2", "B 1 10.0 m:g/2", "E 1 25.0 m:g/2", "i 1 25.0 return_to", "i 1 30.0 return_to", "E 1 40.0 m:f/2", "i 2 50.0 return"])


@case
def an_exit_and_the_end_of_a_trace_end_slices(program):
    found = events_of(program, call(1, "f", 0), call(1, "g", 1), call(2, "f", 2), exits(1, 30), returns(1, "f", 31), call(1, "h", 32), returns(3, "g", 33), returns(3, "h", 33))
    ends = ["E 1 30.0 m:g/2", "E 1 30.0 m:f/2", "i 1 30.0 exit", "i 1 31.0 return"]
    same(found, ["B 1 0.0 m:f/2", "B 1 1.0 m:g/2", "B 2 2.0 m:f/2", *ends, "B 1 32.0 m:h/2", "i 3 33.0 return", "i 3 33.0 return", "E 1 33.0 m:h/2", "E 2 33.0 m:f/2"])


@case
def what_is_lost_ends_all_slices(program):
    for lost, name in ((drop(1), "lost"), (message(b"\x83" + b"x" * 8), "opaque")):
        found = events_of(program, call(1, "f", 0), call(2, "f", 1), call(1, "g", 4), returns(1, "g", 7), lost, returns(1, "f", 90), call(2, "f", 91), returns(2, "f", 93))
        ends = ["E 1 7.0 m:f/2", "E 2 7.0 m:f/2", f"i 0 7.0 {name}", "i 1 90.0 return"]
        same(found, ["B 1 0.0 m:f/2", "B 2 1.0 m:f/2", "B 1 4.0 m:g/2", "E 1 7.0 m:g/2", *ends, "B 2 91.0 m:f/2", "E 2 93.0 m:f/2"])
    found = events_of(program, *kept(stream_of("drop_between")))
    lost = ["E 1 2000.0 m:f/1", "i 0 2000.0 lost", "i 1 5000000.0 return"]
    same(found, ["B 1 0.0 m:f/1", "E 1 1000.0 m:f/1", "B 1 2000.0 m:f/1", *lost, "B 1 6000000.0 m:f/1", "E 1 6000100.0 m:f/1"])


@case
def a_call_whose_end_is_never_told_is_a_mark(program):
    found = events_of(program, call(1, "f", 0), call(1, "h", 5), call(1, "g", 10), returns(1, "g", 12), returns(1, "f", 20))
    same(found, ["B 1 0.0 m:f/2", "i 1 5.0 m:h/2", "B 1 10.0 m:g/2", "E 1 12.0 m:g/2", "E 1 20.0 m:f/2"])
    # of all functions there one tells its ends
    slices = [line.split()[-1] for line in events_of(program, *kept(stream_of("calls_without_returns"))) if line[0] in "BE"]
    same(slices, ["lists:seq/2"] * 54)


@case
def a_loop_of_calls_has_few_slices(program):
    many = [call(1, "f", 1)] * 20
    found = [line.split()[0] for line in events_of(program, *many, *[returns(1, "f", 2)] * 20)]
    same(found, ["B"] * 8 + ["i"] * 12 + ["i"] * 12 + ["E"] * 8)
    # within it others are slices, and each end is that of the innermost call
    found = [line.split()[0] for line in events_of(program, *many[:10], call(1, "g", 3), *many[:2], *[returns(1, "f", 4)] * 2, returns(1, "g", 5), *[returns(1, "f", 6)] * 10)]
    same(found, ["B"] * 8 + ["i"] * 2 + ["B"] + ["B"] * 2 + ["E"] * 2 + ["E"] + ["i"] * 2 + ["E"] * 8)


@case
def of_more_open_calls_the_outermost_are_slices(program):
    many = 300
    entries = [call(1, f"f{at}", at) for at in range(many)] + [returns(1, f"f{many - 1 - at}", many + at) for at in range(many)]
    found = [line.split()[0] for line in events_of(program, *entries)]
    same(found, ["B"] * 256 + ["i"] * 44 + ["i"] * 44 + ["E"] * 256)


# ---- as a page draws them


def loaded(page, asked, *words):
    """What a browser without a window makes of a page that reads a file."""
    command = ["chromium", "--headless", "--no-sandbox", "--disable-gpu", "--allow-file-access-from-files", "--virtual-time-budget=20000", *words, f"{page.as_uri()}?{asked.as_uri()}"]
    return subprocess.run(command, capture_output=True, timeout=PATIENCE, check=True).stdout.decode()


@case
def a_page_draws_every_event(program):
    if shutil.which("chromium") is None:
        raise Skipped("there is no chromium")
    page, file, picture = STREAMS / "events.html", program.folder / "t.json", program.folder / "t.png"
    for name in TRACES:
        program.good("import", "t", stdin=stream_of(name))
        file.write_bytes(program.run(*DRAWN, "t").output)
        program.good("wipe", "t")
        count = dict.fromkeys("BEXisf", 0)
        tracks = 0
        for event in json.loads(file.read_bytes())["traceEvents"]:
            count[event["ph"]] = count.get(event["ph"], 0) + 1
            tracks += event["name"] == "thread_name"
        said = re.search(r'<p id="told">([^<]*)</p>', loaded(page, file, "--dump-dom"))
        marks = count["X"] + count["i"]
        same((name, said[1]), (name, f"{tracks} tracks, {count['B']} slices, {marks} marks, {count['f']} arrows of {count['s']} sends, 0 faults"))
    loaded(page, file, f"--screenshot={picture}", "--window-size=1200,900")
    assert picture.read_bytes().startswith(b"\x89PNG"), picture


# ---- arrows


@case
def an_arrow_goes_from_a_send_to_its_receive(program):
    one, two = b"\x61\x01", b"\x61\x02"
    entries = (sends(1, 2, one, 0), sends(3, 2, one, 1), sends(1, 2, two, 2), sends(1, 3, one, 3), receives(2, two, 4), receives(2, one, 5), receives(2, one, 6), receives(2, one, 7), receives(1, one, 8))
    found = [line.split(" ", 1)[0] + line.split()[-1] for line in events_of(program, *entries) if line[0] in "sf"]
    # the same message goes in the order in which it was sent, and what nobody sent has no arrow
    same(found, ["s1", "s2", "s3", "s4", "f3", "f1", "f2"])
    # a name isn't a process, and what is received first wasn't sent
    same([line[0] for line in events_of(program, receives(2, one, 1), sends(1, short_atom("two"), one, 2), receives(2, one, 3))], ["X", "X", "X"])


@case
def a_message_of_any_form_has_an_arrow(program):
    quoted, text = short_atom("it's, {a"), string(b'",}] \\>')
    forms = [quoted, text, binary(b'"},<<'), binary(b"\x00\x01,"), map_of(quoted, text), map_of(map_of(text, quoted), binary(b"\xff,")), tuple_of(text, pid(4), tuple_of()), b"\x6c\x00\x00\x00\x01" + quoted + b"\x6a", b"\x6c\x00\x00\x00\x01" + text + binary(b"}"), b"\x6a"]
    for form in forms:
        for at in (None, 7):
            found = events_of(program, sends(1, 2, form, at), sends(3, 2, form[:-1] + b"\x03" if form is quoted else b"\x61\x03", at), receives(2, form, at), timed=at is not None)
            same((form, [line.split()[0] + line.split()[-1] for line in found if line[0] in "sf"]), (form, ["s1", "s2", "f1"]))


@case
def a_send_waits_until_many_more_were_sent(program):
    for more, arrows in ((99_999, 1), (100_000, 0)):
        entries = [sends(1, 2, whole(-1), 0), *(sends(1, 2, whole(number), 1) for number in range(more)), receives(2, whole(-1), 2)]
        same((more, sum(line[0] == "f" for line in events_of(program, *entries))), (more, arrows))


# ---- marks and times


@case
def what_is_of_no_process_is_on_all_tracks(program):
    seq = message(b"\x83" + tuple_of(short_atom("seq_trace"), short_atom("l"), tuple_of(short_atom("print"), tuple_of(b"\x61\x00", b"\x61\x01"), pid(1), b"\x6a", b"\x61\x05")))
    spawns = told_at(1, "spawn", pid(2), function("f", b"\x6a"), at=7)
    told = drawn(program, drop(3), spawns, drop(2), opaque(9), seq, told_at(1, "spawn", pid(3), function("f", b"\x6a"), at=9))
    marks = [(short(event), event["s"], list(event["args"].items())[0]) for event in told["traceEvents"] if event["ph"] == "i"]
    same([mark[:2] for mark in marks], [("i 0 0.0 lost", "g"), ("i 1 1.0 spawn", "t"), ("i 0 1.0 lost", "g"), ("i 0 1.0 opaque", "g"), ("i 0 1.0 seq_trace", "g"), ("i 1 3.0 spawn", "t")])
    same([mark[2] for mark in marks[:4]], [("messages", 3), ("spawn", f"{{trace_ts,{ONE},spawn,{TWO},{{m,f,[]}},{{0,0,7}}}}"), ("messages", 2), ("bytes", 9)])
    same(marks[4][2][0], "seq_trace")


@case
def without_times_entries_are_a_microsecond_apart(program):
    told = drawn(program, call(1, "f"), drop(3), call(2, "g"), returns(1, "f"), timed=False)
    same([short(event) for event in told["traceEvents"] if event["ph"] != "M"], ["B 1 0.0 m:f/2", "E 1 1.0 m:f/2", "i 0 1.0 lost", "i 2 2.0 m:g/2", "i 1 3.0 return"])
    says = "numbers of entries as microseconds: trace with the flag timestamp or monotonic_timestamp to have times"
    same(told["otherData"], {"times": says})


@case
def times_do_not_go_back_on_a_track(program):
    found = events_of(program, call(1, "f", 50), call(2, "f", 60), call(1, "g", 40), call(3, "f", 45), returns(1, "g"), returns(2, "f", 55), call(3, "g", 57))
    same(found, ["B 1 0.0 m:f/2", "B 2 10.0 m:f/2", "B 1 0.0 m:g/2", "B 3 0.0 m:f/2", "E 1 0.0 m:g/2", "E 2 10.0 m:f/2", "B 3 7.0 m:g/2", "E 1 10.0 m:f/2", "E 3 10.0 m:g/2", "E 3 10.0 m:f/2"])


@case
def monotonic_times_are_told_in_nanoseconds(program):
    def at(word, time, *members):
        return message(b"\x83" + tuple_of(short_atom("trace_ts"), pid(1), short_atom(word), *members, time))

    of_f, ok = function("f", b"\x61\x02"), short_atom("ok")
    told = drawn(program, at("call", whole(-5), of_f), at("return_from", whole(1_234_562), of_f, ok))
    same([short(event) for event in told["traceEvents"][2:]], ["B 1 0.0 m:f/2", "E 1 1234.567 m:f/2"])
    same(told["otherData"]["first_time_in_nanoseconds"], "-5")
    # the farthest times
    least, most = whole(-(2**63 - 1)), whole(2**63 - 1)
    drawn(program, at("call", least, of_f), at("return_from", most, of_f, ok))
    drawn(program, at("call", most, of_f), at("return_from", least, of_f, ok))


@case
def what_otp_traced_is_drawn(program):
    for name in TRACES:
        entries = kept(stream_of(name))
        times = Count(entries).moments
        told = drawn(program, *entries, timed=bool(times))
        same((name, told["otherData"].get("first_time_in_nanoseconds")), (name, str(times[0]) if times else None))


# ---- faults


@case
def a_trace_that_is_refused_is_not_drawn(program):
    data, place = damaged(call(1, "f", 1), drop(1), call(1, "g", 2))
    (program.folder / "t").write_bytes(data)
    outcome = program.run(*DRAWN, "t")
    says = f"dbgrec: refused 1 Damaged file 0 at {place}\nt is damaged there: list shows the entries before it, wipe clears the trace\n"
    same(outcome, Outcome(1, b"", says.encode()))
    said = program.run("export", "nosuch")
    same(program.run(*DRAWN, "nosuch"), Outcome(1, b"", said.errors))
    same(sorted(stored(program.folder)), ["t"])


@case
def a_drawing_that_cannot_be_written_is_told(program):
    stored_as(program, [call(1, "f", 1), returns(1, "f", 2)] * 50_000)
    with open("/dev/full", "wb") as full:
        ran = subprocess.run([program.path, *DRAWN, "t"], cwd=program.folder, stdin=subprocess.DEVNULL, stdout=full, stderr=subprocess.PIPE, timeout=PATIENCE, check=False)
    why = b"standard output can't be written: No space left on device (os error 28)\n"
    same((ran.returncode, ran.stderr), (1, b"dbgrec: refused 2 Write\n" + why))
    reader, writer = os.pipe()
    os.close(reader)
    with os.fdopen(writer, "wb") as closed:
        ran = subprocess.run([program.path, *DRAWN, "t"], cwd=program.folder, stdin=subprocess.DEVNULL, stdout=closed, stderr=subprocess.PIPE, timeout=PATIENCE, check=False)
    # nobody reads what it would say
    same((ran.returncode, ran.stderr), (1, b""))
