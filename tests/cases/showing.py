"""Cases of `show`: the rows that docs/FORMATS.md says of entries that are made here."""

import calendar
import os
import pty
import signal
import subprocess
import time

from cases import group
from entries import EXAMPLE, drop, message
from following import LONG, SMALL, listed
from program import PATIENCE, read_to_end, same
from terms import short_atom
from top import call, fails, function, pid_text, returns, sends, told_at, whole

CASES, case = group()

# 12:04:31.123456 of the first day of 1970, in microseconds
NOON = 43_471_123_456

# the date of a day that isn't today
DAY = "1970-01-01 "

# what a row without a time has behind one of such a day
NO_TIME = " " * 26

END = "-- end of trace\n"


def stamp_text(micros):
    seconds, micro = divmod(micros, 1_000_000)
    return f"{{{seconds // 1_000_000},{seconds % 1_000_000},{micro}}}"


def call_text(number, name, at):
    return f"{{trace_ts,{pid_text(number)},call,{{m,{name},[7,8]}},{stamp_text(at)}}}"


def return_text(number, name, at):
    return f"{{trace_ts,{pid_text(number)},return_from,{{m,{name},2}},ok,{stamp_text(at)}}}"


def row(number, time, kind, text, inset=0):
    """A row whose time has 15 columns, or 26 with a date."""
    return f"{number:>6}  {time:>15}  {kind:<9} {'':{inset}}{text}\n"


NESTED = [call(1, "f", NOON), call(1, "g", NOON + 1), call(2, "g", NOON + 2), returns(1, "g", NOON + 5), returns(1, "f", NOON + 2_000_010)]

TEXTS = [
    call_text(1, "f", NOON),
    call_text(1, "g", NOON + 1),
    call_text(2, "g", NOON + 2),
    return_text(1, "g", NOON + 5),
    return_text(1, "f", NOON + 2_000_010),
]

TIMES = [DAY + told for told in ("12:04:31.123456", "12:04:31.123457", "12:04:31.123458", "12:04:31.123461", "12:04:33.123466")]

KINDS = ["call", "call", "call", "return", "return"]

INSETS = [0, 2, 0, 2, 0]

TOOK = ["", "", "", "(0.000004 s) ", "(2.000010 s) "]

# what stands before the text where rows have a width
FUNCTIONS = ["m:f/2  ", "m:g/2  ", "m:g/2  ", "m:g/2  ", "m:f/2  "]


def rows(times=TIMES, chosen=range(5), insets=INSETS):
    return "".join(row(n, times[n], KINDS[n], TOOK[n] + TEXTS[n], insets[n]) for n in chosen)


def last_rows(count):
    """The last of them: no function had told an end when it was called."""
    return rows(chosen=range(5 - count, 5), insets=[0] * 5)


def shows(program, expected, *words):
    same(program.good("show", "t", *words).decode(), expected)


ALL = "0 to 4, from 1970-01-01 12:04:31.123456 to 1970-01-01 12:04:33.123466"


def shows_nothing(program, *words, has=ALL, parts=(), shown=END):
    """Nothing is shown, and standard error says what there is instead, and of each part of the choice whether there is any."""
    outcome = program.run("show", "t", *words)
    said = f"dbgrec: t: no message is shown: it has entries {has}\n" + "".join(f"there {part}\n" for part in parts)
    same((outcome.status, outcome.output.decode(), outcome.errors.decode()), (0, shown, said))


@case
def calls_are_shown_with_their_times_and_depths(program):
    program.good("import", "t", stdin=b"".join(NESTED))
    shows(program, rows() + END)
    same(program.good("show", "-", stdin=b"".join(NESTED)).decode(), rows() + END)


@case
def times_are_told_since_the_first_or_the_last(program):
    program.good("import", "t", stdin=b"".join(NESTED))
    shows(program, rows(["+0.000000", "+0.000001", "+0.000002", "+0.000005", "+2.000010"]) + END, "--relative")
    shows(program, rows(["+0.000000", "+0.000001", "+0.000001", "+0.000003", "+2.000005"]) + END, "--delta")
    # since the first that is shown; calls that aren't chosen aren't open
    expected = row(3, "+0.000000", "return", TEXTS[3]) + row(4, "+2.000005", "return", TEXTS[4])
    shows(program, expected + END, "--relative", "--only", "return")


def monotonic(nanos):
    """A send at a time of a monotonic clock."""
    sent = sends(1)[5:].removeprefix(b"\x83\x68\x05\x77\x05trace")
    return message(b"\x83\x68\x06\x77\x08trace_ts" + sent + whole(nanos))


@case
def monotonic_times_are_told_since_the_first(program):
    entries = [monotonic(nanos) for nanos in (-5, 1_000_000_000)]
    program.good("import", "t", stdin=b"".join(entries))
    text = "{trace_ts,<n@h.1.0.1>,send,7,<n@h.99.0.1>,%d}"
    shows(program, row(0, "+0.000000000", "send", text % -5) + row(1, "+1.000000005", "send", text % 1_000_000_000) + END)


@case
def what_shows_no_term_is_told_in_words(program):
    entries = message(b"\x83") + drop(1) + drop(3) + call(1, "f")
    program.good("import", "t", stdin=entries)
    expected = [
        "     0  opaque    a message of 1 bytes that is no term, or too long\n",
        "     1  drop      1 message was lost here\n",
        "     2  drop      3 messages were lost here\n",
        "     3  call      {trace,<n@h.1.0.1>,call,{m,f,[7,8]}}\n",
    ]
    shows(program, "".join(expected) + END)


def imports_anew(program, entries):
    """Begins the trace t with these entries, which may be there."""
    if (program.folder / "t").exists():
        program.good("wipe", "t")
    program.good("import", "t", stdin=b"".join(entries))


def shown_so(program, entries, *expected):
    """The rows of these entries, each by its kind, its columns for open calls and the seconds of a call."""
    imports_anew(program, entries)
    found = program.good("show", "t").decode().splitlines()
    same(found.pop() + "\n", END)
    same(len(found), len(expected))
    for line, (kind, inset, took) in zip(found, expected):
        told = line[len("     0  ") + len(DAY) + len("12:04:31.123456  ") :]
        begins = f"{kind:<9} {'':{inset}}{took}"
        assert told.startswith(begins) and told[len(begins)] != " ", line


@case
def a_loss_ends_what_is_open(program):
    lost = {"drop": drop(2), "opaque": message(b"\x83")}
    for kind, entry in lost.items():
        late = NOON + 5_000_000
        shown_so(
            program,
            [call(1, "f", NOON), call(2, "f", NOON + 1), entry, returns(1, "f", late), call(1, "f", late + 1), call(1, "g", late + 2), returns(1, "g", late + 3), returns(1, "f", late + 4), returns(2, "f", late + 5)],
            ("call", 0, ""),
            ("call", 0, ""),
            (kind, 0, ""),
            ("return", 0, ""),
            ("call", 0, ""),
            ("call", 2, ""),
            ("return", 2, "(0.000001 s) "),
            ("return", 0, "(0.000003 s) "),
            ("return", 0, ""),
        )


@case
def a_call_that_never_tells_its_end_opens_nothing(program):
    shown_so(program, [call(1, name, NOON) for name in "fgfgf"], *[("call", 0, "")] * 5)
    # none of the calls of f tells its end
    entries = [call(1, "f", NOON), call(1, "g", NOON + 1), call(1, "f", NOON + 2), returns(1, "g", NOON + 3), call(1, "g", NOON + 4), fails(1, "g", NOON + 6)]
    shown_so(program, entries, ("call", 0, ""), ("call", 0, ""), ("call", 2, ""), ("return", 0, "(0.000002 s) "), ("call", 0, ""), ("exception", 0, "(0.000002 s) "))


def back_to(number, name, at):
    return told_at(number, "return_to", function(name, b"\x61\x02"), at=at)


@case
def who_is_back_in_a_function_has_left_what_it_called(program):
    entries = [call(1, "f", NOON), call(1, "g", NOON + 1), back_to(1, "f", NOON + 2), call(1, "g", NOON + 3), returns(1, "g", NOON + 4), back_to(1, "h", NOON + 5), returns(1, "f", NOON + 7)]
    shown_so(program, entries, ("call", 0, ""), ("call", 2, ""), ("return_to", 2, ""), ("call", 2, ""), ("return", 2, "(0.000001 s) "), ("return_to", 2, ""), ("return", 0, "(0.000007 s) "))


@case
def calls_of_one_function_within_each_other_go_in_eight_times(program):
    calls = [call(1, "f", NOON + n) for n in range(12)]
    ends = [returns(1, "f", NOON + 12 + n) for n in range(12)]
    expected = [("call", 2 * min(n, 8), "") for n in range(12)]
    expected += [("return", 2 * min(11 - n, 8), f"(0.{2 * n + 1:06} s) ") for n in range(12)]
    shown_so(program, calls + ends, *expected)


@case
def a_day_that_is_not_today_is_told(program):
    def today():
        return time.time_ns() // 86_400_000_000_000

    day = today()
    midnight = day * 86_400_000_000
    moments = [midnight - 1, midnight, midnight + NOON, midnight + 86_400_000_000, midnight]
    program.good("import", "t", stdin=b"".join(call(number, "f", at) for number, at in enumerate(moments)))
    found = [line[8:].split("  ")[0] for line in in_zone(program, "UTC").splitlines()]
    if today() != day:
        # it is midnight
        return
    dates = [time.strftime("%Y-%m-%d ", time.gmtime(86_400 * (day + more))) for more in (-1, 0, 1)]
    expected = [dates[0] + "23:59:59.999999", dates[1] + "00:00:00.000000", "12:04:31.123456", dates[2] + "00:00:00.000000", dates[1] + "00:00:00.000000"]
    same(found[:5], expected)


@case
def entries_without_a_time_leave_its_column_empty(program):
    program.good("import", "t", stdin=drop(2) + NESTED[0] + drop(2))
    first = "     0  drop      2 messages were lost here\n"
    shows(program, first + row(1, TIMES[0], "call", TEXTS[0]) + row(2, NO_TIME, "drop", "2 messages were lost here") + END)


@case
def exceptions_end_calls_and_exits_end_all(program):
    entries = [call(1, "f", NOON), fails(1, "f", NOON + 7), call(1, "g", NOON), told_at(1, "exit", b"\x61\x07", at=NOON), call(1, "f", NOON)]
    program.good("import", "t", stdin=b"".join(entries))
    found = program.good("show", "t").decode().splitlines()
    assert found[1].startswith("     1  1970-01-01 12:04:31.123463  exception (0.000007 s) {trace_ts,"), found[1]
    assert found[3].startswith("     3  1970-01-01 12:04:31.123456  exit      {trace_ts,"), found[3]
    assert found[4].startswith("     4  1970-01-01 12:04:31.123456  call      {trace_ts,"), found[4]


def in_zone(program, zone, *words):
    """What `show` shows of the trace t in a zone."""
    outcome = program.run("show", "t", *words, env=os.environ | {"TZ": zone})
    same((outcome.status, outcome.errors), (0, b""))
    return outcome.output.decode()


def later(times, hours, minutes=0):
    """The same, told by clocks that are ahead."""
    return [f"{time[:11]}{int(time[11:13]) + hours:02}:{int(time[14:16]) + minutes:02}{time[16:]}" for time in times]


@case
def times_of_day_are_those_of_the_zone(program):
    program.good("import", "t", stdin=b"".join(NESTED))
    for zone, hours, minutes in (("Europe/Berlin", 1, 0), (":Europe/Berlin", 1, 0), ("/usr/share/zoneinfo/Europe/Berlin", 1, 0), ("Asia/Kolkata", 5, 30), ("CET-1CEST,M3.5.0,M10.5.0/3", 1, 0), ("<-0330>3:30", -4, 30)):
        same(in_zone(program, zone), rows(later(TIMES, hours, minutes)) + END)
        same(in_zone(program, zone, "--utc"), rows() + END)
    for zone in ("UTC", "", "Nowhere/Else", "/dev/null", "../zoneinfo"):
        same(in_zone(program, zone), rows() + END)
    # what passed is the same in each
    same(in_zone(program, "Asia/Kolkata", "--delta"), rows(["+0.000000", "+0.000001", "+0.000001", "+0.000003", "+2.000005"]) + END)


@case
def times_of_day_are_taken_as_they_are_told(program):
    program.good("import", "t", stdin=b"".join(NESTED))
    told = later(TIMES, 5, 30)
    same(in_zone(program, "Asia/Kolkata", "--since", "17:34:31.123459"), rows(told, chosen=(3, 4)) + END)
    same(in_zone(program, "Asia/Kolkata", "--since", "12:04:31", "--until", "17:34:32"), rows(told, chosen=range(4)) + END)
    between = ("--since", "1970-01-01T17:34:31.123457", "--until", "1970-01-01T17:34:31.123458")
    same(in_zone(program, "Asia/Kolkata", *between), rows(told, chosen=(1, 2)) + END)
    shows_nothing(program, *between, "--utc")


def seconds_of(*parts):
    return calendar.timegm((*parts, 0, 0, 0))


@case
def a_change_of_the_clock_within_a_trace_is_told(program):
    # clocks go from 02:00 to 03:00 on 29 March 2026, and from 03:00 to 02:00 on 25 October
    spring, autumn = seconds_of(2026, 3, 29, 1, 0, 0), seconds_of(2026, 10, 25, 1, 0, 0)
    moments = [(spring - 1) * 1_000_000, spring * 1_000_000, (autumn - 1) * 1_000_000, autumn * 1_000_000]
    program.good("import", "t", stdin=b"".join(call(number, "f", at) for number, at in enumerate(moments)))
    told = ["2026-03-29 01:59:59.000000", "2026-03-29 03:00:00.000000", "2026-10-25 02:59:59.000000", "2026-10-25 02:00:00.000000"]
    expected = [row(number, time, "call", call_text(number, "f", at)) for number, (time, at) in enumerate(zip(told, moments))]
    for zone in ("Europe/Berlin", "CET-1CEST,M3.5.0,M10.5.0/3"):
        same(in_zone(program, zone), "".join(expected) + END)
        same(in_zone(program, zone, "--since", "2026-10-25T02:00:00"), "".join(expected[2:]) + END)
        same(in_zone(program, zone, "--since", "02:30:00", "--until", "03:00:00"), "".join(expected[1:3]) + END)


@case
def a_day_before_the_first_is_told(program):
    program.good("import", "t", stdin=call(1, "f", 1_000_000))
    expected = row(0, "1969-12-31 19:00:01.000000", "call", call_text(1, "f", 1_000_000)) + END
    same(in_zone(program, "America/New_York"), expected)
    same(in_zone(program, "America/New_York", "--since", "19:00:01", "--until", "19:00:01"), expected)


@case
def entries_that_are_chosen_are_shown(program):
    program.good("import", "t", stdin=b"".join(NESTED))
    shows(program, row(2, TIMES[2], "call", TEXTS[2]) + END, "--pid", "n@h.2.0.1")
    shows(program, row(3, TIMES[3], "return", TEXTS[3]) + row(4, TIMES[4], "return", TEXTS[4]) + END, "--only", "return")
    shows(program, row(1, TIMES[1], "call", TEXTS[1]) + row(2, TIMES[2], "call", TEXTS[2]), "--from", "1", "--to", "2")
    shows(program, row(2, TIMES[2], "call", TEXTS[2]) + row(3, TIMES[3], "return", TEXTS[3]) + END, "--mfa", "m:g", "--from", "2")
    shows(program, row(1, TIMES[1], "call", TEXTS[1]) + row(2, TIMES[2], "call", TEXTS[2]) + END, "--not", "return", "--not-mfa", "m:f")


@case
def times_and_texts_choose_rows(program):
    program.good("import", "t", stdin=b"".join(NESTED))
    shows(program, rows(chosen=(3, 4)) + END, "--since", "12:04:31.123459")
    shows(program, rows(chosen=(0, 1, 2, 3)) + END, "--until", "12:04:32")
    shows(program, rows(chosen=(1, 2)) + END, "--since", "1970-01-01T12:04:31.123457", "--until", "1970-01-01T12:04:31.123458")
    # as rows tell them, and without seconds
    shows(program, rows(chosen=(3, 4)) + END, "--since", "1970-01-01 12:04:31.123459")
    shows(program, rows() + END, "--since", "12:04", "--until", "12:05")
    shows(program, rows(chosen=(0, 4)) + END, "--grep", "m,f")


@case
def seconds_choose_rows_as_they_tell_them(program):
    program.good("import", "t", stdin=b"".join(NESTED))
    shows(program, rows(chosen=(3, 4)) + END, "--since", "0.000003")
    shows(program, rows(chosen=(1, 2)) + END, "--since", "0.000001", "--until", "0.000002")
    told = rows(["+0.000000", "+0.000001", "+0.000002", "+0.000005", "+2.000010"], chosen=(3, 4))
    shows(program, told + END, "--since", "0.000003", "--relative")
    # since the first that has a row where nothing is asked of times
    expected = row(3, "+0.000004", "return", TOOK[3] + TEXTS[3], 2)
    shows(program, expected + END, "--since", "0.000002", "--relative", "--grep", "m,g")
    expected = row(3, "+0.000004", "return", TOOK[3] + TEXTS[3])
    shows(program, expected + END, "--since", "0.000002", "--relative", "--grep", "m,g", "--last", "1")
    entries = [monotonic(nanos) for nanos in (-5, 1_000_000_000)]
    program.good("import", "m", stdin=b"".join(entries))
    text = "{trace_ts,<n@h.1.0.1>,send,7,<n@h.99.0.1>,1000000000}"
    for words in (["--since", "1"], ["--since", "1.000000005"], ["--since", "+1"], ["--since", "1", "--last", "1"]):
        same(program.good("show", "m", *words).decode(), row(1, "+1.000000005", "send", text) + END)
    outcome = program.run("show", "m", "--since", "1.000000006")
    said = "dbgrec: m: no message is shown: it has entries 0 to 1, from +0.000000000 to +1.000000005\n"
    same((outcome.status, outcome.output.decode(), outcome.errors.decode()), (0, END, said))


@case
def where_no_message_is_shown_it_is_told_what_there_is(program):
    program.good("import", "t", stdin=b"".join(NESTED))
    shows_nothing(program, "--since", "1970-01-02T00:00:00")
    shows_nothing(program, "--since", "5")
    shows_nothing(program, "--grep", "nowhere")
    shows_nothing(program, "--since", "5", "--relative", has="0 to 4, from +0.000000 to +2.000010")
    shows_nothing(program, "--only", "send,receive", parts=["is no message of kind send,receive"])
    shows_nothing(program, "--mfa", "m:h", "--mfa", "m:g/2", "--pid", "<n@h.9.0.1>", parts=["is no message of the process <n@h.9.0.1>", "is no message of the function m:h", "are messages of the function m:g/2"])
    shows_nothing(program, "--pid", "<n@h.2.0.1>", "--only", "return", parts=["are messages of kind return", "are messages of the process <n@h.2.0.1>"])
    shows_nothing(program, "--from", "5")
    shows_nothing(program, "--grep", "nowhere", "--to", "3", shown="")
    outcome = program.run("list", "t", "--mfa", "lists")
    said = f"dbgrec: t: no message is shown: it has entries {ALL}\nthere is no message of the function lists\n"
    same((outcome.status, outcome.output, outcome.errors.decode()), (0, b"end_of_trace\n", said))
    # a drop record is shown whatever is chosen, and is no message
    imports_anew(program, [call(1, "f"), drop(3)])
    lost = "     1  drop      3 messages were lost here\n"
    shows_nothing(program, "--only", "send", has="0 to 1", parts=["is no message of kind send"], shown=lost + END)
    outcome = program.run("show", "-", "--grep", "nowhere", stdin=call(1, "f"))
    same((outcome.status, outcome.output.decode(), outcome.errors), (0, END, b"dbgrec: no message is shown of those that came\n"))
    # nothing was asked for
    program.good("import", "e", stdin=drop(1))
    same(program.good("show", "e").decode(), "     0  drop      1 message was lost here\n" + END)


@case
def rows_are_cut_at_a_width_and_texts_at_a_size(program):
    program.good("import", "t", stdin=b"".join(NESTED))
    whole_rows = [row(n, TIMES[n], KINDS[n], TOOK[n] + FUNCTIONS[n] + TEXTS[n], INSETS[n]) for n in range(5)]
    shows(program, "".join(line[:59] + "…\n" for line in whole_rows) + END, "--width", "60")
    shows(program, rows() + END, "--full")
    shows(program, "".join(row(n, TIMES[n], KINDS[n], TOOK[n] + TEXTS[n][:9] + "…", INSETS[n]) for n in range(5)) + END, "--longest-text", "9")
    # a character of two bytes has one column, and is never cut
    text = b"\x83\x6d\x00\x00\x00\x14" + "éééééééééé".encode()
    program.good("import", "u", stdin=message(text))
    same(program.good("show", "u", "--width", "26").decode(), '     0  other     <<"éééé…\n' + END)
    same(program.good("show", "u", "--longest-text", "6").decode(), '     0  other     <<"é…\n' + END)


@case
def no_row_is_wider_than_the_width(program):
    program.good("import", "t", stdin=b"".join(NESTED))
    for width, expected, end in (
        (69, "     3  1970-01-01 12:04:31.123461  return      (0.000004 s) m:g/2  …", "-- end of trace"),
        (68, "     3  1970-01-01 12:04:31.123461  return      (0.000004 s) m:g/2 …", "-- end of trace"),
        (56, "     3  1970-01-01 12:04:31.123461  return      (0.0000…", "-- end of trace"),
        (37, "     3  1970-01-01 12:04:31.123461  …", "-- end of trace"),
        (10, "     3  1…", "-- end of…"),
        (3, "  …", "--…"),
        (1, "…", "…"),
    ):
        found = program.good("show", "t", "--width", str(width)).decode().splitlines()
        same((found[3], found[5]), (expected, end))
        assert all(len(line) <= width for line in found), found
    # a colour has no column
    for width, expected in (
        (56, "     3  1970-01-01 12:04:31.123461  \x1b[32mreturn      (0.0000…\x1b[0m"),
        (37, "     3  1970-01-01 12:04:31.123461  \x1b[32m…\x1b[0m"),
        (10, "     3  1\x1b[32m…\x1b[0m"),
    ):
        found = program.good("show", "t", "--width", str(width), "--color", "always").decode().splitlines()
        same(found[3], expected)
    # a character of two bytes has one column, and is never cut
    called = b"\x68\x03" + short_atom("m") + b"\x77\x08" + "éééé".encode() + b"\x6b\x00\x02\x07\x08"
    program.good("import", "u", stdin=told_at(1, "call", called, at=NOON))
    same(program.good("show", "u", "--width", "52").decode(), "     0  1970-01-01 12:04:31.123456  call      m:'éé…\n" + END)
    same(program.good("show", "u", "--width", "57").decode(), "     0  1970-01-01 12:04:31.123456  call      m:'éééé'/2…\n" + END)
    same(program.good("show", "u", "--width", "59").decode(), "     0  1970-01-01 12:04:31.123456  call      m:'éééé'/2  …\n" + END)
    same(program.good("show", "u", "--width", "60").decode(), "     0  1970-01-01 12:04:31.123456  call      m:'éééé'/2  {…\n" + END)
    # one that a terminal shows in two columns has two
    called = b"\x68\x03" + short_atom("m") + b"\x77\x06" + "日本".encode() + b"\x6b\x00\x02\x07\x08"
    program.good("import", "w", stdin=told_at(1, "call", called, at=NOON))
    for width, expected in ((51, "m:'…"), (52, "m:'日…"), (53, "m:'日…"), (54, "m:'日本…")):
        same(program.good("show", "w", "--width", str(width)).decode(), f"     0  1970-01-01 12:04:31.123456  call      {expected}\n" + END)


@case
def rows_have_colours_where_they_are_asked_for(program):
    program.good("import", "t", stdin=b"".join(NESTED) + drop(1))
    coloured = {"call": 36, "return": 32, "drop": 35}
    expected = ""
    for line in rows().splitlines() + [row(5, NO_TIME, "drop", "1 message was lost here").rstrip("\n")]:
        kind = line[36:].split()[0]
        expected += f"{line[:36]}\x1b[{coloured[kind]}m{line[36:]}\x1b[0m\n"
    shows(program, expected + END, "--color", "always")
    shows(program, rows() + row(5, NO_TIME, "drop", "1 message was lost here") + END, "--color", "never")


def on_terminal(program, *words, **variables):
    """What a command shows on a terminal."""
    screen, terminal = pty.openpty()
    environment = {name: value for name, value in os.environ.items() if name not in ("COLUMNS", "NO_COLOR")}
    with subprocess.Popen([program.path, *words], cwd=program.folder, stdin=subprocess.DEVNULL, stdout=terminal, stderr=subprocess.PIPE, env=environment | variables) as shower:
        os.close(terminal)
        found = read_to_end(screen)
        same((shower.wait(PATIENCE), shower.stderr.read()), (0, b""))
    os.close(screen)
    return found.decode().replace("\r\n", "\n")


@case
def rows_on_a_terminal_have_colours_and_its_width(program):
    program.good("import", "t", stdin=NESTED[0])
    whole_row, plain = row(0, TIMES[0], "call", TEXTS[0]), row(0, TIMES[0], "call", FUNCTIONS[0] + TEXTS[0])
    same(on_terminal(program, "show", "t", NO_COLOR="1", COLUMNS="80"), plain[:79] + "…\n" + END)
    same(on_terminal(program, "show", "t", NO_COLOR="1", COLUMNS="50"), plain[:49] + "…\n" + END)
    same(on_terminal(program, "show", "t", NO_COLOR="1", COLUMNS="30"), plain[:29] + "…\n" + END)
    same(on_terminal(program, "show", "t", "--full", NO_COLOR="1", COLUMNS="30"), whole_row + END)
    # a width that nobody tells cuts nothing
    for variables in ({}, {"COLUMNS": ""}, {"COLUMNS": "0"}, {"COLUMNS": "wide"}):
        same(on_terminal(program, "show", "t", NO_COLOR="1", **variables), whole_row + END)
    same(on_terminal(program, "show", "t", NO_COLOR="", COLUMNS="80"), f"{plain[:36]}\x1b[36m{plain[36:79]}…\x1b[0m\n{END}")
    same(on_terminal(program, "list", "-p", "t", NO_COLOR="1").splitlines()[0], f"0 call {TEXTS[0]}")


@case
def what_is_added_is_shown_from_now_on(program):
    program.good("import", "t", "--keep-open", stdin=b"".join(NESTED[:2]))
    with program.start("show", "-f", "--from", "1", "t") as both, program.start("show", "-f", "t") as follower:
        same(both.line() + "\n", row(1, TIMES[1], "call", TEXTS[1]))
        time.sleep(LONG)
        program.good("import", "t", stdin=b"".join(NESTED[2:]))
        # when it was called, no function had told an end
        expected = row(2, TIMES[2], "call", TEXTS[2]) + row(3, TIMES[3], "return", TOOK[3] + TEXTS[3])
        same(follower.end().output.decode(), expected + row(4, TIMES[4], "return", TOOK[4] + TEXTS[4]) + END)
        # the first call isn't chosen
        expected += row(4, TIMES[4], "return", TEXTS[4])
        same(both.end().output.decode(), expected + END)


@case
def a_trace_that_was_waited_for_is_shown_from_its_first_message_on(program):
    many = 500
    entries = [sends(1, NOON + n) for n in range(many)]
    for words in ((), ("--kind", "wrap", "--count", "2", "--size", "100000000")):
        with program.start("show", "-f", "t") as follower:
            same(follower.process.stderr.readline(), b"dbgrec: t isn't begun: waiting for it\n")
            time.sleep(0.05)
            program.good("import", "t", *words, stdin=b"".join(entries))
            found = follower.end().output.decode().splitlines()
        same([line.split()[0] for line in found], [str(number) for number in range(many)] + ["--"])
        for path in program.folder.iterdir():
            path.unlink()


@case
def a_gap_of_what_is_followed_tells_how_many_entries_were_overtaken(program):
    with program.start("import", "w", *SMALL) as importer:
        same(importer.opens(), "created")
        with program.start("show", "-f", "--from", "0", "w") as follower, program.start("show", "-f", "--from", "0", "--not", "in", "w") as chosen:
            importer.write(message(EXAMPLE))
            for shower in (follower, chosen):
                same(shower.line().split()[0], "0")
                shower.process.send_signal(signal.SIGSTOP)
            importer.write(drop(3) + message(EXAMPLE) * 12)
            first = int(listed(program, 13).split()[2])
            for shower, most in ((follower, ""), (chosen, "at most ")):
                shower.process.send_signal(signal.SIGCONT)
                same(shower.line(), f"-- {most}{first - 1} entries were overtaken: the trace goes on at entry {first}, and 3 messages were lost before")
                same([shower.line().split()[0] for _ in range(first, 14)], [str(number) for number in range(first, 14)])
            same(importer.end().status, 0)
            same(follower.end().output.decode(), END)
            same(chosen.end().output.decode(), END)


@case
def the_last_rows_are_shown_and_the_end_besides(program):
    program.good("import", "t", stdin=b"".join(NESTED))
    shows(program, last_rows(2) + END, "--last", "2")
    shows(program, last_rows(1) + END, "--last", "1")
    for count in ("5", "6", "4294967295"):
        shows(program, last_rows(5) + END, "--last", count)
    same(program.good("show", "-", "--last", "2", stdin=b"".join(NESTED)).decode(), last_rows(2) + END)


@case
def the_last_of_the_rows_that_are_asked_for_are_shown(program):
    program.good("import", "t", stdin=b"".join(NESTED))
    shows(program, rows(chosen=(2,)) + END, "--until", "12:04:31.123458", "--last", "1")
    shows(program, rows(chosen=(4,)) + END, "--grep", "m,f", "--last", "1")
    shows_nothing(program, "--grep", "nowhere", "--last", "1")
    # nothing is told behind the entry of `--to`
    shows(program, row(2, TIMES[2], "call", TEXTS[2]) + row(3, TIMES[3], "return", TEXTS[3]), "--from", "2", "--to", "3", "--last", "2")
    shows(program, row(3, TIMES[3], "return", TEXTS[3]), "--from", "2", "--to", "3", "--last", "1")
    # times are told as if all rows were shown
    shows(program, row(4, "+2.000010", "return", TOOK[4] + TEXTS[4]) + END, "--relative", "--last", "1")


@case
def the_last_rows_of_a_stream_that_pauses_are_shown_at_its_end(program):
    with program.start("show", "--last", "2", "-") as shower:
        for entry in NESTED:
            shower.write(entry)
            time.sleep(0.05)
        same(shower.end().output.decode(), last_rows(2) + END)


@case
def the_last_rows_before_a_damage_are_shown(program):
    outcome = program.run("show", "-", "--last", "2", stdin=b"".join(NESTED) + b"\x05")
    same((outcome.status, outcome.output.decode()), (1, last_rows(2)))


@case
def rows_without_a_number_count_as_others_do(program):
    program.good("import", "w", "--kind", "wrap", "--size", "100", "--count", "2", stdin=b"".join(NESTED))
    found = program.good("show", "w").decode().splitlines()
    assert found[0].startswith("-- the trace begins at entry "), found
    entries = len(found) - 2
    same(program.good("show", "w", "--last", str(entries + 1)).decode().splitlines(), found)
    same(program.good("show", "w", "--last", str(entries)).decode().splitlines(), found[1:])


@case
def the_last_rows_of_what_single_files_hold_are_shown(program):
    program.good("import", "t", stdin=b"".join(NESTED))
    same(program.run("show", "t", "--salvage").output.decode(), rows())
    outcome = program.run("show", "t", "--salvage", "--last", "2")
    same((outcome.status, outcome.output.decode()), (1, last_rows(2)))


@case
def the_last_rows_of_what_is_there_are_shown_and_then_what_is_added(program):
    program.good("import", "t", "--keep-open", stdin=b"".join(NESTED[:3]))
    with program.start("show", "-f", "--last", "1", "t") as follower, program.start("show", "-f", "--last", "9", "--from", "1", "t") as both:
        same(follower.line() + "\n", row(2, TIMES[2], "call", TEXTS[2]))
        same(both.line() + "\n", row(1, TIMES[1], "call", TEXTS[1]))
        same(both.line() + "\n", row(2, TIMES[2], "call", TEXTS[2]))
        time.sleep(LONG)
        program.good("import", "t", stdin=b"".join(NESTED[3:]))
        same(follower.end().output.decode(), last_rows(2) + END)
        expected = row(3, TIMES[3], "return", TOOK[3] + TEXTS[3]) + row(4, TIMES[4], "return", TEXTS[4])
        same(both.end().output.decode(), expected + END)


# more entries than are listed for a few of the last rows
MANY = 12_000


def rows_of(program, name, *words):
    return program.good("show", name, *words).decode().splitlines()


@case
def the_last_rows_of_a_long_trace_are_those_of_the_whole(program):
    late = [sends(1, NOON + n) for n in range(MANY)]
    entries = [call(2, "early", NOON)] + [drop(1)] * 4 + late + [call(3, "late", NOON + MANY), drop(2)]
    program.good("import", "t", stdin=b"".join(entries))
    for words in ([], ["--only", "call"], ["--grep", "early"], ["--grep", "m,late"], ["--only", "call", "--grep", "late"], ["--from", "2"], ["--from", str(MANY)], ["--to", "9"], ["--delta"], ["--relative"]):
        found = rows_of(program, "t", *words)
        for count in (1, 2, 3, 20):
            rest = count + 1 if found[-1] + "\n" == END else count
            same(rows_of(program, "t", *words, "--last", str(count)), found[-rest:])


@case
def the_last_rows_of_a_long_wrap_are_those_of_the_whole(program):
    entries = [sends(1, NOON + n) for n in range(4 * MANY)]
    size = len(entries[0]) * MANY // 2
    program.good("import", "w", "--kind", "wrap", "--size", str(size), "--count", "4", stdin=b"".join(entries))
    found = rows_of(program, "w")
    assert found[0].startswith("-- the trace begins at entry "), found[0]
    assert len(found) > MANY, len(found)
    same(rows_of(program, "w", "--last", "3"), found[-4:])
    same(rows_of(program, "w", "--last", str(len(found))), found)


@case
def what_is_open_before_the_last_entries_is_not_known_to_them(program):
    late = [sends(1, NOON + n) for n in range(MANY)]
    program.good("import", "t", stdin=b"".join([call(1, "f", NOON)] + late + [returns(1, "f", NOON + MANY)]))
    text = return_text(1, "f", NOON + MANY)
    same(rows_of(program, "t")[-2] + "\n", row(MANY + 1, DAY + "12:04:31.135456", "return", "(0.012000 s) " + text))
    shows(program, row(MANY + 1, DAY + "12:04:31.135456", "return", text) + END, "--last", "1")
    # where all is listed, so it is
    shows(program, row(MANY + 1, "+0.012000", "return", "(0.012000 s) " + text) + END, "--last", "1", "--relative")


@case
def what_is_added_to_a_long_trace_is_shown_from_now_on(program):
    late = [sends(1, NOON + n) for n in range(MANY)]
    program.good("import", "t", "--keep-open", stdin=b"".join([call(1, "early", NOON)] + late + [call(1, "late", NOON + MANY)]))
    with program.start("show", "-f", "t") as follower, program.start("show", "-f", "--last", "1", "t") as last, program.start("show", "-f", "--last", "2", "--only", "call", "t") as calls:
        same(last.line() + "\n", row(MANY + 1, DAY + "12:04:31.135456", "call", call_text(1, "late", NOON + MANY)))
        # the first of them comes before the last entries
        same(calls.line() + "\n", row(0, DAY + "12:04:31.123456", "call", call_text(1, "early", NOON)))
        same(calls.line() + "\n", row(MANY + 1, DAY + "12:04:31.135456", "call", call_text(1, "late", NOON + MANY)))
        time.sleep(LONG)
        program.good("import", "t", stdin=returns(1, "late", NOON + MANY + 5) + returns(1, "early", NOON + MANY + 6))
        expected = row(MANY + 2, DAY + "12:04:31.135461", "return", "(0.000005 s) " + return_text(1, "late", NOON + MANY + 5))
        # its call isn't one of the last entries that were there
        expected += row(MANY + 3, DAY + "12:04:31.135462", "return", return_text(1, "early", NOON + MANY + 6))
        same(follower.end().output.decode(), expected + END)
        same(last.end().output.decode(), expected + END)
        same(calls.end().output.decode(), END)


@case
def the_last_rows_of_a_monotonic_clock_are_told_since_the_first_of_all(program):
    entries = [monotonic(n * 1_000) for n in range(MANY)]
    program.good("import", "t", stdin=b"".join(entries))
    found = rows_of(program, "t")
    same(found[-2][8:23].strip(), f"+0.{(MANY - 1) * 1_000:09}")
    same(rows_of(program, "t", "--last", "3"), found[-4:])
    # since the row before, but for the first that is listed
    same(rows_of(program, "t", "--last", "3", "--delta"), rows_of(program, "t", "--delta")[-4:])


@case
def a_long_trace_that_is_damaged_is_told_as_without_its_last_rows(program):
    entries = [sends(1, NOON + n) for n in range(MANY)]
    program.good("import", "t", stdin=b"".join(entries))
    path = program.folder / "t"
    data = bytearray(path.read_bytes())
    data[data.index(entries[MANY // 2])] = 5
    path.write_bytes(data)
    whole, last = program.run("show", "t"), program.run("show", "t", "--last", "3")
    same((last.status, last.errors), (whole.status, whole.errors))
    same(last.status, 1)
    same(last.output.decode().splitlines(), whole.output.decode().splitlines()[-3:])


@case
def what_a_wrap_no_longer_holds_is_told(program):
    program.good("import", "w", "--kind", "wrap", "--size", "100", "--count", "2", stdin=b"".join(NESTED))
    listed = program.good("list", "w", "-p").decode().splitlines()
    first, lost = listed[0].split()[2], listed[0].split()[4]
    assert int(first) > 0, listed
    found = program.good("show", "w").decode().splitlines()
    same(found[0], f"-- the trace begins at entry {first}: {lost} messages were lost before")
    same([line.split()[0] for line in found[1:-1]], [line.split()[0] for line in listed[1:-1]])
    same(found[-1] + "\n", END)


@case
def a_wrong_word_is_told_with_what_may_stand_there(program):
    for words, text in (
        (("--since", "noon"), "error: invalid value 'noon' for '--since or --until <TIME>': a time of day, as 12:04:31.5, a time, as 2026-05-01T12:04:31, seconds since the first message, as 17.25, so long before now, as -5s, -5m or -2h, or a monotonic time stamp, as -576460751234567890"),
        (("--since", "-5"), "error: invalid value '-5' for '--since or --until <TIME>'"),
        (("--until", "5m"), "error: invalid value '5m' for '--since or --until <TIME>'"),
        (("--until", "1970-02-29T00:00:00"), "error: invalid value '1970-02-29T00:00:00' for '--since or --until <TIME>'"),
        # an offset from UTC would be passed over
        (("--since", "12:04:31+02:00"), "error: invalid value '12:04:31+02:00' for '--since or --until <TIME>'"),
        (("--since", "1970-01-01T12:04:31Z"), "error: invalid value '1970-01-01T12:04:31Z' for '--since or --until <TIME>'"),
        (("--width", "0"), "error: invalid value '0' for '--width <N>'"),
        (("--last", "0"), "error: invalid value '0' for '--last <N>'"),
        (("--color", "red"), "error: invalid value 'red' for '--color <WHEN>'"),
        (("--full", "--width", "9"), "error: the argument '--"),
        (("--relative", "--delta"), "error: the argument '--"),
        (("-f", "--salvage"), "error: the argument '--"),
        (("--json",), "error: unexpected argument '--json' found"),
    ):
        outcome = program.run("show", "t", *words)
        same((outcome.status, outcome.output), (2, b""))
        assert outcome.errors.decode().startswith(text), outcome


@case
def a_trace_that_is_not_there_is_told(program):
    same(program.run("show", "t").status, 1)
    same(program.run("show", "t").errors, program.run("list", "t").errors)
