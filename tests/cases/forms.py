"""Cases of each form of message that a node writes. A line of tests/otp/forms.txt has what a message of forms.trc tells,
by a table after the manuals: its kind, its process or port, its function and its time."""

import collections
import json

from cases import STREAMS, group
from entries import split
from program import same

CASES, case = group()

Row = collections.namedtuple("Row", "kind tracee function time")

STREAM = (STREAMS / "forms.trc").read_bytes()

# None where a message doesn't tell it
ROWS = [Row(*(None if word == "-" else word for word in line.split())) for line in (STREAMS / "forms.txt").read_text().splitlines()]


def stored(program):
    program.good("import", "t", stdin=STREAM)


def chosen(program, option, value):
    """The numbers of the entries that the option shows of the stored stream, and of the stream itself."""
    stream = program.good("stream", option, value, stdin=STREAM)
    same(program.good("list", option, value, "t"), stream)
    return [int(line.split()[0]) for line in stream.decode().splitlines()[:-1]]


def numbers_of(member, value):
    return [number for number, row in enumerate(ROWS) if row[member] == value]


@case
def each_form_is_listed_with_its_kind_its_process_and_its_time(program):
    stored(program)
    lines = program.good("list", "-p", "t").decode().splitlines()
    same((len(lines), lines[-1]), (501, "end_of_trace"))
    for number, (line, row) in enumerate(zip(lines, ROWS)):
        same(line.split(" ")[:2], [str(number), row.kind])
        if row.tracee:
            same(line.split(",")[1], row.tracee)
        if row.time:
            assert line.endswith(f",{row.time}}}"), (line, row)


@case
def each_form_is_chosen_by_its_kind_its_process_and_its_function(program):
    stored(program)
    for option, member in {"--only": 0, "--pid": 1, "--mfa": 2}.items():
        for value in {row[member] for row in ROWS} - {None}:
            same((value, chosen(program, option, value)), (value, numbers_of(member, value)))


@case
def each_form_is_an_object_with_its_kind_its_process_and_its_function(program):
    stored(program)
    objects = [json.loads(line) for line in program.good("list", "-p", "--json", "t").splitlines()]
    same(objects.pop(), {"kind": "end_of_trace"})
    same([(it["n"], it["kind"], it.get("pid"), it.get("mfa")) for it in objects], [(number, *row[:3]) for number, row in enumerate(ROWS)])


@case
def each_form_is_counted_by_its_kind_and_its_time_is_told(program):
    for entry, row in zip(split(STREAM), ROWS):
        program.good("import", "t", stdin=entry)
        found = json.loads(program.good("info", "--json", "t"))
        same((found["kinds"], found["first_time_stamp"], found["last_time_stamp"]), ({row.kind: 1}, row.time, row.time))
        program.good("wipe", "t")


@case
def the_forms_are_counted_together(program):
    stored(program)
    found = json.loads(program.good("info", "--json", "t"))
    times = [row.time for row in ROWS if row.time]
    same(found["kinds"], dict(collections.Counter(row.kind for row in ROWS)))
    same((found["first_time_stamp"], found["last_time_stamp"]), (times[0], times[-1]))
