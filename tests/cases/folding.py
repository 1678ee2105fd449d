"""Cases of `export --as folded`. The lines that are expected are worked out by hand, by the text of docs/FORMATS.md."""

import subprocess

from cases import group, stored
from choosing import told_by
from entries import drop, fragments, kept, message
from importing import TRACES, stream_of
from program import PATIENCE, Outcome, same
from telling import damaged
from terms import short_atom
from top import MIXED, MOST_OPEN, call, fails, function, pid_text, returns, sends, stored_as, time_of, told_at, told_rows, top

CASES, case = group()

ONE, TWO = pid_text(1), pid_text(2)

# the most functions that a stack shows
SHOWN = 256

FOLDED = ("export", "--as", "folded")


def folded(program, *entries):
    """The lines of the stacks of a trace of these entries."""
    stored_as(program, entries)
    said = program.good(*FOLDED, "t").decode()
    program.good("wipe", "t")
    return said.splitlines()


@case
def a_stack_has_the_time_in_which_its_innermost_function_ran(program):
    nested = (call(1, "f", 10), call(1, "g", 20), returns(1, "g", 50), returns(1, "f", 100))
    same(folded(program, *nested), [f"{ONE};m:f/2 60", f"{ONE};m:f/2;m:g/2 30"])
    # each way to a function is a stack of its own
    again = (call(1, "g", 200), returns(1, "g", 205), call(1, "f", 300), call(1, "g", 310), fails(1, "g", 311), fails(1, "f", 315))
    same(folded(program, *nested, *again), [f"{ONE};m:f/2 74", f"{ONE};m:f/2;m:g/2 31", f"{ONE};m:g/2 5"])
    # of a function that calls itself
    same(folded(program, call(1, "f", 10), call(1, "f", 60), returns(1, "f", 70), returns(1, "f", 100)), [f"{ONE};m:f/2 80", f"{ONE};m:f/2;m:f/2 10"])
    # of two processes
    same(folded(program, call(1, "f", 10), call(2, "f", 15), returns(2, "f", 25), returns(1, "f", 60)), [f"{ONE};m:f/2 50", f"{TWO};m:f/2 10"])


@case
def a_stream_has_the_stacks_of_its_trace(program):
    stream = b"".join((call(1, "f", 10), call(1, "g", 20), returns(1, "g", 50), returns(1, "f", 100), call(2, "g", 200), returns(2, "g", 205)))
    whole = [f"{ONE};m:f/2 60", f"{ONE};m:f/2;m:g/2 30", f"{TWO};m:g/2 5"]
    same(program.good(*FOLDED, "-", stdin=stream).decode().splitlines(), whole)
    same(program.good(*FOLDED, "-", "--pid", "n@h.2.0.1", stdin=stream).decode().splitlines(), whole[2:])
    outcome = program.run(*FOLDED, "-", stdin=stream + b"\0")
    same((outcome.status, outcome.output.decode().splitlines(), outcome.errors), (1, whole, f"dbgrec: refused 3 Truncated at {len(stream)}\n".encode()))
    same(stored(program.folder), {})


@case
def a_call_is_over_with_the_one_that_it_is_within(program):
    # the end of a tail call isn't told
    same(folded(program, call(1, "f", 0), call(1, "g", 10), returns(1, "f", 40), call(1, "g", 50), returns(1, "g", 57)), [f"{ONE};m:f/2 10", f"{ONE};m:f/2;m:g/2 30", f"{ONE};m:g/2 7"])
    # a process that exits has no more open calls
    exits = told_at(1, "exit", short_atom("normal"), at=30)
    same(folded(program, call(1, "f", 0), exits, call(1, "g", 50), returns(1, "g", 57), returns(2, "f", 60)), [f"{ONE};m:f/2 30", f"{ONE};m:g/2 7"])
    # one that is back in a function is in none that it called, and back in one that isn't open nothing is known
    back = [told_at(1, "return_to", function(name, b"\x61\x02"), at=at) for name, at in (("f", 25), ("h", 30))]
    same(folded(program, call(1, "f", 0), call(1, "g", 10), *back, returns(1, "f", 40), returns(2, "g", 50)), [f"{ONE};m:f/2 25", f"{ONE};m:f/2;m:g/2 15"])


@case
def what_is_lost_ends_all_that_is_open(program):
    lines = [f"{ONE};m:f/2 4", f"{ONE};m:f/2;m:g/2 3", f"{ONE};m:g/2 5", f"{TWO};m:f/2 0"]
    for lost in (drop(1), message(b"\x83" + b"x" * 8), fragments(b"x" * 70_000)[0]):
        # the ends behind it are those of no call
        behind = (returns(1, "f", 9_000), returns(2, "f", 9_000), call(1, "g", 9_001), returns(1, "g", 9_006))
        same((lost[:9], folded(program, call(1, "f", 0), call(2, "f", 1), call(1, "g", 4), returns(1, "g", 7), lost, *behind)), (lost[:9], lines))
    program.good("import", "t", stdin=stream_of("drop_between"))
    same(program.good(*FOLDED, "t").decode().splitlines(), ["<nonode@nohost.9.0.0>;m:f/1 1100"])


@case
def a_call_whose_end_is_never_told_opens_nothing(program):
    same(folded(program, *[call(1, "f"), call(1, "g")] * 300, call(2, "f")), [f"{ONE};m:f/2 300", f"{ONE};m:g/2 300", f"{TWO};m:f/2 1"])
    # it is told behind the open ones, and what is called after it isn't within it
    same(folded(program, call(1, "f", 0), call(1, "h", 5), call(1, "g", 10), returns(1, "g", 12), returns(1, "f", 20)), [f"{ONE};m:f/2 18", f"{ONE};m:f/2;m:g/2 2", f"{ONE};m:f/2;m:h/2 0"])
    # of a function that ends elsewhere, or later, each call is open
    same(folded(program, call(1, "f"), call(1, "g"), fails(2, "f")), [f"{ONE};m:f/2 1", f"{ONE};m:f/2;m:g/2 1"])
    # of all functions there one tells its ends, each behind its call
    entries = kept(stream_of("calls_without_returns"))
    lines = dict.fromkeys(("{};{}:{}/{}".format(one.process, *one.function) for one in map(told_by, entries) if one.kind == "call"), 0)
    for before, entry in zip(entries, entries[1:]):
        if told_by(entry).kind == "return":
            lines[f"{told_by(entry).process};lists:seq/2"] += time_of(entry) - time_of(before)
    program.good("import", "t", stdin=stream_of("calls_without_returns"))
    same(program.good(*FOLDED, "t").decode().splitlines(), sorted(f"{stack} {time // 1_000}" for stack, time in lines.items()))


@case
def a_semicolon_of_a_name_parts_no_names(program):
    same(folded(program, call(1, "a; b"), call(1, "it's"), returns(1, "a; b")), [f"{ONE};m:'a: b'/2 1", f"{ONE};m:'a: b'/2;m:'it\\'s'/2 1"])


@case
def of_a_deep_stack_the_innermost_functions_are_shown(program):
    deep, end = [call(1, "f")] * 300, returns(1, "f")
    lines = {ONE + ";m:f/2" * depth: 1 for depth in range(1, SHOWN)} | {ONE + ";m:f/2" * SHOWN: 300 - SHOWN + 1}
    same(folded(program, *deep, end), sorted(f"{stack} {calls}" for stack, calls in lines.items()))
    # a loop that never returns hides no call, and the end of one takes no other off
    inner = f"{ONE}{';m:f/2' * (SHOWN - 1)};m:g/2"
    same(folded(program, *deep, *[call(1, "g"), returns(1, "g")] * 3, end), sorted(f"{stack} {calls}" for stack, calls in (lines | {inner: 3}).items()))
    # each has the time of its own
    timed = [call(1, "f", at) for at in range(300)] + [returns(1, "f", 300 + at) for at in range(300)]
    same(sum(int(line.rsplit(" ", 1)[1]) for line in folded(program, *timed)), 599)


@case
def of_a_thousand_open_calls_the_outermost_is_forgotten(program):
    # the end of g is that of no open call, and h is called within those of f
    many = [call(1, "g"), *[call(1, "f")] * MOST_OPEN, returns(1, "g"), call(1, "h"), returns(2, "f")]
    assert f"{ONE}{';m:f/2' * (SHOWN - 1)};m:h/2 1" in folded(program, *many)
    # it was still there before
    assert f"{ONE};m:h/2 1" in folded(program, *many[:MOST_OPEN], *many[-3:])


@case
def without_times_a_stack_has_its_calls(program):
    calls = (call(1, "f"), call(1, "g"), returns(1, "g"), call(1, "g"), returns(1, "g"), returns(1, "f"), drop(3), sends(1), call(2, "g"))
    same(folded(program, *calls), [f"{ONE};m:f/2 1", f"{ONE};m:f/2;m:g/2 2", f"{TWO};m:g/2 1"])
    same(folded(program, sends(1), drop(1)), [])


@case
def stacks_sum_to_the_times_of_a_table(program):
    entries = []
    for at in range(0, 100_000, 1_000):
        entries += [call(1, "f", at), call(1, "g", at + 7), returns(1, "g", at + 307), call(1, "h", at + 310), fails(1, "h", at + 400), returns(1, "f", at + 900)]
    stored_as(program, entries)
    numbers = [int(line.rsplit(" ", 1)[1]) for line in program.good(*FOLDED, "t").decode().splitlines()]
    rows = told_rows(top(program, "t"), "function")
    same(sum(numbers) * 1_000, rows["m:f/2"]["total"])
    same(sorted(numbers), sorted((rows["m:g/2"]["total"] // 1_000, rows["m:h/2"]["total"] // 1_000, 100 * (900 - 300 - 90))))


@case
def what_otp_traced_has_stacks(program):
    for name in TRACES:
        program.good("import", "t", stdin=stream_of(name))
        rows = told_rows(top(program, "t", "--limit", "100000"), "function")
        for line in program.good(*FOLDED, "t").decode().splitlines():
            stack, number = line.rsplit(" ", 1)
            assert int(number) >= 0 and stack.split(";")[-1] in rows, (name, line)
        program.good("wipe", "t")


@case
def an_export_is_a_stream_unless_it_says_folded(program):
    entries = stored_as(program, MIXED)
    same(program.good("export", "t", "--as", "stream"), b"".join(entries))
    same(program.good("export", "t"), b"".join(entries))
    for words in (("--as", "stacks"), ("--as",), ("--as", "folded", "--salvage")):
        outcome = program.run("export", "t", *words)
        same((words, outcome.status, outcome.output), (words, 2, b""))
        assert outcome.errors.startswith(b"error: "), outcome


@case
def a_trace_that_is_refused_has_no_stacks(program):
    data, place = damaged(call(1, "f"), drop(1), call(1, "g"))
    (program.folder / "t").write_bytes(data)
    says = f"dbgrec: refused 1 Damaged file 0 at {place}\nt is damaged there: list shows the entries before it, wipe clears the trace"
    program.refused(*FOLDED, "t", says=says)
    said = program.run("export", "nosuch")
    same(program.run(*FOLDED, "nosuch"), Outcome(1, b"", said.errors))
    same(sorted(stored(program.folder)), ["t"])


@case
def stacks_that_cannot_be_written_are_told(program):
    stored_as(program, [call(1, "f", 1), returns(1, "f", 2)])
    with open("/dev/full", "wb") as full:
        ran = subprocess.run([program.path, *FOLDED, "t"], cwd=program.folder, stdin=subprocess.DEVNULL, stdout=full, stderr=subprocess.PIPE, timeout=PATIENCE, check=False)
    why = b"standard output can't be written: No space left on device (os error 28)\n"
    same((ran.returncode, ran.stderr), (1, b"dbgrec: refused 2 Write\n" + why))
