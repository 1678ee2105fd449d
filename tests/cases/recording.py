"""Cases of `record`, and of what a refused command line answers."""

from cases import group, stored
from entries import EXAMPLE, drop, example_line, listing, message, window
from program import Outcome, same

CASES, case = group()

TRACEE = "tracee 0 8 10 r\n"

# the event whose message is the example
EMIT = "emit 0 receive 8377026f6b\n"

# a new tracee hands over and flushes one message
ONE = (TRACEE + EMIT + "flushfor 0\n").encode()

WRAP = ("--kind", "wrap", "--count", "2")

SMALL_WRAP = (*WRAP, "--size", "100")

SEALED = "dbgrec: refused 1 Sealed\nt is sealed: export keeps its entries, wipe clears it"


@case
def a_recorded_wrap_is_listed_and_is_sealed(program):
    same(program.good("record", "t", *SMALL_WRAP, stdin=ONE), b"created\nok\nkept\nreceipt 0 1 covered 1\n")
    same(program.good("list", "t", *WRAP), listing(0, 0, [example_line(0)]))
    program.refused("record", "t", *SMALL_WRAP, stdin=ONE, says=SEALED)
    same(program.good("list", "t", *WRAP), listing(0, 0, [example_line(0)]))


@case
def a_recorded_wrap_keeps_its_last_runs(program):
    script = (TRACEE + EMIT * 5 + "flushfor 0\n").encode()
    answers = b"created\nok\n" + b"kept\n" * 5 + b"receipt 0 5 covered 5\n"
    same(program.good("record", "t", *SMALL_WRAP, "--suffix", ".bin", stdin=script), answers)
    same(program.good("list", "t", *WRAP, "--suffix", ".bin"), listing(2, 0, [example_line(n) for n in (2, 3, 4)]))
    same(program.good("export", "t", *WRAP, "--suffix", ".bin"), message(EXAMPLE) * 3)
    same({name: len(data) for name, data in stored(program.folder).items()}, {"t0.bin": 1, "t1.bin": 154, "t2.bin": 102})


@case
def an_abandoned_trace_is_gone_on_with(program):
    script = (TRACEE + EMIT + "flushfor 0\nabandon\nno line\n").encode()
    same(program.good("record", "t", stdin=script), b"created\nok\nkept\nreceipt 0 1 covered 1\nok\n")
    same(program.good("record", "t", stdin=b"flush\n"), b"resumed 1\ncovered 1\n")
    program.refused("record", "t", says=SEALED)


@case
def each_answer_comes_at_once(program):
    with program.start("record", "t") as recorder:
        same(recorder.line(), "created")
        for line, answer in ((TRACEE, "ok"), (EMIT, "kept"), ("flushfor 0\n", "receipt 0 1 covered 1"), ("tick 5\n", "open")):
            recorder.write(line.encode())
            same(recorder.line(), answer)
        outcome = recorder.end()
        same((outcome.status, outcome.output, outcome.errors), (0, b"", b""))


@case
def a_killed_record_is_resumed_with_what_was_covered(program):
    with program.start("record", "t") as recorder:
        recorder.write(ONE)
        for answer in ("created", "ok", "kept", "receipt 0 1 covered 1"):
            same(recorder.line(), answer)
        recorder.write((EMIT + "hand 0 1\n").encode())
        for answer in ("kept", "receipt 1 1"):
            same(recorder.line(), answer)
        recorder.kill()
    same(program.good("list", "t"), listing(0, 0, [example_line(0)]))
    same(program.good("record", "t"), b"resumed 1\n")
    same(program.good("list", "t"), listing(0, 0, [example_line(0)]))


@case
def a_bad_line_ends_a_record_with_status_2(program):
    for place, line in enumerate(("put 00", "close", "files", "create file 100", "flush now", "emit 0 receive 83", "\xff")):
        script = ONE + f"# a remark\n\n{line}\nflush\n".encode("latin-1")
        outcome = program.run("record", f"t{place}", stdin=script)
        same((outcome.status, outcome.errors), (2, b"dbgrec: line 6: bad command\n"))
        same(outcome.output, b"created\nok\nkept\nreceipt 0 1 covered 1\n")
        same(program.good("list", f"t{place}"), listing(0, 0, [example_line(0)]))
        program.refused("record", f"t{place}", says=SEALED.replace("\nt", f"\nt{place}"))


@case
def refusals_inside_a_script_leave_the_status_at_0(program):
    script = ("emit 3 receive 8377026f6b\n" + TRACEE + TRACEE + "seal\nflush\n").encode()
    same(program.good("record", "t", stdin=script), b"created\nout of order\nok\nout of order\nsealed\nrefused 3 Sealed\n")


@case
def a_trace_of_another_kind_is_refused(program):
    program.good("record", "t0", stdin=b"abandon\n")
    program.refused("record", "t", *SMALL_WRAP, says="dbgrec: refused 3 WrongKind")
    program.good("record", "w", *SMALL_WRAP, stdin=b"abandon\n")
    for command in ("record", "import"):
        program.refused(command, "w0", stdin=drop(1), says="dbgrec: refused 3 WrongKind\nw0 is a file of the wrap w: dbgrec import w")
    same(program.good("record", "w", *SMALL_WRAP), b"resumed 0\n")


@case
def a_resumed_wrap_keeps_the_kind_that_it_was_made_with(program):
    program.good("record", "t", *SMALL_WRAP, stdin=ONE + b"abandon\n")
    script = ONE.replace(b"flushfor", b"hand").replace(b"hand 0", b"hand 0 9")
    says = b"dbgrec: t goes on with its own --size 100, not 0\n"
    outcome = program.run("record", "t", *WRAP, "--size", "0", stdin=script)
    same(outcome, Outcome(0, b"resumed 1\nok\nkept\nreceipt 1 1\n", says))
    same(program.good("list", "t", *WRAP), listing(0, 0, [example_line(0), example_line(1)]))


@case
def a_wrap_by_time_turns_when_it_is_told_the_time(program):
    timed = (*WRAP, "--time", "1000")
    script = (TRACEE + "tick 5000\n" + EMIT + "flushfor 0\ntick 6000\ntick 6001\ntick 7002\n" + EMIT + "flushfor 0\n").encode()
    answers = "created ok open kept receipt open cut cut kept receipt".split()
    found = program.good("record", "t", *timed, stdin=script).decode().splitlines()
    same([line.split()[0] for line in found], answers)
    same(program.good("list", "t", *WRAP), listing(1, 0, [example_line(1)]))


@case
def a_wiped_trace_is_begun_anew(program):
    for kind in ((), SMALL_WRAP):
        read = WRAP if kind else ()
        program.good("record", "t", *kind, stdin=ONE)
        program.refused("record", "t", *kind, says=SEALED)
        same(program.good("wipe", "t", *read), b"ok\n")
        same(program.good("record", "t", *kind, stdin=ONE), b"created\nok\nkept\nreceipt 0 1 covered 1\n")
        same(program.good("list", "t", *read), listing(0, 0, [example_line(0)]))


@case
def a_wrap_of_1001_files_is_kept(program):
    script = (TRACEE + (EMIT + "hand 0 1\n") * 1_003).encode()
    wrap = ("--kind", "wrap", "--count", "1000")
    answers = program.good("record", "t", *wrap, "--size", "0", stdin=script).decode().splitlines()
    same(answers[-1], "receipt 1002 1")
    same(len(stored(program.folder)), 1_001)
    first, entries = window([message(EXAMPLE)] * 1_003, 0, 1000)
    same((first, len(entries)), (4, 999))
    same(program.good("list", "t", *wrap), listing(4, 0, [example_line(n) for n in range(4, 1_003)]))
    same(program.good("wipe", "t", *wrap), b"ok\n")
    same({len(data) for data in stored(program.folder).values()}, {1})


@case
def a_refused_command_line_has_status_2(program):
    lines = ["", "nothing", "record", "record t u", "record t --kind tape", "record t --kind wrap --count 0"]
    lines += ["record t --kind wrap --count 1001", "record t --size 4294967296", "record t --size -1", "record t --time 0"]
    lines += ["record t --flush always", "import t --flush often", "list", "list t --size 1", "export t --time 1"]
    lines += ["wipe t --flush never", "list t --count x", "stream t", "sim t"]
    for line in lines:
        outcome = program.run(*line.split())
        assert outcome.status == 2 and outcome.errors and not outcome.output, f"{line!r}: {outcome}"
    same(stored(program.folder), {})
