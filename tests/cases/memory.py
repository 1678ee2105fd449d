"""Cases of memory that is refused: each call for it alone, and each with all behind it, until a run has none refused.

No run may end by a signal. What is refused is told as NoMemory, or as Device where a store in memory had no room."""

import os
import re
import resource
import unittest.mock

from cases import REPOSITORY, group, stored
from entries import EXAMPLE, LONGEST, drop, goes_on, message, opaque
from info import STAMPED, moment
from program import Outcome, same
from refusing import each_refusal
from rows import CASES as ROWS
from segments import FILE_HEADER, segment
from shortages import NO_MEMORY, Kept, Script, joined, tells_no_memory
from terms import short_atom
from top import call, fails, receives, returns, sends, told_at

CASES, case = group()

# lines that let device calls fail
FUSES = ("fuse", "failonce")

# a store of so many files that a line makes more device calls than are tried one by one
LARGEST = "store 1001"


def first_call_of(program, *words):
    """The number of the first call for memory that a command doesn't make for an empty input."""
    numbers = [1]

    def check(refused):
        outcome = refused.short(*words)
        if outcome.status == 0:
            same(outcome, Outcome(0, b"", b""))
        else:
            same(outcome, Outcome(1, b"", NO_MEMORY))
        if refused.was_refused:
            numbers.append(refused.first + 1)

    each_refusal(program, check)
    return max(numbers)


def scripts():
    """Scripts that together have each line: those of tests/rows, each with the first of its values.

    One that lets device calls fail isn't among them, for a want of room isn't told from that; but for one without a port. Nor
    is one over the largest store."""
    rows = {row.__name__: next(row.inputs())[1].decode().split("\n")[:-1] for row in ROWS if row.path.suffix == ".script"}
    found = {name: lines for name, lines in rows.items() if not any(line.startswith((*FUSES, LARGEST)) for line in lines)}
    failing = ["store 2", "fuse 0", "files", "crash kept", "failonce 0", "list", "crash kept", "files"]
    return found | {"device calls that fail": failing}


def words_of_the_table():
    """The words that lines of a script begin with, and those of events, by the tables of docs/FORMATS.md."""
    said = (REPOSITORY / "docs" / "FORMATS.md").read_text().split("\n## Scripts\n")[1].split("\n## ")[0]
    return {word for line in said.splitlines() if line.startswith("| `") for word in re.findall(r"`([a-z]+)", line.split(" | ")[0])}


@case
def a_script_is_as_without_the_lines_that_are_refused_memory(program):
    first = first_call_of(program, "sim")
    words = set()
    for name, lines in scripts().items():
        words |= {word for line in lines for word in line.split()[::2][:2]}
        each_refusal(program, Script(program, lines, "sim").check, first, name)
    same(words_of_the_table() - words, set())


RECORDED = """stamp 1 2 3
mono 77
tracee 0 2 9 csr
tracee 1 1 1 cratm
emit 0 receive 8377026f6b
emit 0 send 8361ff 8377026f6b
emit 0 sendlost 836a 836101
emit 1 call m f 836c0000000277026f6b61016a
emit 1 return m f 2 836a
emit 1 exception m f 0 error 8377024f4b
counts 0
hand 0 1
counts 0
hand 1 9
flush
emit 0 receive 836d0000000401020304
flushfor 0
tick 20
emit 0 receive 8377026f6b
flushfor 0
counts 1
seal
emit 1 receive 836a
flushfor 1
abandon"""


# so many entries that a wrap of small files turns often, and keeps them all
ENTRIES = [entry for number in range(4) for entry in (message(EXAMPLE), opaque(90, number), drop(number + 1))]

WRAP = ("--kind", "wrap", "--count", "8", "--size", "100")

TIMED = ("--kind", "wrap", "--count", "8", "--time", "10")

KINDS = (("--kind", "file"), WRAP, TIMED)

# a message that lies in several pieces of what is read
LONG = b"\x83m" + (65_000).to_bytes(4, "big") + bytes(65_000)

# one that no entry holds
LONGER = b"\x83m" + (90_000).to_bytes(4, "big") + bytes(90_000)


def cleared(files, marked=True):
    """The files of a trace that is cleared, and its mark where that isn't removed."""
    found = {name: b"\0" if data else data for name, data in files.items() if not name.endswith(".failed")}
    return found | ({name: data for name, data in files.items() if name.endswith(".failed")} if marked else {})


@case
def a_command_line_that_is_refused_memory_is_told(program):
    kept = Kept(program)
    for words in (("--help",), ("--version",), ("import", "--help"), (), ("list", "--count", "0", "t"), ("import", "t", "--size", "9Z"), ("tell",)):
        kept.reads(*words)


@case
def a_listing_that_is_refused_memory_is_a_beginning(program):
    for kind in KINDS[:2]:
        kept = Kept(program, kind[-1])
        kept.program.good("import", "t", *kind, stdin=b"".join(ENTRIES))
        for command in ("list", "export"):
            kept.reads(command, "t")
        kept.reads("list", "--from", "1", "--only", "call,opaque", "--not-pid", "a@b.1.0.0", "--not-pid", "a@b.2.0.0", "t")
        kept.reads("list", "--not", "send", "--not", "exit", "--not-pid", "a@b.1.0.0", "--not-mfa", "m:f/1", "--not-mfa", "m:g", "t")
        kept.reads("list", "--json", "t")
        kept.reads("list", "--json", "--from", "1", "t")
        kept.reads("export", "--from", "1", "--only", "call,receive", "--pid", "a@b.1.0.0", "--not-mfa", "m:f/1", "t")
        kept.reads("list", "--follow", "t")
        kept.reads("show", "t")
        kept.reads("show", "--color", "always", "--width", "40", "--longest-text", "9", "--grep", "e", "t")
        # with fewer rows, those that were the last when memory ran out are shown
        kept.reads("show", "--last", "99", "t")
        kept.reads("show", "--follow", "--from", "1", "t")


@case
def names_that_are_looked_up_without_memory_are_told(program):
    for kind in KINDS[:2]:
        kept = Kept(program, kind[-1])
        registered = [told_at(number, "register", short_atom("worker")) for number in (2, 3, 2)]
        kept.program.good("import", "t", *kind, stdin=b"".join([*registered, sends(1), sends(2)]))
        kept.reads("export", "t", "--pid", "worker")
        nobody = b"dbgrec: t: no register message names nobody: trace with the flag procs to have those\n"
        kept.reads("list", "t", "--pid", "worker", "--not-pid", "nobody", note=nobody)


@case
def a_trace_in_numbers_that_is_refused_memory_is_a_beginning(program):
    for kind in KINDS[:2]:
        kept = Kept(program, kind[-1])
        kept.program.good("import", "t", *kind, stdin=b"".join([*ENTRIES, message(STAMPED + moment(1700, 7, 9))]))
        for words in ((), ("--json",)):
            kept.reads("info", "t", *words)


@case
def a_table_that_is_refused_memory_is_a_beginning(program):
    for kind in KINDS[:2]:
        kept = Kept(program, kind[-1])
        entries = [call(1, "f", 1), call(1, "g", 2), sends(2), returns(1, "g", 3), message(LONGER), drop(2), fails(1, "f", 4)]
        kept.program.good("import", "t", *kind, stdin=b"".join(entries))
        for words in ((), ("--json",), ("--by", "process"), ("--by", "kind", "--json"), ("--only", "call", "--not-mfa", "m:g")):
            kept.reads("top", "t", *words)


@case
def events_that_are_refused_memory_are_a_beginning(program):
    for kind in KINDS[:2]:
        kept = Kept(program, kind[-1])
        entries = [call(1, "f", 1), call(1, "g", 2), sends(99, 2), receives(99, 2), returns(1, "f", 3), message(LONGER), drop(2), call(1, "f", 4)]
        kept.program.good("import", "t", *kind, stdin=b"".join(entries))
        kept.reads("export", "--as", "perfetto", "t")


@case
def a_stream_that_is_refused_memory_is_listed_to_there(program):
    kept = Kept(program)
    kept.reads("stream", stdin=b"".join([*ENTRIES[:6], message(LONG)]))
    kept.reads("stream", stdin=b"".join(ENTRIES[:4]) + message(LONG)[:-1])
    kept.reads("stream", "--mfa", "lists:seq/2", "--to", "9", stdin=b"".join([*ENTRIES[:6], message(LONG)]))
    kept.reads("stream", "-p", "--json", stdin=b"".join([*ENTRIES[:6], message(LONG)]))
    kept.reads("stream", "-p", stdin=message(LONGER) + drop(1))


@case
def a_stream_that_is_recorded_first_leaves_no_folder_where_memory_is_refused(program):
    room = program.folder / "room"
    room.mkdir()
    kept = Kept(program)
    # what the recording tells is written into memory; of two faults the first is told
    others = (b"dbgrec: refused 2 Write\n", b"dbgrec: refused 3 Truncated at 0\n")
    with unittest.mock.patch.dict(os.environ, TMPDIR=str(room)):
        for words in (("export", "-"), ("export", "-", "--as", "folded"), ("export", "-", "--as", "perfetto"), ("info", "-"), ("top", "-", "--json")):
            kept.reads(*words, stdin=b"".join([*ENTRIES[:6], call(1, "f", 10), returns(1, "f", 20)]), others=others)
        kept.reads("top", "-", note=b"dbgrec: nothing came\n", others=others)
        kept.reads("info", "-", stdin=ENTRIES[0][:-1], others=others)
    same(list(room.iterdir()), [])


@case
def a_refusal_that_is_refused_memory_leaves_all_as_it_was(program):
    sealed, wrap, damaged, text = (Kept(program, name) for name in ("sealed", "wrap", "damaged", "text"))
    sealed.program.good("import", "t", stdin=ENTRIES[0])
    for command in ("import", "record"):
        sealed.reads(command, "t", stdin=ENTRIES[0])
    sealed.reads("import", "t")
    sealed.reads("import", "t", "--skip", "3", stdin=ENTRIES[0][:3])
    wrap.program.good("import", "t", *WRAP, stdin=b"".join(ENTRIES))
    for words in (("import", "t"), ("wipe", "t", "--kind", "file"), ("list", "t", "--count", "4")):
        wrap.reads(*words, stdin=ENTRIES[0])
    (damaged.program.folder / "t").write_bytes(segment(FILE_HEADER, drop(1))[:-1] + b"\1\0\0\xff\xff")
    (text.program.folder / "t").write_bytes(b"a text\n")
    for command in ("import", "list", "export", "info"):
        damaged.reads(command, "t", stdin=ENTRIES[0])
    for command in ("import", "list", "wipe"):
        text.reads(command, "t")
    text.reads("list", "none")


@case
def a_mark_of_a_failed_disk_counts_where_memory_is_refused(program):
    kept = Kept(program)
    kept.program.good("import", "t", "--keep-open", stdin=ENTRIES[0])
    (kept.program.folder / "t.failed").write_bytes(b"A sync")
    for command in ("import", "record", "list"):
        kept.reads(command, "t", stdin=ENTRIES[1] if command == "import" else b"")


@case
def a_recorded_script_is_as_without_the_lines_that_are_refused_memory(program):
    for kind in KINDS:
        kept = Kept(program, kind[-1])
        kept.program.good("import", "t", *kind, "--keep-open", stdin=ENTRIES[0])
        each_refusal(program, Script(program, RECORDED.split("\n"), "record", "t", kept=kept).check, what=f"record {kind}")


@case
def an_import_that_is_refused_memory_is_gone_on_with(program):
    Kept(program, "file").imports(ENTRIES, "--kind", "file", "--flush", "always")
    Kept(program, "wrap").imports(ENTRIES, *WRAP, "--flush", "never")


@case
def a_resumed_import_that_is_refused_memory_is_gone_on_with(program):
    for kind in KINDS:
        for flush in ("always", "paused"):
            kept = Kept(program, f"{kind[-1]}{flush}")
            kept.program.good("import", "t", *kind, "--keep-open", stdin=b"".join(ENTRIES[:5]))
            kept.imports(ENTRIES[5:], "--flush", flush)


@case
def an_import_of_the_rest_of_a_message_that_is_refused_memory_is_gone_on_with(program):
    rest, whole = b"x" * 100_000, b"".join(ENTRIES)
    passed = b"dbgrec: 100000 bytes of a message that began before are passed over\n"

    def check(refused):
        outcome = refused.short("import", "t", "--keep-open", stdin=rest + whole)
        left = refused.run("export", "t").output
        assert whole.startswith(left), left
        if outcome.status == 0:
            same((left, outcome.errors), (whole, passed))
            return
        tells_no_memory(Outcome(outcome.status, outcome.output, outcome.errors.removeprefix(passed)))
        if left != whole:
            goes_on = refused.run("import", "t", "--keep-open", stdin=rest + whole[len(left) :])
            same((goes_on.status, goes_on.errors), (0, passed))
            same(refused.good("export", "t"), whole)

    each_refusal(program, check, what="import --keep-open")


@case
def an_import_of_long_messages_that_is_refused_memory_is_gone_on_with(program):
    # none of them is left in part
    entries = [ENTRIES[0], message(LONGER), ENTRIES[5], opaque(140_000), ENTRIES[1]]
    Kept(program, "file").imports(entries, "--flush", "always")
    Kept(program, "wrap").imports(entries, *WRAP)


@case
def a_listing_of_long_messages_that_is_refused_memory_is_a_beginning(program):
    for kind in KINDS[:2]:
        kept = Kept(program, kind[-1])
        kept.program.good("import", "t", *kind, stdin=b"".join([ENTRIES[0], message(LONGER), ENTRIES[5], message(LONGER)]))
        for words in (("list", "-p"), ("list", "--json"), ("list", "--only", "other"), ("export",), ("list",)):
            kept.reads(*words, "t")


@case
def a_wipe_that_is_refused_memory_is_done_by_the_next(program):
    for kind in KINDS[:2]:
        kept = Kept(program, kind[-1])
        kept.program.good("import", "t", *kind, stdin=b"".join(ENTRIES))
        (kept.program.folder / "t.failed").write_bytes(b"A sync")
        before = stored(kept.program.folder)

        def check(refused):
            kept.copied(refused.folder)
            outcome = refused.short("wipe", "t")
            if outcome != Outcome(0, b"ok\n", b""):
                tells_no_memory(outcome)
                left = stored(refused.folder)
                assert left == before or left == cleared(before), left
                same(refused.good("wipe", "t"), b"ok\n")
            same(stored(refused.folder), cleared(before, marked=False))

        each_refusal(program, check)


# spellings of a list, a tuple and a binary that say how long they are, and end there
LENGTHS = ("836cffffffff", "8369ffffffff", "836dffffffff", "8368026a6cffffffff")

# bytes of addresses
LITTLE = 32 * 1_024 * 1_024


def in_little(program, *words, stdin=b""):
    """Runs a command that has 32 MB of addresses."""
    return program.run(*words, stdin=stdin, preexec_fn=lambda: resource.setrlimit(resource.RLIMIT_AS, (LITTLE, LITTLE)))


@case
def a_length_of_a_term_takes_no_memory_before_its_bytes_are_there(program):
    for spelling in LENGTHS:
        size = len(spelling) // 2
        listed = f"0 opaque {size}\nend_of_trace\n".encode()
        same(in_little(program, "stream", stdin=message(bytes.fromhex(spelling))), Outcome(0, listed, b""))
        script = ["create file 999", f"put {spelling}", "close", "list"]
        same(in_little(program, "sim", stdin=joined(script)), Outcome(0, b"ok\nentry 0\nclosed\n" + listed, b""))
        script = ["create file 999", "desk", "tracee 0 1 1 cr", f"emit 0 receive {spelling}"]
        bad = Outcome(2, b"ok\nok\nok\n", b"dbgrec: line 4: bad command\n")
        same(in_little(program, "sim", stdin=joined(script)), bad)
        same(in_little(program, "sim", stdin=joined([*script[:3], f"emit 0 call m f {spelling}"])), bad)


@case
def a_length_of_a_batch_takes_no_memory_before_its_bytes_are_there(program):
    data = segment(FILE_HEADER)[:-1] + b"\1\xff\xff\xff\xff" + ENTRIES[0]
    place = len(FILE_HEADER) + 1
    (program.folder / "t").write_bytes(data)
    damaged = f"refused 1 Damaged file 0 at {place}\n"
    says = f"dbgrec: {damaged}t is damaged there: no entry is "
    for command, done in (("list", "listed"), ("export", "written")):
        same(in_little(program, command, "t"), Outcome(1, b"", f"{says}{done}\n".encode()))
    says = f"dbgrec: refused 5 Recover 1 Damaged file 0 at {place}\nt is damaged there: list shows the entries before it, wipe clears the trace\n"
    for command in ("import", "record"):
        same(in_little(program, command, "t", stdin=ENTRIES[0]), Outcome(1, b"", says.encode()))
    script = [f"bytes 0 {data.hex()}", "list", "resume file 999"]
    told = f"ok\n{damaged}refused 5 Recover 1 Damaged file 0 at {place}\n".encode()
    same(in_little(program, "sim", stdin=joined(script)), Outcome(0, told, b""))


@case
def a_length_of_a_message_takes_no_memory_before_its_bytes_are_there(program):
    cut = Outcome(1, b"", b"dbgrec: refused 3 Truncated at 0\n")
    for length in (LONGEST, 0xFFFFFFFF):
        given = b"\0" + length.to_bytes(4, "big") + b"\x83"
        long = Outcome(1, b"", b"dbgrec: refused 6 TooLong at 0\n-p lists it\n")
        same(in_little(program, "stream", stdin=given), cut if length == LONGEST else long)
        name = f"t{length}"
        same(in_little(program, "import", name, stdin=given), Outcome(1, b"created\nkept 0\n", cut.errors + goes_on(0, 0).encode()))
