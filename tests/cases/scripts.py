"""Cases of scripts that are made here, as those of long lines, and of scripts over real files that no row has."""

import itertools
import os
import pty
import resource
import socket
import subprocess
import time

from cases import group, stored
from entries import EXAMPLE, drop, example_line, listing, message
from listing import segment, wrap_header
from program import PATIENCE, read_to_end, same

CASES, case = group()

GREATEST_LIMIT = 1_099_511_627_776

TRACEE = "tracee 0 8 10 r"

EMIT = "emit 0 receive 8377026f6b"

# an event whose message has 40,000 bytes
BIG = "emit 0 receive 836d00009c0c" + "00" * 39_948

# the header of a file trace that is begun now, without its gate
NEW_FILE_HEADER = b"DBT2" + bytes(31)

# a batch of no entries
SEAL = b"\1" + bytes(4)

# what an import of one entry into no trace answers
IMPORTED = b"created\nsealed 1\n"


def lines(*words):
    return "".join(f"{line}\n" for line in words)


def answers(program, script, wanted):
    """A script that a store in memory runs to its end answers these lines."""
    same(program.good("sim", stdin=lines(*script).encode()), lines(*wanted).encode())


@case
def what_does_not_fit_the_room_is_committed_first(program):
    put = "put " + "00" * 40_000
    wanted = ["ok", "entry 0", "entry 1", "ok", "file 0 length 40047 gate 01", "0 opaque 40000", "end_of_trace"]
    answers(program, [f"create file {GREATEST_LIMIT}", put, put, "crash kept", "files", "list"], wanted)


@case
def long_lines_are_bad_commands(program):
    with program.start("sim") as endless:
        endless.write(b"#" * 300_001)
        same(endless.process.wait(PATIENCE), 2)
        same(endless.process.stderr.read(), b"dbgrec: line 1: bad command\n")
    same(program.good("sim", stdin=b"#" * 300_000), b"")
    program.refused("sim", stdin=b"#" * 300_001, status=2, says="dbgrec: line 1: bad command")
    program.refused("sim", stdin=b"list\n#\xff\n", status=2, says="dbgrec: line 2: bad command", output=b"end_of_trace\n")


@case
def a_ring_that_goes_round_keeps_each_message(program):
    script = [f"create file {GREATEST_LIMIT}", "desk", "tracee 0 2 9 r", EMIT, EMIT]
    wanted = ["ok", "ok", "ok", "kept", "kept"]
    for number in range(1_000):
        script += ["hand 0 1", EMIT]
        wanted += [f"receipt {number} 1", "kept"]
    answers(program, [*script, "counts 0"], [*wanted, "offered 1002 waiting 2 unsent 0 handed 1000 lost 0"])


@case
def a_tracee_has_room_for_65536_messages(program):
    script = [f"create file {GREATEST_LIMIT}", "desk", "tracee 0 65536 1 r", *[EMIT] * 65_538, "counts 0"]
    told = ["dropped", "refused 3 CountFull", "offered 65537 waiting 65536 unsent 1 handed 0 lost 0"]
    answers(program, script, [*["ok"] * 3, *["kept"] * 65_536, *told])


# Calls 0 to 9 are those of a creation. A message of 40,000 bytes waits in the port until the next one comes, and is
# committed then by four calls.
@case
def a_device_that_fails_in_a_hand_over_is_told(program):
    opened = [f"create file {GREATEST_LIMIT}", "desk", "tracee 0 9 9 r"]
    script = [*opened, *[BIG] * 4, "hand 0 9", "counts 0", "flushfor 0"]
    begun = ["ok"] * 4 + ["kept"] * 4
    for k in range(10, 14):
        counts = "offered 4 waiting 2 unsent 0 handed 2 lost 0"
        told = ["refused 1 Port 1 Device moved 2", counts, "refused 1 Port 2 Broken moved 0", counts]
        answers(program, [f"failonce {k}", *script, "counts 0"], [*begun, *told])
    for k in range(14, 18):
        counts = "offered 4 waiting 1 unsent 0 handed 3 lost 0"
        told = ["refused 1 Port 1 Device moved 3", counts, "refused 1 Port 2 Broken moved 0"]
        answers(program, [f"failonce {k}", *script], [*begun, *told])


@case
def a_device_that_fails_in_a_flush_for_a_tracee_is_told(program):
    script = [f"create file {GREATEST_LIMIT}", "desk", "tracee 0 9 9 r", BIG, BIG, "flushfor 0"]
    begun = ["ok"] * 4 + ["kept"] * 2
    for k in range(14, 18):
        told = ["refused 1 Port 1 Device moved 2", "offered 2 waiting 0 unsent 0 handed 2 lost 0", "refused 2 Broken"]
        answers(program, [f"failonce {k}", *script, "counts 0", "flush"], [*begun, *told])
    told = ["receipt 0 2 covered 2", "ok", "refused 4 Device"]
    answers(program, ["failonce 18", *script, "abandon", "list"], [*begun, *told])


@case
def messages_too_long_and_too_deep_are_not_offered(program):
    long = "emit 0 receive 836d0000ffc8" + "00" * 65_480
    deep = "emit 0 receive 83" + "6c00000001" * 63 + "6a" * 64
    script = [f"create file {GREATEST_LIMIT}", "desk", "tracee 0 2 9 r", long, deep, "counts 0"]
    told = ["refused 1 TooLong", "refused 2 TooDeep", "offered 0 waiting 0 unsent 0 handed 0 lost 0"]
    answers(program, script, ["ok", "ok", "ok", *told])


# Calls 2 to 5 truncate the file and close its gate, 6 to 9 open the segment, and 10 to 13 commit the batch.
@case
def a_crash_leaves_a_segment_closed_or_open_and_a_batch_absent_or_whole(program):
    script = [f"create file {GREATEST_LIMIT}", f"put {EXAMPLE.hex()}", "flush"]
    behind = ["files", "list", f"resume file {GREATEST_LIMIT}"]
    for calls, byte, length in itertools.product(range(15), ("00", "01", "37"), ("low", "high")):
        given = lines("store 1", f"fuse {calls}", *script, f"crash {length} {byte}", *behind)
        crashed, file, *listed = program.good("sim", stdin=given.encode()).decode().splitlines()[5:]
        _, _, _, size, _, gate = file.split()
        same((calls, crashed), (calls, "ok"))
        is_closed = calls <= 7 or calls <= 9 and byte != "01"
        same((calls, byte, length, int(size) < 37 or gate != "01"), (calls, byte, length, is_closed))
        if is_closed:
            wanted = ["end_of_trace", "refused 2 Blank"]
        elif calls <= 11 or calls <= 13 and byte != "01":
            wanted = ["end_of_trace", "resumed 0"]
        else:
            same(int(size), 98)
            wanted = [example_line(0), "end_of_trace", "resumed 1"]
        same((calls, byte, length, listed), (calls, byte, length, wanted))


# two open segments of a wrap by size, of which the first has two messages without bytes, and a closed file
TWO_OPEN = [
    "store 3",
    "bytes 0 014442543101000200000005" + "00" * 24 + "010000000a" + "00" * 11,
    "bytes 1 014442543101000200000005" + "0000000000000001" + "0000000000000002" + "00" * 9,
    "bytes 2 0007",
]


@case
def a_wipe_closes_the_open_files(program):
    closed = ["file 0 length 1 gate 00", "file 1 length 1 gate 00", "file 2 length 2 gate 00"]
    script = [*TWO_OPEN, "fuse 16", "wipe", "crash kept", "files", "list"]
    answers(program, script, [*["ok"] * 7, *closed, "end_of_trace"])


# A crash leaves each gate that isn't synced open.
@case
def a_wipe_cut_short_is_done_by_another(program):
    for calls in range(16):
        if calls <= 4:
            left = ["0 opaque 0", "1 opaque 0", "end_of_trace"]
        elif calls <= 11:
            left = ["refused 3 Sequence"]
        else:
            left = ["end_of_trace"]
        script = [*TWO_OPEN, f"fuse {calls}", "wipe", "crash high 01", "list", "wipe", "list"]
        answers(program, script, ["ok"] * 5 + ["refused 1 Device", "ok", *left, "ok", "end_of_trace"])


@case
def a_script_that_breaks_off_is_told(program):
    reader, writer = socket.socketpair()
    writer.send(b"list\nlist\nli")
    # a socket that is closed with bytes that nobody took breaks the other end's reads, behind what that has still to take
    reader.send(b"x")
    writer.close()
    with reader:
        ran = subprocess.run([program.path, "sim"], stdin=reader, capture_output=True, timeout=PATIENCE, check=False)
    same((ran.returncode, ran.stdout, ran.stderr), (1, b"end_of_trace\nend_of_trace\n", b"dbgrec: refused 1 Read\nstandard input can't be read: Connection reset by peer (os error 104)\n"))


@case
def a_script_whose_answers_can_not_be_written_is_told(program):
    def limit():
        resource.setrlimit(resource.RLIMIT_FSIZE, (9, 9))

    how = {"input": b"list\n", "stderr": subprocess.PIPE, "timeout": PATIENCE, "check": False}
    with open(program.folder / "answers", "wb") as narrow:
        # the signal for it stays ignored, as it is here
        ran = subprocess.run([program.path, "sim"], stdout=narrow, preexec_fn=limit, restore_signals=False, **how)
    why = b"standard output can't be written: File too large (os error 27)\n"
    same((ran.returncode, ran.stderr), (1, b"dbgrec: refused 2 Write\n" + why))
    same((program.folder / "answers").read_bytes(), b"end_of_tr")


@case
def only_new_files_of_a_resumed_wrap_are_of_the_second_version(program):
    (program.folder / "t0").write_bytes(b"\0")
    (program.folder / "t1").write_bytes(segment(wrap_header(1, before=2), message(EXAMPLE) * 2))
    (program.folder / "t2").write_bytes(segment(wrap_header(2, before=4)))
    wrap = ("t", "--kind", "wrap", "--count", "2", "--size", "100")
    told = program.good("record", *wrap, stdin=lines(TRACEE, EMIT, EMIT, "hand 0 2").encode())
    same(told, lines("resumed 4", "ok", "kept", "kept", "receipt 4 2").encode())
    found = stored(program.folder)
    same((found["t0"][:5], found["t2"][:5]), (b"\1DBT2", b"\1DBT1"))


@case
def a_recorded_file_is_sealed(program):
    told = program.good("record", "t", stdin=lines(TRACEE, EMIT, "flushfor 0").encode())
    same(told, lines("created", "ok", "kept", "receipt 0 1 covered 1").encode())
    same((program.folder / "t").read_bytes(), b"\1" + NEW_FILE_HEADER + segment(b"", message(EXAMPLE))[1:-1] + SEAL)


@case
def an_abandoned_wrap_is_gone_on_with_and_sealed(program):
    wrap = ("t", "--kind", "wrap", "--count", "2", "--size", "100")
    script = lines(TRACEE, EMIT, "flushfor 0", "abandon", "flush").encode()
    same(program.good("record", *wrap, stdin=script), lines("created", "ok", "kept", "receipt 0 1 covered 1", "ok").encode())
    told = program.good("record", *wrap, stdin=lines("seal", "flush").encode())
    same(told, lines("resumed 1", "sealed", "refused 3 Sealed").encode())


@case
def lines_that_are_not_for_a_desk_are_not_recorded(program):
    rows = ["put 00", "lose 1", "close", "crash kept", "desk", "store 1", "bytes 0 00", "fuse 1", "failonce 1", "create file 99"]
    rows += ["resume file 99", "create wrap 9 2", "create time 9 2", "resume wrap", "files", "list", "wipe", "what"]
    for place, row in enumerate(rows):
        outcome = program.run("record", f"t{place}", stdin=lines("flush", "# a remark", row, "flush").encode())
        same((row, outcome.status, outcome.output), (row, 2, b"created\ncovered 0\n"))
        same((row, outcome.errors), (row, b"dbgrec: line 3: bad command\n"))
        same((program.folder / f"t{place}").read_bytes(), b"\1" + NEW_FILE_HEADER + SEAL)


@case
def a_recorded_trace_is_listed_and_exported(program):
    program.good("record", "t", stdin=lines("tracee 0 1 10 r", EMIT, EMIT, "flushfor 0").encode())
    same(program.good("list", "t"), listing(0, 0, [example_line(0), "1 drop 1"]))
    exported = program.good("export", "t")
    same((len(exported), exported), (61, message(EXAMPLE) + drop(1)))


@case
def options_are_read_in_any_order_and_either_form(program):
    (program.folder / "t").mkdir()
    read = "t/trace --kind wrap --suffix .log --count 2"
    commands = [
        (f"record {read} --size 0", b"created\n", "t/trace0.log", wrap_header(0, size=0)),
        ("wipe t/trace --count 2 --kind wrap --suffix .log", b"ok\n", None, None),
        ("import t/trace --flush always --kind=wrap --suffix=.log --count=2 --time=3600000", IMPORTED, "t/trace0.log", timed_header(2, 3_600_000)),
        (f"export {read}", drop(1), None, None),
        ("record --time 4294967295 --kind file trace", b"created\n", "trace", NEW_FILE_HEADER),
        ("list trace", b"end_of_trace\n", None, None),
        ("import other --flush never --size 4294967295", IMPORTED, "other", NEW_FILE_HEADER),
        ("import third", IMPORTED, "third", NEW_FILE_HEADER),
    ]
    for words, output, name, header in commands:
        outcome = program.run(*words.split(), stdin=drop(1) if output == IMPORTED else b"")
        same((words, outcome.status, outcome.output), (words, 0, output))
        if name:
            entries = [drop(1)] if output == IMPORTED else []
            same((words, (program.folder / name).read_bytes()), (words, segment(header.replace(b"DBT1", b"DBT2"), *entries)[:-1] + SEAL))
    same(os.listdir(program.folder / "t"), ["trace0.log"])


def timed_header(count, millis):
    """The header of the first segment of a wrap by time, without its gate."""
    return b"DBT2" + b"\2" + count.to_bytes(2, "big") + millis.to_bytes(4, "big") + bytes(24)


@case
def wrong_options_of_a_listing_have_status_2(program):
    for line in ("list trace more", "list trace --kind tape", "list trace --count 0", "list trace --count 1001"):
        outcome = program.run(*line.split())
        assert outcome.status == 2 and outcome.errors and not outcome.output, f"{line!r}: {outcome}"


@case
def a_long_listing_shows_on_a_terminal_how_far_it_is(program):
    listed = [example_line(number) for number in range(1, 8_001)]
    (program.folder / "t0").write_bytes(segment(wrap_header(0, size=1_000_000), drop(7) + message(EXAMPLE) * 8_000))
    screen, terminal = pty.openpty()
    command = [program.path, "list", "t", "--kind", "wrap", "--count", "2"]
    lister = subprocess.Popen(command, cwd=program.folder, stdout=subprocess.PIPE, stderr=terminal)
    os.close(terminal)
    # the listing waits until somebody reads it
    time.sleep(1.5)
    output, _ = lister.communicate(timeout=PATIENCE)
    same((lister.returncode, output), (0, listing(0, 0, ["0 drop 7", *listed])))
    said = read_to_end(screen)
    os.close(screen)
    shown = [line.split(b" ") for line in said.split(b"\r") if b"entries" in line]
    assert shown, said
    for words in shown:
        entries = int(words[0])
        same((words[1::2], words[4]), ([b"entries,", b"bytes,", b"dropped\x1b[K"], b"7"))
        same((entries % 1_024, int(words[2])), (0, len(drop(7)) + (entries - 1) * len(message(EXAMPLE))))
    assert said.endswith(b"\r\x1b[Kdbgrec: t is open: import goes on with it\r\n"), said
