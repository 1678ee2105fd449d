"""Cases of `list`, `export`, `wipe` and `stream`."""

import os
import pty
import socket
import subprocess

from cases import group
from entries import EXAMPLE, drop, example_line, listing, listing_of, message
from program import PATIENCE, read_as_much, same
from segments import FILE_HEADER, STORED, segment, wrap_header

CASES, case = group()

@case
def a_stored_file_is_listed(program):
    (program.folder / "t").write_bytes(STORED)
    same(len(STORED), 98)
    same(program.good("list", "t"), listing(0, 0, [example_line(0)]))


@case
def a_listing_changes_no_file(program):
    (program.folder / "t").write_bytes(STORED)
    program.good("list", "t")
    program.good("export", "t")
    same((program.folder / "t").read_bytes(), STORED)


@case
def an_export_is_the_entries_of_the_window(program):
    (program.folder / "t").write_bytes(segment(FILE_HEADER, message(EXAMPLE) + drop(3), message(b"x")))
    same(program.good("export", "t"), message(EXAMPLE) + drop(3) + message(b"x"))
    same(program.good("list", "t"), listing(0, 0, [example_line(0), "1 drop 3", "2 opaque 1"]))


@case
def a_wrap_is_listed_from_its_window_on(program):
    entry = message(EXAMPLE)
    (program.folder / "t1.bin").write_bytes(segment(wrap_header(1, before=2), entry * 2))
    (program.folder / "t2.bin").write_bytes(segment(wrap_header(2, before=4), entry))
    wrap = ("t", "--kind", "wrap", "--suffix", ".bin", "--count", "2")
    same(program.good("list", *wrap), listing(2, 0, [example_line(2), example_line(3), example_line(4)]))
    same(program.good("export", *wrap), entry * 3)
    same(len(entry * 3), 168)


@case
def a_damaged_file_is_told_with_its_place(program):
    (program.folder / "t").write_bytes(STORED[:36] + bytes.fromhex("010000ffff"))
    for command, done in (("list", "listed"), ("export", "written")):
        says = f"dbgrec: refused 1 Damaged file 0 at 36\nt is damaged there: no entry is {done}"
        program.refused(command, "t", says=says)
    says = "dbgrec: refused 5 Recover 1 Damaged file 0 at 36\n"
    says += "t is damaged there: list shows the entries before it, wipe clears the trace"
    for command in ("record", "import"):
        program.refused(command, "t", stdin=drop(1), says=says)


@case
def a_file_trace_of_40_megabytes_is_listed_in_24(program):
    entry = message(bytes(95))
    (program.folder / "t").write_bytes(segment(FILE_HEADER, *[entry * 1000] * 400))
    small = ("bash", "-c", 'ulimit -v 24000; exec "$@"', "bash")
    outcome = program.run("list", "t", before=small)
    same((outcome.status, outcome.errors), (0, b""))
    same(outcome.output.count(b"\n"), 400001)
    end = b"\n399999 opaque 95\nend_of_trace\n"
    same(outcome.output[-len(end) :], end)


@case
def files_that_are_no_one_store_are_told(program):
    wrap = ("--kind", "wrap", "--count", "2")
    (program.folder / "a0").write_bytes(segment(FILE_HEADER))
    (program.folder / "a1").write_bytes(segment(wrap_header(1)))
    program.refused("list", "a", *wrap, says="dbgrec: refused 2 Mixed\na0 and a1 don't belong together: list --salvage shows each")
    (program.folder / "b0").write_bytes(segment(wrap_header(6)))
    (program.folder / "b1").write_bytes(segment(wrap_header(4)))
    program.refused("list", "b", *wrap, says="dbgrec: refused 3 Sequence\nb2, the oldest, is missing: put it back, or keep the others by export --salvage, and wipe")


@case
def a_wipe_leaves_closed_files(program):
    (program.folder / "t").write_bytes(STORED)
    same(program.good("wipe", "t"), b"ok\n")
    same((program.folder / "t").read_bytes(), b"\0")
    same(program.good("list", "t"), b"end_of_trace\n")
    same(program.good("wipe", "t"), b"ok\n")


@case
def a_stream_is_listed(program):
    lines = [example_line(0), "1 drop 3", "2 opaque 1", "3 other [1,2]"]
    entries = message(EXAMPLE) + drop(3) + message(b"x") + message(bytes.fromhex("836b00020102"))
    same(program.good("stream", stdin=entries), listing(0, 0, lines))
    same(listing_of([message(EXAMPLE), drop(3), message(b"x")]), listing(0, 0, lines[:3]))


@case
def a_list_of_a_stroke_is_that_of_a_stream(program):
    (program.folder / "-").write_bytes(STORED)
    stream = message(EXAMPLE) + drop(3) + message(b"x")
    for words in ((), ("-p",), ("--json",), ("--only", "drop,opaque"), ("--to", "1")):
        same(program.good("list", "-", *words, stdin=stream), program.good("stream", *words, stdin=stream))
    same(program.good("list", "-", "-f", stdin=stream), listing(0, 0, [example_line(0), "1 drop 3", "2 opaque 1"]))


@case
def the_fault_of_a_stream_is_told_with_its_place(program):
    entry = message(EXAMPLE)
    line = f"{example_line(0)}\n".encode()
    program.refused("stream", stdin=entry + drop(0), says="dbgrec: refused 5 ZeroDrop at 56", output=line)
    program.refused("stream", stdin=bytes.fromhex("000000003383"), says="dbgrec: refused 3 Truncated at 0")
    program.refused("stream", stdin=b"\2", says="dbgrec: refused 4 BadOp at 0\nthat is no entry stream, as a node writes it: list shows a stored trace")
    program.refused("stream", stdin=bytes.fromhex("000000fffc"), says="dbgrec: refused 6 TooLong at 0\n-p lists it")


@case
def the_longest_entry_of_a_stream_is_listed(program):
    entries = message(bytes(65_531)) + drop(2)
    same((len(entries), program.good("stream", stdin=entries)), (65_541, b"0 opaque 65531\n1 drop 2\nend_of_trace\n"))


@case
def lines_are_written_before_a_stream_breaks_off(program):
    reader, writer = socket.socketpair()
    writer.send(message(EXAMPLE))
    # a socket that is closed with bytes that nobody took breaks the other end's reads, behind what that has still to take
    reader.send(b"x")
    writer.close()
    with reader:
        ran = subprocess.run([program.path, "stream"], stdin=reader, capture_output=True, timeout=PATIENCE, check=False)
    line = f"{example_line(0)}\n".encode()
    same((ran.returncode, ran.stdout, ran.stderr), (1, line, b"dbgrec: refused 1 Read\nstandard input can't be read: Connection reset by peer (os error 104)\n"))


def comes(screen, line):
    """Checks that this line comes next, and no more."""
    same(read_as_much(screen, len(line)), line.encode())


def lists_as_it_comes(program, screen, end, feed):
    """A stream's lines can be read before more of it is written; each ends so."""
    with subprocess.Popen([program.path, "stream"], stdin=subprocess.PIPE, stdout=end, stderr=end) as lister:
        os.close(end)
        try:
            for number in range(3):
                lister.stdin.write(message(EXAMPLE))
                lister.stdin.flush()
                comes(screen, f"{example_line(number)}{feed}")
            lister.stdin.close()
            comes(screen, f"end_of_trace{feed}")
            same(lister.wait(PATIENCE), 0)
        finally:
            lister.kill()
            os.close(screen)


@case
def a_stream_on_a_terminal_is_listed_as_it_comes(program):
    screen, terminal = pty.openpty()
    lists_as_it_comes(program, screen, terminal, "\r\n")


@case
def a_stream_into_a_pipe_is_listed_as_it_comes(program):
    reader, writer = os.pipe()
    lists_as_it_comes(program, reader, writer, "\n")


@case
def a_stream_whose_lines_nobody_reads_ends_with_the_next_one(program):
    with subprocess.Popen([program.path, "stream"], stdin=subprocess.PIPE, stdout=subprocess.PIPE, stderr=subprocess.PIPE) as lister:
        try:
            lister.stdin.write(message(EXAMPLE))
            lister.stdin.flush()
            comes(lister.stdout.fileno(), f"{example_line(0)}\n")
            lister.stdout.close()
            lister.stdin.write(message(EXAMPLE))
            lister.stdin.flush()
            same((lister.wait(PATIENCE), lister.stderr.read()), (1, b""))
        finally:
            lister.kill()
