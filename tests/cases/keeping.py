"""Cases of imports that leave the trace open: streams that break, and `--keep-open`."""

import fcntl
import os
import resource
import subprocess
import time

from cases import STREAMS, group, stored
from entries import EXAMPLE, drop, exported, goes_on, kept, listing_of, message, opaque, split, window
from program import PATIENCE, Outcome, same

CASES, case = group()

WRAP = ("--kind", "wrap", "--count", "3")

KINDS = ((), (*WRAP, "--size", "200"))

SEALED = "dbgrec: refused 1 Sealed\n{} is sealed: export keeps its entries, wipe clears it"


def broken_streams():
    """Streams that end in a fault: what comes whole before it, the bytes that fault, and what is told."""
    good = message(EXAMPLE) + drop(3) + opaque(65_532)
    for bad in (b"\0", b"\0\0\0\0", message(EXAMPLE)[:-1], b"\1\0\0\0", opaque(65_532)[:-1], opaque(70_000)[:6]):
        yield good, bad, "3 Truncated"
        yield b"", bad, "3 Truncated"
    for bad in (b"\2", b"\xff" + bytes(10), message(EXAMPLE)[4:]):
        yield good, bad, "4 BadOp"
        yield b"", bad, "4 BadOp"
    for bad in (message(b""), message(b"\x82"), message(b"x" * 70_000)[:6], message(bytes(9)) + drop(1)):
        yield good, bad, "8 BadMessage"
        yield b"", bad, "8 BadMessage"
    yield good, drop(0), "5 ZeroDrop"
    yield good * 9, drop(0) + message(EXAMPLE), "5 ZeroDrop"


def is_kept(program, words, good, bad, fault, opened="created", before=0):
    """Fails unless the import of a broken stream keeps what came, and says that it can be gone on with."""
    outcome = program.run("import", *words, stdin=good + bad)
    count = len(kept(good))
    errors = f"dbgrec: refused {fault} at {len(good)}\n{goes_on(count, len(good))}".encode()
    same(outcome, Outcome(1, f"{opened}\nkept {before + count}\n".encode(), errors))


@case
def a_broken_stream_is_kept_and_the_trace_is_gone_on_with(program):
    for number, (good, bad, fault) in enumerate(broken_streams()):
        for kind in KINDS:
            name = f"t{number}{'-' if kind else ''}"
            if not good and fault != "3 Truncated":
                # no trace is made of it: one is there
                program.good("import", name, *kind, "--keep-open", stdin=drop(9))
                is_kept(program, (name, *kind), good, bad, fault, "resumed 1", 1)
                continue
            is_kept(program, (name, *kind), good, bad, fault)
            entries = kept(good)
            first, left = window(entries, 200, 3) if kind else (0, entries)
            same(program.good("export", name), exported(left))
            told = f"resumed {len(entries)}\nsealed {len(entries) + 1}\n".encode()
            same(program.good("import", name, *kind, stdin=drop(2)), told)
            assert program.good("export", name).endswith(drop(2)), first


@case
def a_trace_is_gone_on_with_behind_each_of_many_breaks(program):
    for kind in KINDS:
        name = f"t{len(kind)}"
        same(program.good("import", name, *kind, "--keep-open", stdin=drop(1)), b"created\nkept 1\n")
        opened, count = "resumed 1", 1
        for number, (good, bad, fault) in enumerate(broken_streams()):
            keep = ("--keep-open",) if number % 2 else ()
            is_kept(program, (name, *kind, *keep), good, bad, fault, opened, count)
            count += len(kept(good))
            opened = f"resumed {count}"
        same(program.good("record", name, *kind), f"resumed {count}\n".encode())
        program.refused("import", name, *kind, stdin=drop(1), says=SEALED.format(name))


@case
def a_recorder_that_begins_inside_an_entry_can_be_started_again(program):
    entries = split((STREAMS / "plain.trc").read_bytes())
    same(program.good("import", "t", "--keep-open", stdin=b"".join(entries[:40])), b"created\nkept 40\n")
    is_kept(program, ("t",), b"", entries[40][7:] + b"".join(entries[41:50]), "4 BadOp", "resumed 40", 40)
    same(program.good("import", "t", stdin=b"".join(entries[50:])), f"resumed 40\nsealed {len(entries) - 10}\n".encode())
    same(program.good("list", "t"), listing_of(entries[:40] + entries[50:]))


@case
def an_import_that_keeps_open_is_gone_on_with(program):
    for number, kind in enumerate((*KINDS, (*WRAP, "--time", "1000000"))):
        name = f"t{number}"
        same(program.good("import", name, *kind, "--keep-open", stdin=message(EXAMPLE) + drop(1)), b"created\nkept 2\n")
        same(program.good("import", name, *kind, "--keep-open", "--flush", "never", stdin=drop(4)), b"resumed 2\nkept 3\n")
        same(program.good("export", name), message(EXAMPLE) + drop(1) + drop(4))
        same(program.good("record", name, *kind, stdin=b"flush\nabandon\n"), b"resumed 3\ncovered 3\nok\n")
        same(program.good("import", name, *kind, stdin=drop(5)), b"resumed 3\nsealed 4\n")
        program.refused("import", name, *kind, "--keep-open", stdin=drop(6), says=SEALED.format(name))


@case
def each_way_to_flush_keeps_all_of_an_import_that_keeps_open(program):
    stream = (STREAMS / "plain.trc").read_bytes()
    for way in ("always", "paused", "never"):
        same(program.good("import", way, "--keep-open", "--flush", way, stdin=stream), b"created\nkept 137\n")
        same(program.good("export", way), stream)


@case
def a_loop_of_imports_records_one_trace(program):
    for name in ("plain", "stamped", "mono"):
        (program.folder / name).write_bytes((STREAMS / f"{name}.trc").read_bytes())
    script = 'for part in plain stamped mono; do cat $part | "$0" import trace --kind wrap --keep-open; done'
    ran = subprocess.run(["sh", "-c", script, program.path], cwd=program.folder, capture_output=True, timeout=PATIENCE, check=False)
    parts = [(program.folder / name).read_bytes() for name in ("plain", "stamped", "mono")]
    first, second, third = (len(split(b"".join(parts[:upto]))) for upto in (1, 2, 3))
    told = f"created\nkept {first}\nresumed {first}\nkept {second}\nresumed {second}\nkept {third}\n"
    same((ran.returncode, ran.stdout, ran.stderr), (0, told.encode(), b""))
    same(program.good("export", "trace"), b"".join(parts))


@case
def an_input_that_can_not_be_read_leaves_the_trace_as_it_is(program):
    for words in (("t",), ("t", "--keep-open")):
        folder = os.open(program.folder, os.O_RDONLY)
        command = [program.path, "import", *words]
        ran = subprocess.run(command, cwd=program.folder, stdin=folder, capture_output=True, timeout=PATIENCE, check=False)
        os.close(folder)
        errors = b"dbgrec: refused 1 Read\nstandard input can't be read: Is a directory (os error 21)\n"
        same((ran.returncode, ran.stdout, ran.stderr), (1, b"", errors))
    same(stored(program.folder), {})


def spent():
    """The processor time of the programs that have ended, in seconds."""
    used = resource.getrusage(resource.RUSAGE_CHILDREN)
    return used.ru_utime + used.ru_stime


@case
def an_input_that_would_block_is_waited_for(program):
    reader, writer = os.pipe()
    fcntl.fcntl(reader, fcntl.F_SETFL, os.O_NONBLOCK)
    command = [program.path, "import", "t"]
    before = spent()
    with subprocess.Popen(command, cwd=program.folder, stdin=reader, stdout=subprocess.PIPE, stderr=subprocess.PIPE) as importer:
        os.close(reader)
        for _ in range(3):
            time.sleep(0.3)
            os.write(writer, message(EXAMPLE))
        time.sleep(0.3)
        os.close(writer)
        output, errors = importer.communicate(timeout=PATIENCE)
    same((importer.returncode, output, errors), (0, b"created\nsealed 3\n", b""))
    same(program.good("export", "t"), message(EXAMPLE) * 3)
    assert spent() - before < 0.4, "it didn't wait, but asked again and again"
