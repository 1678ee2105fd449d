"""Cases of a trace that is followed: `list --follow`."""

import re
import signal
import subprocess
import time

from cases import group
from entries import EXAMPLE, drop, example_line, message, opaque
from live import SIZE, WRAP, Feeder
from program import PATIENCE, Outcome, same
from segments import FILE_HEADER, STORED, segment

CASES, case = group()

END = b"end_of_trace\n"

SMALL = ("--kind", "wrap", "--count", "2", "--size", "100")

# seconds after which a follower to whom nothing comes waits for long, and reads of a second that it makes then at most
LONG = 2.5
FEW = 100


def end_of(follower):
    """How a follower ends that nobody ends."""
    output, errors = follower.process.communicate(timeout=PATIENCE)
    return Outcome(follower.process.returncode, output, errors)


@case
def what_is_added_is_listed_until_the_seal(program):
    with program.start("import", "t") as importer:
        same(importer.opens(), "created")
        with program.start("list", "--follow", "t") as follower:
            importer.write(message(EXAMPLE))
            same(follower.line(), example_line(0))
            importer.write(drop(3))
            same(follower.line(), "1 drop 3")
            importer.write(message(b"\x83") * 2)
            same([follower.line(), follower.line()], ["2 opaque 1", "3 opaque 1"])
            same(importer.end().status, 0)
            same(end_of(follower), Outcome(0, END, b""))


@case
def what_was_there_is_listed_first(program):
    program.good("import", "t", "--keep-open", stdin=message(EXAMPLE) * 3)
    with program.start("list", "-f", "t") as follower:
        same([follower.line() for _ in range(3)], [example_line(number) for number in range(3)])
        program.good("import", "t", stdin=drop(1))
        same(end_of(follower), Outcome(0, b"3 drop 1\n" + END, b""))


@case
def objects_and_chosen_lines_of_what_is_added_come_at_once(program):
    with program.start("import", "t") as importer:
        same(importer.opens(), "created")
        with program.start("list", "-f", "--json", "t") as told, program.start("list", "-f", "--from", "1", "t") as chosen, program.start("list", "-f", "--json", "--to", "0", "t") as both:
            importer.write(message(EXAMPLE))
            first = told.line()
            same(both.line(), first)
            same(end_of(both), Outcome(0, b"", b""))
            importer.write(message(b"\x83"))
            second = told.line()
            same(chosen.line(), "1 opaque 1")
            importer.write(drop(3))
            lost = told.line()
            same(chosen.line(), "2 drop 3")
            same(importer.end().status, 0)
            lines = f"{first}\n{second}\n{lost}\n"
            same(lines.encode() + end_of(told).output, program.good("list", "--json", "t"))
            same(end_of(chosen), Outcome(0, END, b""))
            same(f"{first}\n".encode(), program.good("list", "--json", "--to", "0", "t"))


def reads_of(follower):
    """How many calls a follower has made that read."""
    with open(f"/proc/{follower.process.pid}/io", encoding="ascii") as counts:
        return int(re.search(r"syscr: (\d+)", counts.read())[1])


@case
def a_follower_to_whom_nothing_comes_reads_seldom_and_then_lists_what_comes(program):
    program.good("import", "w", *WRAP, "--keep-open", stdin=message(EXAMPLE) * 3)
    with program.start("list", "-f", "w") as follower:
        same([follower.line() for _ in range(3)], [example_line(number) for number in range(3)])
        time.sleep(LONG)
        before = reads_of(follower)
        time.sleep(2)
        made = reads_of(follower) - before
        assert 0 < made <= 2 * FEW, made
        program.good("import", "w", *WRAP, stdin=drop(1))
        same(end_of(follower), Outcome(0, b"3 drop 1\n" + END, b""))


@case
def a_sealed_trace_is_listed(program):
    entries = message(EXAMPLE) + drop(3) + message(b"\x83")
    program.good("import", "t", stdin=entries)
    program.good("import", "w", *SMALL, stdin=entries * 4)
    for words in (("t",), ("-p", "t"), ("w",), ("w", "--kind", "wrap"), ("-p", "w")):
        same(program.good("list", "--follow", *words), program.good("list", *words))


@case
def a_batch_at_a_gate_that_is_opened_later_is_listed(program):
    late = message(EXAMPLE) + drop(2)
    whole = segment(FILE_HEADER, message(EXAMPLE), late)
    gate = len(segment(FILE_HEADER, message(EXAMPLE))) - 1
    (program.folder / "t").write_bytes(whole[:gate] + b"\0" + whole[gate + 1 :])
    with program.start("list", "-f", "t") as follower:
        same(follower.line(), example_line(0))
        with open(program.folder / "t", "r+b") as file:
            file.seek(gate)
            file.write(b"\1")
        same([follower.line(), follower.line()], [example_line(1), "2 drop 2"])
        with open(program.folder / "t", "r+b") as file:
            file.seek(len(whole) - 1)
            file.write(bytes.fromhex("0100000000"))
        same(end_of(follower), Outcome(0, END, b""))


@case
def a_damaged_trace_is_listed_up_to_its_damage(program):
    (program.folder / "a").write_bytes(STORED[:-1] + bytes.fromhex("010000ffff"))
    (program.folder / "b").write_bytes(segment(FILE_HEADER, message(EXAMPLE), drop(3) + drop(0)))
    (program.folder / "c").write_bytes(STORED[:36] + bytes.fromhex("0100"))
    (program.folder / "d").write_bytes(STORED[:5])
    (program.folder / "e").write_bytes(b"\1" + bytes(40))
    for name in "abcde":
        outcome = program.run("list", name)
        assert outcome.status == 1 or name == "d", f"{name}: {outcome}"
        if outcome.status == 1:
            same(program.run("list", "--follow", name), outcome)


@case
def what_is_no_trace_is_refused(program):
    (program.folder / "s").write_bytes(message(EXAMPLE))
    (program.folder / "link").symlink_to("gone")
    for name in ("s", "nodir/t", "link"):
        outcome = program.run("list", name)
        same(outcome.status, 1)
        same(program.run("list", "--follow", name), outcome)


@case
def a_trace_that_is_not_there_is_waited_for(program):
    wrap = ("--kind", "wrap", "--count", "12", "--size", "0")
    for name, words in (("t", ()), ("w", wrap)):
        with program.start("list", "-f", name) as follower:
            same(follower.process.stderr.readline(), b"dbgrec: %s isn't begun: waiting for it\n" % name.encode())
            time.sleep(0.05)
            same(follower.process.poll(), None)
            with program.start("import", name, *words) as importer:
                for number in range(14):
                    importer.write(message(EXAMPLE))
                    same(follower.line(), example_line(number))
                same(importer.line(), "created")
                same(importer.end().status, 0)
            same(end_of(follower), Outcome(0, END, b""))


@case
def a_wrap_is_followed_from_file_to_file(program):
    with program.start("import", "w", *SMALL) as importer:
        same(importer.opens(), "created")
        with program.start("list", "-f", "w") as follower:
            for number in range(30):
                importer.write(message(EXAMPLE))
                same(follower.line(), example_line(number))
            same(importer.end().status, 0)
            same(end_of(follower), Outcome(0, END, b""))


def bytes_read_by(follower):
    """How many bytes a follower has read."""
    with open(f"/proc/{follower.process.pid}/io", encoding="ascii") as counts:
        return int(re.search(r"rchar: (\d+)", counts.read())[1])


@case
def what_is_read_at_a_turn_is_what_was_added(program):
    words = ("--kind", "wrap", "--count", "4", "--size", "200000")
    entry = opaque(1_000)
    with program.start("import", "w", *words) as importer:
        same(importer.opens(), "created")
        importer.write(entry * 700)
        with program.start("list", "-f", "w") as follower:
            while follower.line() != "699 opaque 1000":
                pass
            before = bytes_read_by(follower)
            for number in range(700, 1_900, 100):
                importer.write(entry * 100)
                same([follower.line() for _ in range(100)], [f"{number + place} opaque 1000" for place in range(100)])
            made = bytes_read_by(follower) - before
            added = 1_200 * len(entry)
            assert added <= made <= added + added // 10, (added, made)
            same(importer.end().status, 0)
            same(end_of(follower), Outcome(0, END, b""))


@case
def a_wrap_by_time_is_followed(program):
    with program.start("import", "w", "--kind", "wrap", "--count", "2", "--time", "5") as importer:
        same(importer.opens(), "created")
        with program.start("list", "-f", "w") as follower:
            for number in range(10):
                importer.write(message(EXAMPLE))
                same(follower.line(), example_line(number))
                time.sleep(0.02)
            same(importer.end().status, 0)
            same(end_of(follower), Outcome(0, END, b""))


def listed(program, number):
    """The listing of the wrap once it has the entry of this number."""
    deadline = time.monotonic() + PATIENCE
    while time.monotonic() < deadline:
        found = program.run("list", "w").output
        lines = found.splitlines()
        if len(lines) > 1 and lines[-2].startswith(b"%d " % number):
            return found
    raise AssertionError("it isn't listed")


@case
def a_wrap_that_overtakes_is_told(program):
    with program.start("import", "w", *SMALL) as importer:
        same(importer.opens(), "created")
        with program.start("list", "-f", "w") as follower:
            importer.write(message(EXAMPLE))
            same(follower.line(), example_line(0))
            for number in (13, 26):
                follower.process.send_signal(signal.SIGSTOP)
                importer.write(drop(3) + message(EXAMPLE) * 12)
                found = listed(program, number)
                follower.process.send_signal(signal.SIGCONT)
                lines = found.decode().splitlines()[:-1]
                same(lines[0].split()[:2], ["before", "entries"])
                same(lines[0].split()[3:], ["dropped", str(3 * number // 13)])
                same([follower.line() for _ in lines], lines)
            same(importer.end().status, 0)
            same(end_of(follower), Outcome(0, END, b""))


@case
def a_reader_that_goes_away_ends_it(program):
    with program.start("import", "t") as importer:
        same(importer.opens(), "created")
        importer.write(message(EXAMPLE))
        with program.start("list", "-f", "t") as follower:
            same(follower.line(), example_line(0))
            follower.process.stdout.close()
            importer.write(message(EXAMPLE))
            same(follower.process.wait(PATIENCE), 1)
            same(follower.process.stderr.read(), b"")


@case
def an_interrupt_ends_it_without_a_word(program):
    with program.start("import", "t") as importer:
        same(importer.opens(), "created")
        importer.write(message(EXAMPLE))
        with program.start("list", "-f", "t") as follower:
            same(follower.line(), example_line(0))
            follower.process.send_signal(signal.SIGINT)
            same(end_of(follower), Outcome(-signal.SIGINT, b"", b""))


@case
def a_recorder_that_is_killed_is_waited_for(program):
    with program.start("import", "t", "--flush", "always") as importer:
        same(importer.opens(), "created")
        importer.write(message(EXAMPLE))
        with program.start("list", "-f", "t") as follower:
            same(follower.line(), example_line(0))
            importer.kill()
            program.good("import", "t", stdin=message(b"\x83"))
            same(end_of(follower), Outcome(0, b"1 opaque 1\n" + END, b""))


@case
def a_trace_that_is_cleared_is_absent(program):
    for name, words in (("t", ()), ("w", SMALL)):
        program.good("import", name, *words, "--keep-open", stdin=message(EXAMPLE))
        with program.start("list", "-f", name) as follower:
            same(follower.line(), example_line(0))
            program.good("wipe", name)
            says = "dbgrec: {0}: no such trace\n{0} is there and holds nothing: import begins a trace\n"
            same(end_of(follower), Outcome(1, b"", says.format(name).encode()))


@case
def a_trace_that_is_begun_later_is_waited_for(program):
    program.good("import", "t", stdin=message(EXAMPLE))
    program.good("wipe", "t")
    with program.start("list", "-f", "t") as follower:
        time.sleep(0.05)
        same(follower.process.poll(), None)
        program.good("import", "t", stdin=message(EXAMPLE) * 2)
        said = b"dbgrec: t isn't begun: waiting for it\n"
        same(end_of(follower), Outcome(0, f"{example_line(0)}\n{example_line(1)}\n".encode() + END, said))


@case
def a_trace_whose_header_is_cut_is_waited_for(program):
    program.good("import", "t", stdin=message(EXAMPLE))
    whole = (program.folder / "t").read_bytes()
    for size in (1, 20, 36):
        (program.folder / "t").write_bytes(whole[:size])
        with program.start("list", "-f", "t") as follower:
            same(follower.process.stderr.readline(), b"dbgrec: t isn't begun: waiting for it\n")
            program.good("import", "t", stdin=message(EXAMPLE))
            same(end_of(follower), Outcome(0, f"{example_line(0)}\n".encode() + END, b""))


def followed(program, name, words, much):
    """What a follower tells of a trace that is written at full speed."""
    with program.start("import", name, *words) as importer:
        same(importer.opens(), "created")
        with open(program.folder / "told", "wb") as told:
            follower = subprocess.Popen([program.path, "list", "-f", name], cwd=program.folder, stdout=told, stderr=subprocess.PIPE)
        with follower:
            try:
                with Feeder(importer) as feeder:
                    feeder.tries = 1_000
                    feeder.wait(much)
                same(importer.end().status, 0)
                same(follower.wait(PATIENCE), 0)
                same(follower.stderr.read(), b"")
            finally:
                follower.kill()
    return (program.folder / "told").read_bytes()


@case
def each_entry_of_a_file_that_grows_fast_is_told_once(program):
    told = followed(program, "t", (), 20_000_000)
    same(told == program.good("list", "t"), True)


@case
def numbers_of_a_wrap_that_grows_fast_rise(program):
    told = followed(program, "w", WRAP, 20_000_000)
    lines = told.decode().splitlines()
    same(lines[-1], "end_of_trace")
    next_number = 0
    for line in lines[:-1]:
        if line.startswith("before"):
            first = int(line.split()[2])
            assert first > next_number, line
            same(line, f"before entries {first} dropped 0")
            next_number = first
        else:
            same(line, f"{next_number} opaque {SIZE}")
            next_number += 1
    last = program.good("list", "w").splitlines()[-2]
    same(last.decode(), lines[-2])
