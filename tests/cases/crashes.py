"""Cases in which the program is killed: what is left is a prefix, with all that was reported as covered."""

import array
import bisect
import concurrent.futures
import fcntl
import itertools
import random
import termios
import time

from cases import group, stored
from entries import LONGEST, drop, entry_line, example_line, kept, lost_in, message
from program import Program, read_some, same
from segments import is_foreign

CASES, case = group()

KILLS = 1_000

# so many runs of kills go on at once, each in a folder of its own
RUNS = 4

WRAP = ("--kind", "wrap", "--count", "3")

# what is too long for an entry is passed over: fragments.py kills imports that keep it
PASSING = ("--longest", str(LONGEST))


def stream(chance, most):
    """Entries that all differ, of many sizes, of which some are Drops and some too long for one."""
    found, size_of_all = [], 0
    while size_of_all < most:
        number = len(found)
        size = chance.choice((10, 60, 100, 100, 300, 1_500))
        if number % 97 == 96:
            found.append(drop(number))
        elif number % 1_009 == 1_008:
            found.append(message(b"\x83" + number.to_bytes(7, "big") + number.to_bytes(8, "big") * 8_191))
        else:
            found.append(message(b"\x83m" + size.to_bytes(4, "big") + number.to_bytes(8, "big") + bytes(size - 8)))
        size_of_all += len(found[-1])
    return found


class Parts:
    """Bytes that are parts joined, and where each part begins."""

    def __init__(self, parts):
        self.joined = b"".join(parts)
        self.starts = list(itertools.accumulate(map(len, parts), initial=0))

    def between(self, first, end):
        return self.joined[self.starts[first] : self.starts[end]]


class Expected:
    """What a trace is to show of each prefix of a stream, in one file or in a wrap of runs by size."""

    def __init__(self, given, size=None, count=3):
        entries = kept(b"".join(given), LONGEST)
        self.total = len(entries)
        self.count = count
        self.entries = Parts(entries)
        self.lines = Parts([f"{entry_line(number, entry)}\n".encode() for number, entry in enumerate(entries)])
        self.lost = list(itertools.accumulate((lost_in([entry]) for entry in entries), initial=0))
        self.ends = run_ends(entries, size)

    def first(self, total):
        """The first entry that is kept of so many."""
        ended = bisect.bisect_right(self.ends, total)
        return self.ends[ended - self.count] if ended >= self.count else 0

    def check(self, listed):
        """Fails unless the listing shows a prefix, and answers the number of its first entry and its length."""
        head = listed.split(b"\n", 1)[0].decode().split()
        first = int(head[2]) if head[:2] == ["before", "entries"] else 0
        total = first + listed.count(b"\n") - (2 if first else 1)
        same(first, self.first(total))
        before = f"before entries {first} dropped {self.lost[first]}\n".encode() if first else b""
        same(listed, before + self.lines.between(first, total) + b"end_of_trace\n")
        return first, total


def run_ends(entries, size):
    """How many entries there are up to the end of each run of a wrap."""
    found, run = [], 0
    for number, entry in enumerate(entries if size is not None else (), 1):
        run += len(entry)
        if run > size:
            found.append(number)
            run = 0
    return found


def listing_left(program):
    """The listing of what a kill has left. Fails where a file is foreign."""
    files = stored(program.folder)
    for name, data in files.items():
        assert not is_foreign(data), f"{name} is foreign: {data[:60]}"
    if any(files.values()):
        return program.good("list", "t")
    says = "t is there and holds nothing" if files else "neither t nor t0 is there"
    program.refused("list", "t", says=f"dbgrec: t: no such trace\n{says}: import begins a trace")
    return b"end_of_trace\n"


def left_by(program, expected, looks_twice=True):
    """Fails unless a kill has left a prefix, and answers its length."""
    first, total = expected.check(listing_left(program))
    if looks_twice and total:
        same(program.good("export", "t"), expected.entries.between(first, total))
    return total


def at_once(program, kill, seed):
    """Runs the kills of one case in several folders, each with a seed of its own, and joins what they answer."""
    programs = [Program(program.path, program.folder / str(number)) for number in range(RUNS)]
    for each in programs:
        each.folder.mkdir()
    with concurrent.futures.ThreadPoolExecutor(RUNS) as pool:
        return set().union(*pool.map(kill, programs, range(seed, seed + RUNS)))


def resumed(line):
    """How many entries an import found."""
    words = line.split()
    return 0 if words == ["created"] else int(words[1])


def time_of_an_opening(program, words):
    """How long an import takes until it says that it is open."""
    began = time.monotonic()
    with program.start("import", "t", *words) as importer:
        same(importer.opens(), "created")
    took = time.monotonic() - began
    same(program.good("wipe", "t"), b"ok\n")
    return took


def unread(importer):
    """How many bytes of its input still wait for it."""
    count = array.array("i", [0])
    fcntl.ioctl(importer.process.stdin, termios.FIONREAD, count)
    return count[0]


def give_some(importer, chance, data, longest):
    """Writes some of the bytes, at once or in pieces, waits until some of them are read, and then for a while."""
    upto = min(len(data), int(chance.choice((300, 800, 5_000, 20_000, 140_000)) * chance.random()))
    step = chance.choice((upto or 1, 7_919, 65_536))
    for at in range(0, upto, step):
        importer.write(data[at : min(at + step, upto)])
    left = chance.choice((upto, upto // 2, 0, 0))
    deadline = time.monotonic() + 10
    while unread(importer) > left and time.monotonic() < deadline:
        time.sleep(0.0002)
    time.sleep(longest * chance.choice((0, 0, 1)) * chance.random())


def kill_imports(program, words, seed, size=None):
    """Kills imports of one stream, goes on from where the trace ends, and answers where it did. A long trace is begun anew."""
    chance = random.Random(seed)
    given = stream(chance, 1_200_000)
    data = Parts(given)
    expected = Expected(given, size)
    longest = time_of_an_opening(program, words)
    total, seen = 0, set()
    for turn in range(KILLS // RUNS):
        flush = chance.choice(("always", "paused", "paused", "never"))
        with program.start("import", "t", *words, *PASSING, "--flush", flush) as importer:
            found = resumed(importer.opens(data.between(total, expected.total)[:1]))
            same(found, total)
            give_some(importer, chance, data.between(found, expected.total), longest)
            same(importer.kill(), "")
        total = left_by(program, expected, turn % 10 == 0)
        assert total >= found, f"turn {turn}: {total} entries, and {found} were covered"
        seen.add(total)
        if total > expected.total * 3 // 4 or turn == KILLS // RUNS - 1:
            outcome = program.run("import", "t", *words, *PASSING, stdin=data.between(total, expected.total))
            same((outcome.status, outcome.output), (0, f"resumed {total}\nsealed {expected.total}\n".encode()))
            same(left_by(program, expected), expected.total)
            same(program.good("wipe", "t"), b"ok\n")
            total = 0
    return seen


@case
def a_thousand_killed_imports_into_a_file_leave_a_prefix(program):
    seen = at_once(program, lambda each, seed: kill_imports(each, (), seed), 10)
    assert len(seen) > KILLS // 10, f"only {len(seen)} places"


@case
def a_thousand_killed_imports_into_a_wrap_leave_the_window_of_a_prefix(program):
    words = (*WRAP, "--size", "50000")
    seen = at_once(program, lambda each, seed: kill_imports(each, words, seed, 50_000), 20)
    assert len(seen) > KILLS // 10, f"only {len(seen)} places"


def kill_openings(program, seed):
    """Kills imports of one entry each while they open their trace, and answers what was left."""
    chance = random.Random(seed)
    words = (*WRAP, "--size", "1000")
    given = stream(chance, 100_000)
    expected = Expected(given, 1_000)
    longest = 2 * time_of_an_opening(program, words)
    total, seen = 0, set()
    for turn in range(KILLS // RUNS):
        with program.start("import", "t", *words) as importer:
            importer.write(given[total])
            time.sleep(longest * chance.random())
            told = importer.kill()
        for line in told.split("\n")[:-1]:
            same(resumed(line), total)
        left = left_by(program, expected)
        assert total <= left <= total + 1, f"turn {turn}: {left} entries behind {total}"
        seen.add(left)
        total = left
        if total == 60:
            same(program.good("wipe", "t"), b"ok\n")
            total = 0
    return seen


@case
def a_thousand_imports_killed_at_their_opening_leave_what_was_there(program):
    assert max(at_once(program, kill_openings, 30)) > 0, "no import came beyond its opening"


def reported(answers):
    """The greatest number of covered entries that the answers of a record tell."""
    return max((int(line.split()[-1]) for line in answers if " covered " in line or line.startswith("resumed")), default=0)


def answers_of(recorder, count):
    """The answers that came, at least so many where that isn't 0."""
    text = b""
    while text.count(b"\n") < count:
        text += read_some(recorder.process.stdout.fileno())
    return text


def kill_records(program, seed):
    """Kills records, and answers where each trace ended."""
    chance = random.Random(seed)
    longest = time_of_an_opening(program, ())
    steps = b"tracee 0 8 10 r\n" + b"emit 0 receive 8377026f6b\nflushfor 0\n" * 50
    lines = Parts([f"{example_line(number)}\n".encode() for number in range(2_000)])
    total, seen = 0, set()
    for turn in range(KILLS // RUNS):
        wanted = chance.choice((0, 1, 2, 3, chance.randrange(40), chance.randrange(80)))
        with program.start("record", "t") as recorder:
            recorder.write(steps)
            text = answers_of(recorder, wanted)
            if not wanted:
                time.sleep(longest * chance.random())
            answers = (text.decode() + recorder.kill()).split("\n")[:-1]
        listed = listing_left(program)
        found = listed.count(b"\n") - 1
        same(listed, lines.between(0, found) + b"end_of_trace\n")
        covered = max(reported(answers), total)
        assert covered <= found <= covered + 1, f"turn {turn}: {found} entries, of which {covered} were covered"
        total = found
        seen.add(found)
        if total > 1_500:
            same(program.good("wipe", "t"), b"ok\n")
            total = 0
    return seen


@case
def a_thousand_killed_records_keep_all_that_was_reported_as_covered(program):
    seen = at_once(program, kill_records, 40)
    assert len(seen) > KILLS // 10, f"only {len(seen)} places"
