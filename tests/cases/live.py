"""Cases of a trace that is listed and exported while another process writes it."""

import contextlib
import fcntl
import json
import struct
import threading
import time

from cases import group
from entries import EXAMPLE, drop, example_line, listing, message
from preloading import with_library
from program import same
from segments import segment, wrap_header

CASES, case = group()

PAUSE = 0.001

ADVICE = "another process writes this trace, and its files changed while they were read: try again"

SIZE = 91

# listings and exports of a file, and as many of a wrap
TRIES = 1_000

# bytes that are written at full speed during one try, and then no more before the next: a listing that is slower than
# the writer comes to the end too
A_TRY = 4_000_000

# tries of one file at least, and its bytes from which on another is begun
TRIES_OF_A_FILE = 4
MUCH = 4_000_000

WRAP = ("--kind", "wrap", "--size", "8K")

# bytes that take the wrap round
A_LAP = 200_000

# wraps that are listed and exported from their beginning on, how often each, and the entries that take each round
BEGUN = 8
LOOKS = 4
ENTRIES = 1_000


def entry(number):
    """An entry that says its own number."""
    return message(b"\x83" + struct.pack(">Q", number)[1:] + bytes(SIZE - 8))


class Feeder:
    """Writes entries as fast as they are taken, from 0 on, until it is to end: so many bytes a try at most."""

    def __init__(self, importer):
        self.importer = importer
        self.tries = 1
        self.bytes = 0
        self.is_over = threading.Event()
        self.thread = threading.Thread(target=self.feed)

    def feed(self):
        number = 0
        with contextlib.suppress(BrokenPipeError):
            while not self.is_over.is_set():
                if self.bytes >= self.tries * A_TRY:
                    time.sleep(PAUSE)
                    continue
                some = b"".join(entry(number + each) for each in range(64))
                self.importer.write(some)
                number += 64
                self.bytes += len(some)

    def wait(self, count):
        """Waits until so many bytes are written."""
        while self.bytes < count and self.thread.is_alive():
            time.sleep(PAUSE)

    def __enter__(self):
        self.thread.start()
        return self

    def __exit__(self, *_):
        self.is_over.set()
        self.thread.join()


def shown_first(command, output):
    """The number of the first entry that is shown, and how many are: each whole, in order, and nothing else."""
    if command == "list":
        lines = output.decode().splitlines()
        first = int(lines[0].split()[2]) if lines[0].startswith("before") else 0
        count = len(lines) - (2 if lines[0].startswith("before") else 1)
        same(output, listing(first, 0, [f"{number} opaque {SIZE}" for number in range(first, first + count)]))
        return first, count
    first = struct.unpack_from(">Q", output, 5)[0] % 2**56 if output else 0
    count = len(output) // (SIZE + 5)
    same(output, b"".join(entry(number) for number in range(first, first + count)))
    return first, count


def never_goes_back(windows):
    """What was there stays, or goes off at the front."""
    same([first for first, _ in windows], sorted(first for first, _ in windows))
    same([first + count for first, count in windows], sorted(first + count for first, count in windows))


def is_still(windows):
    """Whether nothing was written between the first look and the last: on a machine with much to do the writer may have to wait."""
    return windows[0][1] == windows[-1][1]


def try_file(program, name, tries):
    """Lists and exports a file by turns while an import writes it, and answers how often."""
    windows = []
    with program.start("import", name) as importer:
        same(importer.opens(), "created")
        with Feeder(importer) as feeder:
            while len(windows) < TRIES_OF_A_FILE or (len(windows) < tries and feeder.bytes < MUCH) or (len(windows) < TRIES and is_still(windows)):
                command = ("list", "export")[len(windows) % 2]
                windows.append(shown_first(command, program.good(command, name)))
                feeder.tries += 1
        same(importer.end().status, 0)
    never_goes_back(windows)
    same({first for first, _ in windows}, {0})
    assert not is_still(windows), "nothing was written meanwhile"
    (program.folder / name).unlink()
    return len(windows)


@case
def a_file_that_is_written_is_never_refused(program):
    made = 0
    while made < TRIES:
        made += try_file(program, f"t{made}", TRIES - made)


@case
def a_wrap_that_is_written_is_never_refused(program):
    windows = []
    with program.start("import", "w", *WRAP) as importer:
        same(importer.opens(), "created")
        with Feeder(importer) as feeder:
            feeder.wait(A_LAP)
            for turn in range(TRIES):
                command = ("list", "export")[turn % 2]
                windows.append(shown_first(command, program.good(command, "w", *WRAP[:2])))
                feeder.tries += 1
        same(importer.end().status, 0)
    never_goes_back(windows)
    assert windows[0][0] < windows[-1][0], "it didn't turn meanwhile"


@case
def what_a_wrap_holds_that_is_written_is_told_in_numbers(program):
    windows = []
    with program.start("import", "w", *WRAP) as importer:
        same(importer.opens(), "created")
        with Feeder(importer) as feeder:
            feeder.wait(A_LAP)
            for _ in range(TRIES // 2):
                told = json.loads(program.good("info", "--json", "w"))
                same((told["entries"], told["state"]), (told["last"] - told["first"] + 1, "being written"))
                windows.append((told["first"], told["entries"]))
                feeder.tries += 1
        same(importer.end().status, 0)
    never_goes_back(windows)
    assert windows[0][0] < windows[-1][0], "it didn't turn meanwhile"


@case
def a_wrap_that_is_begun_is_never_refused(program):
    """Its files are made while it is listed and exported: what isn't there at first is there at the next look."""
    entries = b"".join(entry(number) for number in range(ENTRIES))
    for number in range(BEGUN):
        windows = []
        name = f"b{number}."
        command = ("list", "export")[number % 2]
        with program.start("import", name, *WRAP) as importer:
            same(importer.opens(), "created")
            # the first file is made before each listing, and the others at another moment of each
            feeding = threading.Timer(number % 16 * PAUSE / 4, importer.write, (entries,))
            feeding.start()
            for _ in range(LOOKS):
                windows.append(shown_first(command, program.good(command, name, *WRAP[:2])))
            feeding.join()
            same(importer.end().status, 0)
        windows.append(shown_first(command, program.good(command, name, *WRAP[:2])))
        never_goes_back(windows)
        same(sum(windows[-1]), ENTRIES)


@case
def a_file_of_a_wrap_that_is_made_between_two_readings_is_there(program):
    header = {"size": 50, "count": 2}
    last = program.folder / "last"
    for command, output in (
        ("list", listing(1, 0, [example_line(1)])),
        ("export", message(EXAMPLE)),
    ):
        # who writes has retired the first run, and not yet begun the third: no reading is whole
        (program.folder / "w0").write_bytes(b"\0")
        (program.folder / "w1").write_bytes(segment(wrap_header(1, before=1, **header), message(EXAMPLE)))
        (program.folder / "w2").unlink(missing_ok=True)
        last.write_bytes(segment(wrap_header(2, before=2, **header)))
        with open(program.folder / "w0", "rb") as held:
            fcntl.flock(held, fcntl.LOCK_EX)
            # the first lock is tried before the first reading, and the second after it
            moved = with_library(program, MOVE_FROM=last, MOVE_TO=program.folder / "w2", MOVE_LOCK=2)
            ran = program.run(command, "w", *WRAP[:2], before=moved)
        same((ran.status, ran.output, ran.errors), (0, output, b""))
        assert not last.exists(), "it wasn't read again"


@case
def the_last_rows_are_shown_of_a_wrap_that_changes_at_the_first_look(program):
    header = {"size": 150, "count": 2}
    last = program.folder / "last"
    sealed = segment(wrap_header(2, before=6, **header), message(EXAMPLE))[:-1] + b"\1\0\0\0\0"
    for options, numbers in ((("--last", "1"), ["6", "--"]), (("--last", "3"), ["4", "5", "6", "--"]), ((), ["--"])):
        (program.folder / "w0").write_bytes(b"\0")
        (program.folder / "w1").write_bytes(segment(wrap_header(1, before=3, **header), message(EXAMPLE) * 3))
        (program.folder / "w2").unlink(missing_ok=True)
        last.write_bytes(sealed)
        with open(program.folder / "w0", "rb") as held:
            fcntl.flock(held, fcntl.LOCK_EX)
            moved = with_library(program, MOVE_FROM=last, MOVE_TO=program.folder / "w2", MOVE_LOCK=1)
            ran = program.run("show", "-f", *options, "w", *WRAP[:2], before=moved)
        same((ran.status, [line.split()[0] for line in ran.output.decode().splitlines()], ran.errors), (0, numbers, b""))
        assert not last.exists(), "it wasn't read again"


@case
def a_wrap_that_stays_refused_while_it_is_locked_says_so(program):
    kept = ("--kind", "wrap", "--count", "3")
    program.good("import", "w", *kept, "--size", "0", "--keep-open", stdin=drop(1) * 9)
    with program.start("import", "w", *kept, "--size", "0") as importer:
        same(importer.opens(), "resumed 9")
        # two files of one place: no reading can be whole
        (program.folder / "w0").write_bytes(segment(wrap_header(6, count=3)))
        (program.folder / "w1").write_bytes(segment(wrap_header(4, count=3)))
        for command in ("list", "export"):
            ran = program.run(command, "w", *kept)
            same((ran.status, ran.output), (1, b""))
            first, second = ran.errors.decode().splitlines()
            assert first.startswith("dbgrec: refused "), first
            same(second, ADVICE)
        importer.kill()
    # nobody writes it any more
    for command in ("list", "export"):
        ran = program.run(command, "w", *kept)
        same((ran.status, ran.output), (1, b""))
        assert b"another process" not in ran.errors, ran


@case
def a_wrap_that_is_written_is_listed_up_to_its_damage_as_any(program):
    sent = message(bytes(60_000))
    header = {"size": 1_170_000, "count": 4}
    for file in range(3):
        (program.folder / f"w{file}").write_bytes(segment(wrap_header(file, before=20 * file, **header), *[sent] * 20))
    wrap = ("w", "--kind", "wrap", "--count", "4")
    lines = [f"{number} opaque 60000" for number in range(60)]
    damaged = bytearray((program.folder / "w1").read_bytes())
    damaged[41] = 2
    with open(program.folder / "w0", "rb") as held:
        fcntl.flock(held, fcntl.LOCK_EX)
        same(program.good("list", *wrap), listing(0, 0, lines))
        same(program.good("export", *wrap), sent * 60)
        (program.folder / "w1").write_bytes(damaged)
        for command, output in (("list", "".join(f"{line}\n" for line in lines[:20]).encode()), ("export", sent * 20)):
            ran = program.run(command, *wrap)
            same((ran.status, ran.output), (1, output))
            same(ran.errors.decode().splitlines(), ["dbgrec: refused 1 Damaged file 1 at 36", ADVICE])

