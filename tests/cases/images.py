"""Cases of what a crash of the machine may leave: images put together from the calls that a recorder made."""

import random

from cases import STREAMS, group, stored
from entries import drop, kept, message, split, window
from preloading import calls_of
from program import same
from segments import is_foreign

CASES, case = group()

SECTOR = 512


class File:
    """What a file reads as, and what of it a crash may leave."""

    def __init__(self, data=b""):
        self.synced = data
        self.changes = []

    def note(self, what, *numbers):
        if what == "sync":
            self.sync()
        elif what == "cut":
            self.changes.append(Cut(int(numbers[0])))
        else:
            self.changes.append(Written(int(numbers[0]), bytes.fromhex(numbers[1])))

    def reads(self):
        data = self.synced
        for change in self.changes:
            data = change.made_to(data)
        return data

    def sync(self):
        self.synced, self.changes = self.reads(), []

    def image(self, chance):
        """An image: some changes since the last sync are there, whole or in part, and some aren't."""
        data = self.synced
        for change in self.changes:
            data = mixed(chance, data, change.made_to(data), change)
        return data


class Written:
    def __init__(self, place, data):
        self.place = place
        self.data = data
        self.end = place + len(data)

    def made_to(self, old):
        return old[: self.place].ljust(self.place, b"\0") + self.data + old[self.end :]


class Cut:
    def __init__(self, place):
        self.place = self.end = place

    def made_to(self, old):
        return old[: self.place]


class Folder:
    """The files that a folder lists, and which of them a crash may leave."""

    def __init__(self, path, before):
        self.path = str(path)
        self.now = {name: File(data) for name, data in before.items()}
        self.synced = dict(self.now)
        self.changes = []

    def note(self, what, *numbers, path):
        """Takes a call on it, or on one of its files."""
        name = path.rsplit("/", 1)[-1]
        if path == self.path:
            self.synced, self.changes = dict(self.now), []
        elif what == "make":
            self.change(self.add, name, File())
        elif what == "rename":
            former = numbers[0].rsplit("/", 1)[-1]
            self.change(self.add, name, self.now[former])
            self.change(self.remove, former)
        elif what == "remove":
            self.change(self.remove, name)
        else:
            self.now[name].note(what, *numbers)

    def change(self, change, *words):
        change(self.now, *words)
        self.changes.append((change, *words))

    @staticmethod
    def add(names, name, file):
        names[name] = file

    @staticmethod
    def remove(names, name):
        names.pop(name, None)

    def image(self, chance):
        """An image: some changes since the last sync are there and some aren't, and so it is with each file that is listed."""
        names, was_added = dict(self.synced), True
        for change, *words in self.changes:
            # the old name of a file goes no sooner than its new one comes
            is_made = chance.randrange(2) and (change is self.add or was_added)
            was_added = is_made
            if is_made:
                change(names, *words)
        return {name: file.image(chance) for name, file in names.items()}


def mixed(chance, old, new, change):
    """Either, or a part of each: whole sectors, or single bytes, and any length between the two. What was written may be zeros."""
    kind = chance.randrange(5)
    if kind < 2:
        return new if kind else old
    length = chance.choice((len(old), len(new), chance.randint(*sorted((len(old), len(new))))))
    step = SECTOR if kind == 2 else 1
    sources = [source.ljust(length, b"\0") for source in (old, new)]
    if kind == 4:
        sources.append(new[: change.place].ljust(change.end, b"\0") + new[change.end :].ljust(length, b"\0"))
    return b"".join(chance.choice(sources)[at : at + step] for at in range(0, length, step))[:length]


def images_of(calls, chance, folder):
    """Images of the files after each call, some of each, with the number of the calls that came before."""
    for number, (what, *numbers, path) in enumerate(calls):
        folder.note(what, *numbers, path=path)
        for _ in range(6):
            yield number, folder.image(chance)


def put(program, image):
    """Puts an image there as the files of another trace."""
    for file in program.folder.glob("crash-*"):
        file.unlink()
    for name, data in image.items():
        (program.folder / f"crash-{name}").write_bytes(data)


def is_left(name):
    """Whether a file of this name is one that was to replace another."""
    return name.endswith(".replacement")


def check_next(program, number, image, kind, entries, size):
    """Fails unless the next recorder goes on with an image, and removes what was to replace a file."""
    outcome = program.run("import", "crash-t", *kind, "--keep-open", stdin=drop(999))
    same((number, [file.name for file in program.folder.glob("crash-*") if is_left(file.name)]), (number, []))
    if outcome.errors.startswith(b"dbgrec: refused 1 Sealed\n"):
        return
    same((number, outcome.status, outcome.errors), (number, 0, b""))
    total = int(outcome.output.split()[1]) if outcome.output.startswith(b"resumed") else 0
    left = split(program.good("export", "crash-t", *kind[:2]))
    same((number, left), (number, window(entries[:total] + [drop(999)], size, 3)[1]))


def check_images(program, kind, names, stream, chance, size=None):
    """Fails unless each image is a trace that holds a prefix. One in so many is looked at by the program."""
    entries = kept(stream)
    calls = calls_of(program, "import", "t", *kind, "--flush", "always", stdin=stream)
    seen, greatest, went_on = 0, 0, 0
    for number, image in images_of(calls, chance, Folder(program.folder, {})):
        trace = {name: data for name, data in image.items() if not is_left(name)}
        assert set(trace) <= set(names), f"{set(trace)} after {number} calls"
        for name, data in image.items():
            assert not is_foreign(data), f"{name} is foreign after {number} calls: {data[:60]}"
        is_to_go_on = len(trace) < len(image)
        if chance.randrange(4 if is_to_go_on else 12):
            continue
        put(program, image)
        outcome = program.run("export", "crash-t", *kind[:2])
        if any(trace.values()):
            same((number, outcome.status, outcome.errors), (number, 0, b""))
            seen += 1
            left = split(outcome.output)
            assert is_kept(left, entries, size), f"after {number} calls: {len(left)} entries"
            greatest = max(greatest, len(left))
            if is_to_go_on:
                check_next(program, number, image, kind, entries, size)
                went_on += 1
    assert seen > 40 and greatest > 5, (seen, greatest)
    assert went_on > 10 or size is None, went_on


def is_kept(left, entries, size):
    """Whether these entries are what is kept of some of the entries."""
    if size is None:
        return left == entries[: len(left)]
    return any(window(entries[:total], size, 3)[1] == left for total in range(len(entries) + 1))


@case
def no_crash_of_the_machine_leaves_a_foreign_file(program):
    stream = b"".join(split((STREAMS / "plain.trc").read_bytes())[:60])
    check_images(program, (), ["t"], stream, random.Random(31))


@case
def no_crash_of_the_machine_leaves_a_foreign_file_of_a_wrap(program):
    stream = b"".join(drop(number + 1) + message(b"\x83a" + bytes([number])) for number in range(40))
    kind = ("--kind", "wrap", "--count", "3", "--size", "60")
    check_images(program, kind, ["t0", "t1", "t2", "t3"], stream, random.Random(32), 60)


@case
def no_crash_of_a_wipe_leaves_a_name_without_a_file(program):
    kind = ("--kind", "wrap", "--count", "3", "--size", "60")
    program.good("import", "t", *kind, "--keep-open", stdin=b"".join(drop(number + 1) for number in range(90)))
    before = stored(program.folder)
    calls = calls_of(program, "wipe", "t")
    assert sum(call[0] == "rename" for call in calls) >= 3, calls
    for number, image in images_of(calls, random.Random(33), Folder(program.folder, before)):
        for name, data in before.items():
            assert name in image, f"{name} is not there after {number} calls"
            assert image[name] == data or image[name][:1] in (b"", b"\0"), f"{name} after {number} calls: {image[name][:60]}"
        if number % 3 == 0:
            put(program, image)
            same((number, program.good("wipe", "crash-t", *kind[:2], "--force")), (number, b"ok\n"))
            left = {file.name: file.read_bytes() for file in program.folder.glob("crash-*")}
            same((number, set(left)), (number, {f"crash-{name}" for name in before}))
            assert all(data[:1] in (b"", b"\0") for data in left.values()), f"after {number} calls: {left}"
