"""Cases of what the machine refuses, and of two programs at once."""

import contextlib
import os
import pty
import resource
import shutil
import subprocess
import time

from cases import Skipped, group, is_root, stored
from entries import EXAMPLE, drop, example_line, goes_on, listing, message, split
from program import PATIENCE, Outcome, read_to_end, same
from segments import is_foreign

CASES, case = group()

WRAP = ("--kind", "wrap", "--count", "3")


# what sets the user of a process, where this one may
NOBODY = ("setpriv", "--reuid", "65534", "--regid", "65534", "--clear-groups")


def told(status, errors, output=b""):
    return Outcome(status, output, errors.encode() + b"\n")


def stream():
    """Entries that all differ, of some 4 MB."""
    return [message(b"\x83" + number.to_bytes(7, "big") + bytes(990)) for number in range(4_000)]


@contextlib.contextmanager
def small_disk(folder):
    """A folder with a disk of 512 KiB."""
    disk = folder / "disk"
    disk.mkdir()
    mount = ["mount", "-t", "tmpfs", "-o", "size=512k", "tmpfs", str(disk)]
    if not is_root() or not shutil.which("mount") or subprocess.run(mount, capture_output=True, check=False).returncode:
        raise Skipped("no disk can be mounted here")
    try:
        yield disk
    finally:
        subprocess.run(["umount", str(disk)], check=True)


def fill(disk):
    """Fills a disk with a file."""
    with open(disk / "other", "wb", buffering=0) as other, contextlib.suppress(OSError):
        for _ in range(1_024):
            other.write(bytes(4_096))


def check_prefix(program, entries, *words):
    """Fails unless what is stored is a prefix of the entries, and answers its length."""
    left = split(program.good("export", *words))
    same(left, entries[: len(left)])
    return len(left)


def check_no_foreign_file(folder, *others):
    """Fails unless each file, but for these others, is one of the recorder's."""
    for name, data in stored(folder).items():
        assert name in others or not is_foreign(data), f"{name} is foreign: {data[:60]}"


@case
def a_full_disk_is_told_and_a_prefix_is_left(program):
    entries = stream()
    with small_disk(program.folder) as disk:
        (disk / "other").write_bytes(bytes(100_000))
        outcome = program.run("import", "disk/t", stdin=b"".join(entries))
        same((outcome.status, outcome.output), (1, b"created\n"))
        left = check_prefix(program, entries, "disk/t")
        place = len(b"".join(entries[:left]))
        same(outcome.errors, b'dbgrec: refused 1 Device: "disk/t": No space left on device (os error 28)\n' + goes_on(left, place).encode())
        assert 200 < left < 424
        same(sorted(stored(disk)), ["other", "t"])
        check_no_foreign_file(disk, "other")
        (disk / "other").unlink()
        told = program.good("import", "disk/t", "--skip", str(place), stdin=b"".join(entries[: left + 1]))
        same(told, f"resumed {left}\nsealed {left + 1}\n".encode())
        same(check_prefix(program, entries, "disk/t"), left + 1)


@case
def a_full_disk_under_a_wrap_is_told_with_the_file(program):
    entries = stream()
    words = ("disk/t", "--kind", "wrap", "--suffix", ".x")
    with small_disk(program.folder) as disk:
        outcome = program.run("import", *words, stdin=b"".join(entries))
        same((outcome.status, outcome.output), (1, b"created\n"))
        left = check_prefix(program, entries, *words)
        told = goes_on(left, len(b"".join(entries[:left]))).encode()
        same(outcome.errors, b'dbgrec: refused 1 Device: "disk/t3.x": No space left on device (os error 28)\n' + told)
        assert 300 < left < 524
        same(sorted(stored(disk)), ["t0.x", "t1.x", "t2.x", "t3.x"])
        check_no_foreign_file(disk)


@case
def a_disk_without_room_for_a_trace_is_told(program):
    with small_disk(program.folder) as disk:
        fill(disk)
        full = ' "disk/t": No space left on device (os error 28)'
        same(program.run("record", "disk/t"), told(1, f"dbgrec: refused 3 Device:{full}"))
        program.refused("list", "disk/t", says="dbgrec: disk/t: no such trace\ndisk/t is there and holds nothing: import begins a trace")
        check_no_foreign_file(disk, "other")


@case
def a_file_that_may_not_grow_is_told_and_a_prefix_is_left(program):
    entries = stream()

    def limit():
        resource.setrlimit(resource.RLIMIT_FSIZE, (400_000, 400_000))

    # the signal for it stays ignored, as it is here
    outcome = program.run("import", "t", stdin=b"".join(entries), preexec_fn=limit, restore_signals=False)
    same((outcome.status, outcome.output), (1, b"created\n"))
    same(list(stored(program.folder)), ["t"])
    check_no_foreign_file(program.folder)
    left = check_prefix(program, entries, "t")
    place = len(b"".join(entries[:left]))
    same(outcome.errors, b'dbgrec: refused 1 Device: "t": File too large (os error 27)\n' + goes_on(left, place).encode())
    assert 300 < left < 400
    told_again = program.good("import", "t", "--skip", str(place), stdin=b"".join(entries))
    same(told_again, f"resumed {left}\nsealed {len(entries)}\n".encode())
    same(check_prefix(program, entries, "t"), len(entries))


@contextlib.contextmanager
def as_nobody(program):
    """Words that run a command as nobody, where this is root."""
    if is_root() and not shutil.which("setpriv"):
        raise Skipped("root may do everything, and there is no setpriv")
    before = NOBODY if is_root() else ()
    try:
        yield before
    finally:
        for entry in program.folder.iterdir():
            os.chmod(entry, 0o755)


@case
def a_folder_that_may_not_be_changed_is_told(program):
    (program.folder / "shut").mkdir()
    (program.folder / "closed").mkdir()
    program.good("record", "shut/old", stdin=b"abandon\n")
    before = stored(program.folder / "shut")
    with as_nobody(program) as nobody:
        os.chmod(program.folder / "shut", 0o555)
        os.chmod(program.folder / "closed", 0o000)
        denied = "Permission denied (os error 13)"
        for command in ("record", "import"):
            same(program.run(command, "shut/t", stdin=drop(1), before=nobody), told(1, f'dbgrec: refused 3 Device: "shut/t": {denied}'))
            same(program.run(command, "closed/t", before=nobody), told(1, f'dbgrec: "closed/t" can\'t be locked: {denied}'))
        same(program.run("wipe", "shut/t", before=nobody), told(1, "dbgrec: shut/t: no such trace\nneither shut/t nor shut/t0 is there: import begins a trace"))
        for command in ("list", "export"):
            same(program.run(command, "closed/t", before=nobody), told(1, f'dbgrec: refused 4 Device: "closed/t": {denied}'))
    same(stored(program.folder / "shut"), before)


@case
def a_file_that_may_only_be_read_is_listed(program):
    program.good("import", "t", stdin=message(EXAMPLE))
    program.good("import", "w", *WRAP, stdin=message(EXAMPLE))
    before = stored(program.folder)
    for name in before:
        os.chmod(program.folder / name, 0o444)
    with as_nobody(program) as nobody:
        for words in (("t",), ("w", *WRAP)):
            same(program.run("list", *words, before=nobody), Outcome(0, listing(0, 0, [example_line(0)]), b""))
            same(program.run("export", *words, before=nobody), Outcome(0, message(EXAMPLE), b""))
        denied = "Permission denied (os error 13)"
        same(program.run("wipe", "t", before=nobody), told(1, f'dbgrec: refused 1 Device: "t": {denied}'))
    same(stored(program.folder), before)


@case
def a_file_on_a_disk_that_may_only_be_read_is_listed(program):
    with small_disk(program.folder) as disk:
        program.good("import", "disk/t", stdin=message(EXAMPLE))
        if subprocess.run(["mount", "-o", "remount,ro", str(disk)], capture_output=True, check=False).returncode:
            raise Skipped("no disk can be mounted to be read only")
        same(program.good("list", "disk/t"), listing(0, 0, [example_line(0)]))
        same(program.good("export", "disk/t"), message(EXAMPLE))
        read_only = "Read-only file system (os error 30)"
        same(program.run("wipe", "disk/t"), told(1, f'dbgrec: refused 1 Device: "disk/t": {read_only}'))
        same(program.run("record", "disk/u"), told(1, f'dbgrec: refused 3 Device: "disk/u": {read_only}'))


@case
def the_second_of_two_at_once_says_so_and_changes_nothing(program):
    for first, kind in (("record", ()), ("import", ()), ("record", WRAP)):
        name = f"t-{first}-{len(kind)}"
        with program.start(first, name, *kind) as running:
            same(running.opens(b"\1") if first == "import" else running.line(), "created")
            before = stored(program.folder)
            file = f"{name}0" if kind else name
            for command in ("record", "import", "wipe"):
                program.refused(command, name, *kind, stdin=message(EXAMPLE), says=f'dbgrec: "{file}" is in use by another process')
            same(stored(program.folder), before)
            same(program.good("list", name, *kind), b"end_of_trace\n")
            if first == "import":
                running.write(drop(1))
            same(running.end().status, 0)
        same(program.good("wipe", name, *kind), b"ok\n")


@case
def names_with_blanks_and_line_feeds_are_kept_and_told(program):
    name = "a trace,\nof \"two\" words"
    same(program.good("import", name, stdin=message(EXAMPLE)), b"created\nsealed 1\n")
    same(program.good("list", name), listing(0, 0, [example_line(0)]))
    same(list(stored(program.folder)), [name])
    same(program.good("import", name, *WRAP, "--suffix", " \n.x", stdin=message(EXAMPLE)), b"created\nsealed 1\n")
    assert f"{name}0 \n.x" in stored(program.folder)
    with program.start("record", f"{name}2") as running:
        same(running.line(), "created")
        says = 'dbgrec: "a trace,\\nof \\"two\\" words2" is in use by another process'
        program.refused("wipe", f"{name}2", says=says)


@case
def a_folder_in_the_place_of_a_file_is_told(program):
    (program.folder / "t").mkdir()
    for command in ("record", "import", "wipe"):
        program.refused(command, "t", says='dbgrec: "t" can\'t be locked: is a directory')
    for command in ("list", "export"):
        program.refused(command, "t", says='dbgrec: refused 4 Device: "t": is a directory')
    (program.folder / "w1").mkdir()
    program.refused("record", "w", *WRAP, says='dbgrec: "w1" can\'t be locked: is a directory')


@case
def two_names_of_one_file_are_told(program):
    program.good("import", "w", *WRAP, stdin=message(EXAMPLE))
    os.link(program.folder / "w0", program.folder / "w3")
    program.refused("list", "w", *WRAP, says='dbgrec: refused 4 Device: "w3": two names of one file')


@case
def a_long_import_shows_on_a_terminal_how_far_it_is(program):
    screen, terminal = pty.openpty()
    pipe = subprocess.PIPE
    command = [program.path, "import", "t"]
    importer = subprocess.Popen(command, cwd=program.folder, stdin=pipe, stdout=pipe, stderr=terminal)
    os.close(terminal)
    for _ in range(16):
        importer.stdin.write(message(EXAMPLE))
        importer.stdin.flush()
        time.sleep(0.1)
    output, _ = importer.communicate(timeout=PATIENCE)
    same((importer.returncode, output), (0, b"created\nsealed 16\n"))
    said = read_to_end(screen)
    os.close(screen)
    shown = [line.split(b" ") for line in said.split(b"\r") if b"entries" in line]
    for words in shown:
        same((words[1:4:2], words[4:]), ([b"entries,", b"bytes,"], [b"0", b"dropped\x1b[K"]))
        same(int(words[2]), int(words[0]) * 56)
    assert shown, said
    assert said.endswith(b"\r\x1b[K"), said
