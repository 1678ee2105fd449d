"""Cases of files that a recorder or a wipe puts in the place of others, and of what a crash left beside them."""

import contextlib
import fcntl
import itertools
import json
import os
import shutil
import signal
import subprocess
import threading

from cases import Skipped, group, is_root, stored
from entries import drop, listing_of, split, window
from machine import as_nobody, fill, small_disk
from preloading import calls_of, with_library
from program import PATIENCE, Outcome, same
from segments import FILE_HEADER, STORED, segment, wrap_header

CASES, case = group()

# each entry ends a run, so that each file but the newest two is replaced again and again
WRAP = ("--kind", "wrap", "--count", "3", "--size", "0")

NAMES = [f"w{number}" for number in range(4)]

DROPS = [drop(number + 1) for number in range(90)]

IN_USE = 'dbgrec: "{}" is in use by another process'


def begin(program, name="w", **options):
    """Records so much that each file of the wrap is there."""
    same(program.run("import", name, *WRAP, "--keep-open", stdin=b"".join(DROPS[:9]), **options).status, 0)


def go_on(program, name="w", before=(), last=90):
    """Goes on with the wrap, and fails unless it is right then."""
    outcome = program.run("import", name, *WRAP, "--keep-open", stdin=b"".join(DROPS[9:last]), before=before)
    same(outcome, Outcome(0, f"resumed 9\nkept {last}\n".encode(), b""))
    check_window(program, last, name)


def check_window(program, count, name="w"):
    """So many entries were accepted, of which the wrap keeps the last."""
    first, left = window(DROPS[:count], 0, 3)
    same(program.good("list", name), listing_of(left, first, sum(range(1, first + 1))))


def linked(program):
    """Makes each file of the wrap a link, and answers the folder of what they lead to."""
    real = program.folder / "real"
    real.mkdir()
    for name in NAMES:
        (real / name).touch()
        (program.folder / name).symlink_to(f"real/{name}")
    return real


def numbers(folder):
    """The number of each file that a folder lists."""
    return {entry.name: entry.stat().st_ino for entry in folder.iterdir()}


@contextlib.contextmanager
def each_is_replaced(folder):
    """Fails unless each file of the wrap is another one then. They stay open, so that no other gets the number of one."""
    with contextlib.ExitStack() as opened:
        for name in NAMES:
            opened.enter_context(open(folder / name, "rb"))
        before = numbers(folder)
        yield
        same([name for name, number in numbers(folder).items() if number == before[name]], [])


@case
def who_has_a_file_open_keeps_it_as_it_was(program):
    begin(program)
    before = stored(program.folder)
    readers = {name: open(program.folder / name, "rb") for name in NAMES}
    with each_is_replaced(program.folder):
        go_on(program)
    for name, reader in readers.items():
        with reader:
            data = reader.read()
        # the byte of a retired file says so, and a gate at the end may have been opened
        same((name, data[:1], data[1 : len(before[name]) - 1]), (name, b"\0", before[name][1:-1]))
    same(sorted(stored(program.folder)), NAMES)


def owners(folder):
    """The mode, the owner and the group of each file of a folder."""
    found = {entry.name: entry.stat() for entry in folder.iterdir()}
    return {name: (status.st_mode, status.st_uid, status.st_gid) for name, status in found.items()}


@case
def a_file_in_the_place_of_another_has_its_mode_and_owner(program):
    begin(program)
    for number, name in enumerate(NAMES):
        os.chmod(program.folder / name, 0o640 + number)
        if is_root():
            os.chown(program.folder / name, 65_534, 1_000 + number)
    before = owners(program.folder)
    with each_is_replaced(program.folder):
        go_on(program)
    same(owners(program.folder), before)


@case
def a_file_of_another_owner_is_shortened_in_place(program):
    if not is_root():
        raise Skipped("only root can make a file of another owner")
    begin(program)
    os.chmod(program.folder, 0o777)
    for name in NAMES:
        os.chmod(program.folder / name, 0o666)
    before = numbers(program.folder)
    with as_nobody(program) as nobody:
        go_on(program, before=nobody)
    same(numbers(program.folder), before)
    same({(program.folder / name).stat().st_uid for name in NAMES}, {0})


@case
def a_file_of_a_folder_that_may_not_be_written_is_shortened_in_place(program):
    folder = program.folder / "shut"
    folder.mkdir()
    begin(program, "shut/w")
    for name in NAMES:
        os.chmod(folder / name, 0o666)
    before = numbers(folder)
    with as_nobody(program) as nobody:
        os.chmod(folder, 0o555)
        go_on(program, "shut/w", before=nobody)
        same(program.run("wipe", "shut/w", before=nobody), Outcome(0, b"ok\n", b""))
    same(numbers(folder), before)


@case
def a_file_whose_system_renames_none_is_shortened_in_place(program):
    begin(program)
    before = numbers(program.folder)
    # EPERM, EXDEV and EOPNOTSUPP
    for turn, reason in enumerate((1, 18, 95)):
        stdin = DROPS[9 + turn * 9 : 18 + turn * 9]
        outcome = program.run("import", "w", *WRAP, "--keep-open", stdin=b"".join(stdin), before=with_library(program, FAIL_RENAME=reason))
        same(outcome, Outcome(0, f"resumed {9 + turn * 9}\nkept {18 + turn * 9}\n".encode(), b""))
        same(numbers(program.folder), before)
    same(split(program.good("export", "w")), window(DROPS[:36], 0, 3)[1])


@case
def a_link_stays_one_and_its_target_is_replaced(program):
    real = linked(program)
    begin(program)
    with each_is_replaced(real):
        go_on(program)
    same([name for name in NAMES if not (program.folder / name).is_symlink()], [])
    same((sorted(numbers(real)), sorted(numbers(program.folder))), (NAMES, ["real", *NAMES]))


@case
def the_folder_of_a_file_that_was_replaced_is_synced_before_it_counts(program):
    real = linked(program)
    calls = calls_of(program, "import", "w", *WRAP, stdin=b"".join(DROPS))
    renamed = [at for at, call in enumerate(calls) if call[0] == "rename"]
    assert len(renamed) > 40, renamed
    for at in renamed:
        _, former, path = calls[at]
        same(former, f"{path}.replacement")
        # made, written and synced before; after it come the sync of the file and that of its folder
        same([call[0] for call in calls[at - 3 : at]], ["make", "write", "sync"])
        same({call[-1] for call in calls[at - 3 : at]}, {former})
        same(calls[at + 1 : at + 3], [["sync", path], ["sync", str(real)]])


@case
def another_hard_link_keeps_the_old_run(program):
    begin(program)
    others = program.folder / "others"
    others.mkdir()
    for name in NAMES:
        os.link(program.folder / name, others / name)
    before = stored(others)
    go_on(program)
    for name, data in stored(others).items():
        was = before[name]
        same((name, data[:1], data[1 : len(was) - 1]), (name, b"\0", was[1:-1]))
    same(sorted(stored(others)), NAMES)


@case
def a_full_disk_at_a_turn_shortens_the_file_in_place(program):
    with small_disk(program.folder) as disk:
        begin(program, "disk/w")
        fill(disk)
        before = numbers(disk)
        go_on(program, "disk/w")
        same(numbers(disk), before)


@case
def of_several_that_begin_at_once_one_records(program):
    pipe = subprocess.PIPE
    kept, expected = 0, []
    for _ in range(20):
        given = b"".join(DROPS[kept % 60 : kept % 60 + 12])
        command = [program.path, "import", "w", *WRAP, "--keep-open"]
        running = [subprocess.Popen(command, cwd=program.folder, stdin=pipe, stdout=pipe, stderr=pipe) for _ in range(4)]
        threads = [threading.Thread(target=each.stdin.write, args=(given,)) for each in running]
        for thread in threads:
            thread.start()
        for each, thread in zip(running, threads):
            thread.join()
        for each in running:
            output, errors = each.communicate(timeout=PATIENCE)
            if each.returncode == 0:
                same((output.split()[-1], errors), (str(kept + 12).encode(), b""))
                kept += 12
                expected += split(given)
            else:
                assert any(errors.startswith(IN_USE.format(name).encode()) for name in NAMES), errors
        same(split(program.good("export", "w")), window(expected, 0, 3)[1])
    assert kept >= 20 * 12, kept
    same(sorted(stored(program.folder)), NAMES)


@case
def who_comes_beside_a_recorder_that_turns_finds_it_in_use(program):
    begin(program)
    is_over = threading.Event()
    with program.start("import", "w", *WRAP, "--keep-open") as running:
        same(running.opens(drop(1)), "resumed 9")

        def feed():
            with contextlib.suppress(BrokenPipeError):
                while not is_over.is_set():
                    running.write(drop(1) * 50)

        feeding = threading.Thread(target=feed)
        feeding.start()
        try:
            for number in range(200):
                command = ("import", "record", "wipe", "wipe")[number % 4]
                outcome = program.run(command, "w", *WRAP[: 2 if command == "wipe" else None], *(("--force",) if number % 4 == 3 else ()), stdin=drop(2))
                same((number, outcome.status, outcome.output), (number, 1, b""))
                assert any(outcome.errors.startswith(IN_USE.format(name).encode()) for name in NAMES), outcome
                if number % 10 == 0:
                    assert b"being written" in program.good("info", "w"), number
        finally:
            is_over.set()
            running.kill()
            feeding.join()
    told = program.good("record", "w", *WRAP, stdin=b"abandon\n").split()
    assert told[0] == b"resumed" and int(told[1]) > 20, told
    assert program.good("export", "w") in (drop(1) * 2, drop(1) * 3)
    same(sorted(stored(program.folder)), NAMES)


def moved(program, name):
    """Words that run a command, and put another file into the place of a file after it is opened and before it is locked."""
    return with_library(program, MOVE_FROM=program.folder / "other", MOVE_TO=program.folder / name)


@case
def a_file_that_is_replaced_before_its_lock_is_opened_again(program):
    open_file = segment(FILE_HEADER, b"".join(DROPS[:3]))
    for words, told in ((("import", "t", "--keep-open"), b"resumed 3\nkept 4\n"), (("record", "t"), b"resumed 3\n"), (("wipe", "t"), b"ok\n")):
        (program.folder / "t").write_bytes(STORED)
        (program.folder / "other").write_bytes(open_file)
        same(program.run(*words, stdin=drop(7) if words[0] == "import" else b"", before=moved(program, "t")), Outcome(0, told, b""))
        left = {"import": b"".join(DROPS[:3]) + drop(7), "record": b"".join(DROPS[:3]), "wipe": b""}[words[0]]
        same(program.good("export", "t"), left)
        same(sorted(stored(program.folder)), ["t"])


@case
def a_file_that_is_replaced_before_its_lock_and_held_is_in_use(program):
    for words in (("import", "t", "--keep-open"), ("record", "t"), ("wipe", "t"), ("info", "t")):
        (program.folder / "t").write_bytes(STORED)
        with open(program.folder / "other", "wb", buffering=0) as held:
            held.write(segment(FILE_HEADER, b"".join(DROPS[:3])))
            fcntl.flock(held, fcntl.LOCK_EX)
            before = (program.folder / "other").read_bytes()
            outcome = program.run(*words, stdin=drop(7), before=moved(program, "t"))
        if words[0] == "info":
            assert outcome.status == 0 and b"state: being written" in outcome.output, outcome
        else:
            same(outcome, Outcome(1, b"", IN_USE.format("t").encode() + b"\n"))
        same(stored(program.folder), {"t": before})


LEFT = ("w0.replacement", "w1.replacement")


@case
def what_a_crash_left_beside_a_file_is_passed_over_and_then_removed(program):
    begin(program)
    before = stored(program.folder)
    read = [program.good(*words) for words in (("list", "w"), ("export", "w"), ("info", "w"))]
    for data in (b"", b"\0"):
        for name in LEFT:
            (program.folder / name).write_bytes(data)
        same([program.good(*words) for words in (("list", "w"), ("export", "w"), ("info", "w"))], read)
        same(sorted(stored(program.folder)), sorted([*NAMES, *LEFT]))
        same(program.good("record", "w", *WRAP, stdin=b"abandon\n"), b"resumed 9\nok\n")
        same(stored(program.folder), before)
    for name in LEFT:
        (program.folder / name).write_bytes(b"\0")
    same(program.good("wipe", "w"), b"ok\n")
    same(sorted(stored(program.folder)), NAMES)


@case
def what_a_crash_left_beside_the_target_of_a_link_is_removed(program):
    (program.folder / "real").mkdir()
    (program.folder / "real" / "t").write_bytes(b"")
    (program.folder / "real" / "t.replacement").write_bytes(b"\0")
    (program.folder / "t.replacement").write_bytes(b"\0")
    (program.folder / "t").symlink_to("real/t")
    same(program.good("import", "t", stdin=drop(1)), b"created\nsealed 1\n")
    same((sorted(stored(program.folder)), sorted(stored(program.folder / "real"))), (["t", "t.replacement"], ["t"]))


@case
def what_a_crash_left_is_no_file_of_a_trace(program):
    for number in range(9):
        (program.folder / f"t{number}.replacement").write_bytes(b"\0")
    (program.folder / "t.replacement").write_bytes(b"\0")
    for command in ("list", "export", "wipe", "info"):
        program.refused(command, "t", says="dbgrec: t: no such trace\nneither t nor t0 is there: import begins a trace")
    same(program.good("import", "t", *WRAP, stdin=b"".join(DROPS)), b"created\nsealed 90\n")
    same(split(program.good("export", "t")), window(DROPS, 0, 3)[1])
    # the files that are there are those that the recorder made, and those beside none of them
    same(sorted(stored(program.folder)), sorted([*(f"t{number}" for number in range(4)), *(f"t{number}.replacement" for number in range(4, 9)), "t.replacement"]))


@case
def what_stands_beside_a_file_and_is_not_left_by_a_crash_stays(program):
    begin(program)
    before = numbers(program.folder)
    (program.folder / "w0.replacement").write_bytes(b"notes of mine\n")
    (program.folder / "w1.replacement").mkdir()
    (program.folder / "w2.replacement").symlink_to("w3")
    (program.folder / "w3.replacement").write_bytes(b"\0")
    with open(program.folder / "w3.replacement", "rb") as held:
        fcntl.flock(held, fcntl.LOCK_EX)
        there = {name: (program.folder / f"{name}.replacement").lstat().st_ino for name in NAMES}
        go_on(program)
        same({name: (program.folder / f"{name}.replacement").lstat().st_ino for name in NAMES}, there)
    same({name: (program.folder / name).stat().st_ino for name in NAMES}, before)
    same((program.folder / "w0.replacement").read_bytes(), b"notes of mine\n")


@case
def a_file_whose_name_leaves_no_room_for_another_is_shortened_in_place(program):
    name = "w" * 250
    begin(program, name)
    before = numbers(program.folder)
    go_on(program, name)
    same(numbers(program.folder), before)


@case
def a_file_that_is_moved_away_while_it_is_recorded_is_shortened_in_place(program):
    begin(program)
    away = program.folder / "away"
    away.mkdir()
    with program.start("import", "w", *WRAP, "--keep-open") as running:
        same(running.opens(b"\1"), "resumed 9")
        for name in NAMES:
            shutil.move(program.folder / name, away / name)
        before = numbers(away)
        running.write(b"".join(DROPS[:9]))
        same(running.end(), Outcome(0, b"kept 18\n", b""))
    same((numbers(away), stored(program.folder)), (before, {}))
    same(split(program.good("export", "away/w")), window(DROPS[:9] * 2, 0, 3)[1])


@case
def a_wrap_of_1001_files_is_read_with_1024_handles(program):
    words = ("w", "--kind", "wrap", "--count", "1000", "--size", "0")
    for number in range(1_000):
        header = wrap_header(number, before=number, lost=number, size=0, count=1_000)
        (program.folder / f"w{number}").write_bytes(segment(header, *[drop(1)] * (number < 999)))
    (program.folder / "w1000").write_bytes(b"\0")
    expected = {command: program.good(command, "w") for command in ("list", "export", "info")}
    same(expected["export"], drop(1) * 999)

    def limited(most):
        return ("bash", "-c", f'ulimit -n {most}; exec "$@"', "bash")

    for command, output in expected.items():
        same(program.run(command, "w", before=limited(1_024)), Outcome(0, output, b""))
        outcome = program.run(command, "w", before=limited(1_000))
        same((command, outcome.status, outcome.output), (command, 1, b""))
        first, second = outcome.errors.decode().splitlines()
        number = first.removeprefix("dbgrec: w").split(" ")[0]
        same(first, f"dbgrec: w{number} can't be opened: Too many open files (os error 24)")
        assert 900 < int(number) < 1_000, first
        same(second, "the files of the trace are open at once, 1001 of them: ulimit -n 1017 lets them")
    going_on = program.run("import", *words, "--keep-open", before=limited(1_024), stdin=drop(1) * 9)
    same(going_on, Outcome(0, b"resumed 999\nkept 1008\n", b""))
    same(len(stored(program.folder)), 1_001)


@case
def a_kill_before_any_call_of_a_turn_leaves_what_is_listed_and_gone_on_with(program):
    """Each entry ends a run. What a kill leaves is the wrap of a prefix, and the next recorder goes on with it."""
    begin(program)
    begun = stored(program.folder)
    given = b"".join(DROPS[9:13])
    for number in itertools.count(1):
        for name in os.listdir(program.folder):
            (program.folder / name).unlink()
        for name, data in begun.items():
            (program.folder / name).write_bytes(data)
        ran = program.run("import", "w", *WRAP, "--keep-open", stdin=given, before=with_library(program, KILL_BEFORE=number))
        if ran.status == 0:
            break
        same(ran.status, -signal.SIGKILL)
        kept = json.loads(program.good("info", "--json", "w"))["last"] + 1
        assert 9 <= kept <= 13, kept
        check_window(program, kept)
        same(program.good("import", "w", *WRAP, "--keep-open", stdin=b"".join(DROPS[kept:20])), f"resumed {kept}\nkept 20\n".encode())
        check_window(program, 20)
    assert number > 30, "a turn has more calls"
