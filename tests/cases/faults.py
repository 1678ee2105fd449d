"""Cases of calls of the system that fail or are interrupted, by a library that is preloaded."""

import os

from cases import STREAMS, group, stored
from entries import EXAMPLE, drop, listing, message, split
from machine import as_nobody
from preloading import calls_of, with_library
from program import Outcome, same
from segments import is_foreign

CASES, case = group()

WRAP = ("--kind", "wrap", "--count", "3", "--size", "100")

FAILED = "the disk failed while this trace was written; what was covered last may not be on it"

REFUSED = f"dbgrec: {FAILED}: export it elsewhere, or go on with --after-failure"

TOLD = f"dbgrec: {FAILED}\n".encode()

DEVICE = b'dbgrec: refused 1 Device: "t": Input/output error (os error 5)\n'


def not_gone_on(place):
    """What an import tells that ended as its disk failed, where its trace has the input up to this byte."""
    return f"{FAILED}: export it elsewhere, or go on with --after-failure, of a file with --skip {place} too\n".encode()


# entries that all differ
ENTRIES = [drop(number + 1) for number in range(60)]


def syncs(program, *words, stdin=b""):
    """The path of each sync of a command that is to end well."""
    return [call[-1] for call in calls_of(program, *words, stdin=stdin) if call[0] == "sync"]


def folders_in(found, folder):
    """How many syncs are those of this folder."""
    return found.count(str(folder))


def is_marked(program, *words):
    """Fails unless no recorder goes on, and each reader says that the disk failed."""
    before = stored(program.folder)
    for command in ("import", "record"):
        program.refused(command, *words, stdin=drop(1), says=REFUSED)
    program.refused("import", *words, "--keep-open", stdin=drop(1), says=REFUSED)
    for command in ("list", "export"):
        same(program.run(command, *words).errors, TOLD)
    same(stored(program.folder), before)


def fail(program, after, *words, file="/t", stdin=b"".join(ENTRIES)):
    """Runs a command of which one sync of a file fails."""
    return program.run(*words, stdin=stdin, before=with_library(program, FAIL_SYNC=file, FAIL_AFTER=after))


@case
def a_failed_sync_leaves_a_mark(program):
    outcome = fail(program, 40, "import", "t", "--flush", "always")
    same((outcome.status, outcome.output), (1, b"created\n"))
    same(sorted(stored(program.folder)), ["t", "t.failed"])
    mark = (program.folder / "t.failed").read_text()
    same(mark, "A sync of this trace failed; what was covered last may not be on the disk.\n")
    is_marked(program, "t")
    exported = program.run("export", "t")
    entries = split(exported.output)
    same((exported, entries), (Outcome(0, b"".join(entries), TOLD), ENTRIES[: len(entries)]))
    assert 10 < len(entries) < 30
    same(outcome.errors, DEVICE + not_gone_on(len(exported.output)))
    lines = [f"{number} drop {number + 1}" for number in range(len(entries))]
    same(program.run("list", "t"), Outcome(0, listing(0, 0, lines), TOLD))


@case
def a_broken_stream_whose_flush_fails_names_both(program):
    whole = syncs(program, "import", "whole", "--flush", "never", "--keep-open", stdin=ENTRIES[0])
    count = sum(path.endswith("/whole") for path in whole)
    outcome = fail(program, count - 1, "import", "t", "--flush", "never", stdin=ENTRIES[0] + b"\x07")
    same((outcome.status, outcome.output), (1, b"created\n"))
    place = len(ENTRIES[0])
    faults = b'dbgrec: "t": Input/output error (os error 5)\n' + f"dbgrec: refused 4 BadOp at {place}\n".encode()
    same(outcome.errors, faults + not_gone_on(place))


@case
def a_wipe_removes_the_mark(program):
    fail(program, 40, "import", "t", "--flush", "always")
    same(program.good("wipe", "t"), b"ok\n")
    same(sorted(stored(program.folder)), ["t"])
    same(program.good("list", "t"), listing(0, 0, []))
    same(program.good("import", "t", stdin=drop(1)), b"created\nsealed 1\n")


@case
def a_trace_is_gone_on_with_after_a_failure_where_that_is_asked_for(program):
    fail(program, 40, "import", "t", "--flush", "always")
    count = len(split(program.run("export", "t").output))
    goes_on = program.run("record", "t", "--after-failure", stdin=b"abandon\n")
    same((goes_on.status, goes_on.output), (0, f"resumed {count}\nok\n".encode()))
    goes_on = program.run("import", "t", "--after-failure", stdin=drop(9))
    same((goes_on.status, goes_on.output), (0, f"resumed {count}\nsealed {count + 1}\n".encode()))
    same(program.run("export", "t").output, b"".join(ENTRIES[:count]) + drop(9))


@case
def after_failure_of_a_trace_that_did_not_fail_changes_nothing(program):
    same(program.good("import", "t", "--after-failure", "--keep-open", stdin=drop(1)), b"created\nkept 1\n")
    same(program.good("record", "t", "--after-failure"), b"resumed 1\n")


@case
def a_failed_sync_of_a_wrap_leaves_a_mark(program):
    for file in ("/w0", "/w2"):
        outcome = fail(program, 9, "import", "w", *WRAP, "--flush", "always", file=file)
        same((outcome.status, outcome.output), (1, b"created\n"))
        first, *_ = outcome.errors.split(b"\n")
        same(first, f'dbgrec: refused 1 Device: "{file[1:]}": Input/output error (os error 5)'.encode())
        assert "w.failed" in stored(program.folder)
        is_marked(program, "w", "--kind", "wrap")
        same(program.run("list", "w").errors, TOLD)
        same(program.good("wipe", "w"), b"ok\n")
        assert "w.failed" not in stored(program.folder)


@case
def a_failed_sync_of_a_record_leaves_a_mark(program):
    script = b"tracee 0 8 10 r\n" + b"emit 0 receive 8377026f6b\nflushfor 0\n" * 20
    outcome = fail(program, 20, "record", "t", stdin=script)
    same((outcome.status, outcome.errors), (0, b'dbgrec: "t": Input/output error (os error 5)\n'))
    assert b"refused" in outcome.output
    is_marked(program, "t")
    covered = max(int(line.split()[-1]) for line in outcome.output.splitlines() if b" covered " in line)
    left = split(program.run("export", "t").output)
    assert covered <= len(left) <= covered + 1
    same(left, [message(EXAMPLE)] * len(left))


@case
def whichever_sync_fails_the_file_is_a_trace_and_its_next_recorder_is_told(program):
    given = b"".join(ENTRIES[:4])
    for after in range(200):
        name = f"t{after}"
        outcome = fail(program, after, "import", name, "--flush", "always", file=f"/{name}", stdin=given)
        if outcome.status == 0:
            break
        same(outcome.status, 1)
        assert b'Device: "%s": Input/output error (os error 5)\n' % name.encode() in outcome.errors, outcome
        assert not is_foreign((program.folder / name).read_bytes()), after
        program.refused("import", name, stdin=drop(1), says=REFUSED)
        goes_on = program.run("import", name, "--after-failure", stdin=drop(9))
        if b" 1 Sealed\n" in goes_on.errors:
            same(program.run("export", name).output, given)
        else:
            same(goes_on.status, 0)
            *left, last = split(program.run("export", name).output)
            same((left, last), (ENTRIES[: len(left)], drop(9)))
        assert program.run("wipe", name).output == b"ok\n"
        assert f"{name}.failed" not in stored(program.folder)
    same(outcome, Outcome(0, b"created\nsealed 4\n", b""))
    assert after > 10, f"only {after} syncs"


@case
def a_failed_write_leaves_no_mark(program):
    script = 'ulimit -f 4; trap "" XFSZ; exec "$@"'
    limited = ("bash", "-c", script, "bash")
    outcome = program.run("import", "t", stdin=message(b"\x83" + bytes(3_000)) * 9, before=limited)
    same(outcome.status, 1)
    assert b"File too large (os error 27)" in outcome.errors, outcome
    same(sorted(stored(program.folder)), ["t"])
    assert not is_foreign((program.folder / "t").read_bytes())
    same(program.good("import", "t", stdin=drop(1)).split()[0], b"resumed")


@case
def a_mark_that_can_not_be_made_leaves_the_fault_told(program):
    (program.folder / "shut").mkdir()
    program.good("import", "shut/t", "--keep-open", stdin=drop(1))
    with as_nobody(program) as nobody:
        os.chmod(program.folder / "shut" / "t", 0o666)
        os.chmod(program.folder / "shut", 0o555)
        before = (*nobody, *with_library(program, FAIL_SYNC="/t", FAIL_AFTER=9))
        outcome = program.run("import", "shut/t", "--flush", "always", stdin=b"".join(ENTRIES), before=before)
    same((outcome.status, outcome.output), (1, b"resumed 1\n"))
    first, *_ = outcome.errors.split(b"\n")
    same(first, b'dbgrec: refused 1 Device: "shut/t": Input/output error (os error 5)')
    same(list(stored(program.folder / "shut")), ["t"])


@case
def what_a_crash_may_leave_of_a_mark_is_one(program):
    program.good("import", "t", "--keep-open", stdin=drop(1))
    for left in (b"", b"A sync", b"A sync\0\0\0\0"):
        (program.folder / "t.failed").write_bytes(left)
        is_marked(program, "t")


@case
def a_file_of_the_name_of_a_mark_that_is_none_stays(program):
    (program.folder / "t.failed").write_bytes(b"notes of mine\n")
    program.good("import", "t", "--after-failure", stdin=drop(1))
    program.run("wipe", "t")
    same((program.folder / "t.failed").read_bytes(), b"notes of mine\n")


@case
def an_interrupted_read_is_tried_again(program):
    stream = (STREAMS / "plain.trc").read_bytes()
    outcome = program.run("import", "t", stdin=stream, before=with_library(program, INTERRUPT=1))
    same(outcome, Outcome(0, b"created\nsealed 137\n", b""))
    same(program.good("export", "t"), stream)


@case
def new_files_are_for_their_owner_alone(program):
    def free():
        os.umask(0)

    given = drop(1) * 60
    same(program.run("import", "t", stdin=given, preexec_fn=free), Outcome(0, b"created\nsealed 60\n", b""))
    same(program.run("import", "w", *WRAP, stdin=given, preexec_fn=free), Outcome(0, b"created\nsealed 60\n", b""))
    same(program.run("record", "r", preexec_fn=free), Outcome(0, b"created\n", b""))
    before = with_library(program, FAIL_SYNC="/f", FAIL_AFTER=9)
    program.run("import", "f", "--flush", "always", stdin=given, before=before, preexec_fn=free)
    names = ["f", "f.failed", "r", "t", "w0", "w1", "w2"]
    same({entry.name: entry.stat().st_mode & 0o777 for entry in program.folder.iterdir()}, dict.fromkeys(names, 0o600))


@case
def the_mode_of_a_file_that_is_there_stays(program):
    (program.folder / "t").touch()
    os.chmod(program.folder / "t", 0o640)
    program.good("import", "t", stdin=drop(1))
    program.good("wipe", "t")
    same((program.folder / "t").stat().st_mode & 0o777, 0o640)


@case
def a_folder_that_can_not_be_synced_is_told(program):
    (program.folder / "shut").mkdir()
    os.chmod(program.folder / "shut", 0o333)
    with as_nobody(program) as nobody:
        outcome = program.run("import", "shut/t", stdin=drop(1), before=nobody)
    assert outcome.status == 1 and not outcome.output, outcome
    says = b'Device: "shut/t": its folder "shut" can\'t be synced: Permission denied (os error 13)\n'
    assert says in outcome.errors, outcome
    outcome = program.run("import", "u", stdin=drop(1), before=with_library(program, FAIL_SYNC=program.folder, FAIL_ERROR=22))
    assert outcome.status == 1 and not outcome.output, outcome
    says = b'Device: "u": its folder "." can\'t be synced: Invalid argument (os error 22)\n'
    assert says in outcome.errors, outcome


@case
def the_folder_of_a_wrap_is_synced_once(program):
    words = ("--kind", "wrap", "--count", "1000", "--size", "0")
    program.good("import", "w", *words, "--keep-open", stdin=drop(1) * 1_003)
    same(len(stored(program.folder)), 1_001)
    found = syncs(program, "record", "w", *words, stdin=b"abandon\n")
    same(folders_in(found, program.folder), 1)
    same(len(set(found)), 1_002)
    wiped = syncs(program, "wipe", "w")
    # once as it begins, and once for each file that replaces another
    replaced = sum(path.endswith(".replacement") for path in wiped)
    same((replaced, folders_in(wiped, program.folder)), (1_000, 1_001))


@case
def each_new_file_has_its_folder_synced(program):
    found = syncs(program, "import", "w", *WRAP, stdin=drop(1) * 90)
    files = sorted(path for path in set(found) - {str(program.folder)} if not path.endswith(".replacement"))
    same(len(files), 4)
    for path in files:
        # a file's first sync, and that of the folder, stand before its next one
        first = found.index(path)
        assert str(program.folder) in found[max(first - 1, 0) : found.index(path, first + 1)], f"{path} in {found}"


@case
def through_a_link_the_folder_of_the_file_is_synced(program):
    (program.folder / "real").mkdir()
    (program.folder / "real" / "trace").touch()
    (program.folder / "t").symlink_to("real/trace")
    found = syncs(program, "import", "t", stdin=drop(1))
    assert folders_in(found, program.folder / "real") > 0, found
    same(set(found), {str(program.folder / "real"), str(program.folder / "real" / "trace")})
    same(program.good("list", "t"), listing(0, 0, ["0 drop 1"]))
