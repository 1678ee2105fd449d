"""Cases of files that aren't the recorder's: no command changes one, but `wipe --force`."""

import concurrent.futures
import os
import random
import string

from cases import STREAMS, group, stored
from entries import EXAMPLE, drop, listing, message, split
from program import Outcome, same
from segments import FILE_HEADER, STORED, foreign_words, is_foreign, segment, wrap_header

CASES, case = group()

WRAP = ("--kind", "wrap", "--count", "3")

# each command that is given the files of a trace
COMMANDS = ("list", "export", "wipe", "import", "record")

TEXT = b"important text\n"

# when a file was changed last, in nanoseconds, as no run of the program leaves it
LONG_AGO = 1_000_000_000_123_456_789


def put(folder, name, data):
    """Makes a file that was changed long ago."""
    (folder / name).write_bytes(data)
    os.utime(folder / name, ns=(LONG_AGO, LONG_AGO))


def state(folder):
    """What each file of a folder holds, and when it was changed last."""
    return {name: (data, (folder / name).stat().st_mtime_ns) for name, data in stored(folder).items()}


def is_refused(program, name, *words):
    """Fails unless each command refuses the foreign file of this name and changes nothing."""
    before = state(program.folder)
    says = foreign_words(name, before[name][0])
    for command in COMMANDS:
        program.refused(command, *words, stdin=message(EXAMPLE), says=says)
        same((command, state(program.folder)), (command, before))


@case
def a_text_is_no_trace_and_stays(program):
    put(program.folder, "notes", TEXT)
    same(foreign_words("notes", TEXT), "dbgrec: notes isn't a trace of dbgrec\nit stays as it is: give another name")
    is_refused(program, "notes", "notes")


@case
def a_trace_of_otp_is_no_trace_and_stays(program):
    for name in ("ip", "plain", "node", "wrap0"):
        file = f"{name}.trc"
        put(program.folder, file, (STREAMS / file).read_bytes())
        is_refused(program, file, file)
    says = "dbgrec: ip.trc isn't a trace of dbgrec (it looks like an entry stream: dbgrec stream < ip.trc)"
    program.refused("import", "ip.trc", says=says)


@case
def a_stream_that_begins_with_a_drop_is_no_trace(program):
    put(program.folder, "drops", drop(7) + message(EXAMPLE))
    is_refused(program, "drops", "drops")


@case
def a_foreign_file_among_those_of_a_wrap_is_told(program):
    put(program.folder, "log0", TEXT)
    is_refused(program, "log0", "log", *WRAP)
    same(list(stored(program.folder)), ["log0"])
    put(program.folder, "old2.x", message(EXAMPLE))
    is_refused(program, "old2.x", "old", *WRAP, "--suffix", ".x")
    same(sorted(stored(program.folder)), ["log0", "old2.x"])


@case
def a_foreign_file_beside_the_files_of_a_wrap_is_told(program):
    program.good("import", "w", *WRAP, "--keep-open", stdin=message(EXAMPLE))
    for name in stored(program.folder):
        put(program.folder, name, (program.folder / name).read_bytes())
    put(program.folder, "w3", TEXT)
    is_refused(program, "w3", "w", *WRAP)


@case
def a_foreign_file_behind_a_link_stays(program):
    put(program.folder, "notes", TEXT)
    (program.folder / "t").symlink_to("notes")
    before = state(program.folder)
    for command in COMMANDS:
        program.refused(command, "t", stdin=message(EXAMPLE), says="dbgrec: t isn't a trace of dbgrec\nit stays as it is: give another name")
        same(state(program.folder), before)


@case
def the_name_of_a_foreign_file_is_quoted_where_it_is_not_plain(program):
    put(program.folder, "my notes", TEXT)
    program.refused("import", "my notes", says='dbgrec: "my notes" isn\'t a trace of dbgrec\nit stays as it is: give another name')
    put(program.folder, "it's", message(EXAMPLE))
    hint = 'it looks like an entry stream: dbgrec stream < "it\'s"'
    program.refused("wipe", "it's", says=f'dbgrec: "it\'s" isn\'t a trace of dbgrec ({hint})')


# files that are the recorder's, of which no crash of it leaves some
OURS = (
    b"x",
    b"\0",
    b"\1",
    b"\0\0",
    b"\1\0\0\0",
    drop(0),
    message(b""),
    message(b"\x82x"),
    message(b"\x83" + bytes(65_531)),
    message(EXAMPLE)[:-1],
    b"\0DBT1" + bytes(31),
    b"xDBT1",
    b"\2DBT2",
    b"\0" + bytes(4_096),
)

FOREIGN = (b"xy", b"\2\0", b"\xff" * 40, b"\1\0\0\0\1", b"\0\0\0\0\1\x83", b"xDBT3", b"DBT1", message(b"\x83" + bytes(65_530)))


@case
def a_file_of_at_most_one_byte_is_not_foreign(program):
    for name, data in (("empty", b""), ("one", b"x")):
        put(program.folder, name, data)
        same(program.good("import", name, stdin=message(EXAMPLE)), b"created\nsealed 1\n")


@case
def what_is_foreign_is_told_by_its_first_bytes(program):
    for number, data in enumerate(OURS):
        assert not is_foreign(data), data[:40]
        put(program.folder, f"ours{number}", data)
        same(program.good("import", f"ours{number}", stdin=message(EXAMPLE)), b"created\nsealed 1\n")
    for number, data in enumerate(FOREIGN):
        assert is_foreign(data), data[:40]
        put(program.folder, f"foreign{number}", data)
        is_refused(program, f"foreign{number}", f"foreign{number}")


@case
def force_clears_a_foreign_file(program):
    put(program.folder, "notes", TEXT)
    put(program.folder, "ip.trc", (STREAMS / "ip.trc").read_bytes())
    put(program.folder, "log2", TEXT)
    for name, words in (("notes", ("notes",)), ("ip.trc", ("ip.trc",)), ("log2", ("log", *WRAP))):
        same(program.good("wipe", *words, "--force"), b"ok\n")
        assert not is_foreign((program.folder / name).read_bytes()), name
        same(program.good("list", *words), listing(0, 0, []))
        same(program.good("import", *words, stdin=message(EXAMPLE)), b"created\nsealed 1\n")
        same(program.good("export", *words), message(EXAMPLE))


@case
def force_clears_a_trace_as_well(program):
    program.good("import", "t", stdin=message(EXAMPLE))
    same(program.good("wipe", "t", "--force"), b"ok\n")
    same(program.good("list", "t"), listing(0, 0, []))


def a_text(chance):
    words = ["".join(chance.choices(string.printable, k=chance.randrange(1, 12))) for _ in range(chance.randrange(1, 60))]
    return chance.choice((" ", "\n", "")).join(words).encode()


def a_part_of_otp(chance, streams):
    """A part of a stream, which begins with an entry or inside one, and is long or short."""
    entries = chance.choice(streams)
    first = chance.randrange(len(entries))
    found = b"".join(entries[first : first + chance.randrange(1, 20)])
    found = found[chance.choice((0, 0, 0, 1, 2, 5, chance.randrange(len(found)))) :]
    return found[: chance.choice((len(found), len(found), chance.randrange(len(found) + 1), chance.randrange(12)))]


def a_changed_trace(chance):
    """One of the recorder's files, cut or changed in its first bytes."""
    entries = message(EXAMPLE) * chance.randrange(4) + drop(chance.randrange(1, 9))
    header = chance.choice((FILE_HEADER, wrap_header(chance.randrange(9))))
    data = bytearray(chance.choice((STORED, segment(header, entries), segment(header), b"\0" + segment(header)[1:])))
    for _ in range(chance.choice((0, 1, 1, 2, 5, 40))):
        data[chance.choice((0, chance.randrange(6), chance.randrange(37)))] = chance.choice((0, 1, 131, chance.randrange(256)))
    return bytes(data[: chance.choice((len(data), len(data), chance.randrange(41)))])


def random_files(chance, count):
    streams = [split((STREAMS / f"{name}.trc").read_bytes()) for name in ("plain", "stamped", "mono", "node", "ip")]
    makers = (a_text, lambda chance: a_part_of_otp(chance, streams), a_changed_trace)
    return [chance.choice(makers)(chance) for _ in range(count)]


def check_one(program, number, data):
    """Runs commands on a file of these bytes, alone or as one of a wrap: each on a foreign one, else readers and one more."""
    name, words = (f"f{number}", ()) if number % 3 else (f"f{number}_{number % 4}", WRAP)
    base = (name if number % 3 else name[:-1], *words)
    put(program.folder, name, data)
    expected = Outcome(1, b"", (foreign_words(name, data) + "\n").encode())
    for command in COMMANDS if is_foreign(data) else ("list", "export", COMMANDS[2 + number % 5 % 3]):
        outcome = program.run(command, *base, stdin=message(EXAMPLE))
        if not is_foreign(data):
            assert b"isn't a trace of" not in outcome.errors, f"{command} of {data[:60]}: {outcome}"
            continue
        assert outcome == expected, f"{command} of {data[:60]}: {outcome}"
        file = program.folder / name
        assert (file.read_bytes(), file.stat().st_mtime_ns) == (data, LONG_AGO), f"{command} changed {data[:60]}"
    return is_foreign(data)


@case
def no_command_changes_a_foreign_file_of_a_thousand(program):
    files = random_files(random.Random(25), 1_000)
    with concurrent.futures.ThreadPoolExecutor(4) as pool:
        found = list(pool.map(lambda job: check_one(program, *job), enumerate(files)))
    assert 300 < sum(found) < 900, f"{sum(found)} of them are foreign"
    assert sum(map(bool, files)) > 900
