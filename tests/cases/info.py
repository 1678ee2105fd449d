"""Cases of `info`."""

import json
import struct
import subprocess

import terms
from cases import STREAMS, group, stored
from entries import EXAMPLE, drop, fragments, joined, kept, message, split
from importing import stream_of
from program import PATIENCE, Outcome, same
from segments import FILE_HEADER, STORED, batch, segment, wrap_header

CASES, case = group()

WRAP = ("--kind", "wrap")

# the words of the readable listing, in the order in which they are told
WORDS = (
    "call return exception return_to send send_lost receive spawn spawned exit register unregister link unlink "
    "getting_linked getting_unlinked in in_exiting out out_exiting out_exited gc_minor_start gc_minor_end "
    "gc_major_start gc_major_end gc_max_heap_size open closed seq_trace opaque other part"
).split()

# a message with a time stamp: {trace_ts,<nonode@nohost.80.0.0>,'receive',ok,STAMP}
STAMPED = bytes.fromhex("83680577087472616365") + b"_ts" + EXAMPLE[10:]


def moment(mega, second, micro):
    """The External Term Format of {Mega,Sec,Micro}."""
    return bytes.fromhex("6803") + b"".join(b"\x62" + struct.pack(">i", each) for each in (mega, second, micro))


def counted(entries):
    """How many messages there are of each word of the readable listing, in the order in which they are told, and then how many
    parts of long ones."""
    found = [terms.told_of_stored(word, what).split(" ")[0] for _, word, what in joined(entries)]
    return {word: found.count(word) for word in WORDS if word in found}


def words_of(said):
    """The same of the lines that were told."""
    return {line.split(": ")[0]: int(line.split(": ")[1]) for line in said if line.split(":")[0] in WORDS}


def numbers(entries):
    """The lines of the drop records and the bytes. A long message that isn't whole is lost, and counted by its first part."""
    lost = [struct.unpack(">I", entry[1:])[0] for entry in entries if entry[0] == 1]
    broken = sum(word == "part" and what[0] == 1 for _, word, what in joined(entries))
    return [f"drop records: {len(lost)}, messages lost: {sum(lost) + broken}", f"bytes: {len(b''.join(entries))}"]


def seconds(nanos):
    """Nanoseconds in seconds, with six digits where the last three are zeros, else with nine."""
    sign, whole, rest = "-" if int(nanos) < 0 else "", *divmod(abs(int(nanos)), 1_000_000_000)
    digits = f"{rest:09}"
    return f"{sign}{whole}.{digits[:6] if digits.endswith('000') else digits} s"


def told(lines):
    return "".join(f"{line}\n" for line in lines).encode()


@case
def a_trace_of_one_message_is_told_in_numbers(program):
    (program.folder / "t").write_bytes(STORED)
    lines = ["kind: file", "version: 1", "state: open", "entries: 1 (0 to 0)", "drop records: 0, messages lost: 0", "bytes: 56"]
    same(program.good("info", "t"), told([*lines, "file t: entries 1, bytes 56", "receive: 1"]))
    same(stored(program.folder), {"t": STORED})
    said = program.good("info", "--json", "t")
    same(said.count(b"\n"), 1)
    same(
        json.loads(said),
        {
            "trace": {"kind": "file", "version": 1},
            "state": "open",
            "first": 0,
            "last": 0,
            "ranges": [[0, 0]],
            "entries": 1,
            "drop_records": 0,
            "bytes": 56,
            "lost": 0,
            "lost_before": 0,
            "files": [{"name": "t", "generation": 0, "entries": 1, "bytes": 56, "kept": True, "damaged_at": None}],
            "kinds": {"receive": 1},
            "first_time_stamp": None,
            "last_time_stamp": None,
            "first_time": None,
            "last_time": None,
            "length": None,
        },
    )


@case
def a_stream_is_told_in_numbers_as_its_trace_is(program):
    room = program.folder / "room"
    room.mkdir()
    within = ("env", f"TMPDIR={room}")
    lines = ["kind: file", "version: 2", "state: {}", "entries: 2 (0 to 1)", "drop records: 1, messages lost: 3", "bytes: 61", "file -: entries 2, bytes 61", "receive: 1"]
    stream = message(EXAMPLE) + drop(3)
    same(program.run("info", "-", stdin=stream, before=within), Outcome(0, told(lines).replace(b"{}", b"sealed"), b""))
    numbers = json.loads(program.run("info", "-", "--json", stdin=stream, before=within).output)
    same((numbers["entries"], numbers["lost"], numbers["files"][0]["name"], numbers["kinds"]), (2, 3, "-", {"receive": 1}))
    # one that ends within an entry isn't sealed
    outcome = program.run("info", "-", stdin=stream + b"\0", before=within)
    same(outcome, Outcome(1, told(lines).replace(b"{}", b"open"), b"dbgrec: refused 3 Truncated at 61\n"))
    nothing = ["kind: file", "version: 2", "state: sealed", "entries: 0", "drop records: 0, messages lost: 0", "bytes: 0", "file -: entries 0, bytes 0"]
    same(program.run("info", "-", before=within), Outcome(0, told(nothing), b"dbgrec: nothing came\n"))
    same((list(room.iterdir()), stored(program.folder)), ([], {}))


@case
def a_stream_is_recorded_where_the_machine_keeps_temporary_files(program):
    room = program.folder / "room"
    room.mkdir()
    # a folder that a killed run left is passed over
    number = subprocess.run(["sh", "-c", 'mkdir "room/dbgrec-$$-0" && TMPDIR=room exec "$0" info - --json', program.path], cwd=program.folder, input=drop(1), capture_output=True, timeout=PATIENCE, check=True)
    same(json.loads(number.stdout)["lost"], 1)
    same([path.name.rsplit("-", 1)[1] for path in room.iterdir()], ["0"])
    missing = program.folder / "missing"
    for command in ("info", "top", "export"):
        outcome = program.run(command, "-", stdin=drop(1), before=("env", f"TMPDIR={missing}"))
        says = f"dbgrec: standard input is recorded first, in a new folder of {missing}: TMPDIR names another one\n"
        says += f'dbgrec: refused 3 Device: "{missing}": No such file or directory (os error 2)\n'
        same(outcome, Outcome(1, b"", says.encode()))


@case
def each_line_of_a_node_is_counted(program):
    for name in ("node", "plain", "stamped", "mono"):
        stream = stream_of(name)
        program.good("import", name, stdin=stream)
        entries = kept(stream)
        lines = ["kind: file", "version: 2", "state: sealed", f"entries: {len(entries)} (0 to {len(entries) - 1})", *numbers(entries)]
        lines.append(f"file {name}: entries {len(entries)}, bytes {len(b''.join(entries))}")
        words = counted(entries)
        same(sum(words.values()), len([word for _, word, what in joined(entries) if word == "message" or what[0] == 0]))
        lines += [f"{word}: {count}" for word, count in words.items()]
        said = program.good("info", name).decode().splitlines()
        same(said[: len(lines)], lines)
        same(len(said) - len(lines), 0 if name == "plain" else 3)


@case
def time_stamps_are_those_of_the_first_and_the_last_message(program):
    moments = [(1700, 7, 9), (1699, 0, 0), (1700, 8, 1)]
    stream = message(EXAMPLE) + b"".join(message(STAMPED + moment(*each)) for each in moments) + message(b"\x83") + drop(3)
    program.good("import", "t", stdin=stream)
    listed = program.good("list", "-p", "t").decode()
    assert "1 receive {trace_ts,<nonode@nohost.80.0.0>,'receive',ok,{1700,7,9}}\n" in listed, listed
    said = program.good("info", "t").decode().splitlines()
    # 1700000007 and 1700000008 seconds since 1970
    first, last = "2023-11-14T22:13:27.000009Z", "2023-11-14T22:13:28.000001Z"
    same(said[7:], ["receive: 4", "opaque: 1", f"first time: {first}", f"last time: {last}", "length: 0.999992 s"])
    told_so = json.loads(program.good("info", "t", "--json"))
    same((told_so["first_time_stamp"], told_so["last_time_stamp"]), ("{1700,7,9}", "{1700,8,1}"))
    same((told_so["first_time"], told_so["last_time"], told_so["length"]), (first, last, 999_992_000))
    same((told_so["drop_records"], told_so["lost"], told_so["entries"]), (1, 3, 6))


@case
def a_monotonic_time_stamp_is_a_number(program):
    program.good("import", "t", stdin=stream_of("mono"))
    lines = program.good("list", "-p", "t").decode().splitlines()
    stamps = [line.rsplit(",", 1)[1][:-1] for line in lines if "{trace_ts," in line and line.split()[1] not in ("other", "opaque")]
    said = program.good("info", "t").decode().splitlines()
    told_so = json.loads(program.good("info", "t", "--json"))
    same((told_so["first_time_stamp"], told_so["last_time_stamp"]), (stamps[0], stamps[-1]))
    same(said[-3:], [f"first time: {seconds(stamps[0])}", f"last time: {seconds(stamps[-1])}", f"length: {seconds(int(stamps[-1]) - int(stamps[0]))}"])


@case
def a_time_is_that_of_the_calendar(program):
    # the last second of a leap day, and the first of a year; 951868799 and 1767225600 seconds
    for stamp, said in (((951, 868_799, 999_999), "2000-02-29T23:59:59.999999Z"), ((1767, 225_600, 0), "2026-01-01T00:00:00.000000Z"), ((0, 0, 1), "1970-01-01T00:00:00.000001Z")):
        program.good("import", "t", stdin=message(STAMPED + moment(*stamp)))
        same(program.good("info", "t").decode().splitlines()[-3:], [f"first time: {said}", f"last time: {said}", "length: 0.000000 s"])
        program.good("wipe", "t")


@case
def times_of_two_clocks_have_no_length(program):
    # -5 nanoseconds, and the text of a pair of numbers
    pair = bytes.fromhex("6802") + b"\x62" + struct.pack(">i", -1_500_000_000) + b"\x61\x07"
    stream = message(STAMPED + b"\x62" + struct.pack(">i", -5)) + message(STAMPED + pair)
    program.good("import", "t", stdin=stream)
    same(program.good("info", "t").decode().splitlines()[-3:], ["first time: -0.000000005 s", "last time: -1.500000 s", "length: -1.499999995 s"])
    program.good("wipe", "t")
    program.good("import", "t", stdin=stream + message(STAMPED + moment(1700, 7, 9)))
    same(program.good("info", "t").decode().splitlines()[-2:], ["first time: -0.000000005 s", "last time: 2023-11-14T22:13:27.000009Z"])
    same(json.loads(program.good("info", "t", "--json"))["length"], None)


@case
def a_wrap_is_told_from_its_oldest_file_on(program):
    entry = message(EXAMPLE)
    (program.folder / "t1.bin").write_bytes(segment(wrap_header(1, before=2, lost=5), entry, entry))
    (program.folder / "t2.bin").write_bytes(segment(wrap_header(2, before=4, lost=5), entry))
    lines = ["kind: wrap by size", "version: 1", "count: 2 runs", "size: 100 bytes", "state: open", "before: entries 2, messages lost 5"]
    lines += ["entries: 3 (2 to 4)", "drop records: 0, messages lost: 0", "bytes: 168"]
    lines += ["file t1.bin: generation 1, entries 2, bytes 112", "file t2.bin: generation 2, entries 1, bytes 56", "receive: 3"]
    same(program.good("info", "t", "--suffix", ".bin"), told(lines))
    same(program.good("info", "t", *WRAP, "--suffix", ".bin", "--count", "2"), told(lines))
    said = json.loads(program.good("info", "t", "--suffix", ".bin", "--json"))
    same(said["trace"], {"kind": "wrap by size", "version": 1, "count": 2, "size": 100})
    same([part["generation"] for part in said["files"]], [1, 2])
    same((said["first"], said["last"], said["lost_before"]), (2, 4, 5))


@case
def a_wrap_of_a_node_has_its_newest_file_last(program):
    program.good("import", "t", *WRAP, "--size", "2000", "--count", "3", stdin=stream_of("wrap"))
    entries = split(program.good("export", "t"))
    said = program.good("info", "t").decode().splitlines()
    same(said[:5], ["kind: wrap by size", "version: 2", "count: 3 runs", "size: 2000 bytes", "state: sealed"])
    files = [line for line in said if line.startswith("file ")]
    generations = [int(line.split("generation ")[1].split(",")[0]) for line in files]
    same(generations, sorted(generations))
    same(sum(int(line.split("entries ")[1].split(",")[0]) for line in files), len(entries))
    assert set(numbers(entries)) <= set(said), said
    same(words_of(said), counted(entries))


@case
def a_wrap_by_time_has_its_time(program):
    program.good("import", "t", *WRAP, "--time", "3600000", stdin=drop(2))
    said = program.good("info", "t").decode().splitlines()
    same(said[:6], ["kind: wrap by time", "version: 2", "count: 8 runs", "time: 3600000 ms", "state: sealed", "entries: 1 (0 to 0)"])
    same(json.loads(program.good("info", "t", "--json"))["trace"]["time"], 3_600_000)


@case
def a_trace_that_is_written_is_told_so(program):
    for kind in ((), WRAP):
        with program.start("import", "t", "--keep-open", "--flush", "always", *kind) as importer:
            same(importer.opens(), "created")
            importer.write(message(EXAMPLE) + drop(2))
            while b"entries: 2 (0 to 1)" not in program.good("info", "t"):
                pass
            said = program.good("info", "t").decode().splitlines()
            assert "state: being written" in said and "drop records: 1, messages lost: 2" in said, said
            same(importer.end().output, b"kept 2\n")
        assert "state: open" in program.good("info", "t").decode().splitlines()
        program.good("wipe", "t")
        for file in list(program.folder.glob("t*")):
            file.unlink()


@case
def a_damaged_trace_is_told_up_to_its_damage(program):
    first, second = message(EXAMPLE) + drop(7), message(EXAMPLE)
    whole = segment(FILE_HEADER, first, second)
    place = 36 + len(batch(first))
    damaged = whole[: place + 5] + b"\7" + whole[place + 6 :]
    (program.folder / "t").write_bytes(damaged)
    lines = ["kind: file", "version: 1", "state: damaged", "entries: 2 (0 to 1)", "drop records: 1, messages lost: 7", "bytes: 61"]
    lines += [f"file t: entries 2, bytes 61, damaged at {place}", "receive: 1"]
    says = f"dbgrec: refused 1 Damaged file 0 at {place}\nt is damaged there: the 2 entries before it are counted"
    program.refused("info", "t", says=says, output=told(lines))
    outcome = program.run("info", "t", "--json")
    same((outcome.status, outcome.errors), (1, f"{says}\n".encode()))
    same(json.loads(outcome.output)["files"][0]["damaged_at"], place)
    same(stored(program.folder), {"t": damaged})


@case
def a_damaged_file_of_a_wrap_leaves_the_others(program):
    entry = message(EXAMPLE)
    (program.folder / "t1").write_bytes(b"\1" + wrap_header(1, before=2) + batch(entry * 2) + b"\1\0\0\xff\xff")
    (program.folder / "t2").write_bytes(segment(wrap_header(2, before=4), entry))
    place = 36 + 5 + 112
    says = f"dbgrec: refused 1 Damaged file 1 at {place}\nt1 is damaged there: 2 of its entries and 1 of other files are counted"
    outcome = program.run("info", "t")
    same((outcome.status, outcome.errors), (1, f"{says}\n".encode()))
    said = outcome.output.decode().splitlines()
    assert f"file t1: generation 1, entries 2, bytes 112, damaged at {place}" in said, said
    assert "file t2: generation 2, entries 1, bytes 56" in said, said


def four_runs(program):
    """Stores four runs of a wrap, with 2, 3, 1 and 4 entries. The last of each but the newest is what ends the run."""
    entry, before = message(EXAMPLE), 10
    for generation, count in ((5, 2), (6, 3), (7, 1), (8, 4)):
        header = wrap_header(generation, before=before, count=4, size=400)
        last = entry if generation == 8 else message(bytes(401))
        (program.folder / f"w{generation % 5}").write_bytes(segment(header, entry * (count - 1) + last))
        before += count


def numbers_told(program, *words):
    """The lines of the numbers that a trace has, and what its object has of them."""
    outcome = program.run("info", "w", *words)
    told_so = json.loads(program.run("info", "w", *words, "--json").output)
    line = next(line for line in outcome.output.decode().splitlines() if line.startswith("entries: "))
    return outcome, line, [told_so[name] for name in ("first", "last", "ranges", "entries")]


@case
def the_numbers_of_a_wrap_without_a_file_in_its_midst_are_told_by_ranges(program):
    four_runs(program)
    same(numbers_told(program)[1:], ("entries: 10 (10 to 19)", [10, 19, [[10, 19]], 10]))
    (program.folder / "w1").unlink()
    outcome, line, members = numbers_told(program)
    same((outcome.status, outcome.errors.split(b"\n")[0]), (1, b"dbgrec: refused 3 Sequence"))
    same((line, members), ("entries: 7 (10 to 11, 15 to 19)", [10, 19, [[10, 11], [15, 19]], 7]))
    (program.folder / "w2").unlink()
    same(numbers_told(program)[1:], ("entries: 6 (10 to 11, 16 to 19)", [10, 19, [[10, 11], [16, 19]], 6]))
    (program.folder / "w3").write_bytes(b"\0")
    same(numbers_told(program)[1:], ("entries: 2 (10 to 11)", [10, 11, [[10, 11]], 2]))


@case
def the_numbers_of_a_wrap_with_a_damaged_file_are_told_by_ranges(program):
    four_runs(program)
    whole = (program.folder / "w1").read_bytes()
    # one entry of three is before the damage
    (program.folder / "w1").write_bytes(b"\1" + wrap_header(6, before=12, count=4, size=400) + batch(message(EXAMPLE)) + b"\1\0\0\xff\xff")
    outcome, line, members = numbers_told(program)
    same((line, members), ("entries: 8 (10 to 12, 15 to 19)", [10, 19, [[10, 12], [15, 19]], 8]))
    same(outcome.errors, f"dbgrec: refused 1 Damaged file 1 at {36 + 61}\nw1 is damaged there: 1 of its entries and 7 of other files are counted\n".encode())
    # its header is
    (program.folder / "w1").write_bytes(whole[:5] + b"\7" + whole[6:])
    outcome, line, members = numbers_told(program)
    same((line, members), ("entries: 7 (10 to 11, 15 to 19)", [10, 19, [[10, 11], [15, 19]], 7]))
    same(outcome.errors, b"dbgrec: refused 1 Damaged file 1 at 0\nw1 is damaged there: 0 of its entries and 7 of other files are counted\n")


@case
def a_long_message_that_is_not_whole_is_lost_once_for_each_command(program):
    data = bytes([131, 109]) + struct.pack(">I", 300_000) + bytes(300_000)
    parts, entry = fragments(data), message(EXAMPLE)
    same(len(parts), 5)
    # of three messages there are the last two parts, three parts, and the first; a fourth is whole; drop records count 7
    runs = [[*parts[3:], drop(3), entry, *parts[:2]], [parts[2], entry, *parts[:3]], [*parts[3:], drop(4), parts[0]]]
    entries = sum(runs, [])
    (program.folder / "f").write_bytes(segment(FILE_HEADER, *entries))
    before = lost = 0
    for generation, run in enumerate(runs):
        header = wrap_header(generation, before=before, lost=lost, count=3, size=200_000)
        (program.folder / f"w{generation}").write_bytes(segment(header, *run))
        before, lost = before + len(run), lost + sum(struct.unpack(">I", each[1:])[0] for each in run if each[0] == 1)
    for name in ("f", "w"):
        assert "drop records: 2, messages lost: 9" in program.good("info", name).decode().splitlines(), name
        same(json.loads(program.good("info", name, "--json"))["lost"], 9)
        same(sum(struct.unpack(">I", each[1:])[0] for each in split(program.good("export", name)) if each[0] == 1), 9)
        same(json.loads(program.good("top", name, "--json"))["lost"], 9)


@case
def a_file_whose_header_is_damaged_is_told_so(program):
    (program.folder / "t").write_bytes(b"\1" + b"DBT9" + STORED[5:])
    program.refused("info", "t", says="dbgrec: t isn't a trace of dbgrec (it looks like an entry stream: dbgrec stream < t)")
    (program.folder / "t").write_bytes(STORED[:5] + b"\7" + STORED[6:])
    output = told(["state: damaged", "entries: 0", "drop records: 0, messages lost: 0", "bytes: 0", "file t: damaged at 0"])
    says = "dbgrec: refused 1 Damaged file 0 at 0\nt is damaged there: no entry is counted"
    program.refused("info", "t", says=says, output=output)


@case
def files_of_two_traces_are_told_and_refused(program):
    entry = message(EXAMPLE)
    (program.folder / "t1").write_bytes(segment(wrap_header(1, before=2), entry * 2))
    (program.folder / "t2").write_bytes(segment(wrap_header(2, before=4, size=99), entry))
    outcome = program.run("info", "t")
    same((outcome.status, outcome.errors), (1, b"dbgrec: refused 2 Mixed\nt1 and t2 don't belong together: list --salvage shows each\n"))
    assert b"file t1: generation 1, entries 2, bytes 112\n" in outcome.output, outcome
    (program.folder / "t2").write_bytes(segment(wrap_header(2, before=3), entry))
    outcome = program.run("info", "t")
    same((outcome.status, outcome.errors), (1, b"dbgrec: refused 3 Sequence\nt1 and t2 don't belong together: list --salvage shows each\n"))


@case
def what_is_no_trace_is_refused_as_by_list(program):
    (program.folder / "text").write_bytes(b"important text\n")
    (program.folder / "none").write_bytes(b"")
    (program.folder / "stream").write_bytes((STREAMS / "plain.trc").read_bytes())
    for name in ("text", "none", "stream", "nosuch"):
        for words in ((name,), (name, "--json")):
            said = program.run("list", name)
            same(said.status, 1)
            same(program.run("info", *words), Outcome(1, b"", said.errors))


@case
def a_wrap_of_40_megabytes_is_told_in_24(program):
    entry = message(bytes(95))
    for generation, batches in ((0, 200), (1, 199)):
        header = wrap_header(generation, before=200_000 * generation, size=19_999_999)
        (program.folder / f"t{generation}").write_bytes(segment(header, *[entry * 1000] * batches))
    small = ("bash", "-c", 'ulimit -v 24000; exec "$@"', "bash")
    outcome = program.run("info", "t", before=small)
    same((outcome.status, outcome.errors), (0, b""))
    lines = outcome.output.decode().splitlines()
    same(lines[4:6], ["state: open", "entries: 399000 (0 to 398999)"])
    same(lines[-1], "opaque: 399000")
    listed = program.good("list", "t")
    same(listed.count(b"\n"), 399_001)


@case
def a_run_that_is_no_longer_kept_is_not_counted(program):
    entry = message(EXAMPLE)
    (program.folder / "t0").write_bytes(segment(wrap_header(0), drop(3), entry + entry))
    (program.folder / "t1").write_bytes(segment(wrap_header(1, before=3, lost=3), entry, entry))
    same(program.good("list", "t").splitlines()[0], b"before entries 3 dropped 3")
    said = program.good("info", "t").decode().splitlines()
    same(said[4:7], ["state: open", "before: entries 3, messages lost 3", "entries: 2 (3 to 4)"])
    same(said[9:11], ["file t0: generation 0, entries 3, bytes 117, not kept", "file t1: generation 1, entries 2, bytes 112"])
    told_so = json.loads(program.good("info", "t", "--json"))
    same([part["kept"] for part in told_so["files"]], [False, True])
    same((told_so["first"], told_so["last"], told_so["lost_before"]), (3, 4, 3))


@case
def a_wrap_with_a_file_too_few_is_told_and_refused(program):
    entry = message(EXAMPLE)
    (program.folder / "t2").write_bytes(segment(wrap_header(2, before=4), entry))
    says = "dbgrec: refused 3 Sequence"
    for command in ("list", "info"):
        outcome = program.run(command, "t")
        same(outcome.status, 1)
        assert outcome.errors.decode().startswith(says), outcome.errors


@case
def a_cleared_trace_is_empty(program):
    program.good("import", "t", stdin=drop(1))
    program.good("wipe", "t")
    same(program.good("info", "t"), told(["state: empty", "entries: 0", "drop records: 0, messages lost: 0", "bytes: 0"]))
    same(json.loads(program.good("info", "t", "--json"))["trace"], None)
