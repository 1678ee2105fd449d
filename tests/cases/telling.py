"""Cases of the lines that stand behind a refusal and say what to do, and of a reader that has gone."""

import contextlib
import os
import pty
import subprocess

from cases import group, stored
from entries import EXAMPLE, drop, example_line, message
from program import PATIENCE, Outcome, read_to_end, same
from segments import FILE_HEADER, STORED, segment, wrap_header

CASES, case = group()

WRAP = ("--kind", "wrap", "--count", "2")

END = b"end_of_trace\n"

SEALED = "dbgrec: refused 1 Sealed\n{} is sealed: export keeps its entries, wipe clears it"


@case
def a_sealed_trace_says_what_can_be_done(program):
    for words in (("t",), ("w", *WRAP)):
        program.good("import", *words, stdin=message(EXAMPLE))
        before = stored(program.folder)
        for command in ("import", "record"):
            program.refused(command, *words, stdin=message(EXAMPLE), says=SEALED.format(words[0]))
        program.refused("import", *words, "--keep-open", stdin=message(EXAMPLE), says=SEALED.format(words[0]))
        same(stored(program.folder), before)


def damaged(*entries):
    """A file trace of these entries, one a batch, that is damaged behind them, and the place of the damage."""
    whole = segment(FILE_HEADER, *entries)
    return whole[:-1] + b"\1\0\0\xff\xff", len(whole) - 1


@case
def a_damaged_file_says_how_many_entries_are_listed(program):
    are = {0: "no entry is", 1: "the 1 entry before it is", 2: "the 2 entries before it are", 5: "the 5 entries before it are"}
    for count, text in are.items():
        entries = [drop(number + 1) for number in range(count)]
        data, place = damaged(*entries)
        (program.folder / "t").write_bytes(data)
        first = f"dbgrec: refused 1 Damaged file 0 at {place}"
        lines = "".join(f"{number} drop {number + 1}\n" for number in range(count)).encode()
        program.refused("list", "t", says=f"{first}\nt is damaged there: {text} listed", output=lines)
        program.refused("export", "t", says=f"{first}\nt is damaged there: {text} written", output=b"".join(entries))
        says = f"dbgrec: refused 5 Recover 1 Damaged file 0 at {place}\n"
        says += "t is damaged there: list shows the entries before it, wipe clears the trace"
        for command in ("import", "record"):
            program.refused(command, "t", stdin=drop(1), says=says)
        same((program.folder / "t").read_bytes(), data)
    same(program.good("wipe", "t"), b"ok\n")


@case
def an_entry_of_a_damaged_batch_is_written_as_it_is_listed(program):
    whole = segment(FILE_HEADER, message(EXAMPLE) + drop(3), message(b"x"))
    (program.folder / "t").write_bytes(whole[:-1] + b"\1\0\0\0\7" + message(b"y") + b"\2\0")
    first = f"dbgrec: refused 1 Damaged file 0 at {len(whole) - 1}\nt is damaged there: the 4 entries before it are "
    lines = f"{example_line(0)}\n1 drop 3\n2 opaque 1\n3 opaque 1\n".encode()
    program.refused("list", "t", says=f"{first}listed", output=lines)
    program.refused("export", "t", says=f"{first}written", output=message(EXAMPLE) + drop(3) + message(b"x") + message(b"y"))


@case
def a_damaged_wrap_says_which_file_is(program):
    data, place = damaged(drop(1))
    for name in ("w", "my w"):
        (program.folder / f"{name}0").write_bytes(segment(wrap_header(0), drop(1) * 30))
        (program.folder / f"{name}1").write_bytes(data)
    for name, shown in (("w", "w1"), ("my w", '"my w1"')):
        first = f"dbgrec: refused 1 Damaged file 1 at {place}\n"
        program.refused("list", name, *WRAP, says=f"{first}{shown} is damaged there: no entry is listed")
        program.refused("export", name, *WRAP, says=f"{first}{shown} is damaged there: no entry is written")
        says = f"dbgrec: refused 5 Recover 1 Damaged file 1 at {place}\n{shown} is damaged there: "
        says += "list shows the entries before it, wipe clears the trace"
        program.refused("import", name, *WRAP, stdin=drop(1), says=says)


def disagree(program, base, number, name, words, listed=b"", exported=b""):
    """Fails unless each command tells this refusal, and which files disagree, after what was read until then."""
    second = f"\n{words}" if words else ""
    for command, output in (("list", listed), ("export", exported)):
        program.refused(command, base, *WRAP, says=f"dbgrec: refused {number} {name}{second}", output=output)
    for command in ("import", "record"):
        program.refused(command, base, *WRAP, stdin=drop(1), says=f"dbgrec: refused 5 Recover {number} {name}{second}")


@case
def files_that_do_not_belong_together_are_named(program):
    def put(name, data):
        (program.folder / name).write_bytes(data)

    put("a1", segment(wrap_header(1, before=2)))
    put("a2", segment(wrap_header(2, size=7)))
    disagree(program, "a", 2, "Mixed", "a1 and a2 don't belong together: list --salvage shows each")
    put("b0", segment(wrap_header(6)))
    put("b1", segment(wrap_header(4)))
    disagree(program, "b", 3, "Sequence", "b2, the oldest, is missing: put it back, or keep the others by export --salvage, and wipe")
    put("c0", segment(wrap_header(3, before=21), drop(1) * 21))
    put("c1", segment(wrap_header(4, before=41), drop(1)))
    listed = "".join(["before entries 21 dropped 0\n", *(f"{number} drop 1\n" for number in range(21, 43))]).encode()
    disagree(program, "c", 3, "Sequence", "c0 and c1 don't belong together: list --salvage shows each", listed, drop(1) * 22)
    put("d2", segment(wrap_header(1)))
    disagree(program, "d", 3, "Sequence", "d2 isn't in its place: list --salvage shows what it holds")


def missing_from(program, base, name, what):
    """Fails unless each command tells that this file of a wrap is."""
    second = f"{name} is {what}, or keep the others by export --salvage, and wipe"
    for command in ("list", "export"):
        outcome = program.run(command, base)
        same((outcome.status, outcome.errors), (1, f"dbgrec: refused 3 Sequence\n{second}\n".encode()))
    counted = f"dbgrec export --salvage {base} | dbgrec top - counts what its files hold\n"
    for command, more in (("info", ""), ("top", counted)):
        outcome = program.run(command, base)
        same((outcome.status, outcome.errors), (1, f"dbgrec: refused 3 Sequence\n{second}\n{more}".encode()))
    for command in ("import", "record"):
        program.refused(command, base, stdin=drop(1), says=f"dbgrec: refused 5 Recover 3 Sequence\n{second}")


@case
def a_file_of_a_wrap_that_is_missing_is_named(program):
    words = ("--kind", "wrap", "--count", "4", "--size", "0")
    program.good("import", "w", *words, "--keep-open", stdin=drop(1) * 8)
    program.good("import", "new", *words, "--keep-open", stdin=drop(1) * 2)
    files = stored(program.folder)
    same([len(files[f"w{k}"]) for k in range(5)], [47, 47, 47, 37, 1])
    # w keeps the generations 5, 6, 7 and 8, which is in w3 and holds nothing yet; new has 0, 1 and 2
    for base, number, text in (("w", 0, "w0, the oldest,"), ("w", 1, "w1"), ("new", 0, "new0, the oldest,"), ("new", 1, "new1")):
        name = f"{base}{number}"
        (program.folder / name).unlink()
        missing_from(program, base, text, "missing: put it back")
        (program.folder / name).write_bytes(b"\0")
        missing_from(program, base, text, "an older copy: put the newer one back")
        (program.folder / name).write_bytes(files[name])


@case
def a_file_of_a_wrap_that_is_asked_for_says_so(program):
    for base, suffix in (("w", ""), ("my w", ""), ("w", ".trc")):
        words = ("--suffix", suffix) if suffix else ()
        program.good("import", base, "--kind", "wrap", "--count", "3", "--size", "0", *words, "--keep-open", stdin=drop(1) * 8)
        shown, ends = (f'"{base}"', f'"{base}2"') if " " in base else (base, f"{base}2{suffix}")
        for command in ("list", "export", "info", "top", "import"):
            outcome = program.run(command, f"{base}2{suffix}", stdin=drop(1))
            option = f" --suffix {suffix}" if suffix else ""
            same((command, outcome.status), (command, 1))
            same(outcome.errors.split(b"\n")[1].decode(), f"{ends} is a file of the wrap {shown}: dbgrec {command} {shown}{option}")


@case
def several_names_are_refused_with_a_wraps(program):
    says = "One name is taken. That of a wrap is what the names of its files begin with: w, where they are w0, w1 and so on.\n"
    for command in ("list", "export", "info", "top", "wipe", "import", "record"):
        outcome = program.run(command, "w0", "w1", "w2")
        same((outcome.status, outcome.output), (2, b""))
        assert outcome.errors.decode().startswith("error: unexpected argument 'w1' found\n"), outcome
        assert outcome.errors.decode().endswith(f"\n\n{says}"), outcome
    for words in (("list", "w", "--wrong"), ("stream", "w0"), ("sim", "w0", "w1")):
        assert says not in program.run(*words).errors.decode(), words


@case
def a_name_that_is_not_text_is_refused(program):
    for words in ((b"list", b"\xff"), (b"import", b"t", b"--suffix", b"\xe4")):
        says = b"error: a word of the command line isn't UTF-8: a trace and its folder have names that are\n"
        same(program.run(*words), Outcome(2, b"", says))
    same(stored(program.folder), {})


@case
def a_trace_of_more_files_than_may_be_open_is_refused_first(program):
    few = ("bash", "-c", 'ulimit -n 12; exec "$@"', "bash")
    words = ("--kind", "wrap", "--count", "30", "--size", "0")
    program.good("import", "w", *words, "--keep-open", stdin=drop(1) * 9)
    before = stored(program.folder)
    for command in ("list", "export", "info", "top", "wipe", "import", "record"):
        for name, options in (("w", ()), ("new", words if command in ("import", "record") else words[:4])):
            outcome = program.run(command, name, *options, before=few, stdin=b"")
            same((command, outcome.status, outcome.output), (command, 1, b""))
            if name == "new" and command in ("list", "export", "info", "top"):
                assert outcome.errors.startswith(b"dbgrec: new: no such trace\n"), outcome
                continue
            first, second = outcome.errors.decode().splitlines()
            number = first.removeprefix(f"dbgrec: {name}").split(" ")[0]
            same(first, f"dbgrec: {name}{number} can't be opened: Too many open files (os error 24)")
            assert 0 < int(number) < 12, first
            same(second, "the files of the trace are open at once, 31 of them: ulimit -n 47 lets them")
            same(stored(program.folder), before)
    enough = ("bash", "-c", 'ulimit -n 47; exec "$@"', "bash")
    same(program.run("list", "w", before=enough), program.run("list", "w"))
    same(program.run("import", "w", before=enough, stdin=drop(1) * 99).status, 0)


@case
def a_damage_under_a_choice_tells_how_many_are_shown(program):
    data, place = damaged(message(EXAMPLE), drop(1), message(b"x"), message(EXAMPLE))
    (program.folder / "t").write_bytes(data)
    first = f"dbgrec: refused 1 Damaged file 0 at {place}\nt is damaged there: "
    for options, told in {
        ("--from", "1"): "3 of the 4 entries before it are listed",
        ("--only", "drop"): "1 of the 4 entries before it is listed",
        ("--mfa", "no:no"): "1 of the 4 entries before it is listed",
        ("--pid", "<a@b.1.0.0>"): "1 of the 4 entries before it is listed",
        ("--to", "9"): "the 4 entries before it are listed",
        ("--only", "call", "--json"): "2 of the 4 entries before it are listed",
        ("--json",): "the 4 entries before it are listed",
    }.items():
        outcome = program.run("list", "t", *options)
        if options[:2] == ("--only", "call"):
            told = "%s of the 4 entries before it %s listed" % ((n := outcome.output.count(b"\n")), "is" if n == 1 else "are")
        same((outcome.status, outcome.errors), (1, f"{first}{told}\n".encode()))


def at_a_terminal(program, *words, stdin=b""):
    """What a command says where standard error is a terminal, and its standard output."""
    screen, terminal = pty.openpty()
    ran = subprocess.run([program.path, *words], cwd=program.folder, input=stdin, stdout=subprocess.PIPE, stderr=terminal, timeout=PATIENCE, check=False)
    os.close(terminal)
    said = read_to_end(screen).decode().replace("\r\n", "\n")
    os.close(screen)
    same(ran.returncode, 0)
    return said, ran.stdout


@case
def a_terminal_gets_a_chosen_line_before_the_listing_ends(program):
    program.good("import", "t", stdin=drop(7) + message(EXAMPLE) * 400_000)
    screen, terminal = pty.openpty()
    quiet = subprocess.DEVNULL
    with subprocess.Popen([program.path, "list", "t", "--only", "drop"], cwd=program.folder, stdin=quiet, stdout=terminal, stderr=quiet) as listing:
        os.close(terminal)
        first, is_listing = os.read(screen, 100), listing.poll() is None
        listing.kill()
    os.close(screen)
    same((first, is_listing), (b"0 drop 7\r\n", True))


@case
def opaque_entries_are_counted_at_a_terminal(program):
    stream = (message(EXAMPLE) + message(b"\x83")) * 1_200 + drop(1)
    program.good("import", "t", stdin=stream)
    program.good("import", "w", *WRAP, "--size", "900K", stdin=stream)
    many = "dbgrec: 1,200 of 2,401 entries are opaque here: -p shows them\n"
    for words in (("list", "t"), ("list", "w"), ("stream",)):
        data = stream if words[0] == "stream" else b""
        said, output = at_a_terminal(program, *words, stdin=data)
        same((words, said, output), (words, many, program.good(*words, stdin=data)))
    none = "dbgrec: t: no message is shown: it has entries 0 to 2400\n"
    for words, said in {
        ("list", "t", "--to", "2"): "dbgrec: 1 of 3 entries is opaque here: -p shows it\n",
        ("list", "t", "--from", "2400"): none,
        ("list", "-p", "t"): "",
        ("list", "t", "--json"): "",
        ("list", "t", "--mfa", "no:no"): f"{none}there is no message of the function no:no\n",
        ("list", "t", "--only", "send"): f"{none}there is no message of kind send\n",
        ("export", "t"): "",
        ("info", "t"): "",
    }.items():
        same((words, at_a_terminal(program, *words)[0]), (words, said))


@case
def a_trace_that_is_not_sealed_is_told_at_a_terminal(program):
    for name, words in (("t", ()), ("w", WRAP)):
        program.good("import", name, *words, "--keep-open", stdin=message(EXAMPLE) * 3)
        whole = program.good("list", name)
        for options in ((), ("--from", "2"), ("-p",)):
            said, _ = at_a_terminal(program, "list", name, *options)
            same(said, f"dbgrec: {name} is open: import goes on with it\n")
        with program.start("import", name) as importer:
            importer.write(message(EXAMPLE)[:1])
            same(importer.line(), "resumed 3")
            same(at_a_terminal(program, "list", name), (f"dbgrec: {name} is being written: list -f follows it\n", whole))
            importer.write(message(EXAMPLE)[1:])
            same(importer.end().status, 0)
        same(at_a_terminal(program, "list", name), ("", program.good("list", name)))
        program.good("wipe", name)
        same(at_a_terminal(program, "list", name), ("", END))


@case
def a_listing_into_a_closed_pipe_says_nothing(program):
    entries = message(EXAMPLE) * 20_000
    program.good("import", "t", stdin=entries)
    program.good("import", "w", *WRAP, "--size", "2000K", stdin=entries)
    (program.folder / "in").write_bytes(entries)
    line, entry = f"{example_line(0)}\n".encode(), message(EXAMPLE)
    for command, taken in {"list t": line, "list w": line, "stream < in": line, "export t": entry, "export w": entry}.items():
        script = f'"$0" {command} | head -c {len(taken)}; echo ${{PIPESTATUS[0]}}'
        ran = subprocess.run(["bash", "-c", script, program.path], cwd=program.folder, capture_output=True, timeout=PATIENCE, check=False)
        same((command, ran.stdout, ran.stderr), (command, taken + b"1\n", b""))


@case
def a_script_whose_answers_nobody_reads_says_nothing(program):
    for command, script in (("sim", b"list\n" * 9), ("record t", b"flush\n" * 9)):
        with program.start(*command.split()) as running:
            running.process.stdout.close()
            with contextlib.suppress(BrokenPipeError):
                running.write(script)
            running.process.stdin.close()
            same(running.process.wait(PATIENCE), 1)
            same(running.process.stderr.read(), b"")


@case
def the_answers_to_an_import_that_nobody_reads_end_it_at_the_end_of_its_stream(program):
    with program.start("import", "t") as running:
        running.process.stdout.close()
        running.write(message(EXAMPLE) + drop(2))
        running.process.stdin.close()
        same(running.process.wait(PATIENCE), 1)
        same(running.process.stderr.read(), b"")
    same(program.good("export", "t"), message(EXAMPLE) + drop(2))


@case
def a_listing_onto_a_full_device_is_a_fault(program):
    (program.folder / "t").write_bytes(STORED)
    for words in (["list"], ["export"], ["show"], ["show", "--last", "1"], ["show", "--to", "1", "--last", "1"]):
        with open("/dev/full", "wb") as full:
            ran = subprocess.run([program.path, *words, "t"], cwd=program.folder, stdout=full, stderr=subprocess.PIPE, check=False)
        why = b"standard output can't be written: No space left on device (os error 28)\n"
        same((ran.returncode, ran.stderr), (1, b"dbgrec: refused 2 Write\n" + why))
