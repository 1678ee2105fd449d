"""What runs that are refused memory may come to: scripts, and commands over the files of a folder."""

import pathlib
import re
import tempfile

from cases import stored
from entries import kept, split
from program import Program, same
from refusing import each_refusal

NO_MEMORY = b"dbgrec: refused 7 NoMemory\n"

# what a command over files says where memory was refused
TELLS_NO_MEMORY = re.compile(
    rb"(dbgrec: the disk failed [^\n]*\n)?"
    rb"dbgrec: refused (7|5|4|5 Recover 5) NoMemory\n"
    rb"((no entry|1 entry|\d+ entries) of this input (is|are) kept[^\n]*\n|it isn't known how much of this input is kept[^\n]*\n)?"
)

IS_REFUSED = re.compile(r"refused .*\bNoMemory\n")

IS_DEVICE = re.compile(r"refused .*\bDevice\b.*\n")

COVERS = re.compile(r"\bcovered (\d+)\n")

# lines that make device calls while no port is held
DOERS = ("create", "resume", "wipe")

# no row makes so many device calls behind one of them
MOST_CALLS = 80


def take(word, left):
    """Takes the answer to a line off the lines that are left of the answers."""
    taken = [left.pop(0)]
    while left and word == "list" and taken[-1] != "end_of_trace\n" and not taken[-1].startswith(("refused", "out of")):
        taken.append(left.pop(0))
    while left and word == "files" and taken[-1].startswith("file ") and left[0].startswith("file "):
        taken.append(left.pop(0))
    return "".join(taken)


def answers_in(lines, output):
    """The answer to each line of a script that has one, by the line's place. That of the last may be cut short."""
    left = output.splitlines(keepends=True)
    found = {}
    for place, line in enumerate(lines):
        if line and not line.startswith("#") and left:
            found[place] = take(line.split()[0], left)
    return found


class Script:
    """A script that runs short of memory, and what it comes to with memory enough.

    Its steps are its lines, each with its place; a line that isn't the script's own has none."""

    def __init__(self, program, lines, *words, kept=None):
        self.case = program
        self.words = words
        self.kept = kept
        self.lines = lines
        self.known = {}

    def run(self, lines):
        """How lines end with memory enough, and the folder with their files."""
        text = joined(lines)
        if text not in self.known:
            program = Program(self.case.path, pathlib.Path(tempfile.mkdtemp(dir=self.case.folder)))
            self.begin(program)
            self.known[text] = program.run(*self.words, stdin=text), program
        return self.known[text]

    def begin(self, program):
        """Puts the files that are kept into a program's folder."""
        if self.kept:
            self.kept.copied(program.folder)

    def answers(self, lines, outcome):
        """The answers to lines. Before those of a record stands how its trace was opened."""
        output = outcome.output.decode()
        return answers_in(lines, output.partition("\n")[2] if self.words[0] == "record" else output)

    def check(self, refused):
        """Runs it short of memory, and fails unless it came to what it does without the lines that were refused."""
        self.begin(refused)
        outcome = refused.short(*self.words, stdin=joined(self.lines))
        told = self.answers(self.lines, outcome)
        others = {place: answer for place, answer in told.items() if not IS_REFUSED.fullmatch(answer)}
        assert any(self.came_to(steps, others, outcome, refused) for steps in self.variants(told, others)), outcome

    def variants(self, told, others):
        """The steps that weren't refused; and with a device call that fails, which a port that is dropped doesn't tell."""
        steps = [step for place, line in enumerate(self.lines) for step in step_of(place, line, place in told and place not in others)]
        yield steps
        failed = min((place for place, answer in others.items() if IS_DEVICE.fullmatch(answer)), default=len(self.lines))
        for at, (place, line) in reversed(list(enumerate(steps))):
            if place is not None and place <= failed and line.startswith(DOERS):
                for calls in range(MOST_CALLS):
                    yield [*steps[:at], (None, f"failonce {calls}"), *steps[at:]]

    def came_to(self, steps, others, outcome, refused):
        """Whether a run came to what these steps do, or where it ended early to a beginning of that."""
        lines = [line for _, line in steps]
        whole, program = self.run(lines)
        wanted = {steps[at][0]: answer for at, answer in self.answers(lines, whole).items()}
        wanted.pop(None, None)
        if outcome.status == 1 and TELLS_NO_MEMORY.fullmatch(outcome.errors):
            return is_beginning(others, wanted) and self.left_beginning(refused, program, others)
        ended = [(each.status, re.sub(rb"\d+", b"", each.errors)) for each in (outcome, whole)]
        return ended[0] == ended[1] and (others, stored(refused.folder)) == (wanted, stored(program.folder))

    def left_beginning(self, refused, program, others):
        """Whether a run that ended early left a beginning of the trace, with all that it told as covered."""
        if self.words == ("sim",):
            return True
        left, whole = (each.run("export", "t").output for each in (refused, program))
        covered = [int(found[1]) for found in map(COVERS.search, others.values()) if found]
        return whole.startswith(left) and len(split(left)) >= max(covered, default=0)


def joined(lines):
    return "".join(f"{line}\n" for line in lines).encode()


def step_of(place, line, is_refused):
    """What stands for a line: nothing for one that was refused, but a crash that is refused has given the port up."""
    if not is_refused:
        return [(place, line)]
    return [(None, "abandon")] if line.startswith("crash") else []


def is_beginning(told, wanted):
    """Whether answers are those that are wanted, the last perhaps a beginning of its own."""
    *all_but_last, last = [*told] or [None]
    return all(told[place] == wanted.get(place) for place in all_but_last) and wanted.get(last, "").startswith(told.get(last, ""))


class Kept:
    """The files of a folder, and what commands over a copy of them come to where they are refused memory."""

    def __init__(self, program, name="kept"):
        self.case = program
        self.program = Program(program.path, program.folder / name)
        self.program.folder.mkdir()

    def copied(self, folder):
        for name, data in stored(self.program.folder).items():
            (folder / name).write_bytes(data)

    def reads(self, *words, stdin=b"", note=b"", others=()):
        """Checks a command that changes no file: it writes a beginning of what it writes with memory enough. It may tell a note
        first, and other faults in the place of want of memory."""
        before = stored(self.program.folder)
        whole = self.program.run(*words, stdin=stdin)
        same(stored(self.program.folder), before)

        def check(refused):
            self.copied(refused.folder)
            outcome = refused.short(*words, stdin=stdin)
            same(stored(refused.folder), before)
            if outcome != whole:
                outcome.errors = outcome.errors.removeprefix(note)
                if outcome.errors in others:
                    same(outcome.status, 1)
                else:
                    tells_no_memory(outcome)
                assert whole.output.startswith(outcome.output), outcome

        return each_refusal(self.case, check, what=" ".join(words))

    def imports(self, entries, *words, read=()):
        """Checks an import into what is kept: the next one goes on behind what is there, and nothing is lost."""
        before = split(self.program.run("export", "t", *read).output)
        seen = {}

        def check(refused):
            self.copied(refused.folder)
            outcome = refused.short("import", "t", *words, stdin=b"".join(entries))
            state = (repr(outcome), tuple(sorted(stored(refused.folder).items())))
            if state not in seen:
                check_import(refused, outcome, before, entries, words, read)
                seen[state] = True

        return each_refusal(self.case, check, what=f"import {' '.join(words)}")


def tells_no_memory(outcome):
    """Fails unless a run ended since memory was refused."""
    same(outcome.status, 1)
    assert TELLS_NO_MEMORY.fullmatch(outcome.errors), outcome


def check_import(refused, outcome, before, entries, words, read):
    """Fails unless an import took a beginning of the entries, said how many it kept, and is gone on with."""
    whole = [*before, *entries]
    found = refused.run("export", "t", *read)
    left = split(found.output)
    same(left, whole[: len(left)])
    if outcome.status == 0:
        same((left, outcome.errors), (whole, b""))
        return
    tells_no_memory(outcome)
    # a message that is too long for one entry stands in several
    had, has = len(kept(b"".join(before))), len(kept(found.output))
    told = re.fullmatch(rb"((created|resumed %d)\nkept (\d+)\n)?" % had, outcome.output)
    assert told, outcome
    same(has, int(told[3] or had))
    numbers = re.search(rb"\n(\w+) entr(?:y|ies) of this input (?:is|are) kept(?:, up to byte (\d+))?", outcome.errors)
    if numbers:
        count = 0 if numbers[1] == b"no" else int(numbers[1])
        same((count, int(numbers[2] or 0)), (has - had, len(b"".join(left[len(before) :]))))
    if len(left) < len(whole):
        goes_on = refused.run("import", "t", *words, stdin=b"".join(whole[len(left) :]))
        same((goes_on.status, goes_on.errors), (0, b""))
    same(refused.good("export", "t", *read), b"".join(whole))
