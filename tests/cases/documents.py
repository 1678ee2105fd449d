"""Cases of the documents: what they link to, and what they name in backquotes, stands in the repository; and a clause that
docs/PROOFS.md names stands in the contract of a function of its row. Whether it says that isn't looked at."""

import re

from cases import REPOSITORY, group
from program import same
from sources import CRATES, PATH, clauses, found_at, has_word, is_defined, is_there, quoted, sources

CASES, case = group()

DOCUMENTS = ("README.md", "docs/*", "crates/*/README.md", "tests/otp/README.md")

# the record of each call of a port: the first table of docs/PROOFS.md names its fields
PORT_CALLS = "crates/trace_port/specs/PortCalls.antt"

# a path of the repository in a command line, or in the manual page
PART = re.compile(r"(?<!\S)(?:crates|tests|tools|docs|examples|bench|packaging)/[\w./*-]+")

# what is made, and a file of the kit
NOT_KEPT = {"crates/dbgrec/out/dbgrec", "out/", "START-HERE.md"}

# command lines and words of others
OTHERS = re.compile(r"(?:rt|rattle-kit-\w+|man|nc|ssh|strace|taskset|time|valgrind|grep|\*\*) ")

# of the kit, of OTP and of std; within a shape; letters of flags; of examples
FOREIGN = {"--allow-holes", "proves", "flush_trace_port", "unicode", "read_until", "jq", "Args", "Class", "Label", "Msg", "k2", "v2", "csratm", "samples", "trace8"}


def lines_of(text):
    """The lines of a document with their numbers, but those of examples."""
    return [(number, line) for number, line in enumerate(text.splitlines(), 1) if not line.startswith("    ")]


def wrong_paths(text):
    """The paths, links and headings of a document that aren't there, with their lines. A path that begins with `/` is of the
    machine."""
    found = []
    for number, line in enumerate(text.splitlines(), 1):
        said = [line] if line.startswith(("    ", ".")) else quoted(line)
        paths = {path.rstrip(".") for text in said for path in PART.findall(text)} | {path for path in said if PATH.fullmatch(path)}
        found += [(number, path) for path in sorted(paths - NOT_KEPT) if not path.startswith("/") and not found_at(path, line)]
        for path, heading in re.findall(r"\]\((?!\w+:)([^)#]*)#?([^)]*)\)", line):
            if not has_heading(path, heading):
                found.append((number, f"{path}#{heading}"))
        for name, heading in re.findall(r'\b([A-Z]{4,})(?:\.md`)?, "([^"]+)"', line):
            if not has_heading(f"docs/{name}.md", heading):
                found.append((number, f"{name}, {heading}"))
    return found


def has_heading(path, heading):
    """Whether a document has a heading, by its words or as a link has it."""
    text = (REPOSITORY / path).read_text(encoding="utf-8") if (REPOSITORY / path).is_file() else None
    titles = re.findall(r"^#+ (.+)$", text or "", re.MULTILINE)
    return text is not None and (not heading or heading in titles or heading in [re.sub(r"[^\w -]", "", title).lower().replace(" ", "-") for title in titles])


def wrong_names(text):
    """The names of a document that no source has, with their lines."""
    found, crate = [], "*"
    for number, line in lines_of(text):
        for said in quoted(line):
            if PATH.fullmatch(said) or OTHERS.match(said):
                continue
            crate = said.partition(": ")[0] if said.partition(": ")[0] in CRATES else crate
            for name in re.findall(r"(?<![\w\\~+.])(?:[A-Z]\w*\.[a-zA-Z]\w*|[A-Za-z_]\w+(?:::\w+)?|--[a-z-]+)", said):
                if not re.match(r"[A-Z]+\b", name) and name not in FOREIGN and not is_there(name, crate):
                    found.append((number, name))
    return found


def rows(text):
    """The rows of the tables of clauses of a document, with their lines and the heading of their table."""
    found, heading = [], ""
    for number, line in lines_of(text):
        cells = [cell.strip() for cell in line.strip("|").split("|")] if line.startswith("|") else []
        if len(cells) == 3 and cells[2] == "Clauses (file)":
            heading = cells[0]
        elif heading and cells and quoted(line):
            found.append((number, heading, cells))
        elif not cells:
            heading = ""
    return found


def wrong_clauses(text):
    """What the rows of a document name, and the files of their row don't have, with their lines: the functions of the
    second column in sources; the clauses of the third in the contracts of these, or in files of definitions."""
    found, functions, files = [], set(), set()
    for number, heading, (_, calls, told) in rows(text):
        lent = {name for pair in re.findall(r"of `([a-z]\w*)`(?: and `([a-z]\w*)`)?", told) for name in pair if name}
        functions = lent | (functions if "the same" in calls else set()) | set(re.findall(r"`(?:\w+::)?([a-z]\w*)`", calls))
        named = {place for path in quoted(told) if PATH.fullmatch(path) for place in found_at(path, told)}
        files = named | (files if "the same" in told else set())
        code = {path for path in files if path.endswith(".rt")}
        definitions = files - code | ({PORT_CALLS} if heading == "Part of the headline" else set())
        found += [(number, name) for name in sorted(functions) if code and not any((path, name) in clauses() for path in code)]
        asked = set().union(*(clauses().get((path, name), ()) for path in code for name in functions))
        for name in (said.partition(".")[0] for said in quoted(told) if re.fullmatch(r"[\w.]+", said) and not PATH.fullmatch(said)):
            stands = any(has_word(name, path) for path in files) if name[0].isupper() else any(is_defined(name, path) for path in definitions)
            if not stands and name not in asked | lent:
                found.append((number, name))
    return found


def misplaced(text):
    """The names of a document that don't stand in the sources that it gives right after them, with their lines."""
    found = []
    for number, line in lines_of(text):
        for name, places in re.findall(r"(?=`([\w:.]*[_A-Z][\w:.]*)`(?: \(| \| | of | in )((?:`[^`]+`(?:, | and )?)+))", line):
            files = {place for path in quoted(places) if PATH.fullmatch(path) for place in found_at(path, line)} & set(sources())
            is_plain = not PATH.fullmatch(name) and all(PATH.fullmatch(path) or path in CRATES for path in quoted(places))
            if files and is_plain and not any(has_word(name.partition(".")[0].rpartition("::")[2], path) for path in files):
                found.append((number, name))
    return found


def found_in_all(look):
    """What is wrong in each document, as its path, the line and the name."""
    paths = sorted(path for pattern in DOCUMENTS for path in REPOSITORY.glob(pattern))
    return [f"{path.relative_to(REPOSITORY)}:{number}: {name}" for path in paths for number, name in look(path.read_text(encoding="utf-8"))]


@case
def paths_and_links_of_documents_lead_somewhere(_program):
    same(found_in_all(wrong_paths), [])


@case
def names_in_documents_stand_in_the_sources(_program):
    same(found_in_all(wrong_names), [])
    same(found_in_all(misplaced), [])


@case
def clauses_in_documents_stand_in_the_contracts(_program):
    assert len(rows((REPOSITORY / "docs" / "PROOFS.md").read_text(encoding="utf-8"))) > 40
    same(found_in_all(wrong_clauses), [])


@case
def lines_of_contracts_and_comments_fit_on_a_screen(_program):
    found = []
    for path in sorted(REPOSITORY.glob("crates/*/src/*.rt")):
        for number, line in enumerate(path.read_text(encoding="utf-8").splitlines(), 1):
            word = line.split(maxsplit=1)[:1]
            most = {"ensures": 100, "requires": 100, "///": 130, "//!": 130}.get("".join(word), len(line))
            if len(line) > most:
                found.append(f"{path.relative_to(REPOSITORY)}:{number}")
    same(found, [])


@case
def wrong_names_in_a_document_are_found(_program):
    text = """`crates/segment/src/none.rt`, `none.antt` and [a link](docs/NONE.md); [another](README.md#none); FORMATS, "None".
| `calls.rt` of `segment`; `calls.rt` of `recovery` | `docs/FORMATS.md`, "Listing", and [it](docs/FORMATS.md#a-salvage) |
    tools/none
.Pa docs/NONE.md
"""
    wrong = ["crates/segment/src/none.rt", "none.antt", "docs/NONE.md#", "README.md#none", "FORMATS, None", "tools/none", "docs/NONE.md"]
    same([name for _, name in wrong_paths(text)], wrong)
    same(wrong_paths("| `calls.rt` of `recovery` |"), [(1, "calls.rt")])
    text = """`accept_none`, `NoneSuch`, `--none`, `Fits.none`, `FilePort::none`, `segment: Segments.IsNone` and `put_none N`.
`accept`, `Fits.sound`, `FilePort::resume`, `segment: Segments.IsText`, `Segments.reading_of`, `--keep-open`, `tick NOW`.
"""
    same(wrong_names(text), [(1, name) for name in ("accept_none", "NoneSuch", "--none", "Fits.none", "FilePort::none", "Segments.IsNone", "put_none")])
    same(misplaced("`commit_batch` of `segment/src/calls.rt`; `look_over` (`segment/src/calls.rt`)"), [(1, "look_over")])


@case
def wrong_clauses_in_a_document_are_found(_program):
    table = "| Request | Functions | Clauses (file) |\n|---|---|---|\n| | `recover` | `{}` (`recovery/src/reading.rt`) |\n"
    same([wrong_clauses(table.format(name)) for name in ("recovers", "Recovers")], [[], []])
    for name in ("calls_in", "NoneSuch", "none"):
        same(wrong_clauses(table.format(name)), [(3, name)])
    same(wrong_clauses(table.replace("`recover`", "`commit_batch`").format("Recovers")), [(3, "commit_batch")])
