"""The sources as the cases of the documents look at them: their names, the members of definitions, and the clauses."""

import functools
import re

from cases import REPOSITORY

SOURCES = ("crates/*/src/**/*.rt", "crates/*/specs/**/*.antt", "tests/cases/*", "tests/rows/*", "tests/otp/*.erl", "tools/*", "bench/*", "examples/*", "packaging/*", "tests/run", "crates.txt")

CRATES = {path.parent.name for path in REPOSITORY.glob("crates/*/src")}

PATH = re.compile(r"[\w.*+-]*(?:/[\w.*+-]+)+/?|[\w*-]+\.(?:rt|antt|py|md|txt|script)|[\w*-]+/")

# what stands for any name in a path
ANY = re.compile(r"\b(?:NAME|MODULE|TYPETRAIT|TYPE|FUNCTION)\b")


@functools.cache
def sources():
    """The text of each source without its comments, by its path. The cases of the documents have wrong names."""
    found = {}
    for path in (path for pattern in SOURCES for path in REPOSITORY.glob(pattern)):
        if path.is_file() and path.suffix != ".pyc" and path.name != "documents.py":
            comment = r"^ *(?:///?|//!|--) .*$" if path.suffix in (".rt", ".antt") else r"^ *# .*$"
            found[str(path.relative_to(REPOSITORY))] = re.sub(comment, "", path.read_text(encoding="utf-8", errors="replace"), flags=re.MULTILINE)
    return found


@functools.cache
def words():
    """The words and options of all sources."""
    return set().union(*(re.findall(r"\w+|--[a-z-]+", text) for text in sources().values()))


@functools.cache
def members():
    """The fields of each record of the definitions, and the cases of each type, by its name."""
    found = {}
    for name, text in sources().items():
        kinds = re.findall(r"^(?:pub )?(?:record|data) (\w+)(.*\n(?:(?: .*)?\n)*)", text, re.MULTILINE) if name.endswith(".antt") else []
        for kind, body in kinds:
            found.setdefault(kind, set()).update(" ".join(re.findall(r"^  (?:pub )?([\w ]+) :", body, re.MULTILINE)).split())
    return found


@functools.cache
def clauses():
    """The names of the clauses of the functions of each source, by the source and the function."""
    found = {}
    for name, text in sources().items():
        parts = re.split(r"\bfn (\w+)", text) if name.endswith(".rt") else []
        for function, rest in zip(parts[1::2], parts[2::2]):
            found.setdefault((name, function), set()).update(re.findall(r"^ *ensures (\w+) \{", rest, re.MULTILINE))
    return found


def has_word(name, path):
    return re.search(rf"\b{name}\b", sources().get(path, "")) is not None


def is_defined(name, path):
    """Whether a file of definitions has a definition of this name, or a member of one."""
    return re.search(rf"^(?:  )?(?!use )(?=\S)[^:=\n]*\b{name}\b", sources().get(path, ""), re.MULTILINE) is not None


def is_of(owner, name):
    """Whether a type or a trait has a function or a variant of this name, or a module such a function."""
    function, variant = re.compile(rf"\bfn {name}\b"), re.compile(rf"\benum {owner}\b[^}}]*\b{name}\b")
    block = re.compile(rf"\b(?:impl|trait)\b[^{{;]*\b{owner}\b")
    is_one = {path: path.endswith(f"/{owner}.rt") or block.search(text) for path, text in sources().items() if function.search(text)}
    return any(is_one.values()) or any(variant.search(text) for text in sources().values())


def is_there(name, crate):
    """Whether a name stands in the sources. `Type::name` and `module::name` are a function or a variant of it, `Record.name`
    a member of it, or a definition in the file of that name of the crate."""
    owner, sign, last = re.fullmatch(r"([\w-]+)(::|\.|)(\w*)", name).groups()
    if sign == "::":
        return is_of(owner, last)
    if sign == ".":
        return last in members().get(owner, ()) or any(is_defined(last, path) for path in found_at(f"crates/{crate}/specs/{owner}.antt", ""))
    return owner in words() or owner.endswith("_") and any(word.startswith(owner) for word in words())


def quoted(line):
    return re.findall(r"`([^`]+)`", line)


def found_at(path, line):
    """The places of a path in a line. It begins at the top, in crates/ or in a crate; a name alone is of a crate that the
    line names, or of the folder of another path in it. Where there is none it may be of any crate, but in a row that
    names a crate or a folder."""
    is_alone, path = "/" not in path, ANY.sub("*", path.rstrip("/"))
    near = {folder for other in quoted(line) if "/" in other and PATH.fullmatch(other) for folder in (other, other.rpartition("/")[0])}
    near |= {f"{crate}/{folder}" for pair in re.findall(r"`(\w+)`|\bof (\w+)", line) for crate in CRATES & set(pair) for folder in ("src", "specs", "")}
    tops = ("", *(f"{top}{folder}/" for folder in near for top in ("", "crates/"))) if is_alone else ("", "crates/", "crates/*/")
    found = [place for top in tops for place in REPOSITORY.glob(top + path)]
    if not found and is_alone and not (near and line.startswith("|") and path.endswith((".rt", ".antt"))):
        found = [place for top in ("crates/*/src/", "crates/*/specs/", "crates/*/proofs/**/", "crates/*/", "tests/*/") for place in REPOSITORY.glob(top + path)]
    return {str(place.relative_to(REPOSITORY)) for place in found}
