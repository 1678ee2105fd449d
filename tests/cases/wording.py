"""Cases of the help, and of the manual page, which tells the same options."""

import re
import shutil
import subprocess

from cases import REPOSITORY, Skipped, group
from entries import drop
from program import same

CASES, case = group()

PAGE = REPOSITORY / "docs" / "dbgrec.1"

OF_FILES = {"--kind", "--suffix", "--count"}

OF_NEW_FILES = OF_FILES | {"--size", "--time"}

OF_CHOICES = {"--from", "--to", "--only", "--pid", "--mfa", "--not", "--not-pid", "--not-mfa"}

OF_LISTINGS = {"--pretty", "--json"} | OF_CHOICES

OF_ROWS = {"--relative", "--delta", "--utc", "--since", "--until", "--grep", "--last", "--color", "--full", "--width", "--longest-text"}

COMMANDS = {
    "import": OF_NEW_FILES | {"--flush", "--keep-open", "--skip", "--longest", "--after-failure"},
    "record": OF_NEW_FILES | {"--after-failure"},
    "list": OF_FILES | OF_LISTINGS | {"--follow", "--salvage"},
    "show": OF_FILES | OF_CHOICES | OF_ROWS | {"--follow", "--salvage"},
    "export": OF_FILES | OF_CHOICES | {"--as", "--salvage"},
    "info": OF_FILES | {"--json"},
    "top": OF_FILES | OF_CHOICES | {"--by", "--sort", "--limit", "--json"},
    "wipe": OF_FILES | {"--force"},
    "stream": OF_LISTINGS | {"--longest"},
    "sim": set(),
}

# of each option, its default for a new trace, as surely as it has one
DEFAULTS = {"--kind": "file", "--suffix": "", "--count": "8", "--size": "131072", "--flush": "paused", "--longest": "16M", "--as": "stream", "--by": "function", "--limit": "20"}


def options_in(help_text):
    """The options that a help names, without that for the help itself."""
    found = re.findall(r"^ +(?:-\w, )?(--[a-z-]+)", help_text, re.MULTILINE)
    return set(found) - {"--help", "--version"}


def section(name):
    """A section of the manual page."""
    return PAGE.read_text().split(f".Sh {name}\n")[1].split("\n.Sh ")[0]


def page_sections():
    """What the manual page says of each command, by the command."""
    parts = re.split(r"^\.It Cm (\w+).*$", section("DESCRIPTION"), flags=re.MULTILINE)
    return dict(zip(parts[1::2], parts[2::2]))


def options_of_page(text):
    """The options that a part of the page has an item for, with what the item says."""
    parts = re.split(r"^\.It Fl -([\w-]+).*$", text, flags=re.MULTILINE)
    return {f"--{name}": said for name, said in zip(parts[1::2], parts[2::2])}


@case
def the_help_names_each_command_with_a_line(program):
    said = program.good("--help").decode()
    for command in COMMANDS:
        assert re.search(rf"^  {command} +[A-Z].+", said, re.MULTILINE), f"{command} isn't in {said}"


@case
def the_help_of_each_command_names_its_options_and_has_an_example(program):
    for command, options in COMMANDS.items():
        said = program.good(command, "--help").decode()
        same((command, options_in(said)), (command, options))
        assert re.search(rf"^Example: .*dbgrec {command}", said, re.MULTILINE), said
        for option in options & set(DEFAULTS):
            if DEFAULTS[option] and command in ("import", "record", "stream", "export", "top"):
                assert re.search(rf"{option} <.*\n?.*\[default: {DEFAULTS[option]}\]", said), f"{option} of {command}: {said}"


@case
def the_manual_page_names_the_options_of_the_help(program):
    sections = page_sections()
    same(set(sections), set(COMMANDS))
    items = options_of_page(section("OPTIONS"))
    for command, text in sections.items():
        said = program.good(command, "--help").decode()
        listed = text.split("ptions:")[1] if "ptions:" in text else ""
        same((command, {f"--{name}" for name in re.findall(r"Fl -([\w-]+)", listed)}), (command, options_in(said)))
    same(set(items) - {"--help", "--version"}, set().union(*COMMANDS.values()))
    for option, default in DEFAULTS.items():
        if default:
            assert re.search(rf"default.*\b{default}\b", items[option], re.DOTALL | re.IGNORECASE), f"{option}: {items[option]}"


@case
def the_manual_page_has_its_parts_and_is_well_formed(program):
    found = re.findall(r"^\.Sh (.+)$", PAGE.read_text(), re.MULTILINE)
    wanted = ["NAME", "SYNOPSIS", "DESCRIPTION", "OPTIONS", "FILES", "EXIT STATUS", "EXAMPLES", "DIAGNOSTICS", "SEE ALSO", "CAVEATS"]
    same(found, wanted)
    if not shutil.which("mandoc"):
        raise Skipped("there is no mandoc to look at the page's form")
    ran = subprocess.run(["mandoc", "-T", "lint", "-W", "warning", str(PAGE)], capture_output=True, text=True, check=False)
    same((ran.returncode, ran.stdout), (0, ""))


@case
def the_version_is_told(program):
    same(program.good("--version"), b"dbgrec 0.1.0\n")


@case
def sizes_have_units_in_both_cases_and_a_limit(program):
    for size, is_taken in (("1k", "1024"), ("2K", "2048"), ("1m", "1048576"), ("4G", "4294967295"), ("4096M", "4294967295"), ("4194304k", "4294967295"), ("4294967295", "4294967295")):
        program.good("import", size, "--kind", "wrap", "--size", size, stdin=drop(1))
        same(re.search(r"^size: (\d+) bytes$", program.good("info", size).decode(), re.MULTILINE)[1], is_taken)
    for size in ("5G", "4097M", "4294967296", "1kk", "k", "1T", "-1", ""):
        outcome = program.run("import", "t", f"--size={size}")
        same((outcome.status, outcome.output), (2, b""))
        says = "a number of bytes, at most 4294967295; k, M and G after it stand for powers of 1,024, as in 64k, and 4G for the most"
        same(outcome.errors.decode().splitlines()[0], f"error: invalid value '{size}' for '--size <BYTES>': {says}")
