"""Cases of what reaches the system's files: no clause says what a function does with them beside the store that it is lent,
so each function that opens, reads, changes or removes one, or makes a store over some, is listed here with its reason; and
each module that names the runtime, without which no function reaches a file."""

import pathlib
import re

from cases import group
from program import same

CASES, case = group()

CRATES = pathlib.Path(__file__).parents[2] / "crates"

# what reaches a file by its name
REACH = re.compile(
    r"\b(?:fs::[a-z_]+(?=\()|File::[a-z_]+|OpenOptions::new|DirBuilder::new|env::set_current_dir|FolderStore::over|FailureMark::new|fchown(?=\()|Files::(?:locked_)?at|(?<!fn )files_for(?=\())"
)

FUNCTION = re.compile(r"^ *(?:pub )?fn ([a-z_0-9]+)")

# who changes files: the store, the mark of a failed disk, and the folder in which standard input is recorded
CHANGES = {
    ("prepared_requests/src/input_folder.rt", "enter_new"): ["env::set_current_dir", "fs::remove_dir"],
    ("prepared_requests/src/input_folder.rt", "leave"): ["env::set_current_dir", "fs::remove_dir", "fs::remove_file"],
    ("prepared_requests/src/input_folder.rt", "make"): ["DirBuilder::new"],
    ("stores/src/failure_mark.rt", "create"): ["OpenOptions::new"],
    ("stores/src/failure_mark.rt", "remove"): ["fs::remove_file"],
    ("stores/src/named_file.rt", "create_new"): ["OpenOptions::new"],
    ("stores/src/named_file.rt", "match_owner"): ["fchown"],
    ("stores/src/named_file.rt", "open_file"): ["File::open", "OpenOptions::new"],
    ("stores/src/named_file.rt", "remove_beside"): ["fs::remove_file"],
    ("stores/src/named_file.rt", "rename"): ["fs::rename"],
    ("stores/src/named_file.rt", "successor"): ["fs::remove_file"],
}

# who makes a store over files, or a mark, by the names of a trace's place; the first and the last store are only read
STORES = {
    ("commands/src/awaiting.rt", "is_own"): ["FolderStore::over"],
    ("commands/src/files.rt", "again"): ["Files::at"],
    ("commands/src/files.rt", "at"): ["FolderStore::over"],
    ("commands/src/files.rt", "has_failed"): ["FailureMark::new"],
    ("commands/src/files.rt", "remove_mark"): ["FailureMark::new"],
    ("commands/src/files.rt", "locked_at"): ["Files::at"],
    ("commands/src/serving.rt", "files_to_follow"): ["files_for"],
    ("commands/src/serving.rt", "list_files"): ["files_for"],
    ("commands/src/serving.rt", "serve_files"): ["files_for"],
    ("commands/src/sites.rt", "files_to_read"): ["Files::at"],
    ("commands/src/sites.rt", "files_to_wipe"): ["Files::locked_at"],
    ("commands/src/sites.rt", "files_to_write"): ["Files::locked_at"],
    ("prepared_requests/src/ahead_import.rt", "import_files"): ["files_for"],
    ("prepared_requests/src/looking.rt", "see_names"): ["Files::at"],
    ("stores/src/named_files.rt", "marks_failures_at"): ["FailureMark::new"],
    ("trace_lookup/src/lookup.rt", "header_in"): ["FolderStore::over"],
}

# who only looks
LOOKS = {
    ("commands/src/state.rt", "first_bytes"): ["File::open"],
    ("shown_listings/src/zone.rt", "bytes_of"): ["File::open", "fs::metadata"],
    ("stores/src/failure_mark.rt", "is_there"): ["fs::read", "fs::symlink_metadata"],
    ("stores/src/folder.rt", "sync_folder"): ["File::open"],
    ("stores/src/folder.rt", "target_of"): ["fs::canonicalize", "fs::symlink_metadata"],
    ("stores/src/named_file.rt", "is_named"): ["fs::metadata"],
    ("stores/src/named_file.rt", "open"): ["fs::metadata"],
    ("stores/src/named_file.rt", "plain_file"): ["fs::symlink_metadata"],
    ("trace_lookup/src/lookup.rt", "has_bytes"): ["fs::metadata"],
    ("trace_lookup/src/room.rt", "is_crowded"): ["File::open"],
    ("trace_lookup/src/spot.rt", "is_gone"): ["fs::metadata"],
    ("trace_lookup/src/spot.rt", "target_of"): ["fs::read_link"],
}

# the modules whose functions may be handed the runtime: none of those that read or change a trace
RUNTIME = {
    "dbgrec": ["main"],
    "prepared_requests": ["advice", "ahead", "ahead_import", "input", "input_folder", "looking", "names"],
    "commands": ["awaiting", "crowded", "files", "serving", "sites", "state", "streaming", "unshown"],
    "shown_listings": ["console", "counted", "inlet", "listing", "outlet", "screen", "told_times", "zone"],
    "stores": ["failure_mark", "folder", "folder_store", "named_file", "named_files"],
    "faults": ["absence"],
    "trace_lookup": ["lookup", "room", "spot"],
}


def sources():
    """The sources of the crates of the program."""
    return [path for path in sorted(CRATES.glob("*/src/**/*.rt")) if not path.relative_to(CRATES).parts[0].startswith("tests_")]


def reached():
    """What each function of the crates of the program reaches."""
    found = {}
    for path in sources():
        name, function = str(path.relative_to(CRATES)), ""
        for line in path.read_text(encoding="utf-8").splitlines():
            if begins := FUNCTION.match(line):
                function = begins[1]
            if not line.lstrip().startswith("//"):
                for what in REACH.findall(line):
                    found.setdefault((name, function), set()).add(what)
    return found


@case
def files_are_reached_by_these_functions_alone(_program):
    listed = {**CHANGES, **STORES, **LOOKS}
    same({place: sorted(what) for place, what in reached().items()}, {place: sorted(what) for place, what in listed.items()})


@case
def these_modules_alone_have_the_runtime(_program):
    found = {}
    for path in sources():
        if "HostRuntime" in path.read_text(encoding="utf-8"):
            found.setdefault(path.relative_to(CRATES).parts[0], []).append(path.stem)
    same(found, RUNTIME)
