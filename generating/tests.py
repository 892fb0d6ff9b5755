"""What tests, and programs that the engine is compared with, list of the files."""

from .proofs import variant
from .table import FILES, TABLES, quoted

# Groups with processes, limits and a group that is killed; each readable file of each of them is shown after each change.
GROUPS = ("/k", "/k/a", "/k/b")
SHOWN = [f"cat {group} {file.name}" for group in GROUPS for file in FILES if file.readable]
EVERY_FILE = (
    *("mkdir /k", "mkdir /k/a", "mkdir /k/b", "write /k pids.max 5", "write /k/a cgroup.max.depth 4"),
    *("fork 1 3", "fork 1 2", "fork 1 9"),
    *("write /k/a cgroup.procs 3", "write /k/b cgroup.procs 2", "write /k cgroup.procs 9"),
    *("fork 3 7", "fork 9 8", "fork 7 4"),
    *SHOWN,
    "write /k cgroup.kill 1",
    *SHOWN,
    *("where 7", "where 1", "fork 2 20", "undo"),
    *SHOWN,
    *("where 7", "fork 7 4"),
)
# Files that show one number, by the start of what the table says of their text: the text in a new group.
NEW = {"the number": "0\\n", "`max N`": "max 0\\n", "`max` or the number": "max\\n"}


def names_of(name, files):
    yield f"{name} = ["
    yield from (f"    {quoted(file)}," for file in sorted(file.name for file in files))
    yield "]"


def new_text(file):
    """The text of the file in a new group, if it shows one number."""
    text = file.text or ""
    return next((NEW[start] for start in NEW if text == start or text.startswith(start + ":")), None)


def mount_lists():
    yield from names_of("ROOT", [file for file in FILES if file.on_root])
    yield from names_of("GROUP", FILES)
    yield "NUMBERS = {"
    for file in FILES:
        if new_text(file):
            yield f'    "{file.name}": b"{new_text(file)}",'
    yield "}"


def faulty_kinds():
    yield "static const struct kind kinds[] = {"
    for file in FILES:
        mode = (0o444 if file.readable else 0) + (0o200 if file.written else 0)
        yield f'\t{{ "{file.name}", {"true" if file.on_root else "false"}, 0{mode:o} }},'
    yield "};"


def plain_files():
    yield "#[derive(Clone, Copy, PartialEq, Eq)]"
    yield "pub enum File {"
    yield from (f"    {variant(file)}," for file in FILES)
    yield "}"
    yield ""
    yield "// Each file with its name, and whether the root has it."
    yield f"const FILES: [(File, &str, bool); {len(FILES)}] = ["
    for file in FILES:
        yield f'    (File::{variant(file)}, "{file.name}", {"true" if file.on_root else "false"}),'
    yield "];"


# Where the program in plain Rust has another name or type for a number.
RUST_NAMES = {"TEXT_MAX": "PATH_MAX", "GROUPS_LIMIT_MAX": "HIERARCHY_LIMIT_MAX"}
RUST_TYPES = {"PID_MAX": "u32", "PIDS_LIMIT_MAX": "u32", "GROUPS_LIMIT_MAX": "u32"}


def plain_numbers(*names):
    for row in TABLES["number"]:
        if row.name in names:
            name, kind = RUST_NAMES.get(row.name, row.name), RUST_TYPES.get(row.name, "usize")
            yield f"const {name}: {kind} = {int(row.value):_}; // {row.meaning}"


# A file of which nothing is written by hand.
WHOLE = {".ci/refused/traces/every_file.trace": lambda: EVERY_FILE}
PARTS = {
    "files in the tests of the mount": mount_lists,
    "files of the faulty file system": faulty_kinds,
    "files of plain Rust": plain_files,
    "groups of plain Rust": lambda: plain_numbers("SLOTS"),
    "traces of plain Rust": lambda: plain_numbers("LINE_MAX", "TRACE_MAX"),
    "words of plain Rust": lambda: plain_numbers("NAME_MAX", "DEPTH_MAX", "TEXT_MAX", *RUST_TYPES),
}
