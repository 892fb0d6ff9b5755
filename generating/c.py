"""C: makhloeum.h, the names and files of the library, and the mount's files and bounds."""
import textwrap

from .table import FAULTS, FILES, NUMBERS, PATHS, REFUSALS, STATUSES, TABLES, plain, quoted


def in_c(truth):
    return "true" if truth else "false"


def enum_of(rows, number, notes=()):
    """The lines of an enum, with the comments of `notes`."""
    for row in rows:
        comma = "" if row is rows[-1] else ","
        note = f" /* {dict(notes)[row.c]} */" if row.c in dict(notes) else ""
        yield f"\t{row.c} = {getattr(row, number)}{comma}{note}"


def by_errno(rows, default):
    """The cases of a switch over codes that returns errnos, in the order in which errnos first occur."""
    for errno in dict.fromkeys(row.errno for row in rows):
        if errno != default:
            yield from (f"\tcase {row.c}:" for row in rows if row.errno == errno)
            yield f"\t\treturn {errno};"
    yield "\tdefault:"
    yield f"\t\treturn {default};"


def enum_of_statuses():
    """Each status with its meaning in a comment, which is broken at the width of .clang-format."""
    for row in STATUSES:
        comma = "" if row is STATUSES[-1] else ","
        head = f"\t{row.c} = {row.number}{comma} /* "
        lines = textwrap.wrap(plain(row.meaning) + " */", 116, initial_indent=" " * len(head.expandtabs(4)))
        yield head + lines[0].strip()
        yield from ("\t\t" + line for line in lines[1:])


def buffer_sizes():
    """A name has a zero byte after it, as has a path. The first line of an answer has at most 32 bytes, a line of a pid ten."""
    n = {name: int(value) for name, value in NUMBERS.items()}
    yield "/* A buffer of this size is large enough for the children of any group. */"
    yield f"enum {{ MK_CHILDREN_MAX = {n['SLOTS']} * {n['NAME_MAX'] + 1} }};"
    yield ""
    yield f"/* A buffer of this size is large enough for all groups: a path has at most {n['TEXT_MAX']:,} bytes. */"
    yield f"enum {{ MK_GROUPS_MAX = {n['SLOTS'] + 1} * {n['TEXT_MAX'] + 1} }};"
    yield ""
    yield f"/* A buffer of this size is large enough for the answer to any line: the first line, and at most {n['PID_MAX']:,} lines of a"
    yield "   pid. */"
    yield f"enum {{ MK_ANSWER_MAX = 32 + 10 * {n['PID_MAX']} }};"


def c_messages(rows, place):
    return (f"\t[{place(row)}] = {{ {quoted(row.words[0])}, {quoted(row.message)} }}," for row in rows)


C_VALUES = {None: "NOTHING", "pid": "A_PID", "groups-limit": "A_COUNT", "pids-limit": "A_PIDS_LIMIT", "1": "A_ONE"}
# What a mount adds with --extra, as C has it: name, on the root, text, and the word that may be written.
CONSTANTS = (
    ("cgroup.controllers", True, '"pids\\n"', None),
    ("cgroup.subtree_control", True, '"pids\\n"', "+pids"),
    ("cgroup.type", False, '"domain\\n"', "domain"),
    ("cpu.stat", True, "CPU_STAT", None),
)
# What it adds whose text changes: name, on the root, what may be written, and the file of the engine that has its text.
MADE = (("cgroup.freeze", False, "A_SWITCH", None), ("cgroup.threads", True, "NOTHING", "cgroup.procs"))


def c_files():
    lines = {}
    for file in FILES:
        truths = ", ".join(in_c(truth) for truth in (file.on_root, file.readable, file.written))
        lines[
            file.name
        ] = f'\t{{ {{ "{file.name}", {truths}, NULL }}, {C_VALUES[file.written]}, NULL, "{file.name}" }},'
    for name, on_root, text, word in CONSTANTS:
        truths, value = f"{in_c(on_root)}, true, {in_c(word)}", "NO_CHANGE" if word else "NOTHING"
        lines[name] = f'\t{{ {{ "{name}", {truths}, {text} }}, {value}, {quoted(word) if word else "NULL"}, NULL }},'
    for name, on_root, value, text_of in MADE:
        truths = f"{in_c(on_root)}, true, {in_c(value != 'NOTHING')}"
        lines[
            name
        ] = f'\t{{ {{ "{name}", {truths}, NULL }}, {value}, NULL, {quoted(text_of) if text_of else "NULL"} }},'
    return [lines[name] for name in sorted(lines)]


# What C calls the engine's numbers: <limits.h> has other ones named LINE_MAX and NAME_MAX.
C_NUMBERS = {
    "SLOTS": "SLOTS",
    "NAME_MAX": "NAME_BYTES",
    "TEXT_MAX": "PATH_BYTES",
    "LINE_MAX": "LINE_BYTES",
    "TRACE_MAX": "TRACE_BYTES",
    "PID_MAX": "PID_MAX",
    "PIDS_LIMIT_MAX": "PIDS_LIMIT_MAX",
}
MOUNT_NUMBERS = ("NAME_MAX", "TEXT_MAX", "LINE_MAX", "TRACE_MAX", "PID_MAX", "PIDS_LIMIT_MAX")


def bounds(*names):
    yield "enum {"
    for row in TABLES["number"]:
        if row.name in names:
            yield f"\t{C_NUMBERS[row.name]} = {row.value}, /* {row.meaning} */"
    yield "};"


def mount_files():
    for file in FILES:
        parts = [f'.name = "{file.name}"']
        parts += [f".{part} = true" for part in ("on_root", "readable", "notified") if getattr(file, part)]
        parts += [f".value = {C_VALUES[file.written]}"] if file.written else []
        parts += [".controller = HAS_PIDS"] if file.name.startswith("pids.") else []
        yield "\t{ " + ", ".join(parts) + " },"


NOT_READABLE = {"MK_NOT_READABLE": "not in an answer: a read of cgroup.kill is MK_DIRECTION"}
PARTS = {
    "statuses": enum_of_statuses,
    "errnos of statuses": lambda: by_errno([row for row in STATUSES if row.errno], "0"),
    "messages of statuses": lambda: (f"\t[{row.c}] = {quoted(row.message)}," for row in STATUSES),
    "codes of refusals": lambda: enum_of(REFUSALS, "code", NOT_READABLE),
    "codes of faults": lambda: enum_of(FAULTS, "code"),
    "faults of a path": lambda: enum_of(PATHS, "number"),
    "errnos of codes": lambda: by_errno(REFUSALS + FAULTS, "EINVAL"),
    "errnos of paths": lambda: by_errno(PATHS, "EINVAL"),
    "sizes of buffers": buffer_sizes,
    "messages of refusals": lambda: c_messages(REFUSALS, lambda row: row.c),
    "messages of faults": lambda: c_messages(FAULTS, lambda row: f"{row.c} - MK_SYNTAX"),
    "messages of paths": lambda: (f"\t[{row.c}] = {quoted(row.message)}," for row in PATHS),
    "bounds of the library": lambda: bounds("TEXT_MAX"),
    "ranges of values": lambda: bounds("PID_MAX", "PIDS_LIMIT_MAX"),
    "bounds in tests of the library": lambda: bounds("SLOTS", "NAME_MAX", "TEXT_MAX", "PID_MAX"),
    "bounds of the mount": lambda: bounds(*MOUNT_NUMBERS),
    "files of the library": c_files,
    "files of the engine": mount_files,
}
