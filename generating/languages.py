"""Python and Go."""

from .table import FAULTS, FILES, PATHS, REFUSALS, STATUSES, TABLES, quoted, sentence

PYTHON_BASES = {
    "EEXIST": "FileExistsError",
    "ENOENT": "FileNotFoundError",
    "EAGAIN": "BlockingIOError",
    "ESRCH": "ProcessLookupError",
}


def python_class(row, base):
    """The class of a code, with the base that Python has for its errno. That of a path is written by hand."""
    more = PYTHON_BASES.get(row.errno)
    yield f"class {row.name}({'Busy' if row.errno == 'EBUSY' else base}{', ' + more if more else ''}):"
    yield f'    """{sentence(row.meaning)}"""'
    yield ""
    yield f"    code = {row.code}" if row.errno == "EBUSY" else f"    code, number = {row.code}, errno.{row.errno}"
    if base == "Fault":
        yield f"    explained = {quoted(row.message)}"


def apart(classes):
    """Classes with two empty lines around each."""
    for lines in classes:
        yield ""
        yield ""
        yield from lines
    yield ""
    yield ""


def python_path_class(row):
    yield f"class {row.name}(BadPath):"
    yield f'    """{sentence(row.meaning)}"""'
    yield ""
    yield f"    fault = {row.number}"


def python_kinds():
    yield "BY_CODE: dict[int, type[Refused]] = {"
    yield from (f"    {row.code}: {row.name}," for row in REFUSALS + FAULTS)
    yield "}"
    yield "BY_FAULT: dict[int, type[BadPath]] = {"
    yield from (f"    {row.number}: {row.name}," for row in PATHS)
    yield "}"


def python_all():
    names = ["Refused", *(row.name for row in REFUSALS), "Busy", "Fault", *(row.name for row in FAULTS + PATHS)]
    yield "__all__ = ["
    yield from (f'    "{name}",' for name in names)
    yield "]"


# Numbers that the package does not use.
WITHIN = ("LEAVES", "NODES", "INLINE_PEAKS", "SESSIONS_MAX", "WORKERS_MAX")


def python_numbers():
    for row in TABLES["number"]:
        if row.name not in WITHIN:
            yield f"# {row.meaning}"
            yield f"{row.name} = {row.value}"


def numbers(*names):
    """Numbers for a program that does not load the package."""
    return (f"{row.name} = {row.value}  # {row.meaning}" for row in TABLES["number"] if row.name in names)


def python_files():
    yield "FILES = ("
    for file in FILES:
        values = (quoted(file.name), file.on_root, file.readable, file.written and quoted(file.written), file.notified)
        yield f"    File({', '.join(map(str, values))}),"
    yield ")"


# ---- Go


def go_constants(rows, kind, said):
    """A constant for each row, with what `said` says of the row."""
    width = max(len(row.name) for row in rows)
    far = max(len(row.c) for row in rows)
    for row in rows:
        yield f"\t{row.name.ljust(width)} {kind} = C.{row.c.ljust(far)} // {said(row).replace('`', '')}"


def go_names(rows):
    """The name of each constant as a text, for a map."""
    width = max(len(row.name) for row in rows) + 1
    return (f'\t{(row.name + ":").ljust(width)} {quoted(row.name)},' for row in rows)


# What the tests in Go call the numbers.
GO_NUMBERS = {
    "SLOTS": "slots",
    "DEPTH_MAX": "depthMax",
    "NAME_MAX": "nameMax",
    "TEXT_MAX": "pathMax",
    "PID_MAX": "pidMax",
}


def go_numbers():
    yield "const ("
    width = max(map(len, GO_NUMBERS.values()))
    far = max(len(row.value) for row in TABLES["number"] if row.name in GO_NUMBERS)
    for row in TABLES["number"]:
        if row.name in GO_NUMBERS:
            yield f"\t{GO_NUMBERS[row.name].ljust(width)} = {row.value.ljust(far)} // {row.meaning}"
    yield ")"
    yield ""


PARTS = {
    "statuses in Python": lambda: (f"{row.c.removeprefix('MK_')} = {row.number}" for row in STATUSES),
    "refusals in Python": lambda: apart(python_class(row, "Refused") for row in REFUSALS),
    "faults in Python": lambda: apart(python_class(row, "Fault") for row in FAULTS if row.name != "BadPath"),
    "faults of a path in Python": lambda: apart(python_path_class(row) for row in PATHS),
    "kinds in Python": python_kinds,
    "names in Python": python_all,
    "files in Python": python_files,
    "numbers in Python": python_numbers,
    "workers in Python": lambda: numbers("WORKERS_MAX"),
    "sessions in Python": lambda: numbers("SESSIONS_MAX"),
    "traces in Python": lambda: numbers("TRACE_MAX"),
    "board and replay in Python": lambda: numbers("SLOTS", "LEAVES", "NODES", "WORKERS_MAX", "TRACE_MAX"),
    "numbers in Go": go_numbers,
    "codes in Go": lambda: go_constants(REFUSALS + FAULTS, "Code", lambda row: f"{row.errno}: {row.meaning}"),
    "faults of a path in Go": lambda: go_constants(PATHS, "PathFault", lambda row: row.meaning),
    "names of codes in Go": lambda: go_names(REFUSALS + FAULTS),
    "names of faults of a path in Go": lambda: go_names(PATHS),
}
