"""The page of a run: the numbers that files show, and the differences between the states before and after a command."""

from .table import FILES, shows_limit

SHORT = {"pids.max": "LIMIT", "pids.events": "TOTAL"}


def field_of(file):
    """The constant of a file's number: the last part of its name."""
    return SHORT.get(file.name, file.name.split(".")[-1].upper())


# Not those of cgroup.procs, cgroup.events and cgroup.stat, which follow from the processes and the groups.
NUMBERED = [file for file in FILES if shows_limit(file) or (file.readable and file.name.startswith("pids."))]


# Each kind of difference with what follows it: `field`, `group`, `pid`, `command`, or another number.
DIFFERENCES = {
    "MAKE": ("group",),
    "GONE": ("group",),
    "BORN": ("pid", "group"),
    "DIED": ("pid",),
    "MOVE": ("pid", "group"),
    "KILL": ("group",),
    "BACK": ("command",),  # the processes that it ended are back
    "SET": ("field", "group", "value"),
    "ADD": ("field", "group", "levels", "amount"),  # to the group and those above it
}


def history_differences():
    yield "# each with the numbers after it"
    for number, (kind, words) in enumerate(DIFFERENCES.items()):
        yield f"{kind} = {number}  # {', '.join(words)}"


def page_differences():
    yield f"const {', '.join(f'{kind} = {number}' for number, kind in enumerate(DIFFERENCES))};"
    yield f"const SIZES = {[len(words) for words in DIFFERENCES.values()]}; // how many numbers follow each kind"


def history_fields():
    yield f"{', '.join(map(field_of, NUMBERED))} = range({len(NUMBERED)})"
    yield f"LIMITS = ({', '.join(field_of(file) for file in NUMBERED if shows_limit(file))})"
    yield f"ON_ROOT = ({', '.join(field_of(file) for file in NUMBERED if file.on_root)})"
    yield "FILES = {"
    yield from (f'    {field_of(file)}: "{file.name}",' for file in NUMBERED)
    yield "}"


def page_fields():
    yield f"export const {', '.join(f'{field_of(file)} = {at}' for at, file in enumerate(NUMBERED))};"
    yield f"const NEW = [{', '.join('-1' if shows_limit(file) else '0' for file in NUMBERED)}];"


def page_lines(files):
    """How the page shows a number: a limit, a number, or a count after the word `max`."""
    for file in files:
        number = f"n[{field_of(file)}]"
        told = f"limitText({number})" if shows_limit(file) else f"String({number})"
        yield f'line("{file.name}", {f"`max ${{{number}}}`" if file.text.startswith("`max N`") else told});'


def page_files():
    """What only the groups below the root have."""
    return (f"      {line}" for line in page_lines(file for file in NUMBERED if not file.on_root))


def page_root_files():
    files = sorted((file for file in NUMBERED if file.on_root), key=lambda file: file.name)
    return (f"    {line}" for line in page_lines(files))


def page_imports():
    yield f'import {{ {", ".join(sorted(map(field_of, NUMBERED)))} }} from "./state.mjs";'


PARTS = {
    "differences in Python": history_differences,
    "differences of the page": page_differences,
    "numbers of files in Python": history_fields,
    "numbers of files of the page": page_fields,
    "files of the page": page_files,
    "files of the page on the root": page_root_files,
    "numbers that the page imports": page_imports,
}
