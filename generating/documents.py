"""The tables of documents, and parts of the manual pages."""
import itertools
import textwrap

from .table import FAULTS, FILES, NUMBERS, PATHS, REFUSALS, STATUSES, TABLES, plain, sentence


def table(head, rows):
    yield f"| {' | '.join(head)} |"
    yield "|" + "---|" * len(head)
    for row in rows:
        yield "|" + "|".join(f" {cell} " if cell else " " for cell in row) + "|"


DOCUMENT_VALUES = {None: "no", "pid": "a pid", "groups-limit": "a limit", "pids-limit": "a limit", "1": "`1`"}
# What the kernel gives in other cases; how it differs from the code's errno.
KERNEL = {
    "MK_NO_GROUP": "ENODEV through a file that was opened before its group was removed",
    "MK_NO_SLOT": "has no such limit; ENOSPC if its ids for groups run out",
    "MK_NO_PROCESS": "ENOENT at an open of `/proc/PID/cgroup`",
    "MK_NOTHING_TO_UNDO": "has no undo",
    "MK_SYNTAX": "has no such text",
    "MK_PATH": "accepts more names; ENAMETOOLONG for a name of more than 255 bytes or a path of more than 4,095; EEXIST for a mkdir of"
    " `.`, `..` or a file's name",
    "MK_FILE": "EACCES at an open that would create it",
    "MK_DIRECTION": "EACCES at the open, without privileges",
    "MK_VALUE": "ERANGE: a limit of the hierarchy outside its range, `pids.max` from 2^63 on, another number than 1 to `cgroup.kill`;"
    " ESRCH: a number to `cgroup.procs` that no process has",
}


def yes(truth):
    return "yes" if truth else "no"


def document_files():
    rows = ((f"`{it.name}`", yes(it.on_root), yes(it.readable), DOCUMENT_VALUES[it.written], it.text) for it in FILES)
    return table(("File", "On the root", "Read", "Written", "Text"), rows)


def readme_files():
    """The files of each controller, the first with its whole name."""
    groups = {}
    for file in FILES:
        groups.setdefault(file.name.split(".")[0], []).append(file.name)
    lists = (
        [f"`{names[0]}`", *(f"`{name.removeprefix(kind)}`" for name in names[1:])] for kind, names in groups.items()
    )
    yield f"The files of a group: {'; '.join(map(', '.join, lists))}."


def document_commands():
    rows = (
        (f"`{' '.join([it.example.split()[0], it.arguments or '']).strip()}`", it.meaning) for it in TABLES["command"]
    )
    return table(("Line", "Command"), rows)


def document_replies():
    """The words of answers. A refusal that is in no answer has the word of a fault."""
    faults = {row.words[0] for row in FAULTS}
    rows = [(", ".join(f"`{row.words[0]}`" for row in FAULTS), None, "the text of the line is wrong")]
    for row in REFUSALS:
        word, *argument = row.words
        if word not in faults:
            kind = "path" if argument and argument[0].startswith("/") else "pid" if argument else None
            rows.append((f"`{word}`", kind, row.meaning))
    return table(("Word", "Argument", "When"), rows)


def document_codes():
    def word(row):
        return (
            f"`{row.words[0]}`" if row.c != "MK_NOT_READABLE" else "in no answer: a read of `cgroup.kill` has code 35"
        )

    rows = ((row.code, f"`{row.c}`", word(row), row.errno, KERNEL.get(row.c)) for row in REFUSALS + FAULTS)
    return table(("Code", "Name", "Word of the answer", "errno", "The kernel in other cases"), rows)


# Statuses that have the errno of something else.
ERRNO_OF = {"MK_REFUSED": "of the code", "MK_FAULT": "of the code", "MK_FAILED": "the errno that it asked for"}


def document_statuses():
    rows = ((row.number, f"`{row.c}`", row.meaning, ERRNO_OF.get(row.c, row.errno or "0")) for row in STATUSES)
    return table(("Status", "Name", "Meaning", "errno"), rows)


def document_paths():
    rows = ((row.number, f"`{row.c}`", f"`{row.name}`", row.position) for row in PATHS)
    return table(("Fault", "Name", "Python", "Position"), rows)


# ---- the manual


def wrapped(text, width=128):
    return textwrap.wrap(text, width, break_long_words=False, break_on_hyphens=False)


def in_fonts(words):
    """The words of a command as a macro's arguments: values, in capitals, in another font than words that are typed."""
    parts = [(is_value, " ".join(group)) for is_value, group in itertools.groupby(words, str.isupper)]
    for at, (is_value, text) in enumerate(parts):
        yield f'" {text}{"" if at == len(parts) - 1 else " "}"' if is_value else f'"{text}"' if " " in text else text


def manual_commands():
    limits = [file.name for file in FILES if "limit" in (file.written or "")]
    lists = {"FILE": [file.name for file in FILES if file.readable], "FILE VALUE": limits}
    for row in TABLES["command"]:
        words = [row.example.split()[0], *(row.arguments or "").split()]
        names = lists.get(" ".join(words[2:]))
        yield ".TP"
        yield f"{'.BI' if len(words) > 1 else '.B'} {' '.join(in_fonts(words))}"
        yield from wrapped(sentence(plain(row.meaning)) + (f" The files are {', '.join(names)}." if names else ""))


def listed(words, at_most=8):
    """Lines of words in bold, with commas between them."""
    for first in range(0, len(words), at_most):
        comma = ' ", "' if first + at_most < len(words) else ""
        yield ".BR " + ' ", " '.join(words[first : first + at_most]) + comma


def manual_words():
    faults = [row.words[0] for row in FAULTS]
    yield "The words are"
    yield from listed(faults)
    yield "for a line that isn't a command;"
    yield from listed([row.words[0] for row in REFUSALS if row.words[0] not in faults])
    yield "for a command that the state refuses."


def manual_bounds():
    n = {name: f"{int(value):,}" for name, value in NUMBERS.items()}
    yield from wrapped(
        f"{n['SLOTS']} groups besides the root; {n['DEPTH_MAX']} names in a path, {n['NAME_MAX']} bytes in a name, {n['TEXT_MAX']} bytes in a"
        f" path; pids from 1 to {n['PID_MAX']}; {n['LINE_MAX']} bytes in a line that is a command."
    )


def manual_workers():
    yield f"Answer with 1 to {NUMBERS['WORKERS_MAX']} threads. The answers are the same for each number."


def manual_statuses():
    for row in STATUSES:
        yield ".TP"
        yield f'.BR {row.c} " ({row.number})"'
        yield from wrapped(sentence(plain(row.meaning)))


PARTS = {
    "table of statuses": document_statuses,
    "statuses of the manual": manual_statuses,
    "commands of the manual": manual_commands,
    "words of the manual": manual_words,
    "bounds of the manual": manual_bounds,
    "workers of the manual": manual_workers,
    "table of files": document_files,
    "files that work": readme_files,
    "table of commands": document_commands,
    "table of replies": document_replies,
    "table of codes": document_codes,
    "table of paths": document_paths,
}
