"""The form of edits, the wrong bodies that the prover must refuse. An edit has these lines:

    # breaks: the definition or the function whose meaning it changes, or several with commas; `rt` doesn't read this line
    file: a path in the crate
    old: a part of a line, which is in the file once
    new: what is there instead

It has one or more pairs `old:` and `new:`, and may have another `file:` before a pair. The first set of a crate has a file for each
edit, `crates/CRATE/must-fail/NAME.edit`, since `rt` reads it there. All others of a crate are in `crates/CRATE/must-fail-more.edits`.
The first line of that file is HEAD. Then each edit has a block, with a blank line before it, and the blocks are sorted by their names:

    == NAME, lower-case words with underscores that say what is wrong
    the lines of the edit
"""

import dataclasses
import functools
import re

from .code import functions_of

HEAD = "# Edits that the prover must refuse. .ci/lookup/edits.py has the form, .ci/edits tries them."
PLACE = re.compile(r"crates/(\w+)/(?:must-fail/([^/]+)\.edit|must-fail-more\.edits)")
NAME = re.compile(r"[a-z0-9]+(?:_[a-z0-9]+)*")


@dataclasses.dataclass(frozen=True)
class Edit:
    """`text` is that of its file, or the same lines of its block. `line` is the first one, that of a block's name, counted from 1."""

    crate: str
    name: str
    text: str
    line: int = 1

    @property
    def label(self):
        """How `rt` names it, whichever set it is in."""
        return f"{self.crate}/{self.name}.edit"

    @property
    def sources(self):
        """The files that it changes."""
        return [f"crates/{self.crate}/{name.strip()}" for name in re.findall(r"^file: (.+)$", self.text, re.M)]


def place_of(crate):
    """The file that has the second set of a crate."""
    return f"crates/{crate}/must-fail-more.edits"


@functools.lru_cache(maxsize=None)
def edits_of(path, text):
    """The edits of a file; none of a file of another kind. What is above the first block is not looked at."""
    place = PLACE.fullmatch(path)
    if not place:
        return ()
    crate, name = place.groups()
    if name:
        return (Edit(crate, name, text),)
    found = []
    for number, line in enumerate(text.split("\n"), 1):
        if line.startswith("== "):
            found.append((line.removeprefix("== "), number, []))
        elif found:
            found[-1][2].append(line)
    return tuple(Edit(crate, name, "\n".join(lines).rstrip("\n") + "\n", line) for name, line, lines in found)


def edit_at(path, text, number):
    """The edit that has this line; None if there is none."""
    return next((edit for edit in reversed(edits_of(path, text)) if edit.line <= number), None)


def faults_of_form(text):
    """What is wrong with the form of a file with the second set of a crate."""
    lines, names = text.split("\n"), [edit.name for edit in edits_of(place_of("any"), text)]
    if lines[0] != HEAD:
        yield f"its first line is not: {HEAD}"
    if any(lines[1:]) and not text.partition("\n")[2].startswith("\n== "):
        yield "something is between its first line and its first edit"
    if not names:
        yield "it has no edit"
    for name in names:
        if not NAME.fullmatch(name):
            yield f"the name {name} is not made of lower-case words and underscores"
    if any(first >= second for first, second in zip(names, names[1:])):
        yield "its edits are not sorted by their names, each of which is there once"
    if re.search(r"\n\n(?!== )|[^\n]\n== ", text):
        yield "there is a blank line in an edit, or not one before its name"
    if not text.endswith("\n"):
        yield "it does not end with a line feed"


def without_crate(name, texts):
    """The name of an edit that was given as .ci/edits prints it, with its crate and an ending; any other name as it is."""
    crate, _, last = name.removesuffix(".edit").rpartition("/")
    for path, text in texts.items():
        if path.startswith(f"crates/{crate}") and any(
            last == edit.name and crate in ("", edit.crate) for edit in edits_of(path, text)
        ):
            return last
    return name


def broken_by(edit, texts):
    """The functions whose bodies an edit changes, each with its file."""
    found, file = [], None
    for line in edit.text.split("\n"):
        if line.startswith("file: "):
            file = f"crates/{edit.crate}/{line.removeprefix('file: ').strip()}"
        elif line.startswith("old: ") and file in texts:
            before, old, _ = texts[file].partition(line.removeprefix("old: "))
            if old:
                found.append((file, functions_of(texts[file])[before.count("\n") + 1]))
    return found


def named_by(edit, texts):
    """What an edit breaks: what its line `# breaks:` says, else the functions that it changes."""
    said = re.findall(r"^# breaks: (.+)$", edit.text, re.M)
    return said or sorted({function for _, function in broken_by(edit, texts) if function}) or ["no function"]
