"""The form of a file of mutants, which has all mutants of one source file.

`file: PATH` is its first line, with the path of the source from the repository's top. Then each mutant has a block, with a blank
line before it, and the blocks are sorted by their names:

    == NAME, a sentence of lower-case words with underscores that says what is wrong
    why: the reason, if the name doesn't give it
    old: a part of a line, which is in the source once
    new: what is there instead
    test: the test that has to fail, as FOLDER/test takes it

A block has one or more pairs `old:` and `new:`. A line `file:` between them names another file, which the pairs below it change.
"""
import dataclasses
import re

# The folders with mutants, and the folder of each whose files are mirrored there.
SOURCES = {"mount": "mount/src/", "bindings": "bindings/", "look": "look/"}
NAME = re.compile(r"[a-z0-9]+(?:_[a-z0-9]+)*")


def place_of(folder, source):
    """The file that has the mutants of a source."""
    return f"{folder}/mutants/{source.removeprefix(SOURCES[folder])}.mutants"


@dataclasses.dataclass
class Block:
    """A mutant. `line` is that of its name, counted from 1, and `fault` says what is wrong with its form, or is empty."""

    name: str
    source: str
    line: int
    why: str = ""
    changes: list = dataclasses.field(default_factory=list)  # the path, the old and the new text of each
    test: str = ""
    text: str = ""
    fault: str = ""


def source_of(text):
    """The source whose mutants the text has, or nothing if its first line doesn't say it."""
    first = text.split("\n", 1)[0]
    return first.removeprefix("file: ").strip() if first.startswith("file: ") else ""


def blocks(text):
    """The mutants of the text of such a file. What stands before the first one is not looked at."""
    found, source, number = [], source_of(text), 0
    for number, line in enumerate(text.split("\n"), 1):
        if line.startswith("== "):
            found.append((number, [line]))
        elif found:
            found[-1][1].append(line)
    return [block_of(source, number, lines) for number, lines in found]


def block_of(source, number, lines):
    block = Block(lines[0].removeprefix("== "), source, number, text="\n".join(lines).rstrip("\n"))
    faults = [] if NAME.fullmatch(block.name) else ["its name is not made of lower-case words and underscores"]
    path, old = source, None
    for line in block.text.split("\n")[1:]:
        word, _, rest = line.partition(":")
        rest = rest.removeprefix(" ")
        if word not in ("why", "file", "old", "new", "test") or ":" not in line:
            faults.append(f"it has a line that is none of why, file, old, new and test: {line}")
        elif block.test:
            faults.append("it has a line after its test")
        elif word == "new":
            if old:
                block.changes.append((path, old, rest))
            faults += [] if old else ["a new text has no old one before it"]
            old = None
        elif old:
            faults.append("an old text has no new one after it")
        elif word == "old":
            old = rest
            faults += [] if old else ["an old text is empty"]
        elif word == "file":
            path = rest.strip()
        elif word == "why":
            block.why = rest
        else:
            block.test = rest.strip()
    faults += [] if block.test else ["it has no test"]
    faults += [] if block.changes else ["it has no pair of old and new text"]
    block.fault = faults[0] if faults else ""
    return block


def faults_of_file(folder, path, text):
    """What is wrong with the form of a file of mutants as a whole."""
    source, names = source_of(text), [block.name for block in blocks(text)]
    if not source:
        yield "its first line is not file: and a path"
    elif path != place_of(folder, source):
        yield f"the mutants of {source} belong in {place_of(folder, source)}"
    head = text.split("\n== ", 1)[0].split("\n")[1:]
    if any(head):
        yield "something is between its first line and its first mutant"
    if not names:
        yield "it has no mutant"
    if names != sorted(names):
        yield "its mutants are not sorted by their names"
    lines = text.split("\n")
    if any(line.startswith("== ") and lines[at - 1] for at, line in enumerate(lines)) or re.search("\n\n\n", text):
        yield "its mutants are not separated by one blank line"
    if not text.endswith("\n") or text.endswith("\n\n"):
        yield "it does not end with one line feed"


def folder_of(path):
    """The folder whose tests catch the mutants of that file, and the file in its folder of mutants."""
    folder, _, file = path.partition("/mutants/")
    return folder, file


def named(path, text, numbers):
    """The mutants that have these lines, each with its lines; lines above the first are those of all."""
    folder, file = folder_of(path)
    found = [(block.name, block.line, block.line + block.text.count("\n")) for block in blocks(text)]
    above = [number for number in numbers if not any(first <= number <= last for _, first, last in found)]
    if above:
        yield f"{folder}/ all {len(found)} of {file}", above
    for name, first, last in found:
        inside = [number for number in numbers if first <= number <= last]
        if inside:
            yield f"{folder}/{name}", inside


def without_folder(name, texts):
    """The name of a mutant that was given with its folder, as .ci/mutants prints it; any other name as it is."""
    folder, _, last = name.partition("/")
    for path, text in texts.items():
        if path.startswith(f"{folder}/mutants/") and last:
            if any(last == block.name for block in blocks(text)):
                return last
    return name


def tests_of(name, texts):
    """What each mutant of that name, with its folder or without, changes, and the test that has to fail."""
    folder, _, last = name.rpartition("/")
    paths = [path for path in sorted(texts) if path.endswith(".mutants") and f"== {last}" in texts[path]]
    found = [(folder_of(path)[0], block) for path in paths for block in blocks(texts[path]) if block.name == last]
    return [
        f"mutant of {block.source}: {at}/test {block.test} has to fail" for at, block in found if folder in ("", at)
    ]
