"""The map of folders: that each folder has a line in the table of ARCHITECTURE or a head of its own, and the table names no other."""

import posixpath
import re

from .comments import CODE

PAGE, HEADING = "docs/ARCHITECTURE.md", "## The folders"
# Folders that another table lists: ARCHITECTURE's of the crates.
ELSEWHERE = re.compile(r"crates/\w+")
# Whose own folders need a line too, although they are on the third level.
SOURCES = ("mount/src",)
HEAD = re.compile(r'(?:#!.*\n)?(?:/\*|"""|//|# )(.+)')


def named(page):
    """The folders of the table behind the heading, each with what is said of it."""
    lines = page.partition(f"\n{HEADING}\n")[2].split("\n## ")[0].split("\n")
    rows = [re.split(r"(?<!\\)\|", line)[1:-1] for line in lines if line.startswith("|")]
    return {name.rstrip("/"): cells[-1].strip() for cells in rows for name in CODE.findall(cells[0])}


def folders_of(files):
    """The folders that need a line: those of the first two levels, and those of the sources."""
    found = set()
    for path in files:
        parents = path.split("/")[:-1]
        found.update("/".join(parents[:depth]) for depth in range(1, min(len(parents), 2) + 1))
        for source in SOURCES:
            if path.startswith(f"{source}/") and path.count("/") > source.count("/") + 1:
                found.add("/".join(parents[: source.count("/") + 2]))
    return sorted(found)


def has_head(folder, files, read):
    """Whether the folder's main file says what is there: a README, a file that has the folder's name, or one whose first line
    has it with a slash behind it."""
    name = posixpath.basename(folder)
    for path in files:
        if posixpath.dirname(path) == folder:
            file = posixpath.basename(path)
            if file == "README.md" and read(path).strip():
                return True
            if file.endswith((".h", ".py", ".rt", ".mjs", ".go")) or "." not in file:
                head = HEAD.match(read(path))
                if head and (posixpath.splitext(file)[0] == name or re.search(rf"(?<!\w){re.escape(name)}/", head[1])):
                    return True
    return False


def faults_of_folders(files, read):
    """`files` are the paths that git lists, `read` gives the text of one."""
    if f"\n{HEADING}\n" not in read(PAGE):
        yield f"{PAGE}: no heading `{HEADING}`"
        return
    table = named(read(PAGE))
    there = {path.rsplit("/", depth)[0] for path in files for depth in range(1, path.count("/") + 1)}
    for name, said in table.items():
        if name not in there:
            yield f"{PAGE}: there is no folder {name}"
        elif not said:
            yield f"{PAGE}: nothing is said of the folder {name}"
    for folder in folders_of(files):
        if folder not in table and not ELSEWHERE.fullmatch(folder) and not has_head(folder, files, read):
            yield f"{folder}/: no line under `{HEADING}` of {PAGE}, and no head that says what is there"
