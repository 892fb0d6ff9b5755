"""makhloeum tree DIR [--watch [SECONDS]]

Shows the groups below DIR, a mounted cgroup2 directory, as a tree: for each group pids.current of pids.max as a bar with the
peak, refused forks here and with those below, and its processes. With --watch it draws again whenever something has
changed, until Ctrl-C: at once after a change that the kernel announces (poll on cgroup.events and pids.events), and it looks
every SECONDS (0.5) for the others.
"""

from __future__ import annotations

import io
import itertools
import os
import re
import resource
import select
import shutil
import sys
import time
import unicodedata
from dataclasses import dataclass, field
from typing import IO, Dict, Iterator, List, Optional, TextIO, Tuple

from ..hierarchy import Hierarchy
from .command_line import of_words

UNKNOWN = -1
BAR = 10
PIDS_MOST = 16
WATCHED_MOST = 200
_EIGHTHS = " ▏▎▍▌▋▊▉█"
_SECONDS = re.compile(r"[0-9]+\.?[0-9]*|\.[0-9]+")
_WAIT_MOST = (1 << 31) - 1  # milliseconds that poll takes
# What is drawn where the output's encoding has no lines and blocks.
_ASCII = str.maketrans("├└─│█▏▎▍▌▋▊▉", "|`-|#       ")


@dataclass
class Node:
    """A group as the tree shows it; None if its directory doesn't have the number."""

    name: str
    processes: List[int]
    current: Optional[int] = None
    limit: Optional[int] = None  # None: no limit; UNKNOWN: its file can't be read
    peak: Optional[int] = None
    populated: Optional[bool] = None
    here: Optional[int] = None
    total: Optional[int] = None
    below: List["Node"] = field(default_factory=list)


# ---- from an engine, from a directory


def of_hierarchy(h: Hierarchy, path: str = "/") -> Node:
    """The group of an engine, with those below it."""
    node = Node(path if path == "/" else path.rsplit("/", 1)[1], h.processes(path))
    if path != "/":
        node.current, node.limit, node.peak, node.populated = (
            h.current(path),
            h.limit(path),
            h.peak(path),
            h.populated(path),
        )
        node.total, node.here = (int(h.read(path, file).split()[1]) for file in ("pids.events", "pids.events.local"))
    node.below = [of_hierarchy(h, path.rstrip("/") + "/" + name) for name in h.children(path)]
    return node


def _read(folder: str, file: str) -> List[str]:
    """The words of a file; none if the group or the file isn't there."""
    try:
        with open(os.path.join(folder, file), encoding="ascii", errors="replace") as it:
            return it.read().split()
    except (OSError, UnicodeError):
        return []


def _number(folder: str, file: str, key: str = "") -> Optional[int]:
    """The number of a file, or the number after a key. `max` is None."""
    words = _read(folder, file)
    word = words[words.index(key) + 1] if key in words[:-1] else "" if key else "".join(words[:1])
    return int(word) if word.isdigit() else None


def _limit(folder: str) -> Optional[int]:
    word = "".join(_read(folder, "pids.max")[:1])
    return int(word) if word.isdigit() else None if word == "max" else UNKNOWN


def _group(folder: str, name: str) -> Node:
    """The group that a directory is, without those below it."""
    node = Node(name, [int(pid) for pid in _read(folder, "cgroup.procs") if pid.isdigit()])
    node.current, node.limit = _number(folder, "pids.current"), _limit(folder)
    if node.current is None and node.limit == UNKNOWN:
        node.limit = None
    node.peak = _number(folder, "pids.peak")
    populated = _number(folder, "cgroup.events", "populated")
    node.populated = None if populated is None else populated > 0
    node.total, node.here = _number(folder, "pids.events", "max"), _number(folder, "pids.events.local", "max")
    return node


def _names_below(folder: str) -> List[str]:
    try:
        entries = sorted(entry.name for entry in os.scandir(folder) if entry.is_dir(follow_symlinks=False))
    except OSError:
        return []  # removed meanwhile
    return [name for name in entries if os.path.exists(os.path.join(folder, name, "cgroup.procs"))]


def of_directory(folder: str, name: Optional[str] = None) -> Node:
    """The group that a directory is, with those below it. A kernel has no greatest depth, so nothing here recurs."""
    top = Node("", [])
    rest = [(folder, folder if name is None else name, top)]
    while rest:
        path, called, above = rest.pop()
        node = _group(path, called)
        above.below.append(node)
        rest += [(os.path.join(path, child), child, node) for child in reversed(_names_below(path))]
    return top.below[0]


# ---- as text

_Part = Tuple[str, str]  # a text and its kind
COLOURS = {"name": "1", "bar": "34", "full": "31", "peak": "33", "yes": "32", "soft": "2", "refused": "1;31"}


def _coloured(text: str, kind: str) -> str:
    return f"\x1b[{COLOURS[kind]}m{text}\x1b[0m" if kind and text.strip() else text


def _escaped(name: str) -> str:
    return name.encode("ascii", "backslashreplace").decode("ascii")


def _wide(text: str) -> int:
    """How many columns of a terminal it takes: a letter of Chinese takes two, an accent that follows its letter none."""
    if text.isascii():
        return len(text)
    return sum(not unicodedata.combining(c) and 1 + (unicodedata.east_asian_width(c) in "WF") for c in text)


def _fitting(text: str, columns: int) -> str:
    """The beginning of the text that these columns have room for."""
    if text.isascii():
        return text[:columns]
    for at, letter in enumerate(text):
        columns -= _wide(letter)
        if columns < 0:
            return text[:at]
    return text


def _cut(parts: List[_Part], width: Optional[int]) -> Iterator[_Part]:
    """The parts of a line, as far as they fit into the width."""
    left = sum(_wide(text) for text, _ in parts) if width is None else width
    for text, kind in parts:
        shown = _fitting(text, left)
        yield shown, kind
        left -= _wide(shown)


def printable(name: str) -> str:
    """A name may have bytes that move a terminal's cursor."""
    text = os.fsencode(name).decode("utf-8", "backslashreplace")
    return "".join(c if c.isprintable() else c.encode("unicode_escape").decode("ascii") for c in text)


def _bar(node: Node) -> List[_Part]:
    """The count as a part of the limit, with a mark at the peak; without a limit there are no parts."""
    if node.current is None or node.limit is None or node.limit == UNKNOWN:
        return [(" " * (BAR + 2), "")]
    eighths = min(BAR * 8, node.current * BAR * 8 // max(node.limit, 1))
    cells = ["█"] * (eighths // 8) + ([_EIGHTHS[eighths % 8]] if eighths % 8 else [])
    cells += [" "] * (BAR - len(cells))
    kind = "full" if node.current >= node.limit else "bar"
    parts = [(cell, kind) for cell in cells]
    at = min(BAR, node.peak * BAR // max(node.limit, 1)) if node.peak else 0
    if at < BAR and node.peak and cells[at] == " ":
        parts[at] = ("|", "peak")
    return [("[", ""), *parts, ("]", "")]


def _columns(node: Node) -> Tuple[str, ...]:
    limit = "max" if node.limit is None else "?" if node.limit == UNKNOWN else str(node.limit)
    count = "" if node.current is None else f"{node.current}/{limit}"
    peak = "" if node.peak is None else f"peak {node.peak}"
    populated = {None: "", True: "populated", False: "empty"}[node.populated]
    # before Linux 6.11 there is no pids.events.local
    here = "" if node.here is None else f"{node.here} here, "
    refused = f"refused {here}{node.total or 0} in all" if node.total or node.here else ""
    pids = [str(pid) for pid in node.processes[:PIDS_MOST]]
    more = len(node.processes) - len(pids)
    return count, peak, populated, refused, " ".join(pids + ([f".. {more} more"] if more else []))


def _flat(top: Node) -> Iterator[Tuple[str, str, Node]]:
    rest = [(top, "", "")]
    while rest:
        node, indent, mark = rest.pop()
        yield indent + mark, printable(node.name), node
        indent += {"": "", "├─ ": "│  ", "└─ ": "   "}[mark]
        rest += [(below, indent, "├─ " if at else "└─ ") for at, below in enumerate(reversed(node.below))]


def draw(node: Node, colour: bool = False, width: Optional[int] = None, is_ascii: bool = False) -> str:
    """The tree as text, one line for each group, cut to the width if there is one."""
    rows = [(lead, _escaped(name) if is_ascii else name, group, _columns(group)) for lead, name, group in _flat(node)]
    names = max(len(lead) + _wide(name) for lead, name, _, _ in rows)
    sizes = [max(len(row[3][at]) for row in rows) for at in range(4)]
    lines = []
    for lead, name, group, (count, peak, populated, refused, pids) in rows:
        parts = [(lead, ""), (name, "name"), (" " * (names - len(lead) - _wide(name) + 2), ""), *_bar(group)]
        parts += [("  " + count.rjust(sizes[0]), ""), ("  " + peak.ljust(sizes[1]), "peak")]
        parts.append(("  " + populated.ljust(sizes[2]), "yes" if group.populated else "soft"))
        parts += [("  " + refused.ljust(sizes[3]), "refused")] if sizes[3] else []
        shown = list(_cut([*parts, ("  " + pids, "")], width))
        lines.append("".join(_coloured(*part) if colour else part[0] for part in shown).rstrip() + "\n")
    text = "".join(lines)
    return text.translate(_ASCII) if is_ascii else text


def drawn_for(node: Node, out: IO[str]) -> str:
    """The tree as this output can show it: its colours, its width if it is a terminal, and its encoding."""
    width = shutil.get_terminal_size().columns if out.isatty() else None
    try:
        "├└─│█▏".encode(getattr(out, "encoding", None) or "utf-8")
        is_ascii = False
    except (UnicodeError, LookupError):
        is_ascii = True
    return draw(node, uses_colour(out), width, is_ascii)


# ---- the command


def _watched_most() -> int:
    """How many groups are watched, each by two files. The other half of the descriptors is for reading."""
    limit = resource.getrlimit(resource.RLIMIT_NOFILE)[0]
    return WATCHED_MOST if limit == resource.RLIM_INFINITY else min(WATCHED_MOST, limit // 4)


class Watch:
    """Waits for a change of a directory's groups."""

    def __init__(self, folder: str) -> None:
        self.folder = folder
        self.files: Dict[str, int] = {}
        self.poll = select.poll()

    def follow(self, node: Node) -> bool:
        """Polls the event files of the existing groups; whether it opened any."""
        opened = False
        wanted = set()
        for path in itertools.islice(_paths(self.folder, node), _watched_most()):
            wanted |= {os.path.join(path, file) for file in ("cgroup.events", "pids.events")}
        for path in set(self.files) - wanted:
            self._drop(path)
        for path in wanted - set(self.files):
            try:
                self.files[path] = os.open(path, os.O_RDONLY | os.O_CLOEXEC)
            except OSError:
                continue
            self.poll.register(self.files[path], select.POLLPRI)
            opened = True
        return opened

    def _drop(self, path: str) -> None:
        self.poll.unregister(self.files[path])
        os.close(self.files.pop(path))

    def wait(self, seconds: float) -> None:
        """Until an event file changes, or the time is over."""
        paths = {file: path for path, file in self.files.items()}
        for file, _ in self.poll.poll(min(seconds * 1000, _WAIT_MOST)):
            try:
                os.pread(file, 4096, 0)  # an event file that was read waits for the next change
            except OSError:
                self._drop(paths[file])

    def close(self) -> None:
        for path in list(self.files):
            self._drop(path)


def _paths(folder: str, top: Node) -> Iterator[str]:
    rest = [(folder, top)]
    while rest:
        path, node = rest.pop()
        yield path
        rest += [(os.path.join(path, below.name), below) for below in reversed(node.below)]


def _is_screen(out: IO[str]) -> bool:
    """Whether it is a terminal that colours letters and moves its cursor."""
    return out.isatty() and os.environ.get("TERM") != "dumb"


def uses_colour(out: IO[str]) -> bool:
    return _is_screen(out) and not os.environ.get("NO_COLOR")


def watch(folder: str, seconds: float, out: TextIO) -> None:
    """Draws again whenever the text changes, until the directory is gone."""
    following, last = Watch(folder), None
    try:
        while os.path.exists(os.path.join(folder, "cgroup.procs")):
            node = of_directory(folder)
            # what changed before an event file was opened is not announced by it
            while following.follow(node):
                node = of_directory(folder)
            text = drawn_for(node, out)
            if text != last:
                out.write(("\x1b[H\x1b[2J" if _is_screen(out) else "" if last is None else "\n") + text)
                out.flush()
                last = text
            start = time.monotonic()
            following.wait(seconds)
            time.sleep(max(0.0, min(0.02, seconds - (time.monotonic() - start))))  # changes that come together are one
    finally:
        following.close()


def _words(words: List[str]) -> Optional[Tuple[str, Optional[float]]]:
    """The directory, and the seconds of --watch; None on a bad command line."""
    folders, seconds, rest = [], None, list(words)
    while rest:
        word = rest.pop(0)
        if word == "--watch":
            seconds = 0.5
            if rest and _SECONDS.fullmatch(rest[0]):
                seconds = float(rest.pop(0))
        elif word == "--":
            folders += rest
            rest = []
        elif word.startswith("-"):
            return None
        else:
            folders.append(word)
    return (folders[0], seconds) if len(folders) == 1 and seconds != 0 else None


@of_words("makhloeum tree", __doc__, _words)
def main(wanted: Tuple[str, Optional[float]]) -> int:
    folder, seconds = wanted
    try:
        os.stat(folder)  # an empty path is that of no directory
        os.close(os.open(os.path.join(folder, "cgroup.procs"), os.O_RDONLY))
    except OSError as failure:
        why = (
            "it has no cgroup.procs"
            if os.path.isdir(folder) and not os.path.exists(failure.filename)
            else failure.strerror
        )
        print(f"makhloeum tree: {printable(folder)} is not a cgroup2 directory: {why}", file=sys.stderr)
        return 2
    # a name may have letters that the output's encoding lacks
    if isinstance(sys.stdout, io.TextIOWrapper):
        sys.stdout.reconfigure(errors="backslashreplace")
    try:
        if seconds is None:
            sys.stdout.write(drawn_for(of_directory(folder), sys.stdout))
            sys.stdout.flush()
        else:
            watch(folder, seconds, sys.stdout)
    except KeyboardInterrupt:
        return 0
    except OSError as failure:
        print(f"makhloeum tree: {failure}", file=sys.stderr)
        return 1
    return 0
