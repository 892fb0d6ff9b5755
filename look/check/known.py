"""The known differences between a kernel's answers and this project's, in one list (docs/DECISIONS.md, "What differs from
the kernel").

evidence/compare names these differences in recorded answers, `makhloeum check` in those of a directory. The module imports
nothing of the package, since evidence/compare runs before the library is built.
"""

from __future__ import annotations

import collections
import os
import re
from typing import Iterator, Optional

LESS = "the kernel says less"
REFUSED_RAISES = "a refused fork raises the kernel's peaks below its limit"
MOVE_RAISES = "a move raises the kernel's peaks of common ancestors"
BOTH_RAISE = "a refused fork and a move raise the kernel's peaks"
DYING = "removed groups vanish at once"
TAKES_MORE = "the kernel takes more names and values"
FILE_NAMES = "names of files are taken there"
FOLLOWING = "follows from a line that the kernel took"
GROUP_FIRST = "the kernel looks for the group first"
MOST_GROUPS = "the program has a greatest number of groups"
# These are of no recording, which has words instead of errnos and leaves out what only one kernel has.
OTHER_ERRNO = "the kernel has another errno for a number outside the range"
AT_THE_OPEN = "the kernel refuses at the open"
LONG_NAMES = "the kernel has its own bounds of names"
MORE_KEYS = "the kernel's cgroup.stat has more keys"
OLD_EVENTS = "before Linux 6.11 a refused fork is counted at the group of the process"
OLD_LOCAL = "before Linux 6.11 there is no pids.events.local"
OLD_WHICH = "before Linux 6.11 the kernel doesn't say which group refuses a fork"
NOT_STOPPED = "a file system of FUSE counts a refused fork and cannot stop it"

# The kernel's answers with one errno for several words here.
SAID_WITH_LESS = {
    "refused limit": ("refused descendants", "refused depth"),
    "refused busy": ("refused haschildren", "refused hasprocesses"),
}
# The limits: a write that only the kernel accepted affects only their own text.
LIMITS = ("pids.max", "cgroup.max.descendants", "cgroup.max.depth")
# The known differences of a peak by the points that give the kernel's number, the plainest first.
PEAKS_BY = {(True, False): REFUSED_RAISES, (False, True): MOVE_RAISES, (True, True): BOTH_RAISE}
# Each way in which a peak can be raised: as the guide says first.
WAYS = ((False, False), *PEAKS_BY)


def upward(path: str) -> Iterator[str]:
    """The groups from this one up, the root left out."""
    while path not in ("", "/"):
        yield path
        path = os.path.dirname(path)


class Events:
    """What `pids.events` is. `total` follows the guide: a refused fork is counted at the group whose limit refused it and at those
    above. `own` is the count of a kernel before Linux 6.11: a refused fork is counted at the group of the process that forks,
    and nowhere else."""

    def __init__(self) -> None:
        self.total: collections.Counter[str] = collections.Counter()
        self.own: collections.Counter[str] = collections.Counter()

    def make(self, path: str) -> None:
        self.total[path] = self.own[path] = 0

    def refuse(self, home: str, path: str) -> None:
        self.own[home] += 1
        self.total.update(upward(path))


class Peaks:
    """What `pids.peak` is: as the guide says, and with either or both of the two points in which the kernel differs. A refused
    fork raises the peaks below the group whose limit refused it, since the kernel has counted the child there; a move raises
    the peaks of the groups that both places lie in, since the kernel counts the process in the new place before it leaves
    the old one."""

    def __init__(self, refused: bool, moved: bool) -> None:
        self.refused, self.moved = refused, moved
        self.count: collections.Counter[str] = collections.Counter()
        self.peak: collections.Counter[str] = collections.Counter()

    def make(self, path: str) -> None:
        self.count[path] = self.peak[path] = 0

    def add(self, path: str, n: int) -> None:
        for group in upward(path):
            self.count[group] += n
            self.peak[group] = max(self.peak[group], self.count[group])

    def move(self, old: str, path: str) -> None:
        for place, n in ((path, 1), (old, -1)) if self.moved else ((old, -1), (path, 1)):
            self.add(place, n)

    def refuse(self, home: str, path: str) -> None:
        for group in upward(home) if self.refused else ():
            if group == path:
                return
            self.peak[group] = max(self.peak[group], self.count[group] + 1)


class Followed:
    """Where each process is after the lines that a kernel took, and what `pids.events` and `pids.peak` then are."""

    def __init__(self) -> None:
        self.home = {"1": "/"}
        self.events = Events()
        self.peaks = {way: Peaks(*way) for way in WAYS}
        self._all: list[Events | Peaks] = [self.events, *self.peaks.values()]

    def peak_by_way(self, path: str) -> dict[tuple[bool, bool], int]:
        return {way: peaks.peak[path] for way, peaks in self.peaks.items()}

    def play(self, words: list[str], reply: str) -> None:
        said = reply.split(" ")
        if said[:2] == ["refused", "pidsmax"]:
            for counts in self._all:
                counts.refuse(self.home[words[1]], said[2])
        elif said != ["ok"]:
            return
        elif words[0] == "mkdir":
            for counts in self._all:
                counts.make(words[1])
        elif words[0] == "fork":
            self.home[words[2]] = self.home[words[1]]
            self._add(self.home[words[1]], 1)
        elif words[0] == "exit":
            self._add(self.home.pop(words[1]), -1)
        elif words[0] == "write" and words[2] == "cgroup.procs":
            self._move(words[3], words[1])
        elif words[0] == "write" and words[2] == "cgroup.kill":
            for pid in [pid for pid, home in self.home.items() if words[1] in upward(home)]:
                self._add(self.home.pop(pid), -1)

    def _add(self, path: str, n: int) -> None:
        for peaks in self.peaks.values():
            peaks.add(path, n)

    def _move(self, pid: str, path: str) -> None:
        old = self.home.get(pid)
        if old is None or old == path:
            return
        self.home[pid] = path
        for peaks in self.peaks.values():
            peaks.move(old, path)


def peak_difference(kernel: int, ours: int, by_way: dict[tuple[bool, bool], int]) -> str | None:
    """The name of the known difference between two peaks, or None. `by_way` has the number that each way of raising gives."""
    if ours != by_way[False, False]:
        return None
    return next((name for way, name in PEAKS_BY.items() if kernel == by_way[way]), None)


_NUMBER = re.compile(r"([+-]?)(0[xX][0-9a-fA-F]+|0[0-7]*|[1-9][0-9]*)")


def kernel_number(text: str) -> Optional[int]:
    """The number as the kernel reads it: with a sign, octal or hexadecimal; None if it is not a number.

    It is not the parser of the library and the mount, so that the check shares no fault with what it checks."""
    parts = _NUMBER.fullmatch(text)
    if not parts:
        return None
    sign, digits = parts.groups()
    number = int(digits, 16 if digits[:2] in ("0x", "0X") else 8 if digits[0] == "0" else 10)
    return -number if sign == "-" else number
