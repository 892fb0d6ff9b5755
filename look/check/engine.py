"""The engine's side of a check: what it answers to a command, and what it says of the state."""

from __future__ import annotations

import errno
import itertools
from typing import List, NamedTuple, Optional

from .. import _table
from ..errors import Refused
from ..hierarchy import Hierarchy
from .known import LIMITS, Followed, kernel_number

FILES = tuple(file.name for file in _table.FILES if file.readable)
ON_ROOT = tuple(file.name for file in _table.FILES if file.readable and file.on_root)
MOST_PROCESSES = 48
DEEPEST, LONGEST = 24, 3000  # names and bytes of a path: the directory's own path has some before it
EVENTS = "cgroup.events"
Words = List[str]


class Answer(NamedTuple):
    """What one side answers: "ok" or an errno, the text that it shows, and for the engine the words of a refusal."""

    error: str
    text: str = ""
    reply: str = ""

    def __str__(self) -> str:
        shown = self.text if self.error == "ok" else ""
        return f"{self.error}{f' ({self.reply})' if self.reply else ''}{f' {shown!r}' if shown else ''}"


def listing(groups: List[str], files: List[str]) -> str:
    """A line of groups and a line of files."""
    return " ".join(sorted(groups)) + "\n" + " ".join(sorted(files)) + "\n"


def _parent(path: str) -> str:
    return path.rpartition("/")[0] or "/"


class Engine:
    """An engine with process 1 in its root, in which every command of a sequence is answered first."""

    def __init__(self, way: str, missing: list[str], has_where: bool) -> None:
        self.h = Hierarchy()
        self._way, self._missing, self._has_where = way, missing, has_where
        self._followed = Followed()
        self.changes: dict[str, int] = {}  # of each watched group since it was last asked for
        self._populated: dict[str, str] = {}
        self._late: dict[
            str, int
        ] = {}  # how many notifications may still come, since several changes may have one or more

    def close(self) -> None:
        self.h.close()

    # ---- the state

    def alive(self, at: str = "/") -> list[int]:
        """The processes in the group and below it."""
        return sorted(pid for group in self.h.groups(at) for pid in self.h.processes(group))

    def new_pid(self) -> str:
        """The smallest number that no process has."""
        alive = set(self.alive())
        return str(next(pid for pid in itertools.count(2) if pid not in alive))

    def group_of(self, pid: int) -> Optional[str]:
        try:
            return self.h.where(pid)[3:-1]
        except Refused:
            return None

    def is_group(self, path: str) -> bool:
        try:
            return self.h.has_group(path)
        except Refused:
            return False

    def dying(self, words: Words) -> list[int]:
        """The processes that a kill ends, also a kill whose value only a kernel accepts."""
        if (
            words[0] != "write"
            or words[2] != "cgroup.kill"
            or kernel_number(words[3]) != 1
            or not self.is_group(words[1])
        ):
            return []
        return self.alive(words[1])

    def peak_by_way(self, path: str) -> dict[tuple[bool, bool], int]:
        return self._followed.peak_by_way(path)

    def events_before_6_11(self, path: str) -> str:
        """The text of `pids.events` of a kernel before Linux 6.11."""
        return f"max {self._followed.events.own[path]}\n"

    # ---- which commands a directory can do

    def can_do(self, words: Words) -> bool:
        """Whether the directory can do the command: it is not about the root only, and its processes are real ones."""
        kind = words[0]
        if kind in ("undo", "#"):
            return False
        if kind == "list":
            return True
        if kind == "where":
            return self._has_where and self.group_of(int(words[1])) is not None
        if kind in ("fork", "exit"):
            return self._can_live(words)
        path = words[1]
        if kind in ("watch", "told"):
            return path != "/" and self.is_group(path) and (kind == "told") == (path in self.changes)
        if kind in ("mkdir", "rmdir"):
            return path != "/" and path.count("/") <= DEEPEST and len(path) <= LONGEST and self._keeps_to_leaves(words)
        return self._can_use(words) and self._keeps_to_leaves(words)

    def _can_live(self, words: Words) -> bool:
        pids = [int(word) for word in words[1:] if word.isdecimal()]
        if len(pids) < len(words) - 1 or self.group_of(pids[0]) is None:
            return False
        return words[0] == "exit" or (
            self.group_of(pids[1]) is None and pids[1] > 1 and len(self.alive()) < MOST_PROCESSES
        )

    def _can_use(self, words: Words) -> bool:
        path, name = words[1:3]
        if (path == "/" and name not in ON_ROOT) or name in self._missing:
            return False
        if name.startswith("pids.") and self._way == "N":
            return False
        if name == "cgroup.kill" and self._way == "T":
            # played by signals, so the group's own file answers nothing
            return words[0] == "write" and words[3] == "1" and self.is_group(path)
        # the writer itself, and numbers that mean another process to a kernel
        return (
            name != "cgroup.procs"
            or words[0] in ("cat", "reread")
            or words[3].isdecimal()
            and words[3][0] != "0"
            or kernel_number(words[3]) is None
        )

    def _keeps_to_leaves(self, words: Words) -> bool:
        if self._way != "D":
            return True
        if words[0] == "mkdir":
            parent = _parent(words[1])
            return parent == "/" or not self.is_group(parent) or not self.h.processes(parent)
        is_move = words[0] == "write" and words[2] == "cgroup.procs" and words[1] != "/"
        return not is_move or not self.is_group(words[1]) or not self.h.children(words[1])

    # ---- commands

    def request(self, words: Words) -> list[object]:
        """The command as the worker takes it, before the engine answers it."""
        kind = words[0]
        if kind == "fork":
            return ["fork", int(words[1]), int(words[2]), self.group_of(int(words[1]))]
        if kind == "exit":
            return ["exit", int(words[1]), self.group_of(int(words[1]))]
        if kind == "where":
            return ["where", int(words[1])]
        return [*words, self.dying(words)] if kind == "write" else [*words]

    def play(self, words: Words) -> Answer:
        """The answer, with what the worker shows of a change: the processes of a group, or those that are alive."""
        if words[0] == "watch":
            self._populated[words[1]], self.changes[words[1]] = self.h.read(words[1], EVENTS), 0
            return Answer("ok")
        if words[0] == "told":
            return self._told(words[1])
        if words[0] == "list":
            return self._list(words[1])
        if words[0] == "reread":
            words = ["cat", *words[1:]]
        group = self.group_of(int(words[1])) if words[0] in ("fork", "exit") else None
        line = " ".join(words)
        try:
            text = self.h.line(line.encode("latin1"))
        except Refused as no:
            answer = Answer(errno.errorcode[no.number], "", no.reply)
        else:
            answer = Answer("ok", text)
        said = "ok" if answer.error == "ok" else f"refused {answer.reply}"
        self._followed.play(words, said)
        self._note(words, answer)
        if answer.error == "ok" and group is not None:
            return Answer("ok", self.h.read(group, "cgroup.procs"))
        if answer.error == "ok" and words[0] == "write" and words[2] == "cgroup.kill":
            return Answer("ok", "alive: " + " ".join(map(str, self.alive())))
        return answer

    def _told(self, path: str) -> Answer:
        changes, self.changes[path] = self.changes[path], 0
        self._late[path] = self._late.get(path, 0) + max(0, changes - 1)
        several = "several changes" if self._late[path] else ""
        return Answer("ok", "poll inotify" if changes else "nothing", several)

    def _list(self, path: str) -> Answer:
        """The groups in a group, and its files."""
        try:
            children = self.h.children(path)
        except Refused as no:
            return Answer(errno.errorcode[no.number], "", no.reply)
        # the root of the engine is no root in the directory, so it has each file
        is_without = self._way == "N" and path != "/"
        files = [name for name in (*FILES, "cgroup.kill") if name not in self._missing]
        return Answer(
            "ok", listing(children, [name for name in files if not is_without or not name.startswith("pids.")])
        )

    def came_late(self, path: str) -> None:
        """A notification of several changes that came after the others."""
        self._late[path] -= 1

    def _note(self, words: Words, answer: Answer) -> None:
        """Counts the changes of watched groups."""
        if answer.error != "ok" or words[0] in ("cat", "where", "mkdir"):
            return
        if words[0] == "rmdir":
            self.changes.pop(words[1], None)
            self._populated.pop(words[1], None)
            self._late.pop(words[1], None)
        for path, before in self._populated.items():
            now = self.h.read(path, EVENTS)
            self.changes[path] += now != before
            self._populated[path] = now

    def taken(self, words: Words) -> Optional[Words]:
        """The command with the value as the kernel reads it, for one that the engine refused because of its value."""
        number = kernel_number(words[3]) if words[0] == "write" else None
        return None if number is None else [*words[:3], str(number)]

    def dump(self) -> list[Words]:
        """Reads of every file of every group."""
        groups = self.h.groups()
        reads = [["cat", group, name] for group in groups for name in (ON_ROOT if group == "/" else FILES)]
        return reads + [["list", group] for group in groups]


__all__ = ["Answer", "Engine", "FILES", "LIMITS", "ON_ROOT", "Words"]
