"""The sequences that are played: the worked ones of evidence/linux-6.12, and random ones."""

from __future__ import annotations

import os
import random
import re
from typing import Iterator, Optional

from .._table import GROUPS_LIMIT_MAX, PIDS_LIMIT_MAX
from . import recordings
from .engine import Engine, FILES, LIMITS, Words
from .refusals import DEEPEST, NAMES, chosen, leading_to

HERE = os.path.dirname(os.path.abspath(__file__))
# beside this module if it is installed, else in the repository
_PLACES = (os.path.join(HERE, "worked"), os.path.normpath(os.path.join(HERE, "../../evidence/linux-6.12")))
_SETS = ("rows", "text")
GROUPS_AT_MOST = 12
COMMANDS = 40


def worked(ways: list[str]) -> Iterator[tuple[str, str, list[Words]]]:
    """Each worked sequence that the directory has a way for: its name, its way and its commands, none of them twice."""
    seen = set()
    folder = next((place for place in _PLACES if os.path.isdir(place)), None)
    for kind in _SETS if folder else ():
        for recording in recordings.of_set(folder or "", kind):
            way, commands = _read(recording.trace)
            way = "free" if ways == ["free"] else way
            key = (way, *(tuple(words) for words in commands))
            if way in ways and key not in seen:
                seen.add(key)
                yield f"{kind}/{recording.name}", way, commands


def _read(trace: bytes) -> tuple[str, list[Words]]:
    lines = [re.findall(r"[^ \t\r]+", line) for line in trace.decode("latin1").split("\n")]
    mode = lines[0][2] if lines[0][:2] == ["#", "mode"] else "D"
    return mode, [words for words in lines if words and not words[0].startswith("#")]


class Random:
    """A random sequence, aimed at the state and at a refusal by each limit: call it for the next command. At its end every file of
    every group is read."""

    def __init__(self, seed: int, number: int) -> None:
        self._choice = random.Random(f"{seed} {number}")
        self._left = self._choice.randint(COMMANDS // 4, COMMANDS)
        refusals = chosen(seed, number)
        # in the first half, the fork first: after kills there may be no process
        moments = self._choice.sample(range(self._left // 2, self._left), len(refusals))
        self._refusals = dict(zip(sorted(moments, reverse=True), refusals))
        self._waiting: Iterator[Words] = iter(())
        self._is_dumped = False

    def __call__(self, engine: Engine) -> Optional[Words]:
        waiting = next(self._waiting, None)
        if waiting or self._is_dumped:
            return waiting
        if self._left == 0:
            self._is_dumped = True
            self._waiting = iter(engine.dump() + [["told", group] for group in engine.changes])
            return next(self._waiting)
        self._left -= 1
        if self._left in self._refusals:
            self._waiting = leading_to(self._refusals[self._left], engine, self._choice)
        return next(self._waiting, None) or self._command(engine)

    def _command(self, engine: Engine) -> Words:
        kinds = {
            "mkdir": 9,
            "rmdir": 5,
            "fork": 12,
            "exit": 5,
            "move": 13,
            "pids": 8,
            "bound": 4,
            "kill": 4,
            "cat": 16,
            "reread": 8,
            "list": 4,
            "told": 6,
        }
        kinds.update({"where": 1, "wrong": 2})
        kind = self._choice.choices(list(kinds), list(kinds.values()))[0]
        command: Words = getattr(self, "_" + kind)(engine)
        return command

    # ---- what a command is about

    def _group(self, engine: Engine, beside_root: bool = False) -> str:
        groups = engine.h.groups()
        if beside_root and len(groups) > 1:
            groups = groups[1:]
        return self._choice.choice(groups) if self._choice.random() < 0.97 else "/nope"

    def _process(self, engine: Engine) -> str:
        """Seldom process 1, so that the others are where limits are."""
        alive = engine.alive()
        return str(self._choice.choice(alive[1:] if len(alive) > 1 and self._choice.random() < 0.9 else alive or [1]))

    # ---- commands

    def _mkdir(self, engine: Engine) -> Words:
        groups = [group for group in engine.h.groups() if group.count("/") < DEEPEST or group == "/"]
        parent = self._choice.choice(groups) if len(groups) <= GROUPS_AT_MOST else "/a"
        return ["mkdir", ("" if parent == "/" else parent) + "/" + self._choice.choice(NAMES)]

    def _rmdir(self, engine: Engine) -> Words:
        return ["rmdir", self._group(engine, beside_root=True)]

    def _fork(self, engine: Engine) -> Words:
        child, parent = engine.new_pid(), self._process(engine)
        if self._choice.random() < 0.3:
            # a child of process 1 that is moved at once, as a container's is
            self._waiting = iter([["write", self._group(engine, beside_root=True), "cgroup.procs", child]])
            parent = "1"
        return ["fork", parent, child]

    def _exit(self, engine: Engine) -> Words:
        pid = self._process(engine)
        return ["exit", pid] if pid != "1" else self._cat(engine)

    def _move(self, engine: Engine) -> Words:
        pid = self._process(engine) if self._choice.random() < 0.97 else "4000000"
        return ["write", self._group(engine), "cgroup.procs", pid]

    def _pids(self, engine: Engine) -> Words:
        group = self._group(engine, beside_root=True)
        near = engine.h.current(group) if group not in ("/", "/nope") else 0
        value = self._choice.choice([near, near, near + 1, max(near - 1, 0), 0, 5, "max", "max", PIDS_LIMIT_MAX])
        return ["write", group, "pids.max", str(value)]

    def _bound(self, engine: Engine) -> Words:
        file = self._choice.choice(LIMITS[1:])
        return ["write", self._group(engine), file, str(self._choice.choice([0, 1, 2, 3, "max", "max"]))]

    def _kill(self, engine: Engine) -> Words:
        """Of a group that has processes below it, if there is one."""
        self._waiting = iter([["cat", group, "pids.current"] for group in engine.h.groups()[1:]])
        full = [group for group in engine.h.groups()[1:] if len(engine.alive(group)) > len(engine.h.processes(group))]
        group = (
            self._choice.choice(full) if full and self._choice.random() < 0.7 else self._group(engine, beside_root=True)
        )
        return ["write", group, "cgroup.kill", "1"]

    def _cat(self, engine: Engine) -> Words:
        return ["cat", self._group(engine, beside_root=True), self._choice.choice(FILES)]

    def _reread(self, engine: Engine) -> Words:
        """Of few files, so that one is often read again after it changed; not of cgroup.events, which notifies if it is open."""
        files = ("cgroup.procs", "cgroup.stat", "pids.current", "pids.max")
        return ["reread", self._group(engine, beside_root=True), self._choice.choice(files)]

    def _list(self, engine: Engine) -> Words:
        return ["list", self._group(engine)]

    def _told(self, engine: Engine) -> Words:
        if engine.changes and self._choice.random() < 0.6:
            return ["told", self._choice.choice(list(engine.changes))]
        return ["watch", self._group(engine, beside_root=True)]

    def _where(self, engine: Engine) -> Words:
        return ["where", self._process(engine)]

    def _wrong(self, engine: Engine) -> Words:
        group = self._group(engine, beside_root=True)
        return self._choice.choice(
            [
                ["write", group, "pids.max", self._choice.choice(["x", "-1", f"{PIDS_LIMIT_MAX + 1}", "9" * 20])],
                ["write", group, "cgroup.max.depth", self._choice.choice(["x", "-1", f"{GROUPS_LIMIT_MAX + 1}"])],
                ["write", group, "cgroup.kill", self._choice.choice(["0", "2", "x"])],
                ["write", group, "cgroup.procs", "x"],
                ["write", group, "pids.current", "1"],
                ["cat", group, "cgroup.kill"],
                ["cat", group, "no.such"],
            ]
        )
