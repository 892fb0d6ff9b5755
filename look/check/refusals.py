"""Refusals by a limit, made on purpose: commands at random seldom meet a limit that is far above.

A fork is refused by `pids.max`, a mkdir by `cgroup.max.descendants` or `cgroup.max.depth`, each of the group itself or of one
above it.
"""

from __future__ import annotations

import itertools
import random
from typing import Iterator, NamedTuple, Sequence

from .engine import Engine, Words
from .known import LIMITS, upward

NAMES = ("a", "b", "c")
DEEPEST = 4


class Refusal(NamedTuple):
    """By the limit in `file` of a group at the depth `top`. `below` is the number of levels from there down to the process that
    forks, or to the parent of the new group."""

    file: str
    top: int
    below: int


def _each(file: str) -> list[Refusal]:
    # the root has no pids.max, and the parent of a new group is above the deepest ones
    first, last = (1, DEEPEST) if file == "pids.max" else (0, DEEPEST - 1)
    return [Refusal(file, top, below) for top in range(first, last + 1) for below in range(last + 1 - top)]


def chosen(seed: int, number: int) -> list[Refusal]:
    """One of each limit, for the sequence with this number. Each seed has them in its own order, and ten sequences have all."""
    order = random.Random(seed)
    return [order.sample(each, len(each))[number % len(each)] for each in map(_each, LIMITS)]


def leading_to(refusal: Refusal, engine: Engine, choice: random.Random) -> Iterator[Words]:
    """The commands up to the refused one, each for the state after those before it."""
    return (_fork if refusal.file == "pids.max" else _mkdir)(refusal, engine, choice)


def _fork(refusal: Refusal, engine: Engine, choice: random.Random) -> Iterator[Words]:
    paths = _paths(engine, choice, refusal.top + refusal.below)
    path = next((it for it in paths if engine.can_do(["write", it, "cgroup.procs", "1"])), None)
    if path is None:
        return
    yield from _made(engine, path)
    if not engine.is_group(path):
        return
    if not engine.h.processes(path):
        yield ["fork", "1", engine.new_pid()]
        yield from (["write", path, "cgroup.procs", str(pid)] for pid in engine.alive()[-1:])
    processes, groups = engine.h.processes(path), list(upward(path))
    if processes:
        yield from _lifted(engine, groups[: refusal.below], [refusal.file])
        at = groups[refusal.below]
        yield ["write", at, refusal.file, str(engine.h.current(at))]
        yield ["fork", str(choice.choice(processes)), engine.new_pid()]
        yield from _maybe_lifted(at, refusal.file, choice)


def _mkdir(refusal: Refusal, engine: Engine, choice: random.Random) -> Iterator[Words]:
    parent = _paths(engine, choice, refusal.top + refusal.below)[0]
    groups = [*upward(parent), "/"]
    yield from _made(engine, parent)
    if engine.is_group(parent):
        yield from _lifted(engine, groups, LIMITS[1:])
        yield from _without_processes(engine, parent)
        at = groups[refusal.below]
        value = refusal.below if refusal.file == "cgroup.max.depth" else len(engine.h.groups(at)) - 1
        yield ["write", at, refusal.file, str(value)]
        yield ["mkdir", _new_in(parent)]
        yield from _maybe_lifted(at, refusal.file, choice)


# ---- groups


def _paths(engine: Engine, choice: random.Random, depth: int) -> list[str]:
    """The paths of this depth, first those on which most groups are there: each group is read at the end of the sequence."""
    paths = ["/" + "/".join(names) for names in itertools.product(NAMES, repeat=depth)]
    choice.shuffle(paths)
    return sorted(paths, key=lambda path: -sum(map(engine.is_group, upward(path))))


def _new_in(parent: str) -> str:
    return ("" if parent == "/" else parent) + "/new"


def _made(engine: Engine, path: str) -> Iterator[Words]:
    """Makes the group, and those above it."""
    groups = [*upward(path), "/"]
    if not engine.is_group(path):
        yield from _lifted(engine, groups, LIMITS[1:])
    for parent, group in reversed([*zip(groups[1:], groups)]):
        if not engine.is_group(group):
            yield from _without_processes(engine, parent)
            yield ["mkdir", group]


def _without_processes(engine: Engine, parent: str) -> Iterator[Words]:
    """Where only leaves may hold processes, those of a group that becomes a parent are moved to the root."""
    if not engine.can_do(["mkdir", _new_in(parent)]):
        for pid in engine.h.processes(parent):
            yield ["write", "/", "cgroup.procs", str(pid)]


def _lifted(engine: Engine, groups: list[str], files: Sequence[str]) -> Iterator[Words]:
    for group, file in itertools.product(groups, files):
        if engine.is_group(group) and engine.h.read(group, file) != "max\n":
            yield ["write", group, file, "max"]


def _maybe_lifted(group: str, file: str, choice: random.Random) -> Iterator[Words]:
    if choice.random() < 0.5:
        yield ["write", group, file, "max"]
