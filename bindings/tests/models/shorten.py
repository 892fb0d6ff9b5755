"""A sequence with a wrong result, made short: lines are dropped as long as a result stays wrong."""

from __future__ import annotations

from typing import Callable

from calls import World, playable, threads_of
from drivers import Driver, Sequence

# Threads don't meet in the same way each time.
TRIES = 5
ONLY_IN_C = "waitfile"
ENDED = "the program ended"


class Wrong:
    """The first wrong result of a sequence: at which line, what it is, and what it should be."""

    def __init__(self, line: int, got: str, wanted: str) -> None:
        self.line, self.got, self.wanted = line, got, wanted


def wrong(language: str, lines: list[str], results: list[str] | None) -> Wrong | None:
    if results is None:
        return Wrong(len(lines) - 1, ENDED, "a result of each call")
    world = World()
    for at, (line, got) in enumerate(zip(lines, results)):
        wanted = world.fault(line, got)
        if wanted is not None and not (got == "-" and language != "c" and line.split(" ")[1] == ONLY_IN_C):
            return Wrong(at, got, wanted)
    return None


def first_wrong(driver: Driver, candidates: list[Sequence]) -> tuple[Sequence, Wrong] | None:
    """Of the candidates the first that shows a wrong result."""
    while candidates:
        found = driver.play(candidates)
        for (how, lines), results in zip(candidates, found):
            it = wrong(driver.language, lines, results)
            if it is not None:
                return (how, lines[: it.line + 1]), it
        return None
    return None


def shortened(driver: Driver, sequence: Sequence, it: Wrong, has_time: Callable[[], bool]) -> tuple[Sequence, Wrong]:
    how, lines = sequence
    lines = lines[: it.line + 1]
    if how != "new":
        # what shows without threads is easier to read
        found = first_wrong(driver, [("new", lines)])
        if found is not None:
            (how, lines), it = found
    size = len(lines)
    while size >= 1:
        size = min(size, len(lines))
        candidates = [
            (how, left)
            for at in range(0, len(lines), size)
            for fewer in without(lines, at, size)
            for left in tried(playable(fewer), lines, how)
        ]
        if size == 1:
            candidates += [(how, left) for left in with_fewer_calls(lines)]
        found = first_wrong(driver, candidates) if has_time() else None
        if found is None:
            size = size // 2 if size > 1 and has_time() else 0
        else:
            (how, lines), it = found
    return (how, lines), it


def without(lines: list[str], at: int, size: int) -> list[list[str]]:
    """The lines without some. Since these may be before a mark, also with smaller marks."""
    left = lines[:at] + lines[at + size :]
    smaller_marks = [smaller(line, size) if line.split(" ")[1] == "undoto" else line for line in left]
    return [left] if smaller_marks == left else [left, smaller_marks]


def smaller(line: str, less: int) -> str:
    handle, call, mark = line.split(" ")
    return f"{handle} {call} {max(int(mark) - less, 0)}"


def tried(left: list[str], lines: list[str], how: str) -> list[list[str]]:
    """The lines that are left, as often as they are tried."""
    if not left or len(left) == len(lines):
        return []
    has_threads = how != "new" or any(" together " in line for line in left)
    return [left] * (TRIES if has_threads else 1)


def with_fewer_calls(lines: list[str]) -> list[list[str]]:
    """The lines with one call fewer in one of those with several threads."""
    found = []
    for at, line in enumerate(lines):
        handle, call, *words = line.split(" ")
        threads = threads_of(words) if call == "together" else []
        for thread, calls in enumerate(threads):
            for place in range(len(calls)):
                left = [it if n != thread else it[:place] + it[place + 1 :] for n, it in enumerate(threads)]
                text = " || ".join(" | ".join(map(" ".join, it)) for it in left if it)
                if text:
                    found += [playable([*lines[:at], f"{handle} together {text}", *lines[at + 1 :]])] * TRIES
    return found
