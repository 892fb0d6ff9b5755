"""Makes a sequence short that shows a difference: halves are removed, then single commands, then it is made plainer."""

from __future__ import annotations

import time
from typing import Callable, Iterator, List, Optional

from .engine import Words
from .playing import Difference

Try = Callable[[List[Words]], Optional[Difference]]


def shorten(found: Difference, retry: Try, seconds: float) -> Difference:
    """The shortest difference that is found in these seconds. `retry` plays commands anew. It is `found` itself if that does
    not show again."""
    end = time.monotonic() + seconds
    best = found

    def still(commands: list[Words]) -> bool:
        nonlocal best
        again = retry(commands) if time.monotonic() < end else None
        if again is None or again.hangs != found.hangs:
            return False
        best = again
        return True

    changed = still(found.played)
    while changed and time.monotonic() < end:
        length = len(best.played)
        _remove(best.played, still)
        _plainer(lambda: best.played, still)
        changed = len(best.played) < length
    return best


def _remove(commands: list[Words], still: Callable[[list[Words]], bool]) -> None:
    """Halves first, then smaller parts, single commands last."""
    size = max(1, len(commands) // 2)
    while True:
        at, removed = 0, False
        while at < len(commands):
            fewer = commands[:at] + commands[at + size :]
            if fewer and still(fewer):
                commands, removed = fewer, True
            else:
                at += size
        if size == 1 and not removed:
            return
        size = max(1, size // 2)


def _plainer(current: Callable[[], list[Words]], still: Callable[[list[Words]], bool]) -> None:
    """Forks by process 1, and groups that lie higher: each such change that still shows the difference is kept."""
    tried: set[str] = set()
    changed = True
    while changed:
        changed = False
        for plainer in _changes(current()):
            key = repr(plainer)
            if key not in tried:
                tried.add(key)
                if still(plainer):
                    changed = True
                    break


def _changes(commands: list[Words]) -> Iterator[list[Words]]:
    for at, words in enumerate(commands):
        if words[0] == "fork" and words[1] != "1":
            yield [*commands[:at], ["fork", "1", words[2]], *commands[at + 1 :]]
    for path in {words[1] for words in commands if words[1].count("/") > 1}:
        parent, name = path.rsplit("/", 1)
        upper = parent.rsplit("/", 1)[0] + "/" + name
        if not any(_is_at(words[1], upper) for words in commands):
            yield [
                [words[0], upper + words[1][len(path) :], *words[2:]] if _is_at(words[1], path) else words
                for words in commands
            ]


def _is_at(path: str, top: str) -> bool:
    return path == top or path.startswith(top + "/")
