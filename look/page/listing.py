"""The lines of an answer that lists a group's processes, for a trace that reads a long list again and again."""

from __future__ import annotations

from typing import Collection, List, Optional, Tuple

# Of this many processes that came or went each is put in or taken out; of more, the lines are made anew.
FEW = 64
# The engine is asked for the list again once so many parts of it came or went.
PARTS = 8


class Listing:
    """`pids` is that of the group, which may change."""

    def __init__(self, pids: Collection[int]) -> None:
        self._pids = pids
        self._since: Optional[int] = None  # how many came or went since the list was the engine's; None: it never was
        self._text = bytearray()
        self._is_whole = False
        self._late: List[Tuple[int, bool]] = []  # what came (True) or went since the text was right

    def add(self, pid: int) -> None:
        self._note(pid, True)

    def remove(self, pid: int) -> None:
        self._note(pid, False)

    def is_due(self) -> bool:
        """Whether it is to be compared with the engine's: one that takes long, for a list that few processes changed."""
        return self._since is None or self._since * PARTS >= len(self._pids)

    def is_engines(self) -> None:
        """The engine has the same list."""
        self._since = 0

    def _note(self, pid: int, comes: bool) -> None:
        if self._since is not None:
            self._since += 1
        if not self._is_whole:
            return
        self._late.append((pid, comes))
        if len(self._late) > FEW:
            self._is_whole = False

    def text(self) -> bytearray:
        """The lines, ascending."""
        if self._is_whole:
            for pid, comes in self._late:
                self._change(pid, comes)
        else:
            self._text = bytearray().join(map(b"| %d\n".__mod__, sorted(self._pids)))
        self._is_whole = True
        self._late.clear()
        return self._text

    def _change(self, pid: int, comes: bool) -> None:
        at, line = self._place(pid), b"| %d\n" % pid
        if comes:
            self._text[at:at] = line
        else:
            del self._text[at : at + len(line)]

    def _place(self, pid: int) -> int:
        """Where the line of this process begins, or would."""
        low, high = 0, len(self._text)  # both are where a line begins, or the end
        while low < high:
            middle = self._text.rfind(b"\n", low, (low + high) // 2) + 1 or low
            end = self._text.index(b"\n", middle)
            if int(self._text[middle + 2 : end]) < pid:
                low = end + 1
            else:
                high = middle
        return low
