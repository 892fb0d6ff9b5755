"""Reads the recordings of Linux: traces, and what a kernel answered to each command (evidence/README.md describes the files).

The module imports nothing of the package, since evidence/compare runs before the library is built.
"""

from __future__ import annotations

import os
import re
from typing import NamedTuple, Optional

_HEAD = re.compile(rb"# Linux [0-9.]+, [\w-]+: ([0-9]+) traces, ([0-9]+) commands\. .+")
_NAME = re.compile(rb"== ([\w.-]+)")
_COMMAND = re.compile(rb"[ \t\r]*[^# \t\r]")


class Recording(NamedTuple):
    """A trace, the kernel's answers to it, and the trace with undos that ends in the same state, if there is one."""

    name: str
    trace: bytes
    answers: bytes
    undo: Optional[bytes]


class Malformed(ValueError):
    """A file is not in the form of recordings. The text has the file and the line."""


def of_set(folder: str, kind: str) -> list[Recording]:
    """The recordings of a set by one kernel: those of KIND.recorded, or of all KIND-PART.recorded."""
    files = sorted(file for file in os.listdir(folder) if re.fullmatch(rf"{kind}(-\w+)?\.recorded", file))
    if not files:
        raise FileNotFoundError(f"{folder} has no recordings of the set {kind}")
    return [recording for file in files for recording in read(os.path.join(folder, file))]


def read(path: str) -> list[Recording]:
    """The recordings of a file."""
    with open(path, "rb") as it:
        *lines, rest = it.read().split(b"\n")
    number, blocks = 1, _Blocks()
    try:
        head = _HEAD.fullmatch(lines[0] if lines else rest)
        if not head:
            raise ValueError(
                "the head does not say which kernel and set the file is of, and how many traces and commands"
            )
        for number, line in enumerate(lines, 1):
            blocks.take(line)
        blocks.end()
        if rest:
            number += 1
            raise ValueError("the line has no line feed")
        if (int(head[1]), int(head[2])) != (len(blocks.found), blocks.commands):
            number = 1
            raise ValueError(f"the file has {len(blocks.found)} traces and {blocks.commands} commands")
    except ValueError as fault:
        raise Malformed(f"{path}:{number}: {fault}") from None
    return blocks.found


def escaped(line: bytes) -> bytes:
    """A line of a trace or of an answer as a file shows it."""
    return re.sub(rb"[^ -~]|\\| \Z", lambda byte: b"\\x%02x" % ord(byte[0]), line)


def _plain(shown: bytes) -> bytes:
    line = re.sub(rb"\\x([0-9a-f]{2})", lambda byte: bytes.fromhex(byte[1].decode()), shown)
    # Each line has only one form, so no two files have the same recordings.
    if escaped(line) != shown or b"\n" in line:
        raise ValueError("a byte is not written as it must be")
    return line


class _Blocks:
    """The recordings of the lines taken so far."""

    def __init__(self) -> None:
        self.found: list[Recording] = []
        self.commands = 0
        self._block: Optional[_Block] = None

    def take(self, line: bytes) -> None:
        name = _NAME.fullmatch(line)
        if not line:
            self.end()
        elif name and not self._block:
            if any(name[1].decode() == recording.name for recording in self.found):
                raise ValueError("there are two traces of this name")
            self._block = _Block(name[1].decode())
        elif self._block:
            self._block.take(line)
        elif not line.startswith(b"#") or self.found:
            raise ValueError("the line belongs to no trace")

    def end(self) -> None:
        """An empty line or the end of the file: a block ends, if there is one."""
        if self._block:
            self.found.append(self._block.recording())
            self.commands += self._block.commands
            self._block = None


class _Block:
    """The lines of one recording taken so far. Each text is a list of lines; `_last` is the text of the last line."""

    def __init__(self, name: str) -> None:
        self._name = name
        self._trace: list[bytes] = []
        self._answers: list[bytes] = []
        self._undo: Optional[list[bytes]] = None
        self._last: list[bytes] = []
        self.commands = self._answered = 0

    def take(self, line: bytes) -> None:
        mark, shown = line[:2], line[2:]
        if mark == b"> " and shown or line == b">":
            self._of_trace(_plain(shown))
        elif mark == b"< " and shown or line == b"<":
            self._of_answer(_plain(shown))
        elif line == b"-- undo" and self._undo is None:
            self._must_be_answered()
            self._undo = []
        elif line == b"\\ no line feed":
            self._end_without_line_feed()
        else:
            raise ValueError("the line has no mark that is known here")

    def recording(self) -> Recording:
        self._must_be_answered()
        undo = None if self._undo is None else b"".join(self._undo)
        return Recording(self._name, b"".join(self._trace), b"".join(self._answers), undo)

    def _of_trace(self, line: bytes) -> None:
        self._must_be_answered()
        if self._undo is not None:
            self._add(self._undo, line)
            return
        self._add(self._trace, line)
        if _COMMAND.match(line):
            self.commands += 1

    def _of_answer(self, line: bytes) -> None:
        """The first line of an answer has the number of its command; the others follow at once."""
        if self._answered < self.commands:
            if not line.startswith(b"%d " % self.commands):
                raise ValueError(f"the answer is not that of command {self.commands}")
            self._answered = self.commands
        elif self._last is not self._answers or not line.startswith(b"| "):
            raise ValueError("there is no command above the answer")
        self._add(self._answers, line)

    def _add(self, text: list[bytes], line: bytes) -> None:
        if text and not text[-1].endswith(b"\n"):
            raise ValueError("a line is below the last one, which has no line feed")
        text.append(line + b"\n")
        self._last = text

    def _end_without_line_feed(self) -> None:
        last = self._last[-1] if self._last else b""
        if len(last) < 2 or not last.endswith(b"\n"):
            raise ValueError("there is no line above whose line feed can be missing")
        self._last[-1] = last[:-1]

    def _must_be_answered(self) -> None:
        if self._answered < self.commands:
            raise ValueError(f"there is no answer to command {self.commands}")
