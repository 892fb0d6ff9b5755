"""makhloeum view TRACE [-o PAGE.html]

Makes one page of a run: its commands with their answers, the tree of groups after each of them, and plots. Open it in a
browser; it loads nothing. TRACE is what `makhloeum run` or `mount` kept with --trace, or any other trace; `-` is standard
input. The page is TRACE.html unless -o names another; `-o -` is standard output.
"""

from __future__ import annotations

import os
import stat
import sys
from typing import List, Optional, Tuple

from ..hierarchy import Hierarchy
from .command_line import of_words
from .history import History, shown
from .page import page
from .tree import printable


def _words(words: List[str]) -> Optional[Tuple[str, str]]:
    """The trace and the page, or None on a bad command line."""
    traces, to = [], None
    rest = list(words)
    while rest:
        word = rest.pop(0)
        if word == "-o" and rest and to is None:
            to = rest.pop(0)
        elif word.startswith("-o") and len(word) > 2 and to is None:
            to = word[2:]
        elif word == "--":
            traces += rest
            rest = []
        elif word.startswith("-") and word != "-":
            return None
        else:
            traces.append(word)
    if len(traces) != 1:
        return None
    if to is None:
        to = "-" if traces[0] == "-" else traces[0] + ".html"
    return traces[0], to


def _read(trace: str) -> bytes:
    if trace == "-":
        return sys.stdin.buffer.read()
    with open(trace, "rb") as file:
        return file.read()


def _write(to: str, text: str) -> None:
    if to == "-":
        sys.stdout.buffer.write(text.encode())
        sys.stdout.buffer.flush()
        return
    with open(to, "w", encoding="utf-8", newline="\n") as file:
        file.write(text)


def _say(sentence: str) -> None:
    print(f"makhloeum view: {printable(sentence)}", file=sys.stderr)


def _is_same(trace: str, to: str) -> bool:
    """Whether the page would replace the trace, or be written behind it."""
    try:
        read = os.fstat(sys.stdin.fileno()) if trace == "-" else os.stat(trace)
        written = os.fstat(sys.stdout.fileno()) if to == "-" else os.stat(to)
    except OSError:
        return False
    return stat.S_ISREG(read.st_mode) and os.path.samestat(read, written)


@of_words("makhloeum view", __doc__, _words)
def main(wanted: Tuple[str, str]) -> int:
    trace, to = wanted
    at = "standard input" if trace == "-" else trace
    try:
        with Hierarchy() as h:
            history = History(h)
            history.read(_read(trace))
        if history.lines and all(history.answers[answer] == "refused syntax" for answer in history.answer):
            _say(f"no line of {at} is a command")
            return 1
        if _is_same(trace, to):
            _say(f"the page would replace the trace {'on ' if trace == '-' else ''}{at}")
            return 2
        name = "standard input" if trace == "-" else shown(os.fsencode(os.path.basename(trace)))
        at = to
        _write(to, page(history, name))
    except OSError as failure:  # of a write it names no file
        _say(f"{at}: {failure.strerror}")
        return 1
    except MemoryError:
        _say("out of memory")
        return 1
    if to != "-":
        print(f"{printable(to)}: {len(history.lines)} commands, {history.refused} refused")
    return 0
