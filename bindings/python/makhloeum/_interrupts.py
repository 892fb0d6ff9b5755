"""Ctrl-C in the commands of this package, which ends them without a traceback.

The package loads this module before all others, so it loads few itself: until then Ctrl-C is a traceback."""

from __future__ import annotations

import os
import signal
import sys

TYPE_CHECKING = False  # that of typing would load typing
if TYPE_CHECKING:
    from typing import Callable


_PROGRAMS = ("makhloeum-view", "makhloeum-tree", "makhloeum-check")  # of a wheel


def _is_started_by_name() -> bool:
    """Whether Python loads this package for `python3 -m makhloeum`, a module below it, or a program of a wheel."""
    if os.path.basename("".join(sys.argv[:1])) in _PROGRAMS:
        return True
    words = getattr(sys, "orig_argv", [])
    return sys.argv[:1] == ["-m"] and "-m" in words[:-1] and words[words.index("-m") + 1].split(".")[0] == "makhloeum"


def end_at_once() -> None:
    """From now on Ctrl-C ends the process, unless it is ignored: while modules are loaded there is nothing to clean up."""
    if signal.getsignal(signal.SIGINT) is signal.default_int_handler:
        signal.signal(signal.SIGINT, signal.SIG_DFL)


def ended_by_interrupt(main: Callable[[list[str]], int], words: list[str]) -> int:
    """The status of `main`. After Ctrl-C the process ends by the signal, as programs do that have no handler."""
    if signal.getsignal(signal.SIGINT) == signal.SIG_DFL:
        signal.signal(signal.SIGINT, signal.default_int_handler)
    try:
        return main(words)
    except KeyboardInterrupt:
        signal.signal(signal.SIGINT, signal.SIG_DFL)
        os.kill(os.getpid(), signal.SIGINT)
        return 128 + signal.SIGINT


if _is_started_by_name():
    end_at_once()
