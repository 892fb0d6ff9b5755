"""Waiting until a hierarchy has changed."""

from __future__ import annotations

import ctypes
import math
import numbers
import time
from typing import Any, Callable

from ._library import DONE, TIMED_OUT, waiting
from ._words import _integer, _number, _raise

# The interpreter handles signals between two waits: Ctrl-C ends a wait after at most this number of seconds.
_SLICE = 0.1


def _seconds(timeout: Any) -> float:
    if isinstance(timeout, bool) or not isinstance(timeout, numbers.Real):
        raise TypeError(f"wait: a timeout is a number of seconds or None, not {type(timeout).__name__}")
    if timeout <= 0:  # also one that no float is as far below
        return 0.0
    if math.isnan(timeout):
        raise ValueError("wait: a timeout is a number of seconds, not nan")
    return float(timeout)


class Changes:
    """The part of a Hierarchy that counts changes and waits for them."""

    _at: Any
    _count: Callable[..., int]

    def changes(self) -> int:
        """How many calls have changed the hierarchy, undos included."""
        return self._count("changes", ctypes.c_uint64())

    def wait(self, seen: int, timeout: float | None = None) -> int:
        """Waits until changes() is another number than `seen`, and returns it. Other threads can make calls meanwhile.

        `timeout` is a number of seconds, None for no end. Raises TimeoutError after that time, OverflowError if no float is as large,
        ValueError when the hierarchy is closed, and the exception of a signal's handler, as KeyboardInterrupt, within a tenth of a
        second."""
        seen = _integer(seen, "a number of changes")
        if not 0 <= seen < 1 << 64:
            raise ValueError(f"wait: {seen} is not a number of changes")
        end = None if timeout is None else time.monotonic() + _seconds(timeout)
        count = ctypes.c_uint64()
        while True:
            left = _SLICE if end is None else min(_SLICE, max(0.0, end - time.monotonic()))
            status = waiting(self._at, seen, int(left * 1000 + 0.999), ctypes.byref(count))
            if status == DONE:
                return count.value
            if status != TIMED_OUT:
                _raise(status, "wait")
            if end is not None and time.monotonic() >= end:
                raise TimeoutError(f"wait: nothing has changed in {_number(timeout)} seconds")
