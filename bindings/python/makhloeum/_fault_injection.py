"""Faults, for tests of programs that use a hierarchy."""

from __future__ import annotations

import ctypes
import warnings
from typing import Callable, overload

from ._library import DONE, Info
from ._words import Path, _bytes, _c_text, _integer, _raise, _text


class Faults:
    """The part of a Hierarchy that lets calls fail."""

    _call: Callable[..., int]
    _count: Callable[..., int]

    @overload
    def fail(self, path: Path, *, error: int, nth: int = 1) -> None:
        ...

    @overload
    def fail(self, path: Path, error: int, /, nth: int = 1) -> None:
        ...

    def fail(self, path: Path, *positional: int, error: int | None = None, nth: int = 1) -> None:
        """The `nth` call from now on that names the `path` fails with the errno `error`, as `fail("/a", error=errno.EIO)` lets the
        next `read("/a", ..)` raise an OSError; it changes nothing.

        `nth` is 1 for the next call. `error` and `nth` by position, in this order, are deprecated. Raises BadPath if the text is not a
        path, and ValueError if `error` or `nth` is out of range. While there are faults, each call with a path takes time for each.
        """
        if positional:
            warnings.warn(
                "fail: give error and nth by name: fail(path, error=.., nth=..)", DeprecationWarning, stacklevel=2
            )
            if error is not None or len(positional) > 2 or (len(positional) == 2 and nth != 1):
                raise TypeError("fail: a path, one error and one nth")
            error, nth = (*positional, nth)[:2]
        error = _integer(error, "an errno")
        if not 0 < error < 1 << 31:
            raise ValueError(f"fail {_text(path)}: {error} is not an errno")
        self._plan("fail", path, nth, error)

    def vanish(self, path: Path, nth: int = 1) -> None:
        """The group at `path` vanishes just before the `nth` call from now on that names it, as if another process had killed and
        removed it with all groups below it: `vanish("/a")`, then `children("/")` lists it and `read("/a", ..)` raises NoGroup.

        `nth` is 1 for the next call. Raises BadPath if the text is not a path, and ValueError for the root or if `nth` is out of
        range."""
        if _bytes(path) == b"/":
            raise ValueError("vanish /: the root cannot be removed")
        self._plan("vanish", path, nth)

    def _plan(self, operation: str, path: Path, nth: int, *error: int) -> None:
        command, word, info = f"{operation} {_text(path)}", _c_text(path), Info()
        nth = _integer(nth, "nth")
        if not 0 < nth < 1 << 64:
            raise ValueError(f"{command}: nth is 1 for the next call, not {nth}")
        status = self._call(f"mk_{operation}", word, nth, *error, ctypes.byref(info))
        if status != DONE:
            _raise(status, command, path, info, "value")

    def clear_faults(self) -> int:
        """Drops the faults that have not occurred, and returns how many there were."""
        return self._count("clear_faults", ctypes.c_size_t())
