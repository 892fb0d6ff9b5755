"""Puts functions in the place of others, and takes them away again, also where somebody else does so meanwhile."""

from __future__ import annotations

import functools
import glob
import os
import threading
from typing import Any, Callable, NamedTuple

# os says in these sets which functions take a descriptor, a dir_fd and the like
_SETS = (os.supports_fd, os.supports_dir_fd, os.supports_effective_ids, os.supports_follow_symlinks)


# Errors of these have both paths, and errors of those none.
_OF_TWO_PATHS = ("rename", "replace", "link", "symlink")
_NAMELESS = (
    *("read", "write", "readv", "writev", "pread", "pwrite", "preadv", "pwritev", "lseek", "dup", "dup2", "close"),
    *("fstat", "ftruncate", "fsync", "fdatasync", "fchdir", "fchmod", "fchown", "fstatvfs", "fpathconf"),
    *("mkfifo", "mknod", "utime"),
)


class Place(NamedTuple):
    module: Any
    name: str
    key: str  # in `was`
    function: Callable[..., Any]


def in_place(module: Any, name: str, function: Callable[..., Any]) -> Callable[..., Any]:
    """The function for the place of a real one. It has the real one's name, so that it can be pickled, and its errors name what those
    of the real one do."""

    @functools.wraps(getattr(module, name))
    def served(*words: Any, **more: Any) -> Any:
        try:
            return function(*words, **more)
        except OSError as failure:
            given = [*words, *(more[key] for key in ("path", "file", "src", "dst") if key in more), None, None]
            _name(failure, name, given[0], given[1])
            raise

    served.__module__ = module.__name__
    return served


def _name(failure: OSError, name: str, first: Any, second: Any) -> None:
    """Gives the error the paths as the caller gave them."""
    if name in _OF_TWO_PATHS:
        failure.filename, failure.filename2 = os.fspath(first), os.fspath(second)
    elif name in _NAMELESS:
        del failure.filename
    elif isinstance(failure.filename, str) and isinstance(first, (int, bytes)):
        failure.filename = first


def nameless(call: Callable[..., Any], *words: Any) -> Any:
    """What the call returns. Its errors have no path, as those of an open file."""
    try:
        return call(*words)
    except OSError as failure:
        del failure.filename
        raise


class Replacement:
    """The functions that ours call for what isn't served are in `was`."""

    def __init__(self, places: list[Place], was: dict[str, Callable[..., Any]]) -> None:
        self._places, self.was = places, was
        # somebody else's patch that stood over a function of ours when it was to be taken away, so that ours stays below it
        self._above: dict[tuple[Any, str], Any] = {}
        # what ours are over, without patches that are over ours; and what stood in each place when ours came there
        self._base: dict[str, Callable[..., Any]] = {}
        self._stood: dict[str, Callable[..., Any]] = {}
        self._bound: list[tuple[type, str, Any]] = []

    def put(self) -> None:
        for place in self._places:
            current, above = getattr(place.module, place.name), self._above.get((place.module, place.name))
            if current is place.function:
                self._stood[place.key] = self._base[place.key]
            elif above is None:
                self._stood[place.key] = self._base[place.key] = self.was[place.key] = current
            elif above is not current:
                self._stood[place.key] = current
                self.was[place.key] = _once(current, self._base[place.key])
            else:
                continue
            setattr(place.module, place.name, place.function)
        for place in self._places:
            for names in _SETS:
                if self._base[place.key] in names:
                    names.add(place.function)
        self._put_bound()

    def _put_bound(self) -> None:
        """From Python 3.13 on pathlib calls functions of os that classes of glob have as static methods."""
        functions = {id(self._base[place.key]): place.function for place in self._places}
        for kind in [it for it in vars(glob).values() if isinstance(it, type)]:
            for name, value in list(vars(kind).items()):
                if isinstance(value, staticmethod) and id(value.__func__) in functions:
                    self._bound.append((kind, name, value))
                    setattr(kind, name, staticmethod(functions[id(value.__func__)]))

    def take_away(self) -> None:
        for kind, name, value in self._bound:
            setattr(kind, name, value)
        self._bound.clear()
        for place in self._places:
            for names in _SETS:
                names.discard(place.function)
            there = getattr(place.module, place.name)
            if there is place.function:
                setattr(place.module, place.name, self._stood[place.key])
                self.was[place.key] = self._base[place.key]
                if self._stood[place.key] is self._base[place.key]:
                    self._above.pop((place.module, place.name), None)
            else:
                self._above[place.module, place.name] = there


def _once(function: Callable[..., Any], below: Callable[..., Any]) -> Callable[..., Any]:
    """Calls a patch that may be over ours: a call that comes back goes on to what ours are over."""
    calls = threading.local()

    def once(*words: Any, **more: Any) -> Any:
        if getattr(calls, "inside", False):
            return below(*words, **more)
        calls.inside = True
        try:
            return function(*words, **more)
        finally:
            calls.inside = False

    return once
