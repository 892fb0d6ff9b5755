"""Many files in one call."""

from __future__ import annotations

import contextlib
import ctypes
from typing import Any, Iterable

from ._library import DONE, TOO_SMALL, Info, Text, library
from ._words import Path, _c_text, _raise, _reply, _text
from .errors import Refused

_BYTES_EACH = 64


def _pair(pair: tuple[Path, str]) -> tuple[Path, str]:
    if not isinstance(pair, (str, bytes)):
        with contextlib.suppress(TypeError, ValueError):
            path, file = pair
            return path, file
    raise TypeError(f"read_many: {pair!r} is not a pair of a path and a file's name")


class Many:
    """The part of a Hierarchy that reads many files in one call."""

    _at: Any

    def read_many(self, files: Iterable[tuple[Path, str]]) -> list[str | Refused | OSError]:
        """The texts of many `files`, given as pairs of a path and a file's name. All are of one state: no other thread's command
        comes in between. A file that can't be read has the exception that `read` would raise in the place of its text, so a group that
        was removed since it was listed does not affect the others.

        Raises TypeError if an element is not a pair. Takes time for each file and each byte of the texts."""
        pairs = list(map(_pair, files))
        names = b"".join(_c_text(part) + b"\0" for pair in pairs for part in pair)
        texts, size = (Text * len(pairs))(), _BYTES_EACH * len(pairs) + 64
        while True:
            out, info = ctypes.create_string_buffer(size), Info()
            status = library.mk_read_many(self._at, names, len(pairs), texts, out, size, ctypes.byref(info))
            if status == DONE:
                break
            if status != TOO_SMALL:
                _raise(status, "read_many", info=info)
            size = info.needed
        told = out.raw
        return [_text_of(told, text, *pair) for text, pair in zip(texts, pairs)]


def _text_of(told: bytes, text: Text, path: Path, file: str) -> str | Refused | OSError:
    return told[text.at : text.at + text.len].decode() if text.status == DONE else _error(text, path, file)


def _error(text: Text, path: Path, file: str) -> Refused | OSError:
    try:
        _raise(text.status, f"read {_text(path)} {_text(file)}", path, text, _reply(text.code, path))
    except OSError as error:
        return error
