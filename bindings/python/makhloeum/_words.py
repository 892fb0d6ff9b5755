"""Words of a command, texts of an answer, and the exceptions for a status."""

from __future__ import annotations

import ctypes
import operator
import os
import re
from typing import Any, NoReturn, Union

from ._library import BUSY, CLOSED, FAILED, FAULT, OUT_OF_MEMORY, REFUSED, library
from .errors import BY_CODE, BY_FAULT, BadPath, NoGroup, asked_for

Path = Union[str, bytes, "os.PathLike[str]"]
Value = Union[str, bytes, int]

_NO_WORD = b"?"  # neither a path nor a file, so the library refuses it
_FIRST_SIZE = 512
_BEYOND = 1 << 64


def _bytes(text: Path) -> bytes:
    text = os.fspath(text)
    if isinstance(text, bytes):
        return bytes(text)
    try:
        return text.encode("utf-8", "surrogateescape")
    except UnicodeEncodeError:  # half of a pair of surrogates, which no path, file or value has
        return text.encode("utf-8", "surrogatepass")


def _text(text: Path | Value) -> str:
    if isinstance(text, int):
        return _number(text)
    text = os.fspath(text)
    return text.decode("utf-8", "surrogateescape") if isinstance(text, bytes) else text


def _number(number: object) -> str:
    """A number in a message: Python writes only 4,300 digits in decimal."""
    return hex(number) if isinstance(number, int) and not -_BEYOND < number < _BEYOND else str(number)


def _c_text(text: Path) -> bytes:
    """A text for a call that would cut it at a zero byte."""
    word = _bytes(text)
    return _NO_WORD if b"\0" in word else word


def _integer(number: Any, what: str) -> int:
    """True and False are no numbers here: a pid, a limit or an errno that is one of them is a mistake."""
    if isinstance(number, bool):
        raise TypeError(f"{what} is an int, not bool")
    return operator.index(number)


def _digits(number: int) -> bytes:
    """An int in decimal. The largest stand for those beyond them, which are out of range too and may be too long to write."""
    return b"%d" % (number if -1 <= number <= _BEYOND else -1 if number < 0 else _BEYOND)


def _pid(number: int) -> bytes:
    return _digits(_integer(number, "a pid"))


def _value(value: Value) -> bytes:
    if isinstance(value, bool) or not isinstance(value, (str, bytes, int)):
        raise TypeError(f"a value is a str, bytes or an int, not {type(value).__name__}; no limit is 'max'")
    return _digits(value) if isinstance(value, int) else _bytes(value)


def _shown(answer: bytes) -> str:
    """The text after an answer's first line."""
    text = answer.partition(b"\n")[2].decode()
    # each line begins with a bar and a blank
    return text[2:].replace("\n| ", "\n")


def _path_word(line: bytes) -> bytes:
    """The word of a line that is its path, if it has one: the second."""
    words: list[bytes] = re.findall(rb"[^ \t\r]+", line)
    return words[1] if len(words) > 1 else b""


def _path_fault(refused: bytes, path: str, command: str) -> BadPath:
    """The fault of a text that is not a path; `path` is the one that the exception names."""
    position = ctypes.c_size_t()
    fault = library.mk_path_fault(refused, len(refused), ctypes.byref(position))
    message = library.mk_path_message(fault).decode()
    error = BY_FAULT[fault](f"path: {message}, at {position.value}", path, command)
    error.position = position.value
    return error


def _reply(code: int, path: Path) -> str:
    """The words of the reply with that code, of a call that has no answer as text."""
    name = (library.mk_name(code) or b"").decode()
    return f"{name} {_text(path)}" if BY_CODE.get(code) is NoGroup else name


def _raise(
    status: int, command: str, path: Path | None = None, info: Any = None, words: str = "", refused: bytes | None = None
) -> NoReturn:
    """Raises the exception of a status; each has its own. `info` has the code and the errno of the library, and `words` are those of
    its reply. If it is that of a text that is not a path, `refused` is the text, or else the path."""
    name = None if path is None else _text(path)
    if status == OUT_OF_MEMORY:
        raise MemoryError(f"{command}: out of memory")
    if status == CLOSED:
        raise ValueError(f"{command}: the hierarchy is closed")
    if status == BUSY:
        raise RuntimeError(f"{command}: a call of this thread is running")
    if status == FAILED:
        raise asked_for(info.error, command, name)
    if status not in (REFUSED, FAULT):
        message = library.mk_status_message(status)
        raise RuntimeError(
            f"{command}: unexpected status {status} of the library" + (f": {message.decode()}" if message else "")
        )
    kind = BY_CODE[info.code]
    if kind is BadPath and path is not None:
        raise _path_fault(_bytes(path) if refused is None else refused, _text(path), command)
    raise kind(words, name, command)
