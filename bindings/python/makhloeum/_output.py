"""Standard input, output and error of the commands of this package.

What is written to standard output is there when a command ends, or the command says in one sentence that it isn't, and its
status is that of a failed write. Nothing is said, and the status is 141, if nobody reads the pipe any more."""

from __future__ import annotations

import codecs
import errno
import io
import os
import sys

TYPE_CHECKING = False  # that of typing would load typing
if TYPE_CHECKING:
    from typing import Any, Callable, Optional

_NOBODY_READS = 141  # as a shell says that SIGPIPE ended a program


_ESCAPES = "makhloeum.surrogateescape"


def _escaped(failure: Any) -> Any:
    """Of the C locale: surrogateescape, where each character is a byte that was no text, and else backslashreplace."""
    try:
        return codecs.lookup_error("surrogateescape")(failure)
    except UnicodeError:
        return codecs.backslashreplace_errors(failure)


codecs.register_error(_ESCAPES, _escaped)


class WriteFailed(Exception):
    """Standard output can't be written. It is no OSError, so that nobody takes it for a failure of another file."""

    def __init__(self, failure: OSError) -> None:
        super().__init__(failure)
        self.failure = failure


class _Output(io.FileIO):
    """Standard output without a buffer. After a write that failed, writes are dropped: the interpreter flushes once more at its end."""

    failure: Optional[OSError] = None

    def write(self, data: Any) -> int:
        if self.failure is not None:
            return len(data)
        try:
            count = super().write(data)
            if count is None:
                raise BlockingIOError(errno.EAGAIN, os.strerror(errno.EAGAIN))
            return count
        except OSError as failure:
            self.failure = failure
            raise WriteFailed(failure) from None


class _Error(io.FileIO):
    """Standard error without a buffer. What can't be written there is dropped: the command's status stays."""

    def write(self, data: Any) -> int:
        try:
            return super().write(data) or len(data)
        except OSError:
            return len(data)


class _Unbuffered(io.BufferedWriter):
    """Without a buffer, as PYTHONUNBUFFERED asks for; a write of a part is continued."""

    def write(self, data: Any) -> int:
        count = super().write(data)
        self.flush()
        return count


def _text(raw: io.FileIO, like: Any) -> io.TextIOWrapper:
    """The stream as text, with the encoding and the buffer of another one. What the encoding lacks is shown as \\xfc or \\udcff."""
    errors = getattr(like, "errors", None)
    return io.TextIOWrapper(
        (_Unbuffered if getattr(like, "write_through", False) else io.BufferedWriter)(raw),
        encoding=getattr(like, "encoding", None),
        errors={"strict": "backslashreplace", "surrogateescape": _ESCAPES}.get(str(errors), errors),
        line_buffering=getattr(like, "line_buffering", False),
        write_through=getattr(like, "write_through", False),
    )


def _descriptor(stream: Any, flags: int) -> int:
    """That of the stream. A closed one gets a descriptor that can't be used in its direction, so that no file that is opened
    later has its number."""
    return os.open(os.devnull, flags) if stream is None else stream.fileno()


class _Streams:
    """The streams of a command while it runs. Streams that a caller has replaced stay: their failures are the caller's."""

    def __init__(self) -> None:
        self.output: Optional[_Output] = None
        self._before = sys.stdin, sys.stdout, sys.stderr

    def __enter__(self) -> _Streams:
        if sys.stdin is None:
            sys.stdin = open(_descriptor(None, os.O_WRONLY), encoding="utf-8")
        if sys.stdout is sys.__stdout__:
            self.output = _Output(_descriptor(sys.stdout, os.O_RDONLY), "w", closefd=False)
            sys.stdout = _text(self.output, sys.stdout)
        if sys.stderr is sys.__stderr__:
            sys.stderr = _text(_Error(_descriptor(sys.stderr, os.O_RDONLY), "w", closefd=False), sys.stderr)
        return self

    def __exit__(self, *failure: object) -> None:
        sys.stdin, sys.stdout, sys.stderr = self._before


def writes(program: str, failed: int = 1) -> Callable[[Callable[[list[str]], int]], Callable[[list[str]], int]]:
    """Of the `main` of a program: `failed` is its status if standard output can't be written."""

    def decorated(main: Callable[[list[str]], int]) -> Callable[[list[str]], int]:
        def whole(words: list[str]) -> int:
            with _Streams() as streams:
                try:
                    try:
                        status = main(words)
                    finally:
                        sys.stdout.flush()
                    # whoever called a write may have dropped its failure, as input() does
                    if streams.output is None or streams.output.failure is None:
                        return status
                    failure = streams.output.failure
                except WriteFailed as no:
                    failure = no.failure
                if failure.errno == errno.EPIPE:
                    return _NOBODY_READS
                print(f"{program}: write failed: {failure.strerror}", file=sys.stderr)
                return failed

        return whole

    return decorated
