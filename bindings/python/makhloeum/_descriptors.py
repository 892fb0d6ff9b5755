"""Descriptors of served files: numbers that no other file has, and what each of them names.

A number is that of a real descriptor by which nothing can be read or written (O_PATH): a call that is not served fails with EBADF.
For the files of which a mount tells that they have changed it can be waited on. Copies of a descriptor share the open file.
"""

from __future__ import annotations

import errno
import io
import os
import warnings
from typing import Any, Callable, Union

from ._replace import nameless
from ._tree import Node, RawFile, Tree, error

Opened = Union[Node, RawFile]
_real_open, _real_close, _real_dup2 = os.open, os.close, os.dup2


def _number_to_poll(opened: Opened) -> int | None:
    if not isinstance(opened, RawFile) or opened.poller is None:
        return None
    try:
        return opened.poller.descriptor()
    except OSError:  # the kernel has no bytes out of band for these sockets: the file can be read, but not polled
        return None


class Descriptors:
    def __init__(self) -> None:
        self._opened: dict[int, Opened] = {}

    def get(self, fd: Any) -> Opened | None:
        return self._opened.get(fd) if isinstance(fd, int) else None

    def add(self, opened: Opened) -> int:
        """A new descriptor, which is closed on exec."""
        fd = _number_to_poll(opened)
        fd = _real_open(os.devnull, os.O_PATH | os.O_CLOEXEC) if fd is None else fd
        self._opened[fd] = opened
        if isinstance(opened, Node):
            opened.tree.add(opened)
        return fd

    def onto(self, fd: int, to: int, inheritable: bool) -> int:
        """dup2 of a served descriptor."""
        opened = self._opened[fd]
        self.forget(to)
        _real_dup2(fd, to, inheritable)
        self._opened[to] = opened
        return to

    def forget(self, fd: int) -> None:
        """The number no longer names the file, which is closed with its last descriptor."""
        opened = self._opened.pop(fd, None)
        if isinstance(opened, RawFile) and not any(it is opened for it in list(self._opened.values())):
            opened.close()

    def close(self, fd: int) -> None:
        self.forget(fd)
        _real_close(fd)

    def forget_all(self, low: int, high: int) -> None:
        for fd in [number for number in list(self._opened) if low <= number < high]:
            self.forget(fd)

    def end(self, tree: Tree) -> None:
        """The tree is no longer mounted: its descriptors are only numbers until they are closed."""
        for fd in [
            fd for fd, it in list(self._opened.items()) if (it if isinstance(it, Node) else it.node).tree is tree
        ]:
            self._opened.pop(fd, None)  # another thread may close it meanwhile

    def begin_again(self) -> None:
        """In the child of a fork: the numbers that can be waited on get sockets of the child."""
        for fd, opened in list(self._opened.items()):
            number = _number_to_poll(opened)
            if number is not None:
                _real_dup2(number, fd, os.get_inheritable(fd))
                _real_close(number)

    def check(self, fd: int, writes: bool = False) -> None:
        """Raises EBADF unless the descriptor was opened for that. No group is open for writing."""
        opened = self._opened[fd]
        if isinstance(opened, Node):
            allowed = not writes and not opened.only_named
        else:
            allowed = opened.writable() if writes else opened.readable()
        if not allowed:
            raise error(errno.EBADF, str(fd))

    def raw(self, fd: int, writes: bool = False) -> RawFile:
        opened = self._opened[fd]
        if isinstance(opened, Node):
            raise error(errno.EBADF if writes or opened.only_named else errno.EISDIR, opened.shown)
        return opened


class _Unclosed:
    """Warns of a file when it is freed, which is at once: where the warning is an error, that is reported, and the file is closed."""

    def __init__(self, source: Any) -> None:
        self._source = source

    def __del__(self) -> None:
        warnings.warn(f"unclosed file {self._source!r}", ResourceWarning, stacklevel=3, source=self._source)


class Shared(io.RawIOBase):
    """A file object over a served descriptor, which it closes or not. The open file is that of the descriptor; the mode is its own, and
    says what it allows."""

    closefd = False

    def __init__(self, table: Descriptors, fd: int, closefd: bool, name: Any, mode: str) -> None:
        self._raw = table.raw(fd)
        self._table, self._fd, self.closefd, self.name = table, fd, closefd, name
        self._reads, self._writes = "r" in mode or "+" in mode, "r" not in mode or "+" in mode
        way = "a" if "a" in mode else "x" if "x" in mode else "r" if self._reads else "w"
        self.mode = way + ("b+" if self._reads and self._writes else "b")
        if "a" in mode:
            self._raw.seek_end()

    def __repr__(self) -> str:
        return f"<makhloeum file name={self.name!r} mode={self.mode!r} closefd={self.closefd}>"

    def close(self) -> None:
        if not self.closed:
            if self.closefd and getattr(self, "_finalizing", False):  # as the interpreter says
                _Unclosed(self)
            super().close()
            if self.closefd:
                self._table.close(self._fd)

    def _dealloc_warn(self, source: Any) -> None:
        """The objects of io that are above call it, too."""
        if self.closefd and not self.closed:
            _Unclosed(source)

    def _open(self) -> None:
        """Raises if this object is closed; others of the file may be open still."""
        if self.closed:
            raise ValueError("I/O operation on closed file")

    def _file(self) -> RawFile:
        """The open file, unless its descriptor was closed by itself."""
        self._open()
        if self._raw.closed:
            raise OSError(errno.EBADF, os.strerror(errno.EBADF))
        return self._raw

    def fileno(self) -> int:
        self._open()
        return self._fd

    def readable(self) -> bool:
        self._open()
        return self._reads

    def writable(self) -> bool:
        self._open()
        return self._writes

    def seekable(self) -> bool:
        return self._file().seekable()

    def seek(self, offset: int, whence: int = os.SEEK_SET) -> int:
        return int(nameless(self._file().seek, offset, whence))

    def tell(self) -> int:
        return self._file().tell()

    def _allow(self, allowed: bool, what: str) -> None:
        self._open()
        if not allowed:
            raise io.UnsupportedOperation(f"File not open for {what}")

    def truncate(self, size: int | None = None) -> int:
        self._allow(self._writes, "writing")
        raw = self._file()
        if not raw.writable() or (size is not None and size < 0):
            raise OSError(errno.EINVAL, os.strerror(errno.EINVAL))
        return raw.truncate(size)

    def readinto(self, buffer: Any) -> int:
        self._allow(self._reads, "reading")
        return int(nameless(self._file().readinto, buffer))

    def write(self, data: Any) -> int:
        self._allow(self._writes, "writing")
        return int(nameless(self._file().write, data))


def at_position(raw: RawFile, offset: int, call: Callable[[], Any]) -> Any:
    """What the call returns with the file at another position, which is then as before."""
    before = raw.tell()
    raw.seek(offset)
    try:
        return call()
    finally:
        raw.seek(before)


def scatter(raw: RawFile, buffers: Any) -> int:
    """Reads once, into several buffers."""
    parts = [memoryview(buffer).cast("B") for buffer in buffers]
    data = raw.read(sum(map(len, parts))) or b""
    rest = data
    for part in parts:
        size = min(len(part), len(rest))
        part[:size], rest = rest[:size], rest[size:]
    return len(data)
