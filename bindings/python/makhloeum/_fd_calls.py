"""The functions of os that read, write and copy a descriptor, for descriptors of served files; `was` has those for the others."""

from __future__ import annotations

import contextlib
import errno
import operator
import os
from typing import Any, Callable

from ._descriptors import Descriptors, at_position, scatter
from ._tree import POSITION_MAX, Node, RawFile, error

# What no descriptor is.
NO_DESCRIPTOR = (1 << 31) - 1
# What os has before anything is mounted.
REAL: dict[str, Any] = dict(vars(os))
# How many buffers a call takes, and the flags that it takes for each file: RWF_HIPRI, _DSYNC, _SYNC, _APPEND, _NOAPPEND.
_BUFFERS_MAX, _RW_FLAGS = 1024, 0x37


def are_plain(*words: Any) -> bool:
    """Whether each is a number that a real function takes, so that it needn't be asked."""
    return all(type(word) is int and 0 <= word <= NO_DESCRIPTOR for word in words)


def check_others(name: str, *words: Any, **more: Any) -> None:
    """Raises what is wrong with the arguments of a function of os, of which the first names nothing: the real function says so before
    it finds that."""
    with contextlib.suppress(OSError):
        REAL[name](*words, **more)


def _part(raw: RawFile, size: int) -> bytes:
    """A read of that many bytes, or fewer: of a file object -1 means all, of a descriptor it is an error."""
    if operator.index(size) < 0:
        raise error(errno.EINVAL, raw.name)
    return raw.read(size) or b""


class DescriptorCalls:
    def __init__(self) -> None:
        self.descriptors = Descriptors()
        self.was: dict[str, Callable[..., Any]] = {}

    def read(self, fd: int, size: int) -> Any:
        return self.was["read"](fd, size) if self.descriptors.get(fd) is None else _part(self.descriptors.raw(fd), size)

    def readv(self, fd: int, buffers: Any) -> Any:
        if self.descriptors.get(fd) is None:
            return self.was["readv"](fd, buffers)
        check_others("readv", NO_DESCRIPTOR, buffers)
        return self._vector(fd, False, buffers)

    def pread(self, fd: int, size: int, offset: int) -> Any:
        if self.descriptors.get(fd) is None:
            return self.was["pread"](fd, size, offset)
        if not are_plain(size, offset):
            check_others("pread", NO_DESCRIPTOR, size, offset)
        self._check(fd, False, operator.index(size), operator.index(offset))
        raw = self.descriptors.raw(fd)
        return at_position(raw, offset, lambda: _part(raw, size))

    def preadv(self, fd: int, buffers: Any, offset: int, flags: int = 0) -> Any:
        if self.descriptors.get(fd) is None:
            return self.was["preadv"](fd, buffers, offset, flags)
        check_others("preadv", NO_DESCRIPTOR, buffers, offset, flags)
        return self._vector(fd, False, buffers, operator.index(offset), operator.index(flags))

    def write(self, fd: int, data: Any) -> Any:
        if self.descriptors.get(fd) is None:
            return self.was["write"](fd, data)
        return self.descriptors.raw(fd, True).write(data)

    def writev(self, fd: int, buffers: Any) -> Any:
        if self.descriptors.get(fd) is None:
            return self.was["writev"](fd, buffers)
        check_others("writev", NO_DESCRIPTOR, buffers)
        return self._vector(fd, True, buffers)

    def pwrite(self, fd: int, data: Any, offset: int) -> Any:
        if self.descriptors.get(fd) is None:
            return self.was["pwrite"](fd, data, offset)
        check_others("pwrite", NO_DESCRIPTOR, data, offset)
        self._check(fd, True, memoryview(data).nbytes, operator.index(offset))
        raw = self.descriptors.raw(fd, True)
        return at_position(raw, offset, lambda: raw.write(data))

    def pwritev(self, fd: int, buffers: Any, offset: int, flags: int = 0) -> Any:
        if self.descriptors.get(fd) is None:
            return self.was["pwritev"](fd, buffers, offset, flags)
        check_others("pwritev", NO_DESCRIPTOR, buffers, offset, flags)
        return self._vector(fd, True, buffers, operator.index(offset), operator.index(flags))

    def _check(self, fd: int, writes: bool, size: int, offset: int) -> None:
        """Raises what the kernel finds before it reads or writes so many bytes there, in its order."""
        if size < 0 or offset < 0:
            raise error(errno.EINVAL, str(fd))
        self.descriptors.check(fd, writes)
        if size > POSITION_MAX - offset:
            raise error(errno.EINVAL, str(fd))

    def _vector(self, fd: int, writes: bool, buffers: Any, offset: int = -1, flags: int = 0) -> int:
        """One read or write of several buffers, as in the kernel. The offset -1 is the position of the file, which moves."""
        size = sum(memoryview(buffer).nbytes for buffer in buffers)
        self._check(fd, writes, size, 0 if offset == -1 else offset)
        if len(buffers) > _BUFFERS_MAX:
            raise error(errno.EINVAL, str(fd))
        if size == 0:
            return 0
        if flags & ~_RW_FLAGS:
            raise error(errno.EOPNOTSUPP, str(fd))
        raw = self.descriptors.raw(fd, writes)

        def call() -> int:
            return raw.write(b"".join(buffers)) if writes else scatter(raw, buffers)

        return call() if offset == -1 else int(at_position(raw, offset, call))

    def lseek(self, fd: int, offset: int, whence: int) -> Any:
        if self.descriptors.get(fd) is None:
            return self.was["lseek"](fd, offset, whence)
        if not are_plain(offset, whence):
            check_others("lseek", NO_DESCRIPTOR, offset, whence)
        opened = self.descriptors.get(fd)
        if isinstance(opened, Node) and not opened.only_named:
            return opened.seek(offset, whence)
        return self.descriptors.raw(fd).seek(offset, whence)

    def dup(self, fd: int) -> Any:
        opened = self.descriptors.get(fd)
        return self.was["dup"](fd) if opened is None else self.descriptors.add(opened)

    def dup2(self, fd: int, fd2: int, inheritable: bool = True) -> Any:
        if self.descriptors.get(fd) is None:
            to = self.was["dup2"](fd, fd2, inheritable)
            self.descriptors.forget(fd2)
            return to
        return fd2 if fd == fd2 else self.descriptors.onto(fd, fd2, inheritable)

    def close(self, fd: int) -> None:
        self.descriptors.forget(fd)
        self.was["close"](fd)

    def closerange(self, fd_low: int, fd_high: int) -> None:
        self.descriptors.forget_all(fd_low, fd_high)
        self.was["closerange"](fd_low, fd_high)
