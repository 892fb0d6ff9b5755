"""A hierarchy as files: what a mount of it shows, for mounted_at."""

from __future__ import annotations

import contextlib
import ctypes
import errno
import io
import operator
import os
import stat
import time
import weakref
import zlib
from typing import Any, Iterator

from ._library import DONE, FAILED, FAULT, REFUSED, TOO_SMALL, Info, library, patient
from ._notify import Poller, Watch
from ._table import NOTIFIED
from ._words import _c_text, _raise
from .errors import BadPath, NoGroup, PathTooLong
from .hierarchy import Hierarchy

POSITION_MAX = (1 << 63) - 1  # of a file, in bytes
_DEVICE = 0x6D6B0000  # to which the number of the hierarchy is added
_BORN = time.time_ns()
_TIMES = (_BORN // 10**9,) * 3
_MORE = {
    **dict.fromkeys(("st_atime", "st_mtime", "st_ctime"), _BORN / 10**9),
    **dict.fromkeys(("st_atime_ns", "st_mtime_ns", "st_ctime_ns"), _BORN),
    **{"st_blksize": 4096, "st_blocks": 0, "st_rdev": 0},
}


def _files() -> Iterator[Any]:
    at = 0
    while library.mk_file_at(at):
        yield library.mk_file_at(at).contents
        at += 1


FILES = {file.name.decode(): file for file in _files()}


def error(number: int, path: str) -> OSError:
    return OSError(number, os.strerror(number), path)


class Node:
    """A group, or a file of a group, that may not be there. `last` is the last name of the path, which can be `.` or `..`, and
    `is_folder` says that a slash is after it. Of a descriptor, `gone` says that the group was removed, and `only_named` that it was
    opened with O_PATH."""

    last = ""
    is_folder = False
    gone = False
    only_named = False
    position = 0

    def __init__(self, tree: Tree, group: str, file: Any, shown: str) -> None:
        self.tree, self.group, self.file, self.shown = tree, group, file, shown
        self.name = file.name.decode() if file is not None else ""
        self.path = group if file is None else f"{group.rstrip('/')}/{self.name}"

    def text(self) -> bytes:
        if not self.file.readable:
            raise error(errno.EINVAL, self.shown)
        with self.as_mount():
            words = _c_text(self.group), self.file.name
            is_long = self.name in ("cgroup.procs", "cgroup.threads")
            return self.tree.h._told("mk_get", words, f"read {self.shown}", self.group, is_long)

    def check(self) -> None:
        """Raises what a look-up of the path raises."""
        if self.gone:
            return
        with self.as_mount():
            if not self.tree.h.has_group(self.group):
                raise error(errno.ENOENT, self.shown)
        if self.is_folder and self.file is not None:
            raise error(errno.ENOTDIR, self.shown)

    def exists(self) -> bool:
        """Whether there is a group or a file of that name in its parent, which exists."""
        try:
            with self.as_mount():
                return self.tree.h.has_group(self.group)
        except FileNotFoundError:
            return False

    @contextlib.contextmanager
    def as_mount(self) -> Iterator[None]:
        """The errno of a mount, and the path that the caller gave."""
        try:
            yield
        except PathTooLong:  # the caller may give only its last name
            raise error(errno.ENAMETOOLONG, self.shown) from None
        except BadPath:
            raise error(errno.ENOENT, self.shown) from None
        except OSError as refused:
            raise error(refused.errno, self.shown) from None

    def children(self) -> list[str]:
        with self.as_mount():
            return self.tree.h.children(self.group)

    def names(self) -> list[str]:
        if self.file is not None:
            self.check()
            raise error(errno.ENOTDIR, self.shown)
        if self.only_named:
            raise error(errno.EBADF, self.shown)
        if self.gone:
            return []
        return [name for name, file in FILES.items() if file.on_root or self.group != "/"] + self.children()

    def seek(self, offset: int, whence: int = os.SEEK_SET) -> int:
        """Of a file the end is that of its text, which has no holes; of a group it is 0, and each listing begins at the first name."""
        offset = operator.index(offset)
        end = self.stat().st_size if whence in (os.SEEK_END, os.SEEK_DATA, os.SEEK_HOLE) else 0
        if whence in (os.SEEK_DATA, os.SEEK_HOLE):
            if not 0 <= offset < end:
                raise error(errno.ENXIO, self.shown)
            self.position = offset if whence == os.SEEK_DATA else end
            return self.position
        bases = {os.SEEK_SET: 0, os.SEEK_CUR: self.position, os.SEEK_END: end}
        position = offset + bases.get(whence, 0)
        if not 0 <= position <= POSITION_MAX or whence not in bases:
            raise error(errno.EINVAL, self.shown)
        self.position = position
        return position

    def number(self) -> int:
        """That of the inode."""
        name = f"{self.group}\0{self.name}"
        return 1 if name == "/\0" else 2 + zlib.crc32(name.encode())

    def stat(self) -> os.stat_result:
        if self.is_folder and self.file is not None:
            self.check()
        if self.file is None:
            mode, links, size = stat.S_IFDIR | 0o755, 2 + (0 if self.gone else len(self.children())), 0
        elif self.file.readable:
            mode, links = stat.S_IFREG | (0o644 if self.file.writable else 0o444), 1
            size = 0 if self.gone else len(self.text())
        else:
            self.check()
            mode, links, size = stat.S_IFREG | 0o200, 1, 0
        device = _DEVICE + self.tree.h._handle.serial
        return os.stat_result((mode, self.number(), device, links, os.getuid(), os.getgid(), size, *_TIMES), _MORE)


# Each tree that is mounted: several may be of one hierarchy.
_TREES: weakref.WeakSet[Tree] = weakref.WeakSet()


class Tree:
    """The files at and below the place where a hierarchy is mounted. A process that writes 0 to cgroup.procs is `pid`. Each
    operation makes one call that names the path, so that the faults of `fail` and `vanish` count operations."""

    def __init__(self, h: Hierarchy, pid: int) -> None:
        self.h, self.pid = h, pid
        self._opened: set[weakref.ref[Node]] = set()
        self.watch = Watch(h)
        _TREES.add(self)

    def add(self, node: Node) -> None:
        """A group or a file was opened."""
        self._opened.add(weakref.ref(node, self._opened.discard))

    # ---- look-ups

    def locate(self, path: str, shown: str) -> Node:
        """The group or file of that path, as "/a/pids.max", which may not be there."""
        parent, _, name = path.rpartition("/")
        file = FILES.get(name)
        if any(above in FILES for above in parent.split("/")):
            self.enter(parent, shown)
        if file is not None and (file.on_root or parent):
            return Node(self, parent or "/", file, shown)
        return Node(self, path, None, shown)

    def _looked(self, group: str, file: str) -> tuple[int, Any]:
        """Faults don't count this call: a text that differs from the empty one is returned at once."""
        text, info = ctypes.create_string_buffer(64), Info()
        words = (_c_text(group), file.encode(), b"", 0, text, len(text), ctypes.byref(info))
        return int(patient.mk_wait_file(self.h._at, *words)), info

    def _has_group(self, group: str) -> bool:
        return self._looked(group, "cgroup.stat")[0] == DONE

    def size(self, node: Node) -> int:
        """The length of the file's text. Faults count the call only if the engine doesn't know the file."""
        status, info = self._looked(node.group, node.name)
        if status == FAULT:
            return node.stat().st_size
        return int(info.len if status == DONE else info.needed - 1 if status == TOO_SMALL else 0)

    def enter(self, path: str, shown: str) -> None:
        """Raises what a look-up that goes through that path raises, unless it is a group: the first name that isn't one decides."""
        at = ""
        for name in filter(None, path.split("/")):
            file = FILES.get(name)
            if file is not None and (file.on_root or at):
                raise error(errno.ENOTDIR, shown)
            at += "/" + name
            if not self._has_group(at):
                raise error(errno.ENOENT, shown)

    # ---- calls

    def mkdir(self, node: Node) -> None:
        if node.file is not None:
            raise error(errno.EEXIST if node.exists() else errno.ENOENT, node.shown)
        try:
            self.h.mkdir(node.group)
        except BadPath as refused:
            self.enter(node.group.rpartition("/")[0], node.shown)
            raise error(library.mk_path_errno(refused.fault), node.shown) from None
        except OSError as refused:
            raise error(refused.errno, node.shown) from None

    def rmdir(self, node: Node) -> None:
        if node.file is not None:
            node.check()
            raise error(errno.ENOTDIR, node.shown)
        with node.as_mount():
            self.h.rmdir(node.group)
        for opened in [
            it for ref in list(self._opened) if (it := ref()) is not None
        ]:  # other threads may open files meanwhile
            opened.gone = opened.gone or opened.group == node.group
        self.watch.look()

    def freeze(self, group: str) -> None:
        """cgroup.freeze of the group was written: it is no change of the hierarchy, for which `watch` waits."""
        for tree in list(_TREES):
            if tree.h is self.h:
                tree.watch.tell(group)


class RawFile(io.RawIOBase):
    """An open file. Each write is one write to the file; a read from the start reads the current text."""

    def __init__(self, node: Node, reads: bool, writes: bool, appends: bool) -> None:
        self.node, self._reads, self._writes, self._appends = node, reads, writes, appends
        self._text, self._read_to = b"", -1
        self.name = node.shown
        self.poller = Poller(node.group, node.name) if node.name in NOTIFIED else None
        node.tree.add(node)
        if self.poller is not None:
            node.tree.watch.add(self.poller)

    def close(self) -> None:
        super().close()
        if self.poller is not None:
            self.poller.close()

    def readable(self) -> bool:
        return self._reads

    def writable(self) -> bool:
        return self._writes

    def seekable(self) -> bool:
        return True

    def seek(self, offset: int, whence: int = os.SEEK_SET) -> int:
        return self.node.seek(offset, whence)

    def tell(self) -> int:
        return self.node.position

    def truncate(self, size: int | None = None) -> int:
        """Does nothing, as in the kernel."""
        return self.node.position if size is None else size

    def seek_end(self) -> None:
        """To the end of the text, as open does to append."""
        self.node.position = self.node.tree.size(self.node)

    def _current(self) -> bytes:
        try:
            text = b"" if self.node.gone and self.node.file.readable else self.node.text()
        except FileNotFoundError:
            self.node.gone, text = True, b""
        if self.poller is not None and not self.node.gone:
            self.poller.take(text)
        return text

    def readinto(self, buffer: Any) -> int:
        if not self._reads:
            raise error(errno.EBADF, self.name)
        # a read that starts where the one before it ended continues that one's text
        if self.node.position == 0 or self.node.position != self._read_to:
            self._text = self._current()
            if self.node.gone:
                raise error(errno.ENODEV, self.name)
        part = self._text[self.node.position : self.node.position + len(buffer)]
        buffer[: len(part)] = part
        self.node.position += len(part)
        self._read_to = self.node.position
        return len(part)

    def write(self, data: Any) -> int:
        if not self._writes:
            raise error(errno.EBADF, self.name)
        data = memoryview(data).tobytes()  # bytes(5) would be five zero bytes
        if not data:
            return 0
        at = self.node.tree.size(self.node) if self._appends else self.node.position
        number = errno.EINVAL if not self.node.file.writable else errno.ENODEV if self.node.gone else self._put(data)
        if number != 0:
            raise error(number, self.name)
        self.node.tree.watch.look()
        if self.node.name == "cgroup.freeze":
            self.node.tree.freeze(self.node.group)
        self.node.position = at + len(data)
        return len(data)

    def _put(self, data: bytes) -> int:
        """The errno of the write."""
        info, tree = Info(), self.node.tree
        group = self.node.group.encode("utf-8", "surrogateescape")
        is_long = self.node.name == "cgroup.kill"
        status = tree.h._either(
            is_long, "mk_put", group, self.node.file.name, data, len(data), tree.pid, ctypes.byref(info)
        )
        if status not in (DONE, REFUSED, FAULT, FAILED):
            _raise(status, f"write {self.name}")
        if info.code == NoGroup.code:
            self.node.gone = True
            return errno.ENODEV
        return int(info.error)
