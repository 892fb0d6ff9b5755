"""The functions in the place of those of the system, while hierarchies are mounted.

There is one of each, however many hierarchies are mounted, at different places or one over another: they are put there by the first
and taken away by the last, so mounts may end in any order. Each calls `was`, the function that it replaces, for other paths.
"""

from __future__ import annotations

import builtins
import contextlib
import errno
import io
import operator
import os
import re
import threading
from typing import Any, Callable, Iterator

from . import _audit, _names
from ._descriptors import Shared
from ._fd_calls import NO_DESCRIPTOR, REAL, DescriptorCalls, are_plain, check_others
from ._replace import Place, Replacement, in_place, nameless
from ._table import TEXT_MAX
from ._tree import POSITION_MAX, Node, RawFile, Tree, error

_SERVED = (
    *(
        "read",
        "write",
        "readv",
        "writev",
        "pread",
        "pwrite",
        "preadv",
        "pwritev",
        "lseek",
        "dup",
        "dup2",
        "close",
        "closerange",
    ),
    *("fstat", "stat", "lstat", "access", "listdir", "scandir", "mkdir", "rmdir", "symlink", "readlink", "truncate"),
    *("ftruncate",),
)
# Functions that take a descriptor of O_PATH, too, and are refused for each.
_OF_WHAT_IS_NAMED = ("chdir", "fchdir", "chroot", "statvfs", "fstatvfs", "pathconf", "fpathconf")
_REFUSED = {
    **dict.fromkeys(("getxattr", "setxattr", "listxattr", "removexattr"), errno.EOPNOTSUPP),
    **dict.fromkeys(_OF_WHAT_IS_NAMED, errno.EOPNOTSUPP),
}
_WITHOUT_EFFECT = ("chmod", "lchmod", "fchmod", "chown", "lchown", "fchown", "utime")
_OF_TWO_NAMES = {"rename": _names.rename, "replace": _names.rename, "link": _names.link}
_SYNCS = ("fsync", "fdatasync")
# The kernel takes each choice of these flags of an open.
_USUAL_FLAGS = os.O_WRONLY | os.O_RDWR | os.O_CLOEXEC | os.O_APPEND | os.O_TRUNC | os.O_NONBLOCK
# Functions that take a file object for its descriptor, too.
_OF_FILES = (*_SYNCS, "fchdir")
_OF_DESCRIPTORS = (*_OF_FILES, "fchmod", "fchown", "fstatvfs", "fpathconf")
_OF_A_NAME: dict[str, Callable[..., None]] = {
    "unlink": _names.unlink,
    "remove": _names.unlink,
    "mkfifo": _names.mkfifo,
    "mknod": _names.mknod,
}
# Functions that take a symbolic link for itself.
_OF_LINKS = (*_OF_TWO_NAMES, *_OF_A_NAME, "lchmod", "lchown")
_LINK = re.compile(r"(?:/proc/(?P<process>self|thread-self|\d+)(?:/task/\d+)?|/dev)/fd/(?P<fd>\d+)")


class _IsServed(Exception):
    """The descriptor that an opener returned is that of a served file."""


class _Entry:
    """What os.scandir gives. It keeps its first stat."""

    _kept: os.stat_result | None = None

    def __init__(self, node: Node, name: Any, path: Any) -> None:
        self._node, self.name, self.path = node, name, path

    def __fspath__(self) -> Any:
        return self.path

    def __repr__(self) -> str:
        return f"<DirEntry {self.name!r}>"

    def inode(self) -> int:
        return self._node.number()

    def is_dir(self, *, follow_symlinks: bool = True) -> bool:
        return self._node.file is None

    def is_file(self, *, follow_symlinks: bool = True) -> bool:
        return self._node.file is not None

    def is_symlink(self) -> bool:
        return False

    def is_junction(self) -> bool:
        return False

    def stat(self, *, follow_symlinks: bool = True) -> os.stat_result:
        self._kept = self._kept or self._node.stat()
        return self._kept


class _Scan:
    def __init__(self, entries: list[_Entry]) -> None:
        self._entries = iter(entries)

    def __iter__(self) -> Iterator[_Entry]:
        return self._entries

    def __next__(self) -> _Entry:
        return next(self._entries)

    def __enter__(self) -> _Scan:
        return self

    def __exit__(self, *exception: object) -> None:
        self.close()

    def close(self) -> None:
        self._entries = iter(())


class Calls(DescriptorCalls):
    def __init__(self) -> None:
        super().__init__()
        self._mounts: list[tuple[str, Tree]] = []
        self._lock = threading.RLock()
        self._replacement = Replacement(self._places(), self.was)
        os.register_at_fork(after_in_child=self._begin_again)

    # ---- what is mounted

    def _places(self) -> list[Place]:
        opens = in_place(io, "open", self.open)
        places = [
            Place(io, "open", "open", opens),
            Place(builtins, "open", "open", opens),
            Place(os, "open", "os_open", in_place(os, "open", self.os_open)),
        ]
        others = (*_REFUSED, *_WITHOUT_EFFECT, *_SYNCS, *_OF_A_NAME)
        functions = {name: getattr(self, name) for name in _SERVED}
        functions.update({name: self.of_two_names(name) for name in _OF_TWO_NAMES})
        functions.update({name: self.other(name) for name in others})
        return places + [
            Place(os, name, name, in_place(os, name, function))
            for name, function in functions.items()
            if hasattr(os, name)
        ]

    def mount(self, at: str, tree: Tree) -> None:
        with self._lock:
            if not self._mounts:
                self._replacement.put()
                _audit.watch(self._covers)
            self._mounts = [(at, tree), *self._mounts]

    def unmount(self, tree: Tree) -> None:
        with self._lock:
            self._mounts = [mount for mount in self._mounts if mount[1] is not tree]
            self.descriptors.end(tree)
            if not self._mounts:
                _audit.watch(None)
                self._replacement.take_away()

    def _begin_again(self) -> None:
        """In the child of a fork, where only the thread that forked goes on."""
        self._lock = threading.RLock()
        for _, tree in self._mounts:
            tree.watch.begin_again()
        self.descriptors.begin_again()
        for _, tree in self._mounts:
            tree.watch.go_on()

    def _below(self, name: str) -> tuple[Tree, str] | None:
        """The tree at that absolute path, the newest first, and the path in it, as "/a"."""
        name = "/" + os.path.normpath(name).lstrip("/")
        for at, tree in self._mounts:
            if name == at:
                return tree, "/"
            if name.startswith(at + "/"):
                return tree, name[len(at) :]
        return None

    def _covers(self, path: str) -> bool:
        return path.startswith("/") and self._below(path) is not None

    def _at(self, tree: Tree) -> str:
        return next((at for at, it in self._mounts if it is tree), "")

    def node(self, path: Any, dir_fd: int | None = None, follows: bool = True) -> Node | None:
        """What the path or descriptor names, which may not exist; None for what is elsewhere. It follows links such as
        /proc/self/fd/5 to what is served, unless the caller takes links for themselves."""
        if isinstance(path, int):
            opened = self.descriptors.get(path)
            return opened.node if isinstance(opened, RawFile) else opened
        if not isinstance(path, (str, bytes, os.PathLike)) or not (dir_fd is None or hasattr(dir_fd, "__index__")):
            return None  # the real function takes it, or says what is wrong with it
        shown = os.fsdecode(path)
        if "\0" in shown:
            raise ValueError("embedded null byte")
        name = shown
        number = _number_of(shown) if follows and shown.startswith(("/proc/", "/dev/")) else None
        linked = None if number is None else self.node(number)
        if linked is not None:
            node = Node(linked.tree, linked.group, linked.file, shown)
            node.last, node.gone = linked.path.rpartition("/")[2], linked.gone
            return node
        if not name.startswith("/"):
            base = self.descriptors.get(dir_fd)
            if dir_fd is not None and base is None:
                return None
            if not name:
                raise error(errno.ENOENT, shown)
            if base is not None and (isinstance(base, RawFile) or base.file is not None):
                raise error(errno.ENOTDIR, shown)
            if base is not None and base.gone:
                return _in_removed(base, name, shown)
            try:
                above = os.getcwd() if base is None else self._at(base.tree) + base.group
            except FileNotFoundError:
                return None  # the working directory was removed
            name = os.path.join(above, name)
        return self._found(name, shown)

    def named(self, path: Any, dir_fd: int | None = None, follows: bool = True) -> Node | None:
        """The node of a path, for a function that takes no descriptor in its place."""
        return None if isinstance(path, int) else self.node(path, dir_fd, follows)

    def _found(self, name: str, shown: str) -> Node | None:
        below = self._below(self._without_dots(name, shown))
        if below is None:
            return None
        if len(os.fsencode(shown)) > TEXT_MAX:  # the kernel's own bound, before it looks up any name
            raise error(errno.ENAMETOOLONG, shown)
        node = below[0].locate(below[1], shown)
        node.is_folder = name.endswith(("/", "/."))
        node.last = "" if below[1] == "/" else node.path.rpartition("/")[2]
        last = name.rstrip("/").rpartition("/")[2]
        if last in (".", ".."):
            node.last = last
        return node

    def _without_dots(self, name: str, shown: str) -> str:
        """The absolute path without `..`. It leads up from a group that exists."""
        if "/.." not in name:
            return name
        at = ""
        for part in name.split("/"):
            if part == "..":
                below = self._below(at or "/")
                if below is not None:
                    below[0].enter(below[1], shown)
                at = at.rpartition("/")[0]
            elif part not in ("", "."):
                at += "/" + part
        return at or "/"

    # ---- files

    def open(
        self,
        file: Any,
        mode: str = "r",
        buffering: int = -1,
        encoding: Any = None,
        errors: Any = None,
        newline: Any = None,
        closefd: bool = True,
        opener: Any = None,
    ) -> Any:
        node = self.node(file)
        asks = opener is not None and not isinstance(file, int)
        if node is None:
            asked = self._asking(opener) if asks else opener
            try:
                return self.was["open"](file, mode, buffering, encoding, errors, newline, closefd, asked)
            except _IsServed as it:
                raw = self._over_served(it.args[0], os.fspath(file), mode)
                return _over(raw, mode, buffering, encoding, errors, newline)
        _check(mode, buffering, encoding, errors, newline)
        if not closefd and not isinstance(file, int):
            raise ValueError("Cannot use closefd=False with file name")
        if asks:
            fd = opener(os.fspath(file), _flags(mode))
            if not isinstance(fd, int):
                raise TypeError("expected integer from opener")
            if fd < 0:
                raise ValueError(f"opener returned {fd}")
            if self.descriptors.get(fd) is None:
                return self._over_real(fd, os.fspath(file), mode, buffering, encoding, errors, newline)
            raw = self._over_served(fd, os.fspath(file), mode)
        else:
            raw = self._file(file, node, mode, closefd)
        return _over(raw, mode, buffering, encoding, errors, newline)

    def _over_served(self, fd: int, name: Any, mode: str) -> Shared:
        """The file object without a buffer of a served descriptor, which an opener returned."""
        opened = self.descriptors.get(fd)
        if isinstance(opened, Node):
            self.descriptors.close(fd)
            raise error(errno.EISDIR if opened.file is None else errno.EBADF, name)
        return Shared(self.descriptors, fd, True, name, mode)

    def _over_real(self, fd: int, name: Any, *words: Any) -> Any:
        """The file object of a real descriptor, which an opener returned for a served name."""
        try:
            file = self.was["open"](fd, *words)
        except OSError as failure:
            if failure.filename == fd:
                failure.filename = name
            with contextlib.suppress(OSError):
                self.was["close"](fd)
            raise
        buffered = getattr(file, "buffer", file)
        getattr(buffered, "raw", buffered).name = name
        return file

    def _asking(self, opener: Callable[..., Any]) -> Callable[..., Any]:
        """The opener of a real file, which may return the descriptor of a served one."""

        def asked(path: Any, flags: int) -> Any:
            fd = opener(path, flags)
            if self.descriptors.get(fd) is not None:
                raise _IsServed(fd)
            return fd

        return asked

    def _file(self, file: Any, node: Node, mode: str, closefd: bool) -> Shared:
        if isinstance(file, int) and node.file is not None:
            return Shared(self.descriptors, file, closefd, file, mode)
        raw = node if isinstance(file, int) else self._opened(node, _flags(mode))
        if isinstance(raw, Node):
            raise error(errno.EISDIR, node.shown)
        return Shared(self.descriptors, self.descriptors.add(raw), True, os.fspath(file), mode)

    def _opened(self, node: Node, flags: int) -> Node | RawFile:
        node = _names.open_node(node, flags)
        node.only_named = bool(flags & os.O_PATH)
        if node.file is None or node.only_named:
            return node
        way = flags & os.O_ACCMODE  # a fourth one is for neither reading nor writing
        reads, writes = way in (os.O_RDONLY, os.O_RDWR), way in (os.O_WRONLY, os.O_RDWR)
        return RawFile(node, reads, writes, bool(flags & os.O_APPEND))

    def os_open(self, path: Any, flags: int, mode: int = 0o777, *, dir_fd: int | None = None) -> Any:
        try:
            node = self.named(path, dir_fd)
        except OSError as failure:
            _check_flags(flags, mode, dir_fd, failure.filename)
            raise
        if node is None:
            return self.was["os_open"](path, flags, mode, dir_fd=dir_fd)
        _check_flags(flags, mode, dir_fd, node.shown)
        return self.descriptors.add(self._opened(node, flags))

    # ---- descriptors, besides those of DescriptorCalls

    def fstat(self, fd: int) -> Any:
        node = self.node(fd) if isinstance(fd, int) else None
        return self.was["fstat"](fd) if node is None else node.stat()

    # ---- paths

    def stat(self, path: Any, *, dir_fd: int | None = None, follow_symlinks: bool = True) -> Any:
        alone = dir_fd is None and follow_symlinks  # as a descriptor has to be
        node = self.node(path, dir_fd, follow_symlinks) if alone or not isinstance(path, int) else None
        return self.was["stat"](path, dir_fd=dir_fd, follow_symlinks=follow_symlinks) if node is None else node.stat()

    def lstat(self, path: Any, *, dir_fd: int | None = None) -> Any:
        node = self.named(path, dir_fd, False)
        return self.was["lstat"](path, dir_fd=dir_fd) if node is None else node.stat()

    def access(self, path: Any, mode: int, *, dir_fd: int | None = None, **more: Any) -> Any:
        allowed: int | None = None
        with contextlib.suppress(OSError):
            node = self.named(path, dir_fd)
            if node is None:
                return self.was["access"](path, mode, dir_fd=dir_fd, **more)
            allowed = node.stat().st_mode >> 6 & 7
        if more or dir_fd is not None or not are_plain(mode):
            check_others("access", "", mode, dir_fd=dir_fd, **more)
        return allowed is not None and operator.index(mode) & ~(allowed | (6 if os.geteuid() == 0 else 0)) == 0

    def listdir(self, path: Any = ".") -> Any:
        node = self.node("." if path is None else path)
        if node is None:
            return self.was["listdir"](path)
        names = node.names()
        return list(_as(path, *names))

    def scandir(self, path: Any = ".") -> Any:
        node = self.node("." if path is None else path)
        if node is None:
            return self.was["scandir"](path)
        # of a descriptor an entry has only its name, as no path is known
        above = "" if isinstance(path, int) else os.fsdecode("." if path is None else path)
        entries = []
        for name in node.names():
            below = os.path.join(above, name)
            entries.append(
                _Entry(node.tree.locate(node.group.rstrip("/") + "/" + name, below), *_as(path, name, below))
            )
        return _Scan(entries)

    def mkdir(self, path: Any, mode: int = 0o777, *, dir_fd: int | None = None) -> Any:
        node = self.named(path, dir_fd, False)
        if node is None:
            return self.was["mkdir"](path, mode, dir_fd=dir_fd)
        check_others("mkdir", "", mode)
        _names.mkdir(node)

    def rmdir(self, path: Any, *, dir_fd: int | None = None) -> Any:
        node = self.named(path, dir_fd, False)
        if node is None:
            return self.was["rmdir"](path, dir_fd=dir_fd)
        _names.rmdir(node)

    def readlink(self, path: Any, *, dir_fd: int | None = None) -> Any:
        node = self.named(path, dir_fd, False)
        if node is None:
            linked = self.named(path, dir_fd)
            if linked is not None:
                return _as(path, self._at(linked.tree) + linked.path.rstrip("/"))[0]
            return self.was["readlink"](path, dir_fd=dir_fd)
        node.check()
        raise error(errno.EINVAL, node.shown)

    def truncate(self, path: Any, length: int) -> Any:
        if isinstance(path, int):
            return nameless(self.ftruncate, path, length)
        if _is_refused(length):  # before any name is looked up
            raise error(errno.EINVAL, os.fsdecode(path))
        node = self.node(path)
        if node is None:
            return self.was["truncate"](path, length)
        node.check()
        if node.file is None:
            raise error(errno.EISDIR, node.shown)
        if os.geteuid() != 0 and not node.file.writable:
            raise error(errno.EACCES, node.shown)

    def ftruncate(self, fd: int, length: int) -> Any:
        """The text of a file stays as it is, but the descriptor has to be one for writing."""
        opened = self.descriptors.get(fd)
        if opened is None:
            return self.was["ftruncate"](fd, length)
        is_refused = _is_refused(length)
        if not is_refused and isinstance(opened, Node) and opened.only_named:
            raise error(errno.EBADF, str(fd))
        if is_refused or isinstance(opened, Node) or not opened.writable():
            raise error(errno.EINVAL, str(fd))

    def other(self, name: str) -> Callable[..., Any]:
        """A function that a mount refuses, or that does nothing there."""

        def call(*words: Any, **more: Any) -> Any:
            given = [*words, *(more[key] for key in ("path", "fd") if key in more), None][0]
            if name in _OF_FILES and hasattr(given, "fileno"):
                given = given.fileno()
            is_wrong = name in _OF_DESCRIPTORS and not isinstance(given, int)
            node = None if is_wrong else self.node(given, more.get("dir_fd"), name not in _OF_LINKS)
            if node is None:
                return self.was[name](*words, **more)
            _check_others(name, given, words, more)
            if node.only_named and name not in _OF_WHAT_IS_NAMED:
                raise error(errno.EBADF, str(given))
            if name in _OF_A_NAME:
                kind = [*words[1:2], *(more[key] for key in ("mode",) if key in more)] if name == "mknod" else []
                return _OF_A_NAME[name](node, *kind)
            node.check()
            if name in _SYNCS and node.file is None:
                raise error(errno.EINVAL, str(given))
            if name in _REFUSED:
                raise error(_REFUSED[name], str(given) if isinstance(given, int) else os.fsdecode(given))
            return None

        return call

    def of_two_names(self, name: str) -> Callable[..., Any]:
        def call(
            src: Any, dst: Any, *, src_dir_fd: int | None = None, dst_dir_fd: int | None = None, **more: Any
        ) -> Any:
            node = self.named(src, src_dir_fd, False)
            if node is not None:  # before the other path is looked at
                node.check() if name == "link" else _names.enter_parent(node)

            def look_at_first() -> None:
                self.was["lstat"](src if name == "link" else os.path.dirname(src) or os.curdir, dir_fd=src_dir_fd)

            try:
                to = self.named(dst, dst_dir_fd, False)
            except OSError:
                if node is None:
                    look_at_first()
                raise
            if node is None and to is None:
                return self.was[name](src, dst, src_dir_fd=src_dir_fd, dst_dir_fd=dst_dir_fd, **more)
            if node is None:
                look_at_first()
            elif to is None:
                self.was["lstat"](os.path.dirname(dst) or os.curdir, dir_fd=dst_dir_fd)
            return _OF_TWO_NAMES[name](node, to)

        return call

    def symlink(self, src: Any, dst: Any, target_is_directory: bool = False, *, dir_fd: int | None = None) -> Any:
        """A link from elsewhere would not be followed."""
        node, text = self.named(dst, dir_fd, False), os.fsdecode(src)
        if node is None and self._covers(text):
            raise error(errno.EPERM, os.fsdecode(dst))
        if node is None:
            return self.was["symlink"](src, dst, target_is_directory, dir_fd=dir_fd)
        return _names.symlink(node)


def _check_others(name: str, given: Any, words: tuple[Any, ...], more: dict[str, Any]) -> None:
    """Raises what is wrong with the arguments besides the path or descriptor that is given."""
    none = NO_DESCRIPTOR if isinstance(given, int) else ""
    others = {key: none if key in ("path", "fd") else value for key, value in more.items()}
    check_others(name, *(none, *words[1:])[: len(words)], **others)


def _is_refused(length: int) -> bool:
    """Whether no file can be cut to that length. Raises what the real function raises for what is no length at all."""
    if not 0 <= operator.index(length) <= POSITION_MAX:
        check_others("ftruncate", NO_DESCRIPTOR, length)
        return True
    return False


def _check_flags(flags: int, mode: int, dir_fd: int | None, shown: Any) -> None:
    """Raises what the kernel says of the flags of an open before it looks at the path, which is not the empty one."""
    if dir_fd is None and are_plain(flags, mode) and flags & ~_USUAL_FLAGS == 0:
        return
    try:
        REAL["open"]("", flags, mode, dir_fd=dir_fd)
    except OSError as failure:
        if failure.errno == errno.EINVAL:
            raise error(errno.EINVAL, shown) from None


def _in_removed(base: Node, name: str, shown: str) -> Node:
    """What a path in a removed group names: only the group itself is there."""
    if not set(name.split("/")) <= {"", "."}:
        raise error(errno.ENOENT, shown)
    node = Node(base.tree, base.group, None, shown)
    node.last, node.gone = ".", True
    return node


def _number_of(name: str) -> int | None:
    """The descriptor of this process that such a path links to."""
    link = _LINK.fullmatch(name)
    is_own = link is not None and link["process"] in (None, "self", "thread-self", str(os.getpid()))
    return int(link["fd"]) if link is not None and is_own else None


def _as(given: Any, *names: str) -> tuple[Any, ...]:
    """The names as bytes, if what was given is bytes."""
    return tuple(os.fsencode(name) for name in names) if isinstance(given, bytes) else names


def _flags(mode: str) -> int:
    """Those with which open calls its opener."""
    way = os.O_RDWR if "+" in mode else os.O_RDONLY if "r" in mode else os.O_WRONLY
    made = {"r": 0, "w": os.O_CREAT | os.O_TRUNC, "a": os.O_CREAT | os.O_APPEND, "x": os.O_CREAT | os.O_EXCL}
    return os.O_CLOEXEC | way | made[(set(mode) & set(made)).pop()]


def _check(mode: str, buffering: int, encoding: Any, errors: Any, newline: Any) -> None:
    """What open checks before it opens anything."""
    operator.index(buffering)
    letters = set(mode)
    if letters - set("rwxabt+") or len(letters) < len(mode) or len(letters & set("rwxa")) != 1 or {"b", "t"} <= letters:
        raise ValueError(f"invalid mode: {mode!r}")
    binary = "b" in letters
    if binary and any(it is not None for it in (encoding, errors, newline)):
        raise ValueError("binary mode doesn't take an encoding, errors or newline argument")
    if buffering == 0 and not binary:
        raise ValueError("can't have unbuffered text I/O")


def _over(raw: Shared, mode: str, buffering: int, encoding: Any, errors: Any, newline: Any) -> Any:
    """What open returns over the file without a buffer, which is closed if that can't be made."""
    try:
        _check(mode, buffering, encoding, errors, newline)
        if buffering == 0:
            return raw
        kind = (
            io.BufferedRandom
            if raw.readable() and raw.writable()
            else io.BufferedReader
            if raw.readable()
            else io.BufferedWriter
        )
        buffered = kind(raw, buffering if buffering > 1 else io.DEFAULT_BUFFER_SIZE)
        if "b" in mode:
            return buffered
        text = io.TextIOWrapper(buffered, encoding, errors, newline, line_buffering=buffering == 1)
    except BaseException:
        raw.close()
        raise
    setattr(text, "mode", mode)
    return text


CALLS = Calls()
