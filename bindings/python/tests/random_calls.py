"""Random calls on the files of a hierarchy, which are played on a real mount and on `mounted_at`, and what each returns.

A call is a tuple: the name of a method of Player, and its arguments. Paths are relative to the place of the hierarchy; `held` are
descriptors that stay open between calls. What a call returns is a value that can be compared, or the name of an errno.
"""

from __future__ import annotations

import errno
import glob
import os
import pathlib
import random
import shutil
import stat
import subprocess
import tempfile
import time
from typing import Any, Callable, Iterator

from makhloeum import Hierarchy, mounted_at

MOUNT = pathlib.Path(__file__).parents[3] / "mount" / "out" / "makhloeum"
HELD = 3
Call = tuple[Any, ...]

GROUPS = ("a", "b", "a/b", "a/c.d", "b/e", "a/b/f")
FILES = (
    *("cgroup.procs", "cgroup.threads", "cgroup.events", "cgroup.stat", "cgroup.kill", "cgroup.freeze", "cgroup.type"),
    *("cgroup.controllers", "cgroup.subtree_control", "cgroup.max.depth", "cgroup.max.descendants", "cpu.stat"),
    *("pids.max", "pids.current", "pids.peak", "pids.events", "pids.events.local"),
)
ODD_NAMES = (
    "..",
    ".",
    "",
    "nowhere",
    "x" * 255,
    "x" * 256,
    "y" * 1000,
    "a b",
    "a\nb",
    "pids.x",
    "cgroup.x",
    "\x7f",
    "é",
)
VALUES = (
    b"0",
    b"1",
    b"2\n",
    b"max",
    b"-1",
    b"0x2",
    b"07",
    b"x",
    b"",
    b" 1 ",
    b"1\0x",
    b"99999999999999999999",
    b"+pids",
    b"domain",
    b"9" * 30,
)
FLAGS = (
    *(
        os.O_RDONLY,
        os.O_WRONLY,
        os.O_RDWR,
        os.O_RDONLY | os.O_DIRECTORY,
        os.O_WRONLY | os.O_TRUNC,
        os.O_RDONLY | os.O_TRUNC,
    ),
    *(
        os.O_RDWR | os.O_APPEND,
        os.O_WRONLY | os.O_CREAT,
        os.O_RDONLY | os.O_CREAT | os.O_EXCL,
        os.O_RDWR | os.O_CREAT | os.O_DIRECTORY,
    ),
    *(
        os.O_RDONLY | os.O_NOFOLLOW,
        os.O_RDWR | os.O_TMPFILE,
        os.O_RDONLY | os.O_PATH,
        os.O_RDONLY | os.O_DIRECT,
        os.O_RDWR | os.O_DIRECTORY,
        os.O_ACCMODE,
        os.O_ACCMODE | os.O_TMPFILE,
        os.O_RDONLY | os.O_TMPFILE,
        os.O_RDWR | os.O_TMPFILE & ~os.O_DIRECTORY,
    ),
)
OPEN_MODES = ("r", "w", "a", "x", "r+", "w+", "rb", "wb")


class Mode(str):
    """That of a stat, as drwxr-xr-x."""


def described(st: os.stat_result) -> tuple[Any, ...]:
    return Mode(stat.filemode(st.st_mode)), st.st_nlink, st.st_size, st.st_uid, st.st_gid


class Player:
    """Plays calls at a place. `engine` forks and exits there."""

    def __init__(self, at: str, engine: Callable[..., None]) -> None:
        self.at, self.engine = at, engine
        self.held: list[int | None] = [None] * HELD

    def play(self, call: Call) -> Any:
        name, *words = call
        try:
            return getattr(self, name)(*words)
        except OSError as error:
            return errno.errorcode[error.errno]

    def end(self) -> None:
        for fd in self.held:
            if fd is not None:
                os.close(fd)

    def _path(self, path: str) -> str:
        return f"{self.at}/{path}"

    # ---- groups and what is known of a path

    def mkdir(self, path: str, mode: int) -> None:
        os.mkdir(self._path(path), mode)

    def rmdir(self, path: str) -> None:
        os.rmdir(self._path(path))

    def makedirs(self, path: str) -> None:
        os.makedirs(self._path(path), exist_ok=True)

    def listdir(self, path: str) -> Any:
        return sorted(os.listdir(self._path(path)))

    def scandir(self, path: str) -> Any:
        with os.scandir(self._path(path)) as entries:
            return sorted((it.name, it.is_dir(), it.is_file(), it.is_symlink(), described(it.stat())) for it in entries)

    def entries(self, path: str) -> Any:
        with os.scandir(self._path(path)) as entries:
            return {isinstance(it, os.DirEntry) for it in entries}

    def stat(self, path: str) -> Any:
        return described(os.stat(self._path(path)))

    def lstat(self, path: str) -> Any:
        return described(os.lstat(self._path(path)))

    def access(self, path: str, mode: int) -> bool:
        return os.access(self._path(path), mode)

    def exists(self, path: str) -> Any:
        it = self._path(path)
        return pathlib.Path(it).exists(), os.path.isdir(it), os.path.isfile(it), os.path.islink(it), os.path.lexists(it)

    def globbed(self, path: str) -> Any:
        return sorted(it[len(self.at) :] for it in glob.glob(self._path(path) + "/*"))

    def walk(self, path: str) -> Any:
        return sorted(
            (at[len(self.at) :], sorted(folders), sorted(files)) for at, folders, files in os.walk(self._path(path))
        )

    # ---- files

    def read(self, path: str) -> Any:
        with open(self._path(path), "rb", buffering=0) as file:
            return file.read()

    def write(self, path: str, data: bytes) -> Any:
        with open(self._path(path), "wb", buffering=0) as file:
            return file.write(data)

    def opens(self, path: str, mode: str) -> Any:
        with open(self._path(path), mode) as file:
            return file.mode, file.readable(), file.writable()

    def flags(self, path: str, flags: int) -> Any:
        fd = os.open(self._path(path), flags)
        try:
            return described(os.fstat(fd))
        finally:
            os.close(fd)

    def truncate(self, path: str, size: int) -> None:
        os.truncate(self._path(path), size)

    def touch(self, path: str) -> None:
        pathlib.Path(self._path(path)).touch()

    # ---- what changes names and attributes

    def unlink(self, path: str) -> None:
        os.unlink(self._path(path))

    def rename(self, path: str, to: str) -> None:
        os.rename(self._path(path), self._path(to))

    def link(self, path: str, to: str) -> None:
        os.link(self._path(path), self._path(to))

    def symlink(self, path: str) -> None:
        os.symlink("a", self._path(path))

    def readlink(self, path: str) -> Any:
        return os.readlink(self._path(path))

    def mknod(self, path: str) -> None:
        os.mknod(self._path(path))

    def mkfifo(self, path: str) -> None:
        os.mkfifo(self._path(path))

    def chmod(self, path: str, mode: int) -> None:
        os.chmod(self._path(path), mode)

    def chown(self, path: str) -> None:
        os.chown(self._path(path), os.getuid(), os.getgid())

    def utime(self, path: str) -> None:
        os.utime(self._path(path), (1, 2))

    def rmtree(self, path: str) -> None:
        shutil.rmtree(self._path(path))

    # ---- descriptors that stay open

    def hold(self, slot: int, path: str, flags: int) -> Any:
        fd = os.open(self._path(path), flags)
        self.close(slot)
        self.held[slot] = fd
        return "held"

    def close(self, slot: int) -> None:
        fd, self.held[slot] = self.held[slot], None
        if fd is not None:
            os.close(fd)

    def by(self, slot: int, name: str, *words: Any) -> Any:
        """A call of os by a descriptor."""
        fd = self.held[slot]
        if fd is None:
            return "none"
        result = getattr(os, name)(fd, *words)
        return (
            described(result) if isinstance(result, os.stat_result) else sorted(result) if name == "listdir" else result
        )

    def below(self, slot: int, name: str, *words: Any) -> Any:
        """A call of os with a path below an open group."""
        fd = self.held[slot]
        if fd is None:
            return "none"
        result = getattr(os, name)(*words, dir_fd=fd)
        if name == "open":
            os.close(result)
        return described(result) if isinstance(result, os.stat_result) else name == "open" or result

    # ---- processes

    def fork(self, parent: int, child: int) -> None:
        self.engine("fork", parent, child)

    def exit(self, pid: int) -> None:
        self.engine("exit", pid)


class Drawing:
    """Calls, drawn with one seed."""

    def __init__(self, seed: int) -> None:
        self.random = random.Random(seed)

    def path(self) -> str:
        """It doesn't lead above the place of the hierarchy, where calls would change other files."""
        while True:
            path = self._any_path()
            if not os.path.normpath(path).startswith(".."):
                return path

    def _any_path(self) -> str:
        pick = self.random
        if pick.random() < 0.02:
            return "a/" * pick.choice((33, 2048, 2060)) + "b"
        names = [] if pick.random() < 0.2 else pick.choice(GROUPS).split("/")
        if pick.random() < 0.45:
            names.append(pick.choice(FILES))
        while pick.random() < 0.22:
            names.insert(pick.randrange(len(names) + 1), pick.choice(ODD_NAMES))
        return "/".join(names) + "/" * (pick.random() < 0.06)

    def group(self) -> str:
        return self.path() if self.random.random() < 0.3 else self.random.choice(GROUPS)

    def file(self) -> str:
        return (
            self.path() if self.random.random() < 0.3 else f"{self.random.choice(GROUPS)}/{self.random.choice(FILES)}"
        )

    def value(self) -> bytes:
        return self.random.choice(VALUES)

    def call(self) -> Call:
        pick = self.random
        slot, mode = pick.randrange(HELD), pick.choice((0o755, 0o700, 0o777, 0o1777, 0))
        relative = pick.choice(("a", "b", "f", "pids.max", "cgroup.procs", "..", "../a", ".", "", "nowhere/../b"))
        by: list[tuple[Any, ...]] = [
            *(
                ("read", 5),
                ("read", 100),
                ("pread", 9, 2),
                ("pread", 9, 0),
                ("write", self.value()),
                ("pwrite", self.value(), 3),
            ),
            *(("lseek", 0, 0), ("lseek", 2, 1), ("lseek", -1, 0), ("lseek", 0, 2), ("ftruncate", 1), ("ftruncate", -1)),
            *(("fstat",), ("stat",), ("listdir",), ("fsync",), ("truncate", 1), ("fchmod", 0o644), ("utime",)),
            *(("lseek", pick.randrange(6), whence) for whence in (os.SEEK_DATA, os.SEEK_HOLE)),
            *(("pwritev", [self.value(), b""], offset) for offset in (-2, -1, 0)),
            *(("preadv", [bytearray(2), bytearray(2)], offset) for offset in (-2, -1, 0)),
            *(("readv", [bytearray(1)] * count) for count in (0, 3, 1025)),
        ]
        below: list[tuple[Any, ...]] = [
            *(("mkdir", relative), ("rmdir", relative), ("stat", relative), ("open", relative, os.O_RDONLY)),
            *(("open", relative, os.O_WRONLY), ("unlink", relative), ("access", relative, 4)),
        ]
        calls: list[tuple[int, Callable[[], Call]]] = [
            (14, lambda: ("mkdir", self.group(), mode)),
            (6, lambda: ("rmdir", self.group())),
            (1, lambda: ("makedirs", pick.choice(GROUPS))),
            (4, lambda: ("listdir", self.path())),
            (2, lambda: ("scandir", self.path())),
            (1, lambda: ("entries", self.path())),
            (6, lambda: ("stat", self.path())),
            (2, lambda: ("lstat", self.path())),
            (4, lambda: ("access", self.path(), pick.randrange(8))),
            (3, lambda: ("exists", self.path())),
            (1, lambda: ("globbed", self.group())),
            (1, lambda: ("walk", self.group())),
            (10, lambda: ("read", self.file())),
            (16, lambda: ("write", self.file(), self.value())),
            (3, lambda: ("opens", self.file(), pick.choice(OPEN_MODES))),
            (6, lambda: ("flags", self.file(), pick.choice(FLAGS))),
            (3, lambda: ("truncate", self.path(), pick.choice((0, 3, -1)))),
            (2, lambda: ("touch", self.path())),
            (3, lambda: ("unlink", self.path())),
            (3, lambda: ("rename", self.path(), self.path())),
            (1, lambda: ("link", self.path(), self.path())),
            (1, lambda: ("symlink", self.path())),
            (1, lambda: ("readlink", self.path())),
            (1, lambda: ("mknod", self.path())),
            (1, lambda: ("mkfifo", self.path())),
            (2, lambda: ("chmod", self.path(), mode)),
            (1, lambda: ("chown", self.path())),
            (2, lambda: ("utime", self.path())),
            (1, lambda: ("rmtree", self.group())),
            (6, lambda: ("hold", slot, self.file(), pick.choice((os.O_RDONLY, os.O_RDWR, os.O_WRONLY)))),
            (1, lambda: ("hold", slot, self.file(), pick.choice((os.O_ACCMODE, os.O_PATH)))),
            (3, lambda: ("hold", slot, self.group(), pick.choice((os.O_RDONLY, os.O_RDONLY, os.O_PATH)))),
            (1, lambda: ("close", slot)),
            (14, lambda: ("by", slot, *pick.choice(by))),
            (6, lambda: ("below", slot, *pick.choice(below))),
            (6, lambda: ("fork", pick.choice((1, 2, 3, 9)), pick.randrange(2, 9))),
            (2, lambda: ("exit", pick.randrange(2, 9))),
        ]
        weights, makers = zip(*calls)
        return pick.choices(makers, weights)[0]()


class RealMount:
    """`makhloeum mount --extra` at a place of its own."""

    def __enter__(self) -> str:
        self._home = tempfile.mkdtemp()
        self.at = os.path.join(self._home, "at")
        os.mkdir(self.at)
        words = [str(MOUNT), "mount", self.at, "--extra", "--foreground"]
        self._server = subprocess.Popen(words, stderr=subprocess.DEVNULL)
        while not os.path.ismount(self.at):
            if self._server.poll() is not None:
                raise OSError(errno.ENODEV, "no mount")
            time.sleep(0.001)
        return self.at

    def __exit__(self, *exception: object) -> None:
        self._server.terminate()
        self._server.wait()
        shutil.rmtree(self._home)

    def engine(self, command: str, *pids: int) -> None:
        with open(f"{self.at}/.makhloeum/{command}", "wb", buffering=0) as file:
            file.write(" ".join(map(str, pids)).encode())


def results(calls: list[Call]) -> Iterator[tuple[Any, Any]]:
    """What each call returns on a real mount, and in memory."""
    mount = RealMount()
    with mount as at, Hierarchy() as h, tempfile.TemporaryDirectory() as home:
        place = os.path.join(home, "at")  # has as many names as that of the mount
        os.mkdir(place)
        mount.engine("fork", 1, os.getpid())
        h.fork(1, os.getpid())
        with mounted_at(place, h, pid=os.getpid()):
            real, memory = Player(at, mount.engine), Player(place, lambda name, *pids: getattr(h, name)(*pids))
            try:
                for call in calls:
                    yield real.play(call), memory.play(call)
            finally:
                real.end()
                memory.end()


# ---- what may differ


def _modes_changed(calls: list[Call]) -> bool:
    return any(
        call[0] == "chmod" or call[:3:2] == ("by", "fchmod") or (call[0] == "mkdir" and call[2] != 0o755)
        for call in calls
    )


def _without_modes(result: Any) -> Any:
    if isinstance(result, (tuple, list)):
        return [_without_modes(part) for part in result]
    return result[0] if isinstance(result, Mode) else result


def _only_modes(calls: list[Call], real: Any, memory: Any) -> bool:
    return _modes_changed(calls) and _without_modes(real) == _without_modes(memory)


def _begins_elsewhere(calls: list[Call], real: Any, memory: Any) -> bool:
    return calls[-1][:3:2] == ("by", "listdir") and set(real) < set(memory)


def _leads_out_by_a_descriptor(calls: list[Call], real: Any, memory: Any) -> bool:
    return calls[-1][0] == "below" and calls[-1][3].startswith("..") and memory == "ENOTDIR"


def _entries_of_another_type(calls: list[Call], real: Any, memory: Any) -> bool:
    return calls[-1][0] == "entries" and (real, memory) == ({True}, {False})


MAY_DIFFER: dict[str, Callable[[list[Call], Any, Any], bool]] = {
    "mounted_at shows no mode, owner or time that a program sets: an engine has none": _only_modes,
    "a listing by a descriptor has all names, wherever it was sought: the places of names are a file system's own": _begins_elsewhere,
    "`..` of the descriptor of the place names nothing: the descriptor is only a number": _leads_out_by_a_descriptor,
    "the entries of os.scandir are no os.DirEntry, which nobody but os can make": _entries_of_another_type,
}


def may_differ(calls: list[Call], real: Any, memory: Any) -> bool:
    """Whether the last call may have these results."""
    return any(row(calls, real, memory) for row in MAY_DIFFER.values())


def shortened(calls: list[Call], differs: Callable[[list[Call]], bool]) -> list[Call]:
    """The calls without those that aren't needed for the last one to differ."""
    size = len(calls) // 2
    while size:
        at = 0
        while at < len(calls) - 1:
            fewer = calls[:at] + calls[min(at + size, len(calls) - 1) :]
            if differs(fewer):
                calls = fewer
            else:
                at += size
        size //= 2
    return calls
