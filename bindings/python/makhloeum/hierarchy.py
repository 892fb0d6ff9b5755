"""A cgroup hierarchy in memory."""

from __future__ import annotations

import ctypes
import re
import struct
import warnings
from typing import Any, Callable, NoReturn

from ._changes import Changes
from ._fault_injection import Faults
from ._library import (
    ANSWER_MAX,
    CLOSED,
    DONE,
    NO_LIMIT,
    REFUSED,
    SKIPPED,
    TOO_SMALL,
    WOULD_BLOCK,
    Handle,
    Info,
    library,
    patient,
)
from ._many import Many
from ._words import (
    _FIRST_SIZE,
    Path,
    Value,
    _bytes,
    _c_text,
    _integer,
    _number,
    _path_word,
    _pid,
    _raise,
    _reply,
    _shown,
    _text,
    _value,
)
from .errors import BadSyntax, NoGroup, Refused

# What a command names that may take long: a list of pids, a kill, and the undo of one.
_LONG = (b"cgroup.procs", b"cgroup.kill")
_long_line = re.compile(rb"cgroup\.(procs|kill)|undo").search

# Packs the lengths of words as C has them, by how many there are.
_LENS = tuple(struct.Struct(f"{count}N").pack for count in range(5))


class Hierarchy(Changes, Faults, Many):
    """A hierarchy of groups: at first only the root, and process 1 in it.

    A context manager, once: its end frees the engine. Threads may share a hierarchy: commands take effect one after the other.

    - A path is a text as '/' or '/a/b', of at most 4,095 bytes and 32 names. A pid is a number from 1 to 4,194,303.
    - A command that is refused raises a `Refused`, an OSError with the kernel's errno: BadPath for a text that is not a path, NoGroup
      for a group that doesn't exist, and those that its method names. Nothing has changed then. Every call raises MemoryError when out
      of memory, ValueError once the hierarchy is closed, TypeError for an argument of a wrong type, and RuntimeError in a signal
      handler that interrupted a call of the same thread.
    - A call with a path takes time for each name of the path. A method says what else it takes time for; the others take constant time.
    """

    _handle: Handle
    _entered = False

    def __init__(self) -> None:
        if hasattr(self, "_handle"):
            raise RuntimeError("a hierarchy is initialized once")
        self._begin(library.mk_open, "open")

    def _begin(self, fill: Callable[[Any], int], operation: str) -> None:
        """Takes the engine that a call fills a handle with, and a second handle, whose calls don't wait for other threads."""
        handle, quick = Handle(), Handle()
        self._at, self._quick = ctypes.byref(handle), ctypes.byref(quick)
        status = fill(self._at)
        if status != DONE:
            _raise(status, operation)
        library.mk_nonblocking(self._at, self._quick)
        self._handle, self._closed = handle, False

    def __enter__(self) -> Hierarchy:
        if self._closed:
            raise ValueError("the hierarchy is closed")
        if self._entered:
            raise RuntimeError("a hierarchy is entered once")
        self._entered = True
        return self

    def __exit__(self, *exception: object) -> None:
        self.close()

    # Defaults are bound now: at the interpreter's end the module's names may be gone.
    def __del__(self, _warn: Any = warnings.warn, _close: Any = library.mk_close) -> None:
        if getattr(self, "_closed", True):
            return
        try:
            _warn(f"unclosed {self!r}", ResourceWarning, source=self)
        finally:  # the warning may be an error
            _close(self._at)

    def copy(self) -> Hierarchy:
        """A new hierarchy with the same groups, processes, counts and recorded commands. From then on the two are
        independent. The copy has no faults of `fail` and `vanish`, its `changes()` begins at 0, and it has to be closed
        like any other. `copy.copy` and `copy.deepcopy` return the same. A copy of a subclass is a plain `Hierarchy`.

        Takes time and memory for each group, process and recorded command."""
        made = Hierarchy.__new__(Hierarchy)
        made._begin(lambda at: int(library.mk_copy(self._at, at)), "copy")
        return made

    def __copy__(self) -> Hierarchy:
        return self.copy()

    def __deepcopy__(self, memo: object) -> Hierarchy:
        return self.copy()

    def __reduce_ex__(self, protocol: object) -> NoReturn:
        raise TypeError("a hierarchy cannot be pickled")

    def close(self) -> None:
        """Waits for a call of another thread, and frees the engine. A second call does nothing. Takes time for each group, process
        and recorded command."""
        status = library.mk_close(self._at)
        if status not in (DONE, CLOSED):
            _raise(status, "close")
        self._closed = True

    @property
    def closed(self) -> bool:
        """Whether `close` was called."""
        return self._closed

    def _call(self, name: str, *words: Any) -> int:
        """The status of a short call. It keeps the interpreter's lock, unless it has to wait for another thread's call."""
        status = getattr(library, name)(self._quick, *words)
        if status == WOULD_BLOCK:  # a call of another thread is running
            status = getattr(patient, name)(self._at, *words)
        return int(status)

    def _count(self, name: str, count: Any) -> int:
        """A number of the whole hierarchy, which a call puts into `count`."""
        status = self._call(f"mk_{name}", ctypes.byref(count))
        if status != DONE:
            _raise(status, name)
        return int(count.value)

    def _either(self, is_long: bool, name: str, *words: Any) -> int:
        return int(getattr(patient, name)(self._at, *words)) if is_long else self._call(name, *words)

    def _told(
        self,
        name: str,
        given: tuple[Any, ...],
        command: str | bytes,
        path: Path | None = None,
        is_long: bool = False,
        size: int = _FIRST_SIZE,
    ) -> bytes:
        """The bytes that a call returns. Another thread may make the answer longer between two calls, so the buffer may grow more
        than once, but not beyond the longest answer. `size` is that of the first buffer."""
        calls, handle = (patient, self._at) if is_long else (library, self._quick)
        while True:
            buffer: Any = (ctypes.c_char * size)()
            info = Info()
            words = (*given, buffer, size, ctypes.byref(info))
            status = getattr(calls, name)(handle, *words)
            if status == WOULD_BLOCK:
                status = getattr(patient, name)(self._at, *words)
            if status == DONE or status == SKIPPED:
                return bytes(buffer[: info.len])
            if status != TOO_SMALL or size > ANSWER_MAX:
                break
            size = 1 << max(info.needed - 1, size).bit_length()
        told = buffer[: info.len].decode().rstrip("\n").split(" ", 2)
        # of a line the path that is refused is that in it
        refused = _path_word(command) if isinstance(command, bytes) else None
        _raise(status, _text(command), path, info, told[2] if len(told) > 2 else "", refused)

    def _asked(self, words: tuple[bytes, ...], command: str, path: Path | None = None) -> str:
        """The text that a command of words shows."""
        count = len(words)
        is_long = count > 2 and words[2] in _LONG and (words[0] == b"cat" or words[2] == b"cgroup.kill")
        given = (1, b"".join(words), _LENS[count](*map(len, words)), count)
        return _shown(self._told("mk_words", given, command, path, is_long))

    def line(self, line: str | bytes, path: Path | None = None) -> str:
        """Answers one `line` of the trace language, as 'cat /a pids.current', and returns the text that it shows: the file's
        for a `cat` and a `where`, the undone command for an `undo`, else ''. A comment and an empty line show nothing.
        `path` is the `filename` of an error. If it is given, a BadPath is as from `mkdir` and the like: its class, `fault`,
        `position` and `reply` say what is wrong with the path in the line.

        Raises what the method of the command does, and BadSyntax if the line is not a command or has more than 8,192 bytes. Takes time
        for each byte of the line, and for what the command does."""
        text = _bytes(line)
        if b"\n" in text:
            raise BadSyntax("syntax", None if path is None else _text(path), _text(text))
        is_long = _long_line(text) is not None
        return _shown(self._told("mk_line", (1, text, len(text)), text, path, is_long))

    def _answer_of(self, line: bytes, size: int) -> bytes:
        """The whole answer to a line that lists many processes; `size` is a guess at its length."""
        return self._told("mk_line", (1, line, len(line)), line, None, True, size)

    def mkdir(self, path: Path) -> None:
        """Makes the group `path`. Raises Exists, NoGroup if there is no parent, Descendants or Depth if a limit is reached, and NoSlot
        beyond 1,024 groups. Moves 16 bytes for each group with the same parent."""
        self._asked((b"mkdir", _bytes(path)), f"mkdir {_text(path)}", path)

    def rmdir(self, path: Path) -> None:
        """Removes the group `path`, which has neither children nor processes. Raises RootFixed, NoGroup, HasChildren or HasProcesses;
        all but NoGroup are Busy. Moves 16 bytes for each group with the same parent."""
        self._asked((b"rmdir", _bytes(path)), f"rmdir {_text(path)}", path)

    def fork(self, parent: int, child: int) -> None:
        """The process `parent` forks `child`, which starts in its group: pids. Raises NoProcess if there is no parent, PidInUse, PidsMax
        if a limit is reached, and BadValue for a number that is not a pid. PidsMax is counted in pids.events, and recorded.
        """
        self._asked((b"fork", _pid(parent), _pid(child)), f"fork {_number(parent)} {_number(child)}")

    def exit(self, pid: int) -> None:
        """The process `pid` exits and is reaped. Raises NoProcess, and BadValue for a number that is not a pid."""
        self._asked((b"exit", _pid(pid)), f"exit {_number(pid)}")

    def read(self, path: Path, file: str | bytes) -> str:
        """The text of the `file` of the group at `path`, as '1\\n' of pids.current. Raises NoGroup, BadFile if no group has such a file,
        NoFile if the root has none, and BadDirection for cgroup.kill. cgroup.procs takes time for each process of the group.
        """
        return self._asked((b"cat", _bytes(path), _bytes(file)), f"read {_text(path)} {_text(file)}", path)

    def write(self, path: Path, file: str | bytes, value: Value) -> None:
        """Writes `value`, an int or a text, to the `file` of the group at `path`: a pid to cgroup.procs, a limit or 'max' to pids.max,
        cgroup.max.depth or cgroup.max.descendants, 1 to cgroup.kill. Raises NoGroup, BadFile, NoFile if the root has no such file,
        BadDirection if it can't be written, BadValue if the value is not a number or out of range, and NoProcess. A kill takes time for
        each process that it ends."""
        words = (b"write", _bytes(path), _bytes(file), _value(value))
        self._asked(words, f"write {_text(path)} {_text(file)} {_text(value)}", path)

    def where(self, pid: int) -> str:
        """The text of /proc/PID/cgroup of the process `pid`, as '0::/a\\n'. Raises NoProcess, and BadValue for a number that is not a
        pid."""
        return self._asked((b"where", _pid(pid)), f"where {_number(pid)}")

    def undo(self) -> str:
        """Undoes the newest recorded command, and returns its text, as 'mkdir /a'. Raises NothingToUndo. Takes as much time as the
        command: that of a kill for each process that it ended."""
        return _shown(self._told("mk_undo", (1,), "undo")).rstrip("\n")

    def depth(self) -> int:
        """How many recorded commands can be undone."""
        return self._count("depth", ctypes.c_size_t())

    def forget(self) -> None:
        """Forgets the recorded commands and frees their memory: groups, processes and counts stay, and nothing earlier can
        be undone. Takes time for each recorded command, and no memory."""
        status = library.mk_forget(self._at)
        if status != DONE:
            _raise(status, "forget")

    def _listed(self, name: str, operation: str, path: Path) -> list[str]:
        text = _bytes(path)
        try:
            told = self._told(name, (text, len(text)), f"{operation} {_text(path)}", path)
        except NoGroup as refused:
            refused.reply = f"nogroup {_text(path)}"
            raise
        return told.decode().split("\0")[:-1]

    def children(self, path: Path) -> list[str]:
        """The names of the groups one name below the group at `path`, in the order of their bytes. Raises NoGroup. Takes time for each
        of them."""
        return self._listed("mk_children", "children", path)

    def groups(self, path: Path = "/") -> list[str]:
        """The paths of the group at `path` and of all below it, each before those below it. Raises NoGroup. Takes time for each group,
        with each name of its path."""
        return self._listed("mk_subtree", "groups", path)

    def _number(self, operation: str, value: Any, path: Path) -> Any:
        """What a call reads of a group."""
        info = Info()
        status = self._call(f"mk_{operation}", _c_text(path), ctypes.byref(value), ctypes.byref(info))
        if status != DONE:
            self._refuse(status, info, f"{operation} {_text(path)}", path)
        return value.value

    def _refuse(self, status: int, info: Any, operation: str, path: Path) -> NoReturn:
        _raise(status, operation, path, info, _reply(info.code, path))

    def current(self, path: Path) -> int:
        """pids.current: the number of processes of the group at `path` and of the groups below it. Raises NoGroup, and NoFile for the
        root."""
        return int(self._number("current", ctypes.c_uint64(), path))

    def peak(self, path: Path) -> int:
        """pids.peak: the largest pids.current of the group at `path` so far. Raises NoGroup, and NoFile for the root."""
        return int(self._number("peak", ctypes.c_uint64(), path))

    def limit(self, path: Path) -> int | None:
        """pids.max of the group at `path`, a number of processes; None if there is no limit. Raises NoGroup, and NoFile for the root."""
        value = int(self._number("limit", ctypes.c_uint64(), path))
        return None if value == NO_LIMIT else value

    def populated(self, path: Path) -> bool:
        """Whether the group at `path` or a group below it has a process. Raises NoGroup, and NoFile for the root."""
        return bool(self._number("populated", ctypes.c_bool(), path))

    def processes(self, path: Path) -> list[int]:
        """The pids of the group at `path` itself, ascending. Raises NoGroup. Takes time for each of them."""
        word, room = _c_text(path), 64
        while True:
            pids, info = (ctypes.c_uint32 * room)(), Info()
            status = library.mk_processes(self._at, word, pids, room, ctypes.byref(info))
            if status == DONE:
                return pids[: info.count]
            if status != TOO_SMALL:
                self._refuse(status, info, f"processes {_text(path)}", path)
            room = 1 << (info.needed - 1).bit_length()

    def mark(self) -> int:
        """A mark for undo_to: the number of recorded commands, as `depth` returns it."""
        return self.depth()

    def undo_to(self, mark: int) -> int:
        """Undoes the commands that were recorded since the `mark`, and returns how many. No other thread's command comes in
        between. Raises NothingToUndo if fewer commands are left than at the mark, and ValueError if it is negative. With MemoryError
        the commands that were undone so far stay undone, and `depth()` says how many are left. Takes time for each of them.
        """
        info = Info()
        mark = _integer(mark, "a mark")
        if mark < 0:
            raise ValueError("a mark is not negative")
        # a larger number would be cut to a smaller one
        status = library.mk_undo_to(self._at, min(mark, (1 << 64) - 1), ctypes.byref(info))
        if status != DONE:
            _raise(status, f"undo to {_number(mark)}", None, info, "nothing")
        return int(info.count)

    def reset(self) -> int:
        """Undoes all recorded commands, and returns how many. With MemoryError some stay undone, as with `undo_to`. Takes time for each
        of them."""
        return self.undo_to(0)

    def has_group(self, path: Path) -> bool:
        """Whether there is a group at `path`. Raises BadPath if the text is not a path."""
        text, info = _bytes(path), Info()
        status = self._call("mk_has_group", text, len(text), ctypes.byref(info))
        if status == REFUSED:  # there is no other reason
            return False
        if status != DONE:
            self._refuse(status, info, f"has_group {_text(path)}", path)
        return True


__all__ = ["Hierarchy", "Path", "Value", "Refused"]
