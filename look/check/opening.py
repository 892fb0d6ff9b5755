"""Whether a directory is one that can be checked, and how it can be used."""

from __future__ import annotations

import ctypes
import errno
import os
import socket
from typing import Any

from .._table import FILES
from .directory import CGROUP2_MAGIC, FUSE_MAGIC, file_read, file_write, remove_groups
from .processes import LIMIT, Process

# What a check needs in a new group. Any other file may be missing there, and is then not compared.
NEEDED = (
    "cgroup.procs",
    "cgroup.events",
    "cgroup.stat",
    "cgroup.max.descendants",
    "cgroup.max.depth",
    "cgroup.kill",
    "pids.max",
    "pids.current",
    "pids.events",
)
MAY_BE_MISSING = tuple(file.name for file in FILES if file.name not in NEEDED)
ROOM = 64  # processes and groups that a sequence may have


class Unusable(Exception):
    """The sentence that says why the directory cannot be checked."""


def file_system(path: str) -> str:
    """cgroup2, fuse, or another."""
    room = ctypes.create_string_buffer(256)
    if ctypes.CDLL(None).statfs(os.fsencode(path), room) != 0:
        return "unknown"
    magic = ctypes.c_long.from_buffer(room).value
    return {CGROUP2_MAGIC: "cgroup2", FUSE_MAGIC: "fuse"}.get(magic, "another")


def _file(*steps: str) -> str:
    return os.path.join(*steps)


def _look(directory: str) -> None:
    """Refuses a path that is not a directory of a hierarchy, and a directory without the controller."""
    if not os.path.isdir(directory):
        os.stat(directory)
        raise Unusable("it is not a directory")
    if not os.path.exists(_file(directory, "cgroup.procs")):
        raise Unusable("it is not a cgroup2 directory: it has no cgroup.procs")
    if os.path.exists(_file(directory, "tasks")):
        raise Unusable("it is a cgroup v1 hierarchy")
    controllers = _file(directory, "cgroup.controllers")
    if os.path.exists(controllers) and "pids" not in file_read(controllers).split():
        raise Unusable("the pids controller is missing: it is not in cgroup.controllers")
    control = _file(directory, "cgroup.subtree_control")
    if os.path.exists(control) and "pids" not in file_read(control).split():
        raise Unusable("the pids controller is off for the groups below it: write +pids to its cgroup.subtree_control")


def _room(directory: str) -> None:
    """Refuses a directory whose own limits could refuse operations of the check."""
    for name, used, wanted in (
        ("pids.max", "pids.current", ROOM),
        ("cgroup.max.descendants", "", 4 * ROOM),
        ("cgroup.max.depth", "", 12),
    ):
        if os.path.exists(_file(directory, name)):
            limit = file_read(_file(directory, name)).strip()
            taken = int(file_read(_file(directory, used))) if used else 0
            if limit.isdecimal() and int(limit) - taken < wanted:
                raise Unusable(f"its {name} leaves too little room: a check needs {wanted}")


def _make(directory: str, name: str) -> str:
    own = _file(directory, name)
    try:
        os.mkdir(own)
    except OSError as no:
        if no.errno in (errno.EACCES, errno.EROFS, errno.EPERM):
            raise Unusable(f"it is not writable: {no.strerror}") from None
        raise
    return own


def _files(own: str) -> list[str]:
    """The files that are missing in a new group."""
    missing = [name for name in NEEDED if not os.path.exists(_file(own, name))]
    if any(name.startswith("pids.") for name in missing):
        raise Unusable("the pids controller is missing: a new group has no " + missing[-1])
    if missing:
        raise Unusable(f"it is not a whole cgroup2 hierarchy: a new group has no {missing[0]}")
    return [name for name in MAY_BE_MISSING if not os.path.exists(_file(own, name))]


def _is_free(own: str, keep: list[socket.socket], limit: float) -> bool:
    """Whether a group with children may hold processes."""
    groups = [_file(own, "inner"), _file(own, "inner", "leaf")]
    controlled = os.path.exists(_file(own, "cgroup.subtree_control"))
    processes: list[Process] = []
    try:
        for at, group in zip((own, groups[0]), groups):
            if controlled:
                file_write(_file(at, "cgroup.subtree_control"), "+pids")
            os.mkdir(group)
        for group in groups:
            processes.append(Process.first(keep, limit))
            try:
                file_write(_file(group, "cgroup.procs"), str(processes[-1].pid))
            except OSError as no:
                if no.errno in (errno.EBUSY, errno.EOPNOTSUPP):
                    return False
                raise Unusable(f"a process cannot be moved into it: {no.strerror}") from None
        return True
    finally:
        for process in processes:
            process.slay()
        remove_groups(groups[0], 2)


def open_directory(directory: str, name: str, keep: list[socket.socket], limit: float = LIMIT) -> dict[str, Any]:
    """Makes the check's own group in the directory. `fault` is the sentence that says why it cannot."""
    own = ""
    try:
        _look(directory)
        _room(directory)
        own = _make(directory, name)
        missing = _files(own)
        ways = ["free"] if _is_free(own, keep, limit) else ["D", "N", "T"]
        return {"own": own, "missing": missing, "ways": ways, "kind": file_system(directory)}
    except (OSError, Unusable) as no:
        if own:
            remove_groups(own, 2)
        fault = str(no) if isinstance(no, Unusable) else (no.strerror or str(no))
        return {"fault": fault}
