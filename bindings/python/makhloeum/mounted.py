"""A hierarchy in the place of a cgroup directory, for tests of code that opens files:

    with makhloeum.mounted_at("/sys/fs/cgroup") as h:
        os.mkdir("/sys/fs/cgroup/a")
        pathlib.Path("/sys/fs/cgroup/a/pids.max").write_text("5")
        h.limit("/a")                         # 5

Within the block, open, the functions of os that take a path or a descriptor, and what is made of them (os.path, pathlib, glob,
shutil, os.walk) see the hierarchy at and below that path, with the files of a mount with --extra. Everything else is as before.
poll, select and epoll wait for POLLPRI of a cgroup.events, pids.events or pids.events.local, as on a mount.

It works by replacing these functions for the whole process, so it doesn't reach other processes, code in C that opens files itself,
or names that were imported by `from os import ..` before. Where the interpreter tells of such a call, it raises an OSError; so does
inotify. A symbolic link elsewhere that leads there isn't followed. Blocks may be nested, and may end in any order.
"""

from __future__ import annotations

import contextlib
import os
import sys
from typing import Iterator

from ._calls import CALLS
from ._tree import Tree
from ._words import _integer
from .hierarchy import Hierarchy


@contextlib.contextmanager
def mounted_at(
    path: str | os.PathLike[str] = "/sys/fs/cgroup", hierarchy: Hierarchy | None = None, *, pid: int = 1
) -> Iterator[Hierarchy]:
    """Shows the `hierarchy`, or a new one that is closed at the end, at and below the `path`. The caller is process `pid` of it: that
    process moves when 0 is written to cgroup.procs.

    Raises RuntimeError before Python 3.11, ValueError for the path / and for a number that is not a pid, and TypeError if the hierarchy
    is none. Within the block calls raise the OSError of a mount, and what a mount in memory can't do (inotify, a path given to code in C
    or to another process) raises an OSError that says so. Every call of a replaced function takes a little more time, below the path
    or not."""
    if sys.version_info < (3, 11):
        raise RuntimeError("mounted_at needs Python 3.11")
    at = "/" + os.path.normpath(os.path.abspath(os.fsdecode(path))).lstrip("/")
    if at == "/":
        raise ValueError("mounted_at: a hierarchy can't be mounted at /")
    pid = _integer(pid, "a pid")
    if not 0 < pid < 1 << 63:
        raise ValueError(f"mounted_at: {pid} is not a pid")
    if not isinstance(hierarchy, (Hierarchy, type(None))):
        raise TypeError(f"mounted_at: a Hierarchy or None, not {type(hierarchy).__name__}")
    h = Hierarchy() if hierarchy is None else hierarchy
    tree = Tree(h, pid)
    CALLS.mount(at, tree)
    try:
        yield h
    finally:
        try:
            if hierarchy is None:
                h.close()
            tree.watch.end()
        finally:
            CALLS.unmount(tree)
