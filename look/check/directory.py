"""The groups of a check in the directory: what each command of the trace language does there.

Below the directory is one group of the check's own. In it each sequence has two: `top` stands for the root of the engine, and
`home` holds the root's processes, since a kernel has no processes in a group that distributes a controller. A `way` says how
the directory is used (evidence/README.md):

    free    groups with children hold processes, and each group has the files of the pids controller
    D       the pids controller is on in each group that has children, and only leaves hold processes
    N       the pids controller is off
    T       threaded groups: inner ones hold processes
"""

from __future__ import annotations

import errno
import os
import socket
import time
from typing import Callable

from .._table import PID_MAX
from .engine import FILES, listing
from .processes import LIMIT, Process, is_alive, wait_for_end
from .watching import Watch

CGROUP2_MAGIC, FUSE_MAGIC = 0x63677270, 0x65735546
NO_PID = PID_MAX


def file_read(path: str) -> str:
    descriptor = os.open(path, os.O_RDONLY | os.O_CLOEXEC)
    try:
        return read_whole(descriptor)
    finally:
        os.close(descriptor)


def read_whole(descriptor: int) -> str:
    """The text of an open file from its beginning."""
    found = b""
    while True:
        more = os.pread(descriptor, 65536, len(found))
        if not more:
            return found.decode("latin1")
        found += more


def file_write(path: str, text: str) -> None:
    """One write, as a shell's redirection makes it."""
    descriptor = os.open(path, os.O_WRONLY | os.O_TRUNC | os.O_CLOEXEC)
    try:
        os.write(descriptor, text.encode("latin1"))
    finally:
        os.close(descriptor)


def remove_groups(path: str, seconds: float) -> list[str]:
    """Removes a group and those below it; the paths that are left. A group may be busy while its processes end."""
    end = time.monotonic() + seconds
    while True:
        left = _remove_once(path)
        if not left or time.monotonic() > end:
            return left
        time.sleep(0.02)


def _remove_once(path: str) -> list[str]:
    try:
        # what is a file by its name is not asked for its type, which some file systems do not list
        entries = [entry for entry in os.scandir(path) if not entry.name.startswith(("cgroup.", "pids."))]
        below = [entry.path for entry in entries if entry.is_dir(follow_symlinks=False)]
    except FileNotFoundError:
        return []
    left = [group for child in below for group in _remove_once(child)]
    try:
        os.rmdir(path)
    except FileNotFoundError:
        return left
    except OSError:
        return [*left, path]
    return left


class Groups:
    """The groups and processes of one sequence. `patience` is how many seconds a change and a kill may take, `limit` those after
    which an operation hangs."""

    def __init__(
        self, own: str, number: int, way: str, patience: float, keep: list[socket.socket], limit: float = LIMIT
    ) -> None:
        self._patience = patience
        self.way, self._controlled = way, os.path.exists(os.path.join(own, "cgroup.subtree_control"))
        self.top, self.home = os.path.join(own, f"top{number}"), os.path.join(own, f"home{number}")
        self.processes: dict[int, Process] = {}
        self.watches: dict[str, Watch] = {}
        self._kept: dict[tuple[str, str], int] = {}  # files that are open since they were first reread
        self.children: dict[str, int] = {}
        os.mkdir(self.top)
        os.mkdir(self.home)
        self.processes[1] = Process.first(keep, limit)
        file_write(os.path.join(self.home, "cgroup.procs"), str(self.processes[1].pid))

    # ---- paths and numbers

    def place(self, path: str) -> str:
        return self.top if path == "/" else self.top + path

    def file(self, path: str, name: str, writes: bool = False) -> str:
        if name == "cgroup.procs" and path == "/":
            return os.path.join(self.home, name)
        if name == "cgroup.procs" and self.way == "T" and not writes:
            name = "cgroup.threads"
        return os.path.join(self.place(path), name)

    def named(self, pids: list[str]) -> list[str]:
        """Numbers of real processes as those of the engine, ascending; a stranger is ?NUMBER."""
        by_pid = {process.pid: number for number, process in self.processes.items()}
        known = sorted({by_pid[int(pid)] for pid in pids if int(pid) in by_pid})
        return [*map(str, known), *(f"?{pid}" for pid in sorted(set(pids)) if int(pid) not in by_pid)]

    # ---- commands: each returns the text that it shows

    def mkdir(self, path: str) -> str:
        parent = os.path.dirname(path)
        control = os.path.join(self.place(parent), "cgroup.subtree_control")
        is_first = (
            not self.children.get(parent) and self._controlled and self.way in ("D", "T") and os.path.exists(control)
        )
        if is_first:
            file_write(control, "+pids")
        try:
            os.mkdir(self.place(path).encode("latin1"))
        except OSError:
            if is_first:
                file_write(control, "-pids")
            raise
        self.children[parent] = self.children.get(parent, 0) + 1
        if self.way == "T":
            file_write(os.path.join(self.place(path), "cgroup.type"), "threaded")
        return ""

    def rmdir(self, path: str) -> str:
        os.rmdir(self.place(path).encode("latin1"))
        parent = os.path.dirname(path)
        self.children[parent] = self.children.get(parent, 1) - 1
        self.children.pop(path, None)
        self._close_kept(path)
        for gone in [watched for watched in self.watches if watched == path]:
            self.watches.pop(gone).close()
        if self._controlled and self.way == "D" and parent != "/" and not self.children[parent]:
            # only then may it hold processes again
            file_write(os.path.join(self.place(parent), "cgroup.subtree_control"), "-pids")
        return ""

    def fork(self, parent: int, child: int, group: str, is_refused: bool) -> str:
        """The processes of the group after it. A child that should not be there is killed."""
        born = self.processes[parent].fork()
        if is_refused:
            # a file system that adopts processes has to see the child before it is gone
            self.cat(group, "cgroup.procs")
            born.slay()
            self.cat(group, "cgroup.procs")
            return "not stopped"
        self.processes[child] = born
        return self.cat(group, "cgroup.procs")

    def exit(self, pid: int, group: str) -> str:
        """The processes of the group after it."""
        if not self.processes.pop(pid).end():
            raise OSError(errno.ETIMEDOUT, "the process did not end")
        return self.cat(group, "cgroup.procs")

    def write(self, path: str, name: str, value: str, dying: list[int]) -> str:
        if name == "cgroup.procs" and value.isdecimal():
            process = self.processes.get(int(value))
            value = str(process.pid if process else NO_PID)
        if name == "cgroup.kill" and self.way == "T":
            self._slay(dying)
        else:
            file_write(self.file(path, name, writes=True), value + "\n")
        return self._killed(dying) if name == "cgroup.kill" else ""

    def _slay(self, dying: list[int]) -> None:
        for number in dying:
            self.processes[number].slay(0)

    def _killed(self, dying: list[int]) -> str:
        """The processes that are alive after a kill."""
        wait_for_end([self.processes[number].pid for number in dying if number in self.processes], self._patience)
        alive = sorted(number for number, process in self.processes.items() if is_alive(process.pid))
        for number in set(self.processes) - set(alive):
            self.processes.pop(number).end(0)
        return "alive: " + " ".join(map(str, alive))

    def cat(self, path: str, name: str) -> str:
        return self._shown(name, file_read(self.file(path, name)))

    def reread(self, path: str, name: str) -> str:
        """Reads a file again that is kept open since the first time."""
        if (path, name) not in self._kept:
            self._kept[path, name] = os.open(self.file(path, name), os.O_RDONLY | os.O_CLOEXEC)
        return self._shown(name, read_whole(self._kept[path, name]))

    def _close_kept(self, path: str | None = None) -> None:
        """Closes the files of the group that are kept open, or all."""
        for key in [key for key in self._kept if path in (None, key[0])]:
            os.close(self._kept.pop(key))

    def listed(self, path: str) -> str:
        """The groups in a group, and those of its files that the engine has too."""
        names = [entry for entry in os.scandir(self.place(path))]
        # what is a file by its name is not asked for its type, which some file systems do not list
        groups = [
            it.name for it in names if not it.name.startswith(("cgroup.", "pids.")) and it.is_dir(follow_symlinks=False)
        ]
        return listing(groups, [it.name for it in names if it.name in (*FILES, "cgroup.kill")])

    def _shown(self, name: str, text: str) -> str:
        """The text with the engine's numbers of processes."""
        if name != "cgroup.procs":
            return text
        pids = text.split()
        if not all(pid.isdecimal() for pid in pids):
            return text
        return "".join(pid + "\n" for pid in self.named(pids))

    def where(self, pid: int) -> str:
        text = file_read(f"/proc/{self.processes[pid].pid}/cgroup").split("0::", 1)[1]
        for name in ("/" + os.path.basename(self.top), "/" + os.path.basename(self.home)):
            if name in text:
                return "0::" + (text.split(name, 1)[1].lstrip("\n") or "/\n").replace("\n", "") + "\n"
        return "0::" + text

    def watch(self, path: str) -> str:
        if path not in self.watches:
            self.watches[path] = Watch(self.file(path, "cgroup.events"))
        return ""

    def told(self, path: str, is_due: bool) -> str:
        return self.watches[path].take(is_due, self._patience)

    def unmake(self, path: str) -> str:
        """Removes a group that the engine refused to make."""
        os.rmdir(self.place(path).encode("latin1"))
        return ""

    def end(self) -> list[str]:
        """Ends all processes, and returns what is left."""
        self._close_kept()
        for watch in self.watches.values():
            watch.close()
        for process in self.processes.values():
            process.slay(0)
        wait_for_end([process.pid for process in self.processes.values()], 3)
        return [*remove_groups(self.top, 2), *remove_groups(self.home, 2)]

    def commands(self) -> dict[str, Callable[..., str]]:
        return {
            **{"mkdir": self.mkdir, "rmdir": self.rmdir, "fork": self.fork, "exit": self.exit, "write": self.write},
            **{"cat": self.cat, "where": self.where, "watch": self.watch, "told": self.told, "unmake": self.unmake},
            **{"list": self.listed, "reread": self.reread},
        }
