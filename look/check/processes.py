"""Real sleeping processes that fork and exit on command.

Each of them waits at a socket for one word: fork, with the socket of the child, or exit. It ends as well once the other end
of its socket is closed, so none outlives the worker. A parent leaves no zombies, since SIGCHLD is ignored; orphans come to
the worker, which ignores it too.
"""

from __future__ import annotations

import array
import ctypes
import errno
import os
import signal
import socket
import time

_SUBREAPER = 36  # PR_SET_CHILD_SUBREAPER
LIMIT = 10.0  # seconds after which an operation hangs; what a process does may take a part of them


def leave_no_zombies() -> None:
    """Children and orphans below this process are reaped by the kernel as they end."""
    signal.signal(signal.SIGCHLD, signal.SIG_IGN)
    ctypes.CDLL(None).prctl(_SUBREAPER, 1, 0, 0, 0)


def is_alive(pid: int) -> bool:
    """Whether there is such a process, also as a zombie."""
    try:
        os.kill(pid, 0)
    except ProcessLookupError:
        return False
    except PermissionError:
        pass
    return True


def wait_for_end(pids: list[int], seconds: float) -> list[int]:
    """Waits until the processes are gone; those that are left after these seconds."""
    end, pause = time.monotonic() + seconds, 0.0002
    while True:
        pids = [pid for pid in pids if is_alive(pid)]
        if not pids or time.monotonic() > end:
            return pids
        time.sleep(pause)
        pause = min(2 * pause, 0.02)


def _receive(by: socket.socket) -> tuple[bytes, list[int]]:
    word, ancillary, _, _ = by.recvmsg(16, socket.CMSG_SPACE(4))
    descriptors = array.array("i")
    for level, kind, data in ancillary:
        if (level, kind) == (socket.SOL_SOCKET, socket.SCM_RIGHTS):
            descriptors.frombytes(data[:4])
    return word, list(descriptors)


def _serve(by: socket.socket) -> None:
    """The life of a process. It returns never."""
    while True:
        word, descriptors = _receive(by)
        if word != b"fork":
            os._exit(0)
        with socket.socket(fileno=descriptors[0]) as of_child:
            try:
                pid = os.fork()
            except OSError as no:
                by.send(b"%d" % (no.errno or errno.EAGAIN))
                continue
            if pid:
                by.send(b"0")
                continue
            by.close()
            by = of_child.dup()
        by.send(b"%d" % os.getpid())


class Process:
    """A sleeping process, as the worker has it. It may take half of the limit to answer, and a third to end."""

    def __init__(self, at: socket.socket, limit: float = LIMIT) -> None:
        self._at, self._limit = at, limit
        at.settimeout(limit / 2)
        self.pid = int(at.recv(16) or b"0")
        if not self.pid:
            raise OSError(errno.ESRCH, "a process ended as it began")

    @classmethod
    def first(cls, keep: list[socket.socket], limit: float = LIMIT) -> Process:
        """A child of the caller; it closes the sockets that the caller keeps."""
        ours, theirs = socket.socketpair(socket.AF_UNIX, socket.SOCK_SEQPACKET)
        if os.fork() == 0:
            try:
                for other in (ours, *keep):
                    other.close()
                theirs.send(b"%d" % os.getpid())
                _serve(theirs)
            finally:
                os._exit(1)
        theirs.close()
        return cls(ours, limit)

    def fork(self) -> Process:
        """Its child. The OSError is that of its fork."""
        ours, theirs = socket.socketpair(socket.AF_UNIX, socket.SOCK_SEQPACKET)
        with theirs:
            rights = [(socket.SOL_SOCKET, socket.SCM_RIGHTS, array.array("i", [theirs.fileno()]))]
            try:
                self._at.sendmsg([b"fork"], rights)
                answer = int(self._at.recv(16) or b"%d" % errno.ESRCH)
            except (BrokenPipeError, ConnectionResetError):
                answer = errno.ESRCH
        if answer:
            ours.close()
            raise OSError(answer, os.strerror(answer))
        return Process(ours, self._limit)

    def end(self, seconds: float | None = None) -> bool:
        """It exits. Whether it has ended in time."""
        try:
            self._at.send(b"exit")
        except OSError:
            pass
        self._at.close()
        return not wait_for_end([self.pid], self._limit / 3 if seconds is None else seconds)

    def slay(self, seconds: float | None = None) -> bool:
        """It is killed. Whether it has ended in time."""
        try:
            os.kill(self.pid, signal.SIGKILL)
        except ProcessLookupError:
            pass
        return self.end(seconds)
