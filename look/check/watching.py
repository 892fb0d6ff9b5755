"""What poll and inotify report of a cgroup.events file."""

from __future__ import annotations

import ctypes
import os
import select
import struct
import time

_IN_MODIFY = 0x2
_HEAD = struct.Struct("iIII")
_NO_MORE = 0.03  # seconds in which nothing else may come


class Watch:
    """One file that is watched. Each call of `take` answers what came since the one before."""

    def __init__(self, path: str) -> None:
        self._file = os.open(path, os.O_RDONLY)
        libc = ctypes.CDLL(None, use_errno=True)
        self._inotify = libc.inotify_init1(os.O_NONBLOCK | os.O_CLOEXEC)
        if self._inotify < 0 or libc.inotify_add_watch(self._inotify, os.fsencode(path), _IN_MODIFY) < 0:
            number = ctypes.get_errno()
            self.close()
            raise OSError(number, os.strerror(number))
        self._see()

    def close(self) -> None:
        for descriptor in (self._file, self._inotify):
            if descriptor >= 0:
                os.close(descriptor)

    def _see(self) -> None:
        """Reads the file, so that poll waits for the next change."""
        os.pread(self._file, 4096, 0)

    def _modified(self) -> bool:
        try:
            data = os.read(self._inotify, 65536)
        except BlockingIOError:
            return False
        found, at = False, 0
        while at < len(data):
            _, mask, _, size = _HEAD.unpack_from(data, at)
            found = found or bool(mask & _IN_MODIFY)
            at += _HEAD.size + size
        return found

    def _came(self, seconds: float) -> set[str]:
        """What comes in these seconds; it waits no longer once both have come."""
        came: set[str] = set()
        end = time.monotonic() + seconds
        while len(came) < 2:
            waiting = select.poll()
            if "poll" not in came:
                waiting.register(self._file, select.POLLPRI)
            if "inotify" not in came:
                waiting.register(self._inotify, select.POLLIN)
            ready = waiting.poll(max(0.0, 1000 * (end - time.monotonic())))
            if not ready:
                break
            for descriptor, _ in ready:
                if descriptor == self._file:
                    came.add("poll")
                elif self._modified():
                    came.add("inotify")
        return came

    def take(self, is_due: bool, seconds: float) -> str:
        """What came, as 'poll inotify', and what comes again after the file was read, as 'poll inotify, again poll'. A change
        that is due is waited for."""
        came = self._came(seconds if is_due else _NO_MORE)
        if not came:
            return "nothing"
        self._see()
        again = self._came(_NO_MORE)
        if again:
            self._see()
        return " ".join(sorted(came, reverse=True)) + (
            ", again " + " ".join(sorted(again, reverse=True)) if again else ""
        )
