"""Descriptors that poll, select and epoll can wait on, for the files of which a mount tells that they have changed.

Such a descriptor is one end of a pair of sockets, and a byte that is sent out of band to it is its POLLPRI. As on a mount it is
ready before the first read, and then once the text differs from the one that was read last, or the group is gone. It stays ready
once nothing will change any more: the hierarchy is closed, or no longer mounted.
"""

from __future__ import annotations

import contextlib
import ctypes
import socket
import threading
import weakref
from typing import TYPE_CHECKING

from ._library import DONE, REFUSED, TOO_SMALL, Info, patient

if TYPE_CHECKING:
    from .hierarchy import Hierarchy

_TEXT_BYTES = 256
_SLICE = 0.05  # seconds after which the thread looks whether it should end


class Poller:
    """The notification of one open file."""

    def __init__(self, group: str, file: str) -> None:
        self._words = group.encode("utf-8", "surrogateescape"), file.encode()
        self._lock = threading.RLock()  # a signal handler may read the file too
        self._seen = b""
        self._ready, self._ended = True, False
        self._ends: tuple[socket.socket, socket.socket] | None = None

    def descriptor(self) -> int:
        """A new descriptor, which the caller closes. All of a file are ready together."""
        with self._lock:
            if self._ends is None:
                self._ends = self._pair()
            return socket.dup(self._ends[0].fileno())

    def _pair(self) -> tuple[socket.socket, socket.socket]:
        near, far = socket.socketpair()
        try:
            near.shutdown(socket.SHUT_WR)  # nothing can be written to the number
            for end in (near, far):
                end.setblocking(False)
            if self._ready:
                far.send(b"!", socket.MSG_OOB)
        except OSError:
            near.close()
            far.close()
            raise
        return near, far

    def _tell(self) -> None:
        if self._ends is not None:
            self._ends[1].send(b"!", socket.MSG_OOB)

    def take(self, text: bytes) -> None:
        """The file was read. Of its text the engine doesn't know whether the group is frozen."""
        with self._lock:
            if self._ended:
                return
            self._seen = text.replace(b"frozen 1", b"frozen 0")
            if self._ready and self._ends is not None:
                # before Linux 6.10 a byte that was taken fills the socket until the next recv; a signal handler may have taken it
                for kind in (socket.MSG_OOB, 0):
                    with contextlib.suppress(OSError):
                        self._ends[0].recv(1, kind | socket.MSG_DONTWAIT)
            self._ready = False

    def look(self, h: Hierarchy) -> None:
        """Tells that the text is another one, or that the group is gone. Faults don't count this call."""
        with self._lock:
            if self._ready:
                return
            text, info = ctypes.create_string_buffer(_TEXT_BYTES), Info()
            words = (*self._words, self._seen, 0, text, _TEXT_BYTES)
            status = patient.mk_wait_file(h._at, *words, ctypes.byref(info))
            if status in (DONE, REFUSED, TOO_SMALL):
                self._ready = True
                self._tell()

    def tell(self, group: str) -> None:
        """The group was frozen or thawed: tells it if the file is that of the group or of one below it."""
        own, file = self._words
        above = group.encode("utf-8", "surrogateescape")
        with self._lock:
            if file == b"cgroup.events" and not self._ready and (own + b"/").startswith(above + b"/"):
                self._ready = True
                self._tell()

    def end(self) -> None:
        """Nothing will be told any more: who waits is woken."""
        with self._lock:
            if not self._ready:
                self._tell()
            self._ready = self._ended = True

    def begin_again(self) -> None:
        """In the child of a fork: another thread may have had the lock, and the sockets are those of the parent too."""
        self._lock = threading.RLock()
        self._drop()

    def close(self) -> None:
        with self._lock:
            self._drop()
            self._ready = True

    def _drop(self) -> None:
        if self._ends is not None:
            for end in self._ends:
                end.close()
        self._ends = None


class Watch:
    """Looks at the open files of a hierarchy whenever it changes: in a thread, which starts with the first of them."""

    def __init__(self, h: Hierarchy) -> None:
        self._h = h
        self._pollers: set[weakref.ref[Poller]] = set()
        self._lock = threading.RLock()
        self._thread: threading.Thread | None = None
        self._ended = False

    def add(self, poller: Poller) -> None:
        with self._lock:
            self._pollers.add(weakref.ref(poller, self._pollers.discard))
            self._start()

    def _start(self) -> None:
        if self._thread is None and not self._ended:
            self._thread = threading.Thread(target=self._follow, name="makhloeum-poll", daemon=True)
            self._thread.start()

    def begin_again(self) -> None:
        """In the child of a fork, which has no thread that looks; `go_on` starts one."""
        self._lock, self._thread = threading.RLock(), None
        for poller in self._added():
            poller.begin_again()

    def go_on(self) -> None:
        if self._added():
            self._start()

    def _added(self) -> list[Poller]:
        return [poller for it in list(self._pollers) if (poller := it()) is not None]

    def look(self) -> None:
        for poller in self._added():
            poller.look(self._h)

    def tell(self, group: str) -> None:
        for poller in self._added():
            poller.tell(group)

    def _follow(self) -> None:
        seen = 0
        while not self._ended:
            try:
                seen = self._h.changes()
                self.look()
                self._h.wait(seen, _SLICE)
            except TimeoutError:
                continue
            except ValueError:  # the hierarchy is closed
                break
        for poller in self._added():
            poller.end()

    def end(self) -> None:
        self._ended = True
        if self._thread is not None:
            self._thread.join()
