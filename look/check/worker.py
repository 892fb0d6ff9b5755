"""The process that does the operations in the directory, so that one which hangs can be left behind.

It is in a session of its own, with the sleeping processes. Requests and answers are lines of JSON. If the checking process
ends, the worker removes what it made and ends.
"""

from __future__ import annotations

import errno
import json
import os
import select
import signal
import socket
import time
from typing import Any, NoReturn

from .directory import Groups, remove_groups
from .opening import open_directory
from .processes import LIMIT, leave_no_zombies


class Hang(Exception):
    """No answer within the time limit."""


class _Lines:
    """Values over a socket, a line each."""

    def __init__(self, at: socket.socket) -> None:
        self.at = at
        self._left = b""

    def put(self, value: Any) -> None:
        self.at.sendall(json.dumps(value).encode() + b"\n")

    def get(self, seconds: float | None = None) -> Any:
        """The next value; None at the end. Hang if it does not come in time."""
        end = None if seconds is None else time.monotonic() + seconds
        while b"\n" not in self._left:
            left = None if end is None else max(0.0, end - time.monotonic())
            if not select.select([self.at], [], [], left)[0]:
                raise Hang
            more = self.at.recv(65536)
            if not more:
                return None
            self._left += more
        line, self._left = self._left.split(b"\n", 1)
        return json.loads(line)


def error_name(no: OSError) -> str:
    return errno.errorcode.get(no.errno or 0, f"errno {no.errno}")


class _Worker:
    """The requests, each a method: it answers [errno or "ok", text]."""

    def __init__(self, lines: _Lines, limit: float = LIMIT) -> None:
        self._lines, self._limit = lines, limit
        self._own = ""
        self._groups: Groups | None = None
        self._sequences = 0

    def open(self, directory: str, name: str) -> Any:
        """Makes the check's own group, and answers what the directory is: a dictionary with `fault` if it is of no use."""
        found = open_directory(directory, name, [self._lines.at], self._limit)
        self._own = found.get("own", "")
        return found

    def reopen(self, own: str, sequences: int) -> None:
        """Takes the group that an earlier worker made."""
        self._own, self._sequences = own, sequences

    def begin(self, way: str, patience: float) -> None:
        self._sequences += 1
        self._groups = Groups(self._own, self._sequences, way, patience, [self._lines.at], self._limit)

    def play(self, command: str, *words: Any) -> str:
        assert self._groups
        return self._groups.commands()[command](*words)

    def end(self) -> list[str]:
        """Ends a sequence; the paths that could not be removed."""
        groups, self._groups = self._groups, None
        return groups.end() if groups else []

    def close(self) -> list[str]:
        """Removes all; the paths that could not be removed."""
        self.end()
        return remove_groups(self._own, 3) if self._own else []

    def serve(self) -> None:
        """Until the checking process ends: then all is removed."""
        try:
            while self._answer(self._lines.get()):
                pass
        except (BrokenPipeError, ConnectionResetError):
            pass
        self.close()

    def _answer(self, request: Any) -> bool:
        if request is None:
            return False
        number, method, *words = request
        try:
            answer = [number, "ok", getattr(self, method)(*words)]
        except OSError as no:
            answer = [number, error_name(no), ""]
        self._lines.put(answer)
        return True


def _live(at: socket.socket, limit: float) -> NoReturn:
    """The life of the worker."""
    status = 1
    try:
        os.setsid()
        # whoever waits for the end of what the check prints does not wait for a worker that hangs
        nowhere = os.open(os.devnull, os.O_RDWR)
        for stream in range(3):
            os.dup2(nowhere, stream)
        for number in (signal.SIGINT, signal.SIGTERM, signal.SIGHUP):
            signal.signal(number, signal.SIG_DFL)
        leave_no_zombies()
        _Worker(_Lines(at), limit).serve()
        status = 0
    finally:
        os._exit(status)


class Worker:
    """The worker as the checking process has it."""

    def __init__(self, limit: float) -> None:
        self.limit = limit
        ours, theirs = socket.socketpair()
        self.pid = os.fork()
        if self.pid == 0:
            ours.close()
            _live(theirs, limit)
        theirs.close()
        self._lines = _Lines(ours)
        self._number = 0

    def ask(self, *request: Any) -> tuple[str, Any]:
        """The errno, or "ok", and the answer. Hang if there is none in time, as of a worker that was killed."""
        self._number += 1
        try:
            self._lines.put([self._number, *request])
            while True:
                answer = self._lines.get(self.limit)
                if answer is None:
                    raise Hang
                number, error, value = answer
                # a request that a signal interrupted left its answer
                if number == self._number:
                    return error, value
        except ConnectionError:
            raise Hang from None

    def abandon(self) -> None:
        """Kills it and the sleeping processes. If it hangs in the directory, it ends once the directory answers."""
        try:
            os.killpg(self.pid, signal.SIGKILL)
        except (ProcessLookupError, PermissionError):
            pass
        self._lines.at.close()
        self._wait(0.5)

    def leave(self) -> None:
        """It ends, since its requests do."""
        self._lines.at.close()
        if not self._wait(5):
            self.abandon()

    def _wait(self, seconds: float) -> bool:
        end = time.monotonic() + seconds
        while time.monotonic() < end:
            try:
                if os.waitpid(self.pid, os.WNOHANG)[0]:
                    return True
            except ChildProcessError:
                return True
            time.sleep(0.005)
        return False
