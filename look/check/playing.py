"""One sequence, played on the engine and in the directory together."""

from __future__ import annotations

import collections
import errno
import os
import time
from typing import Any, Callable, NamedTuple, Optional

from .differences import CONTRADICTION, difference
from .engine import Answer, Engine, Words
from .known import MOST_GROUPS, TAKES_MORE
from .opening import Unusable
from .worker import Hang, Worker

NO_ANSWER = "no answer"
GONE = ("ENOENT", "ENOTCONN")  # of a directory whose groups are gone
# how much of the limit a change and a kill may take, and how much when a difference is shown anew
PATIENCE, SHORT_PATIENCE = 0.5, 0.03
Next = Callable[[Engine], Optional[Words]]


class Difference(NamedTuple):
    """A contradiction: the commands up to it, and what both say to the last."""

    way: str
    played: list[Words]
    ours: Answer
    theirs: Answer

    def kind(self) -> tuple[str, ...]:
        """What differs, so that the same is not shown twice."""
        last = self.played[-1]
        return (last[0], last[2] if last[0] in ("cat", "reread", "write") else "", self.ours.error, self.theirs.error)

    @property
    def hangs(self) -> bool:
        return self.theirs.error == NO_ANSWER

    @property
    def is_beginning(self) -> bool:
        """Whether no sequence can begin."""
        return self.played == [["mkdir", "/"]]


class Counts:
    """What was played so far."""

    def __init__(self) -> None:
        self.operations = 0
        self.differences = 0
        self.known: collections.Counter[str] = collections.Counter()
        self.began = time.monotonic()

    def rate(self) -> float:
        return self.operations / max(time.monotonic() - self.began, 1e-9)


class Player:
    """Plays sequences in one directory, and removes what it made there."""

    def __init__(self, directory: str, limit: float) -> None:
        self.limit = limit
        self.counts = Counts()
        self.sequences = 0
        self.patience = limit * PATIENCE
        self.left: list[str] = []
        self.on_operation: Callable[[], None] = lambda: None
        self._worker = Worker(limit)
        self.found: dict[str, Any] = {}
        self._own = os.path.join(directory, f"makhloeum-check-{os.getpid()}")
        try:
            self.found = self._open(directory)
        except BaseException:
            self._worker.leave()
            raise

    def _open(self, directory: str) -> dict[str, Any]:
        try:
            error, found = self._worker.ask("open", directory, os.path.basename(self._own))
        except Hang:
            raise Unusable(f"it does not answer within {self.limit:g} seconds; {self._own} may be left") from None
        if error != "ok" or "fault" in found:
            raise Unusable(found["fault"] if found else error)
        answer: dict[str, Any] = found
        return answer

    # ---- the worker

    def _ask(self, *request: Any) -> tuple[str, Any]:
        return self._worker.ask(*request)

    def _replace(self) -> None:
        """Gives up a worker that hangs, and starts another."""
        self._worker.abandon()
        self._worker = Worker(self.limit)
        try:
            self._ask("reopen", self._own, self.sequences)
        except Hang:
            pass

    def close(self) -> None:
        """Removes everything, also after an operation that hung. `left` has what could not be removed."""
        for _ in range(2):
            try:
                _, self.left = self._ask("close")
                self._worker.leave()
                return
            except (Hang, OSError):
                self._replace()
        self._worker.abandon()
        self.left = [self._own]

    # ---- sequences

    def play(self, way: str, following: Next, counts: Optional[Counts] = None) -> Optional[Difference]:
        """Plays the commands that `following` gives for the state of the engine, until it gives None or the two differ.
        Without counts it is one that was played before."""
        self.patience = self.limit * (PATIENCE if counts else SHORT_PATIENCE)
        counts = counts or Counts()
        self.sequences += 1
        engine = Engine(way, self.found["missing"], self.found["kind"] == "cgroup2")
        try:
            return self._begun(way, engine, following, counts)
        finally:
            engine.close()
            self._end()

    def _end(self) -> None:
        try:
            self._ask("end")
        except Hang:
            self._replace()

    def _begun(self, way: str, engine: Engine, following: Next, counts: Counts) -> Optional[Difference]:
        try:
            error, _ = self._ask("begin", way, self.patience)
        except Hang:
            return Difference(way, [["mkdir", "/"]], Answer("ok"), Answer(NO_ANSWER))
        if error in GONE:
            raise Unusable(f"it is gone: {os.strerror(getattr(errno, error))}")
        if error != "ok":
            return Difference(way, [["mkdir", "/"]], Answer("ok"), Answer(error))
        played: list[Words] = []
        while True:
            words = following(engine)
            if words is None:
                return None
            if not engine.can_do(words):
                continue
            played.append(words)
            counts.operations += 1
            self.on_operation()
            found = self._step(way, words, engine, played, counts)
            if found:
                return found

    def _step(
        self, way: str, words: Words, engine: Engine, played: list[Words], counts: Counts
    ) -> Optional[Difference]:
        request, value = engine.request(words), engine.taken(words)
        ours = engine.play(words)
        if words[0] == "fork":
            request.append(ours.error == "EAGAIN")
        if words[0] == "told":
            request.append(ours.text != "nothing")
        try:
            error, text = self._ask("play", *request)
            theirs = Answer(error, text if error == "ok" else "")
            name = difference(words, ours, theirs, engine, self.found)
            if name in (TAKES_MORE, MOST_GROUPS):
                self._settle(words, value, engine)
        except Hang:
            return Difference(way, played, ours, Answer(NO_ANSWER))
        if name == CONTRADICTION:
            return Difference(way, played, ours, theirs)
        if name:
            counts.known[name] += 1
        return None

    def _settle(self, words: Words, value: Optional[Words], engine: Engine) -> None:
        """After a command that only the directory accepted: the engine gets its value in decimal, or the group is removed."""
        if words[0] == "mkdir":
            self._ask("play", "unmake", words[1])
        elif value:
            engine.play(value)


def listed(commands: list[Words]) -> Next:
    """The commands of a list, one after the other."""
    iterator = iter(commands)
    return lambda engine: next(iterator, None)
