"""A run for the page: each command of a trace, its answer, and what it changed.

The engine answers each command and is asked for the numbers of the groups that the command may have changed. The page gets
differences (the constants MAKE to ADD), and state.mjs applies them as `Copy` does here. A difference that follows from the
processes alone, as the counts above a new process, is not written down; where the engine's number is another one than that,
a correction is.
"""

from __future__ import annotations

import ctypes
import re
from typing import Callable, Dict, List, Optional, Tuple

from .._library import DONE, Info
from .._table import LINE_MAX
from .._words import _shown
from ..errors import PidsMax, Refused
from ..hierarchy import Hierarchy
from .state import ADD, BACK, BORN, DIED, GONE, KILL, MAKE, MOVE, SET
from .state import CURRENT, DEPTH, DESCENDANTS, FIELDS, FILES, LIMIT, LOCAL, NONE, ON_ROOT, PEAK, TOTAL, Copy, Group

FROM_STATE = "ok\n"  # with a number: a list of that number of processes, which the page takes from its state
LONG_LIST = 8  # processes
AUDIT_EACH = 20000

_TIME = re.compile(rb"# at ([0-9]{1,12})(?:\.([0-9]{1,9}))?")
_BLANKS = b" \t\r"
_TO_SPACES = bytes.maketrans(b"\t\r", b"  ")
_OK = b"1 ok\n"  # the first line of an answer


class History:
    """The commands of a trace, in order, with answers and differences."""

    def __init__(self, hierarchy: Hierarchy) -> None:
        self.h = hierarchy
        self.copy = Copy()
        self.lines: List[str] = []
        self._comments: Dict[int, List[str]] = {}  # by the number of commands before them
        self.answers: List[str] = ["ok"]
        self.answer: List[int] = []
        self.steps: List[List[int]] = []
        self.times: List[int] = []  # in microseconds; one for each command once there was one
        self.refused = self.kills = 0
        self._indexes = {"ok": 0}
        self._reads: Dict[bytes, str] = {}  # the answers to reads since the last change
        self._journal: List[Tuple[str, ...]] = []  # what can be undone: a verb and its words
        self._numbers: List[int] = []
        self._now: Optional[int] = None
        self._step: List[int] = []
        self._value, self._info = ctypes.c_uint64(), Info()
        self._told = ctypes.byref(self._value), ctypes.byref(self._info)
        self._notes_of: Dict[str, Callable[..., None]] = {
            **{"mkdir": self._mkdir, "rmdir": self._rmdir, "fork": self._fork, "exit": self._exit},
            **{"move": self._move, "kill": self._kill, "limit": self._limit},
        }

    # ---- lines

    def read(self, trace: bytes) -> None:
        """Answers a whole trace."""
        lines = trace.split(b"\n")
        for line in lines if lines[-1] else lines[:-1]:
            self.line(line)
        self.audit()

    def line(self, line: bytes) -> None:
        bare = line.strip(_BLANKS)
        if not bare:
            return
        if bare.startswith(b"#"):
            self._comment(bare)
            return
        self._step = []
        answer = self._answered(bare if len(line) <= LINE_MAX else line)
        if answer not in self._indexes:
            self._indexes[answer] = len(self.answers)
            self.answers.append(answer)
        # blanks of each kind separate words, and the page splits a line at them
        self.lines.append(shown(bare.translate(_TO_SPACES)))
        self.answer.append(self._indexes[answer])
        self._put(self._step)

    def _put(self, step: List[int]) -> None:
        self.steps.append(step)
        if self._now is not None:
            self.times += [self._now] * (len(self.lines) - len(self.times))
        if len(self.lines) % AUDIT_EACH == 0:
            self.audit()

    def _comment(self, comment: bytes) -> None:
        time = _TIME.fullmatch(comment)
        if time is None:
            self._comments.setdefault(len(self.lines), []).append(shown(comment))
            return
        now = int(time.group(1)) * 1000000 + int(((time.group(2) or b"") + b"000000")[:6])
        self._now = max(now, self._now or 0)

    def _answered(self, line: bytes) -> str:
        """The answer. The engine answers a read once in each state, since a list of many processes takes long."""
        if self._reads and line in self._reads:
            return self._reads[line]
        answer = self._answered_anew(line)
        if not line.startswith((b"cat", b"where")):
            if self._reads:
                self._reads.clear()
        elif answer.startswith("ok"):
            self._reads[line] = answer
        return answer

    def _answered_anew(self, line: bytes) -> str:
        try:
            if line.endswith(b"cgroup.procs"):
                group = self._with_a_long_list(line)
                if group is not None:
                    return self._listed(line, group)
            text = self.h.line(line)
        except Refused as refused:
            self.refused += 1
            if isinstance(refused, PidsMax):
                self._counted(refused.reply.split(" ")[1])
            return f"refused {refused.reply}"
        verb, *words = line.decode().split()
        if verb == "undo":
            self._undone()
        elif verb == "write":
            verb = {"cgroup.procs": "move", "cgroup.kill": "kill"}.get(words[1], "limit")
        note = self._notes_of.get(verb)
        if note is not None:
            note(*words)
        return _ok(text) if text else "ok"

    def _with_a_long_list(self, line: bytes) -> Optional[Group]:
        """The group whose many processes the line lists, if it does; its last letters are `cgroup.procs`."""
        words = list(filter(None, line.translate(_TO_SPACES).split(b" ")))
        if len(words) != 3 or words[0] != b"cat":
            return None
        group = self.copy.groups.get(self.copy.ids.get(words[1].decode("latin1"), -1))
        return group if group is not None and len(group.pids) > LONG_LIST else None

    def _listed(self, line: bytes, group: Group) -> str:
        """The answer to that line. A list may have tens of thousands of processes, so it is compared as bytes, and only after a part
        of it has changed: each of these changes was the engine's, and the audits ask for all processes."""
        listing = group.listed()
        if listing.is_due():
            text = listing.text()
            answer = self.h._answer_of(line, len(_OK) + len(text))
            if answer != _OK + text:
                return _ok(_shown(answer))
            listing.is_engines()
        return FROM_STATE + str(len(group.pids))

    @property
    def notes(self) -> Dict[int, str]:
        """The comments, by the number of commands before them."""
        return {at: " ".join(comments) for at, comments in self._comments.items()}

    # ---- what a command changed

    def _emit(self, *difference: int) -> None:
        self._step.extend(difference)
        self.copy.change(difference, len(self.lines))

    def _home(self, pid: int) -> int:
        """The number of the group that the engine says the process is in."""
        return self.copy.ids[self.h.where(pid)[3:-1]]

    def _number(self, group: Group, field: int) -> int:
        if field == CURRENT:
            return self.h.current(group.path)
        if field == PEAK:
            return self.h.peak(group.path)
        return self._numbers_of([group], field)[0]

    def _numbers_of(self, groups: List[Group], field: int) -> List[int]:
        """The numbers of many groups, read in one call."""
        texts = self.h.read_many((group.path, FILES[field]) for group in groups)
        words = [str(text).split()[-1] for text in texts]
        return [NONE if word == "max" else int(word) for word in words]

    def _follow(self, group: Group) -> None:
        """After a process has come or gone, the counts and peaks along its path follow from the processes. The engine is asked for
        the peak of the group and the count of the outermost one; `audit` asks for all."""
        if group.id == 0:
            return
        outermost, asked = group.outermost, self._asked
        is_peak = asked("mk_peak", group) == group.numbers[PEAK]
        if not is_peak or asked("mk_current", outermost) != outermost.numbers[CURRENT]:
            self._settle(group, CURRENT, PEAK)

    def _asked(self, name: str, group: Group) -> int:
        """What a call of C returns for the group. It makes nothing anew, since it is asked for each process."""
        if self.h._call(name, group.word, *self._told) != DONE:
            raise RuntimeError(
                f"after {len(self.lines)} commands the engine has no group {group.path}, which the page has"
            )
        return self._value.value

    def _settle(self, group: Group, *fields: int) -> None:
        """The numbers of the group and of those above it that differ from the copy's."""
        along = [at for at in group.up() if at.id]
        for field in fields if along else ():
            run: List[int] = []
            for at, number in zip(along, self._numbers_of(along, field)):
                amount = number - at.numbers[field]
                if run and amount == run[2]:
                    run[1] += 1
                    continue
                if run and run[2]:
                    self._emit(ADD, field, *run)
                run = [at.id, 1, amount]
            if run and run[2]:
                self._emit(ADD, field, *run)

    def _set(self, group: Group, *fields: int) -> None:
        for field in fields:
            value = self._number(group, field)
            if value != group.numbers[field]:
                self._emit(SET, field, group.id, value)

    def _mkdir(self, path: str) -> None:
        self._emit(MAKE, self.copy.id_of(path))
        self._journal.append(("mkdir", path))

    def _rmdir(self, path: str) -> None:
        self._emit(GONE, self.copy.ids[path])
        self._journal.append(("rmdir", path))

    def _fork(self, parent: str, child: str) -> None:
        # without `_emit`, since most commands are forks
        home, pid = self.copy.home[int(parent)], int(child)
        self._step += (BORN, pid, home.id)
        self.copy.born(pid, home.id)
        self._follow(home)
        self._journal.append(("fork", child))

    def _counted(self, path: str) -> None:
        self._settle(self.copy.at(path), TOTAL, LOCAL)
        self._journal.append(("counted", path))

    def _exit(self, pid: str) -> None:
        group = self.copy.home[int(pid)]
        self._emit(DIED, int(pid))
        self._follow(group)
        self._journal.append(("exit", pid))

    def _move(self, path: str, file: str, pid: str) -> None:
        for group in self._moved(int(pid)):
            self._follow(group)
        self._journal.append(("move", pid))

    def _moved(self, pid: int) -> Tuple[Group, Group]:
        """Writes a move down, and returns the old and the new group."""
        before = self.copy.home[pid]
        self._emit(MOVE, pid, self._home(pid))
        return before, self.copy.home[pid]

    def _kill(self, path: str, file: str, value: str) -> None:
        self.kills += 1
        self._emit(KILL, self.copy.ids[path])
        self._settle_below(path)
        self._journal.append(("kill", path, str(len(self.lines))))

    def _settle_below(self, path: str) -> None:
        group = self.copy.at(path)
        self._settle(group, CURRENT, PEAK)
        for below in list(group.down())[1:]:
            self._set(below, CURRENT, PEAK)

    def _limit(self, path: str, file: str, value: str) -> None:
        self._set(self.copy.at(path), FIELDS[file])
        self._journal.append(("limit", path, file))

    def _undone(self) -> None:
        verb, word, *more = self._journal.pop()
        if verb == "mkdir":
            self._emit(GONE, self.copy.ids[word])
        elif verb == "rmdir":
            self._emit(MAKE, self.copy.ids[word])
            self._set(self.copy.at(word), LIMIT, PEAK, TOTAL, LOCAL, DEPTH, DESCENDANTS)
        elif verb == "fork":
            group = self.copy.home[int(word)]
            self._emit(DIED, int(word))
            self._settle(group, CURRENT, PEAK)
        elif verb == "counted":
            self._settle(self.copy.at(word), TOTAL, LOCAL)
        elif verb == "exit":
            self._emit(BORN, int(word), self._home(int(word)))
            self._settle(self.copy.home[int(word)], CURRENT, PEAK)
        elif verb == "move":
            for group in self._moved(int(word)):
                self._settle(group, CURRENT, PEAK)
        elif verb == "kill":
            self._emit(BACK, int(more[0]))
            self._settle_below(word)
        else:
            self._set(self.copy.at(word), FIELDS[more[0]])

    # ---- a test of the whole

    def audit(self) -> None:
        """Asks the engine for every group and process. A difference would be a defect here."""
        wrong = {group.path for group in self.copy.groups.values()} ^ set(self.h.groups())
        for group in self.copy.groups.values() if not wrong else ():
            fields = FILES if group.id else ON_ROOT
            same = all(self._number(group, field) == group.numbers[field] for field in fields)
            if not same or self.h.processes(group.path) != sorted(group.pids):
                wrong.add(group.path)
        if wrong:
            raise RuntimeError(
                f"after {len(self.lines)} commands the page has another state than the engine: {min(wrong)}"
            )


def _ok(text: str) -> str:
    """The answer that shows a text."""
    return "ok" + "".join(f"\n| {line}" for line in text.split("\n")[:-1]) if text else "ok"


def shown(line: bytes) -> str:
    """The line as the page shows it: escapes for what cannot be printed, and at most as long as a command."""
    text = line[:LINE_MAX].decode("utf-8", "backslashreplace")
    if not text.isprintable():
        text = "".join(c if c.isprintable() else c.encode("unicode_escape").decode("ascii") for c in text)
    return text if len(line) <= LINE_MAX else f"{text} .. ({len(line)} bytes)"
