"""Whether two answers to a command are the same, have a known difference, or contradict each other."""

from __future__ import annotations

from typing import Optional

from . import known
from .._table import FILES, GROUPS_LIMIT_MAX, PIDS_LIMIT_MAX
from .engine import Answer, Engine, Words

CONTRADICTION = "CONTRADICTION"
_GROUP_MISSING = ("ENOENT", "ENODEV")
_GREATEST_PIDS_LIMIT = 1 << 63
# The greatest number that a kernel accepts in each file with a limit.
_GREATEST: dict[Optional[str], int] = {"pids-limit": PIDS_LIMIT_MAX, "groups-limit": GROUPS_LIMIT_MAX}
_GREATEST_ACCEPTED = {file.name: _GREATEST[file.written] for file in FILES if file.written in _GREATEST}


def difference(
    words: Words, ours: Answer, theirs: Answer, engine: Engine, directory: dict[str, object]
) -> Optional[str]:
    """None if the directory's answer (`theirs`) is the engine's (`ours`), the name of the known difference, or
    CONTRADICTION. `directory` is what opening it found."""
    if words[0] == "fork" and ours.error == "EAGAIN" and theirs.error == "ok":
        return known.NOT_STOPPED if directory["kind"] == "fuse" else CONTRADICTION
    if ours.error != theirs.error:
        return _of_errors(words, ours, theirs) or CONTRADICTION
    if ours.error != "ok":
        return None
    if words[0] == "told":
        return None if _told_alike(words[1], ours, theirs, engine) else CONTRADICTION
    if words[0] in ("cat", "reread"):
        return _of_texts(words, ours.text, theirs.text, engine, directory)
    return None if ours.text == theirs.text else CONTRADICTION


def _told_alike(path: str, ours: Answer, theirs: Answer, engine: Engine) -> bool:
    """One change is notified once. Several changes may be notified together, or some of them later."""
    if theirs.text == ours.text:
        return True
    if not ours.reply or (ours.text != "nothing" and not theirs.text.startswith(ours.text)):
        return False
    engine.came_late(path)
    return True


def _of_errors(words: Words, ours: Answer, theirs: Answer) -> Optional[str]:
    word = ours.reply.split(" ")[0]
    if word == "noslot" and theirs.error == "ok":
        return known.MOST_GROUPS
    if word in ("value", "direction", "file", "path") and theirs.error in _GROUP_MISSING:
        return known.GROUP_FIRST
    if word == "path":
        return _of_names(words[1], theirs.error)
    if word == "direction":
        return known.AT_THE_OPEN if theirs.error == "EACCES" else None
    return _of_values(words, theirs.error) if word == "value" else None


def _of_names(path: str, error: str) -> Optional[str]:
    if error == "ok":
        return known.TAKES_MORE
    if error == "EEXIST":
        return known.FILE_NAMES
    return known.LONG_NAMES if error in ("ENAMETOOLONG", "EAGAIN") and len(path) > 60 else None


def _of_values(words: Words, error: str) -> Optional[str]:
    name, number = words[2], known.kernel_number(words[3])
    if number is None:
        return None
    is_pid = name == "cgroup.procs"
    if error == "ok":
        return known.TAKES_MORE if _is_accepted(name, number) else None
    outside = (
        number != 1
        if name == "cgroup.kill"
        else not 0 <= number < (_GREATEST_PIDS_LIMIT if name == "pids.max" else 1 << 31)
    )
    if error == "ERANGE" and not is_pid and outside:
        return known.OTHER_ERRNO
    return known.OTHER_ERRNO if error == "ESRCH" and is_pid and number > 0 else None


def _is_accepted(name: str, number: int) -> bool:
    """Whether a kernel accepts the number: only how it is written may differ from what the engine accepts."""
    if name == "cgroup.kill":
        return number == 1
    return 0 <= number <= _GREATEST_ACCEPTED.get(name, -1)


def _of_texts(words: Words, ours: str, theirs: str, engine: Engine, directory: dict[str, object]) -> Optional[str]:
    path, name = words[1:3]
    if ours == theirs:
        return None
    if name == "cgroup.stat":
        return _of_stat(ours, theirs)
    if name == "pids.peak" and theirs.strip().isdecimal():
        return known.peak_difference(int(theirs), int(ours), engine.peak_by_way(path)) or CONTRADICTION
    if name == "pids.events" and "pids.events.local" in directory["missing"]:  # type: ignore[operator]
        return known.OLD_EVENTS if theirs == engine.events_before_6_11(path) else CONTRADICTION
    return CONTRADICTION


def _of_stat(ours: str, theirs: str) -> str:
    """A kernel's text has more keys, and its count of dying groups falls later."""
    lines = [line for line in theirs.split("\n") if not line.startswith(("nr_subsys_", "nr_dying_subsys_"))]
    if "\n".join(lines) == ours:
        return known.MORE_KEYS
    settled = [line if not line.startswith("nr_dying_descendants ") else "nr_dying_descendants 0" for line in lines]
    return known.DYING if "\n".join(settled) == ours else CONTRADICTION
