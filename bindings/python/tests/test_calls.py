"""What the module answers, call by call. The answers are those that docs/FORMATS.md gives."""

import errno
import os
import re

import pytest

import makhloeum
from makhloeum import BadDirection, BadFile, BadPath, BadSyntax, BadValue, Hierarchy, NothingToUndo, PidsMax, Refused
from makhloeum._table import SLOTS


@pytest.fixture
def h():
    with Hierarchy() as hierarchy:
        yield hierarchy


def test_a_group_with_a_process(h):
    h.mkdir("/a")
    h.fork(1, 2)
    h.write("/a", "cgroup.procs", 2)
    assert h.read("/a", "pids.current") == "1\n"
    assert h.read("/a", "cgroup.events") == "populated 1\nfrozen 0\n"
    assert h.read("/a", "cgroup.procs") == "2\n"
    assert h.read("/", "cgroup.procs") == "1\n"
    assert h.where(2) == "0::/a\n"
    assert h.depth() == 3
    assert h.undo() == "write /a cgroup.procs 2"
    assert h.read("/a", "cgroup.procs") == ""
    assert h.undo() == "fork 1 2"
    assert h.undo() == "mkdir /a"
    assert h.groups() == ["/"]


REFUSALS = [
    ("mkdir /a", "exists", errno.EEXIST, FileExistsError),
    ("mkdir /x/y", "nogroup /x", errno.ENOENT, FileNotFoundError),
    ("rmdir /", "rootfixed", errno.EBUSY, makhloeum.Busy),
    ("rmdir /a", "haschildren", errno.EBUSY, makhloeum.Busy),
    ("rmdir /a/b", "hasprocesses", errno.EBUSY, makhloeum.Busy),
    ("fork 1 2", "pidinuse 2", errno.EEXIST, FileExistsError),
    ("exit 9", "noprocess 9", errno.ESRCH, ProcessLookupError),
    ("fork 2 3", "pidsmax /a/b", errno.EAGAIN, BlockingIOError),
    ("mkdir /c/d", "descendants /c", errno.EAGAIN, makhloeum.Descendants),
    ("mkdir /d/e", "depth /d", errno.EAGAIN, makhloeum.Depth),
    ("cat / pids.current", "nofile", errno.ENOENT, FileNotFoundError),
    ("mkdir", "syntax", errno.EINVAL, BadSyntax),
    ("mkdir a", "path", errno.EINVAL, BadPath),
    ("cat /a pids.none", "file", errno.ENOENT, BadFile),
    ("write /a pids.current 1", "direction", errno.EINVAL, BadDirection),
    ("write /a pids.max -1", "value", errno.EINVAL, BadValue),
]


@pytest.mark.parametrize("line, reply, number, kind", REFUSALS)
def test_a_refusal(h, line, reply, number, kind):
    for before in (
        "mkdir /a",
        "mkdir /a/b",
        "mkdir /c",
        "mkdir /d",
        "fork 1 2",
        "write /a/b cgroup.procs 2",
        "write /a/b pids.max 1",
        "write /c cgroup.max.descendants 0",
        "write /d cgroup.max.depth 0",
    ):
        h.line(before)
    depth = h.depth()
    with pytest.raises(kind) as refused:
        h.line(line)
    assert isinstance(refused.value, Refused) and isinstance(refused.value, OSError)
    assert refused.value.reply == reply
    assert refused.value.errno == number
    assert h.depth() == depth + (kind is BlockingIOError)


def test_no_more_groups_than_slots(h):
    for number in range(SLOTS):
        h.mkdir(f"/g{number}")
    with pytest.raises(makhloeum.NoSlot) as refused:
        h.mkdir("/one-more")
    assert refused.value.errno == errno.ENOSPC
    assert h.children("/") == sorted(f"g{number}" for number in range(SLOTS))
    assert len(h.groups()) == SLOTS + 1


def test_a_counted_fork_is_taken_back(h):
    h.mkdir("/a")
    h.write("/a", "cgroup.procs", 1)
    h.write("/a", "pids.max", 1)
    with pytest.raises(PidsMax):
        h.fork(1, 2)
    assert h.read("/a", "pids.events") == "max 1\n"
    assert h.undo() == "fork 1 2"
    assert h.read("/a", "pids.events") == "max 0\n"


def test_a_kill(h):
    h.mkdir("/a")
    for pid in range(2, 3000):
        h.fork(1, pid)
        h.write("/a", "cgroup.procs", pid)
    assert h.read("/a", "cgroup.procs") == "".join(f"{pid}\n" for pid in range(2, 3000))
    h.write("/a", "cgroup.kill", 1)
    assert h.read("/a", "pids.current") == "0\n"
    h.undo()
    assert h.read("/a", "pids.current") == "2998\n"


def test_groups(h):
    for path in ("/b", "/a", "/a/y", "/a/x", "/a/x/z"):
        h.mkdir(path)
    assert h.children("/a") == ["x", "y"]
    assert h.children("/b") == []
    assert h.groups() == ["/", "/a", "/a/x", "/a/x/z", "/a/y", "/b"]
    assert h.groups("/a") == ["/a", "/a/x", "/a/x/z", "/a/y"]
    assert h.groups("/a/x/z") == ["/a/x/z"]
    with pytest.raises(makhloeum.NoGroup):
        h.groups("/c")
    with pytest.raises(makhloeum.BadPath):
        h.groups("c")
    assert h.has_group("/a/x") and not h.has_group("/x")
    with pytest.raises(FileNotFoundError):
        h.children("/c")
    with pytest.raises(BadPath):
        h.has_group("x")


def test_nothing_to_undo(h):
    with pytest.raises(NothingToUndo) as refused:
        h.undo()
    assert refused.value.errno == errno.ENODATA


def test_comments_and_line_feeds(h):
    assert h.line("# mkdir /a") == "" and h.line("") == ""
    with pytest.raises(BadSyntax):
        h.line("mkdir /a\nmkdir /b")
    assert h.groups() == ["/"]


def test_a_closed_hierarchy():
    h = Hierarchy()
    h.close()
    h.close()
    for call in (
        lambda: h.mkdir("/a"),
        lambda: h.undo(),
        lambda: h.depth(),
        lambda: h.children("/"),
        lambda: h.groups(),
        lambda: h.has_group("/"),
    ):
        with pytest.raises(ValueError):
            call()


def test_the_header_has_these_codes():
    """The codes and their errno are those of the header."""
    here = os.path.dirname(os.path.abspath(__file__))
    with open(os.path.join(here, "..", "..", "c", "makhloeum.h"), encoding="utf-8") as file:
        header = file.read()
    codes = {name: int(code) for name, code in re.findall(r"\b(MK_[A-Z_]+) = (\d+)(?! *[+*\d])", header)}
    cases = re.search(r"switch \(code\) \{(.*?)\n\s*\}", header, re.S).group(1)
    numbers, names = {}, []
    for word in re.findall(r"case (\w+):|return (\w+);", cases):
        if word[0]:
            names.append(word[0])
        else:
            numbers.update(dict.fromkeys(names, word[1]))
            names = []
    kinds = makhloeum.errors.BY_CODE
    refusals = {name: code for name, code in codes.items() if name.startswith("MK_") and code in kinds}
    path_faults = re.findall(r"(MK_\w+) = \d+", re.search(r"MK_NOT_ROOTED = 1.*?\}", header, re.S).group(0))
    statuses = (
        "MK_DONE",
        "MK_REFUSED",
        "MK_FAULT",
        "MK_TOO_SMALL",
        "MK_OUT_OF_MEMORY",
        "MK_SKIPPED",
        "MK_CLOSED",
        "MK_BUSY",
        "MK_TIMED_OUT",
        "MK_FAILED",
        "MK_WOULD_BLOCK",
        *path_faults,
    )
    refusals = {name: code for name, code in refusals.items() if name not in statuses}
    assert sorted(refusals.values()) == sorted(kinds)
    for name, code in refusals.items():
        kind = kinds[code]
        assert kind.number == getattr(errno, numbers.get(name, "EINVAL")), name
