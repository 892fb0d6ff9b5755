"""Which directories `makhloeum check` can use, and the sentence for each that it can't: plain folders with the files of a hierarchy.
test_directory.py opens a whole one."""

import ctypes
import errno
import os

import pytest

from makhloeum.check import opening
from makhloeum.check.opening import NEEDED, Unusable, file_system, open_directory

FILES = {
    "cgroup.procs": "",
    "cgroup.controllers": "cpu pids\n",
    "cgroup.subtree_control": "pids\n",
    "cgroup.max.depth": "max\n",
    "cgroup.max.descendants": "max\n",
    "pids.max": "max\n",
    "pids.current": "1\n",
}


@pytest.fixture
def folder(tmp_path):
    """Makes a folder that looks like a hierarchy, but for some files; None stands for a file that is missing."""

    def make(**changed):
        for name, text in {**FILES, **{key.replace("__", "."): text for key, text in changed.items()}}.items():
            if text is not None:
                (tmp_path / name).write_text(text)
        return str(tmp_path)

    return make


@pytest.mark.parametrize(
    "changed, fault",
    [
        ({"cgroup__procs": None}, "it is not a cgroup2 directory: it has no cgroup.procs"),
        ({"tasks": ""}, "it is a cgroup v1 hierarchy"),
        ({"cgroup__controllers": "cpu memory\n"}, "the pids controller is missing: it is not in cgroup.controllers"),
        (
            {"cgroup__controllers": "cpu xpids pidsx\n"},
            "the pids controller is missing: it is not in cgroup.controllers",
        ),
        (
            {"cgroup__subtree_control": "cpu\n"},
            "the pids controller is off for the groups below it: write +pids to its cgroup.subtree_control",
        ),
        ({"pids__max": "65\n", "pids__current": "2\n"}, "its pids.max leaves too little room: a check needs 64"),
        ({"cgroup__max__descendants": "255\n"}, "its cgroup.max.descendants leaves too little room: a check needs 256"),
        ({"cgroup__max__depth": "11\n"}, "its cgroup.max.depth leaves too little room: a check needs 12"),
        # a plain folder makes no files in a new one
        ({}, "the pids controller is missing: a new group has no pids.events"),
        (
            {"cgroup__controllers": None, "cgroup__subtree_control": None},
            "the pids controller is missing: a new group has no pids.events",
        ),
        (
            {"cgroup__max__depth": None, "cgroup__max__descendants": None, "pids__max": None},
            "the pids controller is missing: a new group has no pids.events",
        ),
        (
            {
                "pids__max": "66\n",
                "pids__current": "2\n",
                "cgroup__max__descendants": "256\n",
                "cgroup__max__depth": "12\n",
            },
            "the pids controller is missing: a new group has no pids.events",
        ),
    ],
)
def test_a_directory_that_cannot_be_checked(folder, changed, fault):
    at = folder(**changed)
    before = sorted(os.listdir(at))
    assert open_directory(at, "own", []) == {"fault": fault}
    assert sorted(os.listdir(at)) == before, "nothing is left in it"


def test_what_is_no_directory(tmp_path):
    (tmp_path / "file").write_text("")
    assert open_directory(str(tmp_path / "file"), "own", []) == {"fault": "it is not a directory"}
    assert open_directory(str(tmp_path / "none"), "own", []) == {"fault": os.strerror(errno.ENOENT)}


@pytest.mark.parametrize("number", [errno.EACCES, errno.EROFS, errno.EPERM, errno.ENOSPC])
def test_a_group_that_cannot_be_made(folder, monkeypatch, number):
    def refused(path):
        raise OSError(number, os.strerror(number), path)

    at = folder()
    monkeypatch.setattr(opening.os, "mkdir", refused)
    said = os.strerror(number)
    wanted = said if number == errno.ENOSPC else f"it is not writable: {said}"
    assert open_directory(at, "own", []) == {"fault": wanted}


def test_the_files_of_a_new_group(tmp_path):
    for name in NEEDED:
        (tmp_path / name).write_text("")
    assert opening._files(str(tmp_path)) == ["pids.peak", "pids.events.local"]
    (tmp_path / "pids.peak").write_text("")
    assert opening._files(str(tmp_path)) == ["pids.events.local"]
    for name in NEEDED:
        (tmp_path / name).unlink()
        sentence = (
            f"no {name}$"
            if name.startswith("pids.")
            else f"^it is not a whole cgroup2 hierarchy: a new group has no {name}$"
        )
        with pytest.raises(Unusable, match=sentence):
            opening._files(str(tmp_path))
        (tmp_path / name).write_text("")


class Sleeping:
    """A process that is moved by writing the number of its start."""

    started: list = []

    def __init__(self):
        self.pid, self.is_slain = 100 + len(self.started), False
        self.started.append(self)

    @classmethod
    def first(cls, keep, limit):
        assert keep == ["kept"] and limit == 7
        return cls()

    def slay(self):
        self.is_slain = True


@pytest.mark.parametrize(
    "controlled, failures, wanted",
    [
        (True, {}, True),
        (False, {}, True),
        (True, {"inner": errno.EBUSY}, False),
        (True, {"inner": errno.EOPNOTSUPP}, False),
        (True, {"inner/leaf": errno.EBUSY}, False),
        (True, {"inner": errno.EACCES}, errno.EACCES),
        (False, {"inner/leaf": errno.EINVAL}, errno.EINVAL),
    ],
)
def test_whether_a_group_with_children_may_hold_processes(tmp_path, monkeypatch, controlled, failures, wanted):
    own, told = str(tmp_path), []

    def written(path, text):
        at = os.path.relpath(os.path.dirname(path), own)
        told.append((os.path.relpath(path, own), text))
        if at in failures and path.endswith("cgroup.procs"):
            raise OSError(failures[at], os.strerror(failures[at]))

    if controlled:
        (tmp_path / "cgroup.subtree_control").write_text("")
    monkeypatch.setattr(opening, "file_write", written)
    monkeypatch.setattr(opening, "Process", Sleeping)
    monkeypatch.setattr(Sleeping, "started", [])
    if isinstance(wanted, bool):
        assert opening._is_free(own, ["kept"], 7) is wanted
    else:
        with pytest.raises(Unusable, match=f"^a process cannot be moved into it: {os.strerror(wanted)}$"):
            opening._is_free(own, ["kept"], 7)
    on = [("cgroup.subtree_control", "+pids"), ("inner/cgroup.subtree_control", "+pids")] if controlled else []
    moves = [("inner/cgroup.procs", "100"), ("inner/leaf/cgroup.procs", "101")]
    assert told == on + moves[: 1 if "inner" in failures else 2]
    assert all(process.is_slain for process in Sleeping.started) and len(Sleeping.started) == len(told) - len(on)
    assert not (tmp_path / "inner").exists(), "nothing is left"


def test_kinds_of_file_systems(tmp_path, monkeypatch):
    assert file_system(str(tmp_path / "none")) == "unknown" and file_system("/proc") == "another"

    class Library:
        def statfs(self, path, room):
            ctypes.c_long.from_buffer(room).value = self.magic
            return 0

    monkeypatch.setattr(opening.ctypes, "CDLL", lambda name: Library())
    for magic, kind in ((0x63677270, "cgroup2"), (0x65735546, "fuse"), (0x27E0EB, "another")):
        Library.magic = magic
        assert file_system("/x") == kind
