"""The directory's side of `makhloeum check`, over a hierarchy that mounted_at serves in the place of the directory, whose processes
stand for real ones: what each command does there, and that nothing is left. look/test-check has real processes and file systems."""

import errno
import itertools
import json
import os
import select
import types
from pathlib import Path

import pytest
from open_files import open_files

from makhloeum import Hierarchy, Refused, mounted_at
from makhloeum.check import command, directory, opening, playing
from makhloeum.check.directory import NO_PID, Groups
from makhloeum.check.engine import FILES, Engine
from makhloeum.check.playing import Counts, Player
from makhloeum.check.sequences import Random, worked
from makhloeum.check.worker import _Worker, error_name

AT = "/makhloeum-test-of-check"  # no such directory is there
TOP, HOME = f"{AT}/own/top3", f"{AT}/own/home3"


class Place:
    """The hierarchy of a test, and the number of its next process."""

    h = Hierarchy.__new__(Hierarchy)
    numbers = itertools.count(1000)


class Process:
    """A process of that hierarchy in the place of a real one."""

    def __init__(self, pid):
        self.pid = pid

    limits: list = []

    @classmethod
    def first(cls, keep, limit):
        cls.limits.append(limit)
        return cls(1).fork()

    def fork(self):
        pid = next(Place.numbers)
        Place.h.fork(self.pid, pid)
        return Process(pid)

    def end(self, seconds=3):
        if is_alive(self.pid):
            Place.h.exit(self.pid)
        return True

    slay = end


def is_alive(pid):
    try:
        return bool(Place.h.where(pid))
    except Refused:
        return False


class Watch:
    """What poll tells of a file; a served one has no inotify."""

    def __init__(self, path):
        self._file = os.open(path, os.O_RDONLY)
        os.read(self._file, 99)
        self.closed = False

    def take(self, is_due, seconds):
        poll = select.poll()
        poll.register(self._file, select.POLLPRI)
        if not poll.poll(1000 * seconds if is_due else 0):
            return "nothing"
        os.pread(self._file, 99, 0)
        return "poll inotify"

    def close(self):
        assert not self.closed
        self.closed = True
        os.close(self._file)


@pytest.fixture
def served(monkeypatch):
    """The hierarchy at AT, whose processes are started and waited for as real ones."""
    for module in (directory, opening):
        monkeypatch.setattr(module, "Process", Process)
    monkeypatch.setattr(directory, "is_alive", is_alive)
    monkeypatch.setattr(directory, "wait_for_end", lambda pids, seconds: [pid for pid in pids if is_alive(pid)])
    monkeypatch.setattr(directory, "Watch", Watch)
    with mounted_at(AT) as h:
        Place.h = h
        os.mkdir(f"{AT}/own")
        yield h


@pytest.fixture
def groups(served):
    it = Groups(f"{AT}/own", 3, "free", 0.1, [])
    yield it
    assert it.end() == []
    assert served.groups() == ["/", "/own"] and served.processes("/") == [1]


def code(call, *words):
    with pytest.raises(OSError) as failed:
        call(*words)
    return errno.errorcode[failed.value.errno]


# ---- one command after the other


def test_where_groups_and_processes_are(groups, served):
    assert (groups.top, groups.home) == (TOP, HOME)
    assert served.groups() == ["/", "/own", "/own/home3", "/own/top3"]
    assert served.processes("/own/home3") == [groups.processes[1].pid] != [1]
    assert [groups.place(path) for path in ("/", "/a", "/a/b")] == [TOP, f"{TOP}/a", f"{TOP}/a/b"]
    assert groups.file("/", "cgroup.procs") == groups.file("/", "cgroup.procs", True) == f"{HOME}/cgroup.procs"
    assert groups.file("/", "cgroup.stat") == f"{TOP}/cgroup.stat"
    assert groups.file("/a", "cgroup.procs") == groups.file("/a", "cgroup.procs", True) == f"{TOP}/a/cgroup.procs"
    groups.way = "T"
    assert groups.file("/a", "cgroup.procs") == f"{TOP}/a/cgroup.threads"
    assert groups.file("/a", "cgroup.procs", True) == f"{TOP}/a/cgroup.procs"
    assert groups.file("/a", "pids.max") == f"{TOP}/a/pids.max"
    groups.way = "free"


def test_commands_about_groups_and_files(groups, served):
    assert groups.mkdir("/a") == groups.mkdir("/a/b") == "" and served.children("/own/top3/a") == ["b"]
    assert code(groups.mkdir, "/a") == "EEXIST" and code(groups.mkdir, "/n/x") == "ENOENT"
    assert groups.write("/a", "pids.max", "7", []) == "" and served.limit("/own/top3/a") == 7
    assert groups.cat("/a", "pids.max") == "7\n" and groups.cat("/", "cgroup.stat").startswith("nr_descendants 2\n")
    assert code(groups.write, "/a", "pids.max", "x", []) == "EINVAL" and code(groups.cat, "/n", "pids.max") == "ENOENT"
    names = sorted({*FILES, "cgroup.kill"})
    assert (
        groups.listed("/") == "a\n" + " ".join(names) + "\n" and groups.listed("/a/b") == "\n" + " ".join(names) + "\n"
    )
    assert code(groups.rmdir, "/a") == "EBUSY" and groups.rmdir("/a/b") == "" and served.children("/own/top3/a") == []
    assert groups.mkdir("/x") == groups.unmake("/x") == "" and served.children("/own/top3") == ["a"]


def test_a_path_has_a_letter_for_each_byte(groups, tmp_path):
    """The engine refuses such a name, so that the groups are real folders."""
    groups.top = str(tmp_path)
    for remove in (groups.unmake, groups.rmdir):
        assert groups.mkdir("/\xc3\xa9\xff") == "" and os.listdir(os.fsencode(tmp_path)) == [b"\xc3\xa9\xff"]
        assert remove("/\xc3\xa9\xff") == "" and os.listdir(tmp_path) == []
    groups.top = TOP


def test_commands_about_processes(groups, served):
    groups.mkdir("/a")
    assert groups.fork(1, 2, "/", False) == "1\n2\n" and groups.fork(2, 3, "/", False) == "1\n2\n3\n"
    assert groups.write("/a", "cgroup.procs", "3", []) == "" and groups.cat("/a", "cgroup.procs") == "3\n"
    pids = {number: process.pid for number, process in groups.processes.items()}
    assert served.processes("/own/top3/a") == [pids[3]] and served.processes("/own/home3") == [pids[1], pids[2]]
    assert groups.write("/", "cgroup.procs", "3", []) == "" and groups.cat("/", "cgroup.procs") == "1\n2\n3\n"
    assert groups.exit(2, "/") == "1\n3\n" and sorted(groups.processes) == [1, 3] and not is_alive(pids[2])
    assert code(groups.write, "/a", "cgroup.procs", "9", []) == "ESRCH" and NO_PID == 4194303
    assert code(groups.write, "/a", "cgroup.procs", "x", []) == "EINVAL"
    served.fork(1, 77)
    served.write("/own/top3/a", "cgroup.procs", 77)
    assert groups.cat("/a", "cgroup.procs") == "?77\n", "a stranger"
    for text in ("x\n", "77\nx\n", "-77\n"):
        assert groups._shown("cgroup.procs", text) == groups._shown("pids.max", text) == text, "no list of pids"
    served.exit(77)
    process = groups.processes[3]
    process.end = lambda: False
    assert code(groups.exit, 3, "/") == "ETIMEDOUT"
    Process.end(process)


def test_a_fork_that_should_not_be(groups, served):
    """A file system that cannot stop it sees the child before it is gone."""
    seen, cat = [], groups.cat
    groups.cat = lambda path, name: seen.append((path, name, served.current("/own"))) or cat(path, name)
    assert groups.fork(1, 2, "/", True) == "not stopped" and sorted(groups.processes) == [1]
    assert seen == [("/", "cgroup.procs", 2), ("/", "cgroup.procs", 1)]
    served.write("/own", "pids.max", 1)
    assert code(groups.fork, 1, 2, "/", True) == code(groups.fork, 1, 2, "/", False) == "EAGAIN"
    assert sorted(groups.processes) == [1] and len(seen) == 2


def test_a_kill(groups, served):
    for path in ("/a", "/a/b"):
        groups.mkdir(path)
    for number in (2, 3, 4):
        groups.fork(1, number, "/", False)
    for number, path in ((2, "/a"), (3, "/a/b")):
        groups.write(path, "cgroup.procs", str(number), [])
    assert groups.write("/a/b", "cgroup.kill", "1", [3]) == "alive: 1 2 4" and sorted(groups.processes) == [1, 2, 4]
    assert code(groups.write, "/a", "cgroup.kill", "2", []) == "ERANGE"
    assert groups.write("/a", "cgroup.kill", "1", [2]) == "alive: 1 4" and served.current("/own/top3") == 0
    assert groups.write("/a", "cgroup.kill", "1", []) == "alive: 1 4"


def test_a_kill_that_leaves_a_process_alive(groups, served, monkeypatch):
    waited = []
    monkeypatch.setattr(directory, "wait_for_end", lambda pids, seconds: waited.append((pids, seconds)) or pids)
    monkeypatch.setattr(directory, "file_write", lambda path, text: waited.append((path, text)))
    groups.fork(1, 2, "/", False)
    assert groups.write("/a", "cgroup.kill", "1", [2, 5]) == "alive: 1 2" and sorted(groups.processes) == [1, 2]
    assert waited == [(f"{TOP}/a/cgroup.kill", "1\n"), ([groups.processes[2].pid], 0.1)]
    # of threaded groups the processes are killed one by one
    groups.way = "T"
    assert groups.write("/a", "cgroup.kill", "1", [2]) == "alive: 1" and waited[2][1] == 0.1 and len(waited) == 3
    groups.way = "free"


def test_a_file_that_stays_open(groups, served):
    before = len(open_files())
    for path in ("/a", "/b"):
        groups.mkdir(path)
    assert groups.reread("/a", "pids.max") == groups.reread("/b", "pids.max") == "max\n"
    groups.write("/a", "pids.max", "5", [])
    assert groups.reread("/a", "pids.max") == "5\n" and groups.reread("/a", "pids.current") == "0\n"
    assert groups.reread("/", "cgroup.procs") == "1\n", "with the numbers of the engine"
    assert len(open_files()) == before + 4, "each is opened once"
    groups.rmdir("/a")
    assert len(open_files()) == before + 2, "a group that is gone keeps no open file"
    groups.mkdir("/a")
    assert groups.reread("/a", "pids.max") == "max\n"
    groups._close_kept()
    assert len(open_files()) == before


def test_watches(groups, served):
    for path in ("/a", "/b"):
        groups.mkdir(path)
    assert groups.watch("/a") == groups.watch("/a") == groups.watch("/b") == "" and len(groups.watches) == 2
    assert groups.told("/a", False) == "nothing"
    groups.write("/a", "cgroup.procs", "1", [])
    assert (
        groups.told("/a", True) == "poll inotify" and groups.told("/a", False) == groups.told("/b", False) == "nothing"
    )
    groups.write("/", "cgroup.procs", "1", [])
    watch = groups.watches["/a"]
    groups.rmdir("/a")
    assert watch.closed and list(groups.watches) == ["/b"] and not groups.watches["/b"].closed


def test_the_end_closes_what_is_watched(served):
    it = Groups(f"{AT}/own", 3, "free", 0.1, [])
    it.mkdir("/a")
    it.watch("/a")
    watch = it.watches["/a"]
    assert it.end() == [] and watch.closed


def test_the_place_of_a_process(groups, monkeypatch):
    """/proc has the group with what lies above it."""
    asked = []

    def text(path):
        asked.append(path)
        return f"1:name=systemd:/x\n0::/slice/own{shown}\n"

    monkeypatch.setattr(directory, "file_read", text)
    for shown, wanted in (("/top3", "/"), ("/top3/a/b", "/a/b"), ("/home3", "/")):
        assert groups.where(1) == f"0::{wanted}\n", shown
    shown = "/elsewhere"
    assert groups.where(1) == "0::/slice/own/elsewhere\n"
    assert asked[-1] == f"/proc/{groups.processes[1].pid}/cgroup"


def test_what_cannot_be_removed_is_named(groups, served, monkeypatch):
    groups.mkdir("/a")
    groups.fork(1, 2, "/", False)
    groups.write("/a", "cgroup.procs", "2", [])
    waits = []
    monkeypatch.setattr(directory, "remove_groups", lambda path, seconds: waits.append((path, seconds)) or [path])
    assert groups.end() == [TOP, HOME] and waits == [(TOP, 2), (HOME, 2)]
    assert served.current("/own") == 0, "no process is left"
    monkeypatch.undo()
    groups.processes.clear()
    assert directory.remove_groups(TOP, 0) == directory.remove_groups(HOME, 0) == [] and os.path.isdir(f"{AT}/own")


def test_a_group_whose_name_begins_with_a_point_is_listed_and_removed(groups, served):
    """No kernel refuses the name, and no group is hidden."""
    for name in (".a", "b", "..c"):
        served.mkdir(f"/own/top3/{name}")
    assert groups.listed("/").split("\n")[0] == "..c .a b"
    assert directory.remove_groups(TOP, 0) == [] and served.groups() == ["/", "/own", "/own/home3"]


class Entry:
    """An entry of a file system that lists no types: asked for one, it has to look, which may take long."""

    def __init__(self, folder, name):
        self.name, self.path, self._is_dir = name, os.path.join(folder, name), "." not in name

    def is_dir(self, follow_symlinks):
        assert self._is_dir and not follow_symlinks
        return True


def test_what_is_a_file_by_its_name_is_not_looked_at(groups, monkeypatch):
    names = ["a", "cgroup.procs", "pids.max", "cgroup.something.new", "pids.something.new"]
    scans = [[Entry(TOP, name) for name in names]]
    monkeypatch.setattr(directory.os, "scandir", lambda path: scans.pop(0) if scans else [])
    assert groups.listed("/") == "a\ncgroup.procs pids.max\n"
    scans = [[Entry(f"{AT}/none", name) for name in names]]
    assert directory._remove_once(f"{AT}/none") == []
    monkeypatch.undo()


# ---- ways


@pytest.fixture
def written(monkeypatch):
    """What is written where: a served file takes no -pids, and is no threaded group."""
    told = []
    monkeypatch.setattr(directory, "file_write", lambda path, text: told.append((path.removeprefix(TOP), text)))
    return told


CONTROL = "cgroup.subtree_control"
STEPS = [
    "mkdir /a",
    "mkdir /b",
    "mkdir /a/x",
    "mkdir /a/y",
    "rmdir /a/x",
    "rmdir /a/y",
    "mkdir /a/x",
    "rmdir /a/x",
    "rmdir /b",
    "rmdir /a",
]
ON = [(f"/{CONTROL}", "+pids"), (f"/a/{CONTROL}", "+pids")]


@pytest.mark.parametrize(
    "way, wanted",
    [
        ("free", []),
        ("N", []),
        # a group may hold processes again once it has no children
        ("D", [*ON, (f"/a/{CONTROL}", "-pids"), ON[1], (f"/a/{CONTROL}", "-pids")]),
        (
            "T",
            [
                *(ON[0], ("/a/cgroup.type", "threaded"), ("/b/cgroup.type", "threaded"), ON[1]),
                *(
                    ("/a/x/cgroup.type", "threaded"),
                    ("/a/y/cgroup.type", "threaded"),
                    ON[1],
                    ("/a/x/cgroup.type", "threaded"),
                ),
            ],
        ),
    ],
)
def test_when_the_controller_is_on(served, written, way, wanted):
    it = Groups(f"{AT}/own", 3, way, 0.1, [])
    assert written.pop() == (f"{HOME}/cgroup.procs", str(it.processes[1].pid))
    for line in STEPS:
        getattr(it, line.split()[0])(line.split()[1])
    assert written == wanted
    # a directory without the file
    del written[:]
    it._controlled = False
    it.mkdir("/a")
    it.rmdir("/a")
    assert [path for path, _ in written] == (["/a/cgroup.type"] if way == "T" else [])
    it.end()


def test_a_group_that_cannot_be_made_leaves_the_controller_off(served, written):
    it = Groups(f"{AT}/own", 3, "D", 0.1, [])
    del written[:]
    served.write("/own/top3", "cgroup.max.descendants", 1)
    assert code(it.mkdir, "/pids.x") == "EINVAL" and written == [(f"/{CONTROL}", "+pids"), (f"/{CONTROL}", "-pids")]
    it.mkdir("/a")
    del written[:]
    assert code(it.mkdir, "/b") == "EAGAIN" and written == [], "it is on because of another"
    assert code(it.mkdir, "/a/b") == "EAGAIN" and written == [(f"/a/{CONTROL}", "+pids"), (f"/a/{CONTROL}", "-pids")]
    it.end()


# ---- whole sequences


class Near:
    """A worker in this process. What goes between is JSON, as between two."""

    def __init__(self, limit):
        self._worker = _Worker(types.SimpleNamespace(at=None))

    def ask(self, method, *words):
        try:
            answer = ["ok", getattr(self._worker, method)(*json.loads(json.dumps(words)))]
        except OSError as no:
            answer = [error_name(no), ""]
        error, value = json.loads(json.dumps(answer))
        return error, value

    def leave(self):
        pass


@pytest.fixture
def player(served, monkeypatch):
    monkeypatch.setattr(playing, "Worker", Near)
    os.rmdir(f"{AT}/own")
    it = Player(AT, 10)
    assert it.found == {
        "own": f"{AT}/makhloeum-check-{os.getpid()}",
        "missing": [],
        "ways": ["free"],
        "kind": "unknown",
    }
    yield it
    it.close()
    assert it.left == [] and served.groups() == ["/"] and served.processes("/") == [1]


def test_random_sequences_are_answered_alike(player):
    counts = Counts()
    for number in range(1, 13):
        assert player.play("free", Random(5, number), counts) is None
    assert counts.operations > 500 and set(counts.known) <= {
        playing.TAKES_MORE,
        "the kernel looks for the group first",
        "the kernel refuses at the open",
        "the kernel has another errno for a number outside the range",
    }


def test_worked_sequences_are_answered_alike(player):
    sequences = list(worked(["free"]))
    assert len(sequences) > 20
    for name, way, commands in sequences:
        assert player.play(way, playing.listed(commands), Counts()) is None, name


def test_the_whole_check(player, capsys):
    options = command._arguments([AT, "--count", "300", "--no-worked", "--quiet"])
    assert command._checked(options, player) == 0
    told = capsys.readouterr()
    assert ", 0 differences\n" in told.out and told.err == ""


@pytest.mark.parametrize(
    "name, fault, last",
    [
        ("listed", lambda right, path: "\n" + right(path).split("\n", 1)[1], "list"),
        ("cat", lambda right, path, file: right(path, file).replace("max 1\n", "max 0\n"), "cat"),
        ("told", lambda right, path, is_due: "nothing", "told"),
    ],
)
def test_a_wrong_answer_is_found(player, monkeypatch, name, fault, last):
    right = getattr(Groups, name)
    monkeypatch.setattr(Groups, name, lambda self, *words: fault(lambda *it: right(self, *it), *words))
    player.patience = 0.05
    for number in range(1, 40):
        found = player.play("free", Random(5, number))
        if found:
            break
    assert found and found.played[-1][0] == last and found.theirs.error == "ok" and found.ours.text != found.theirs.text


def test_an_open_file_that_keeps_its_first_text_is_found(player, monkeypatch):
    texts = {}
    monkeypatch.setattr(
        directory,
        "read_whole",
        lambda descriptor: texts.setdefault(descriptor, os.pread(descriptor, 65536, 0).decode()),
    )
    monkeypatch.setattr(directory, "file_read", lambda path: Path(path).read_text())
    for number in range(1, 40):
        found = player.play("free", Random(5, number))
        texts.clear()
        if found:
            break
    assert found and found.played[-1][0] == "reread" and Engine("free", [], False).close() is None


def test_each_process_of_a_check_has_its_limit(served):
    at = _Worker(types.SimpleNamespace(at=None), 70)
    Process.limits.clear()
    assert at.open(AT, "checked")["ways"] == ["free"] and Process.limits == [70, 70]
    at.begin("free", 1.0)
    assert Process.limits == [70, 70, 70] and at.close() == []


@pytest.mark.parametrize("left", ["top3", "home3"])
def test_groups_that_are_left_of_another_check_are_not_taken(tmp_path, left):
    (tmp_path / left).mkdir()
    with pytest.raises(FileExistsError):
        Groups(str(tmp_path), 3, "free", 1.0, [])
