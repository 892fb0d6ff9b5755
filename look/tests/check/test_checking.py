"""The parts of `makhloeum check` that clean up, call the worker, compare and write scripts. test_check.py has others,
and look/test-check has the whole."""

import errno
import os
import pathlib
import re
import signal
import socket
import struct
import subprocess
import threading
import types

import pytest
from open_files import open_files

from makhloeum._table import PID_MAX
from makhloeum.check import command, directory, known, opening, watching
from makhloeum.check.differences import CONTRADICTION, difference
from makhloeum.check.directory import remove_groups
from makhloeum.check.engine import Answer, Engine
from makhloeum.check.playing import Counts, Difference
from makhloeum.check.script import shell_script
from makhloeum.check.worker import Hang, Worker, _Lines, _Worker

ENDING = (signal.SIGINT, signal.SIGTERM, signal.SIGHUP)
BUSY = Answer("EBUSY", "", "hasprocesses")


# ---- signals


@pytest.fixture
def handlers():
    """The handlers of `check`, and the earlier ones in the end."""
    before = [signal.signal(number, command._interrupt) for number in ENDING]
    yield
    for number, handler in zip(ENDING, before):
        signal.signal(number, handler)


class Player:
    """A player whose every sequence, and whose cleaning up, is interrupted."""

    def __init__(self, number):
        self.number, self.counts, self.left, self.is_closed = number, Counts(), [], False
        self.found = {"ways": ["free"], "missing": []}

    def play(self, *words):
        os.kill(os.getpid(), self.number)

    def close(self):
        for number in ENDING:
            os.kill(os.getpid(), number)
        self.is_closed = True


@pytest.mark.parametrize("number", ENDING)
def test_a_second_signal_does_not_interrupt_the_cleaning_up(handlers, capsys, number):
    player = Player(number)
    status = command._checked(command._arguments(["/nowhere", "--no-worked", "--quiet"]), player)
    told = capsys.readouterr()
    assert (status, player.is_closed) == (2, True)
    assert told.out.startswith("0 operations in ") and told.err == "makhloeum check: /nowhere: interrupted\n"


def test_what_could_not_be_removed_is_named(handlers, capsys):
    player = Player(signal.SIGINT)
    player.play, player.close, player.left = (lambda *words: None), (lambda: None), ["/nowhere/makhloeum-check-1"]
    status = command._checked(command._arguments(["/nowhere", "--count", "0", "--quiet"]), player)
    assert (
        status == 2
        and capsys.readouterr().err == "makhloeum check: /nowhere: /nowhere/makhloeum-check-1 could not be removed\n"
    )


def test_a_second_signal_does_not_come_before_the_cleaning_up(handlers):
    with pytest.raises(command.Interrupted):
        os.kill(os.getpid(), signal.SIGTERM)
    for number in ENDING:
        os.kill(os.getpid(), number)
        assert signal.getsignal(number) == signal.SIG_IGN


# ---- the worker


class Answering(Worker):
    """A worker that has these answers ready."""

    def __init__(self, *answers, limit=0.2):
        ours, self.theirs = socket.socketpair()
        self.limit, self._lines, self._number = limit, _Lines(ours), 0
        for answer in answers:
            _Lines(self.theirs).put(answer)


def test_a_late_answer_is_not_taken_for_the_next_one():
    worker = Answering([1, "ok", "of the first"], [2, "EBUSY", "of the second"])
    worker._number = 1  # its request was interrupted
    assert worker.ask("play", "rmdir", "/a") == ("EBUSY", "of the second")
    with pytest.raises(Hang):
        worker.ask("play", "rmdir", "/a")
    worker.theirs.close()
    with pytest.raises((Hang, BrokenPipeError)):
        worker.ask("end")
    worker._lines.at.close()


def test_a_worker_that_made_nothing_leaves_nothing():
    worker = _Worker(_Lines(None))
    assert worker.end() == worker.close() == []


@pytest.mark.parametrize("failure", [None, BrokenPipeError, ConnectionResetError])
def test_a_worker_that_nobody_asks_any_more_removes_what_it_made(monkeypatch, failure):
    """Also if the checking process ended before it got an answer, in the midst of a sequence."""

    def refused(answer):
        raise failure

    requests, ended = ([[1, "begin"]] if failure else []) + [None], []
    worker = _Worker(types.SimpleNamespace(get=lambda: requests.pop(0), put=refused, at=None))
    worker._own, worker.begin = "/own", lambda: None
    worker._groups = types.SimpleNamespace(end=lambda: ended.append("sequence") or [])
    monkeypatch.setattr("makhloeum.check.worker.remove_groups", lambda path, seconds: ended.append(path) or [])
    worker.serve()
    assert ended == ["sequence", "/own"] and worker._groups is None


def test_a_value_is_sent_whole():
    """A socket may take a part of what it is given."""
    sent = []
    _Lines(types.SimpleNamespace(sendall=sent.append)).put([1, "é\n", None])
    assert sent == [b'[1, "\\u00e9\\n", null]\n']


def test_an_answer_that_comes_in_parts():
    ours, theirs = socket.socketpair()
    theirs.sendall(b'[1, "o')
    lines = _Lines(ours)
    with pytest.raises(Hang):
        lines.get(0.05)
    theirs.sendall(b'k", ""]\n[2, ')
    assert lines.get(1) == [1, "ok", ""]
    theirs.sendall(b"3]\n")
    theirs.close()
    assert (lines.get(1), lines.get(1)) == ([2, 3], None)
    ours.close()


# ---- what poll and inotify report


def event(mask, name=b""):
    """An event of inotify, as the kernel lays it out."""
    return struct.pack("iIII", 1, mask, 0, len(name)) + name


MODIFIED, IGNORED = event(0x2), event(0x8000)


class Told(watching.Watch):
    """A watch of a socket, on which a byte out of band is a POLLPRI, and of a pipe with events of inotify. `later` has what comes
    after each read of the file."""

    def __init__(self, now, *later):
        near, self.far = socket.socketpair()
        self._file = near.detach()
        self._inotify, self.events = os.pipe2(os.O_NONBLOCK)
        self.later, self.reads = list(later), 0
        self.come(now)

    def come(self, what):
        for one in what:
            if one == "poll":
                self.far.send(b"!", socket.MSG_OOB)
            else:
                os.write(self.events, one)

    def _see(self):
        self.reads += 1
        near = socket.socket(fileno=os.dup(self._file))
        with near:
            for kind in (socket.MSG_OOB, 0):
                try:
                    near.recv(1, kind | socket.MSG_DONTWAIT)
                except OSError:
                    pass
        self.come(self.later.pop(0) if self.later else ())

    def close(self):
        super().close()
        self.far.close()
        os.close(self.events)


@pytest.mark.parametrize(
    "now, again, wanted, reads",
    [
        ([], [], "nothing", 0),
        (["poll"], [], "poll", 1),
        ([MODIFIED], [], "inotify", 1),
        (["poll", MODIFIED], [], "poll inotify", 1),
        (["poll", MODIFIED + MODIFIED], [], "poll inotify", 1),
        (["poll", MODIFIED], ["poll"], "poll inotify, again poll", 2),
        (["poll", MODIFIED], [MODIFIED], "poll inotify, again inotify", 2),
        (["poll", MODIFIED], ["poll", MODIFIED], "poll inotify, again poll inotify", 2),
        (["poll"], ["poll"], "poll, again poll", 2),
        ([MODIFIED], ["poll"], "inotify, again poll", 2),
        ([IGNORED], [], "nothing", 0),
        (["poll", IGNORED], [], "poll", 1),
        (["poll", IGNORED + event(0x2, b"file" + bytes(12))], [], "poll inotify", 1),
        (["poll", event(0x8000, b"file" + bytes(12)) + MODIFIED], [], "poll inotify", 1),
        (["poll", event(0x2 | 0x40000000)], [], "poll inotify", 1),
    ],
)
def test_what_came_of_a_change(now, again, wanted, reads):
    watch = Told(now, again)
    try:
        assert (watch.take(True, 0.2), watch.reads) == (wanted, reads)
        assert (watch.take(True, 0.05), watch.reads) == ("nothing", reads), "each is told once"
    finally:
        watch.close()


def test_a_change_that_is_due_is_waited_for_and_no_other():
    watch = Told([])
    try:
        # a wait for as long as this would end the tests
        assert watch.take(False, 36000) == "nothing"
        late = threading.Timer(0.2, watch.come, (["poll", MODIFIED],))
        late.start()
        assert watch.take(True, 36000) == "poll inotify", "it waits no longer once both have come"
        late.join()
        watch.come(["poll"])
        assert watch.take(False, 0) == "poll"
    finally:
        watch.close()


def test_a_watch_of_a_file(tmp_path):
    """A file elsewhere has no POLLPRI, but inotify tells of a write."""
    file = tmp_path / "cgroup.events"
    file.write_text("populated 0\n")
    before = open_files()
    watch = watching.Watch(str(file))
    assert watch._modified() is False
    with open(file, "a", encoding="ascii") as it:
        it.write("frozen 0\n")
    assert watch._modified() is True and watch._modified() is False
    watch.close()
    assert open_files() == before
    with pytest.raises(FileNotFoundError):
        watching.Watch(str(tmp_path / "none"))
    assert open_files() == before


@pytest.mark.parametrize("fails, number", [("inotify_init1", errno.EMFILE), ("inotify_add_watch", errno.ENOSPC)])
def test_a_watch_that_inotify_refuses(tmp_path, monkeypatch, fails, number):
    """Its errno is said, and no file stays open."""
    (tmp_path / "cgroup.events").write_text("populated 0\n")
    numbers = []

    class Library:
        def inotify_init1(self, flags):
            numbers.append(errno.EMFILE)
            return -1 if fails == "inotify_init1" else os.open("/dev/null", os.O_RDONLY)

        def inotify_add_watch(self, descriptor, path, mask):
            assert path == os.fsencode(tmp_path / "cgroup.events") and mask == 2
            numbers.append(errno.ENOSPC if descriptor >= 0 else errno.EBADF)
            return -1

    monkeypatch.setattr(watching.ctypes, "CDLL", lambda name, use_errno: Library())
    monkeypatch.setattr(watching.ctypes, "get_errno", lambda: numbers[-1])
    before = open_files()
    with pytest.raises(OSError) as failed:
        watching.Watch(str(tmp_path / "cgroup.events"))
    assert (failed.value.errno, failed.value.strerror) == (number, os.strerror(number))
    assert open_files() == before


# ---- removing groups


def test_groups_are_removed_from_below(tmp_path):
    (tmp_path / "own" / "a" / "b").mkdir(parents=True)
    (tmp_path / "own" / "c").mkdir()
    assert remove_groups(str(tmp_path / "own"), 0) == [] and os.listdir(tmp_path) == []
    (tmp_path / "own" / "a").mkdir(parents=True)
    (tmp_path / "own" / "a" / "busy").write_text("")
    assert remove_groups(str(tmp_path / "own"), 0) == [str(tmp_path / "own" / "a"), str(tmp_path / "own")]
    assert remove_groups(str(tmp_path / "none"), 0) == []


# ---- scripts

NAMES = [
    "a;id>hit",
    "$(id>hit)",
    "`id>hit`",
    "it's",
    '"',
    "-p",
    "--help",
    "*",
    "~",
    "a&b",
    "#",
    "\\",
    "{a,b}",
    "a|b",
    "<x",
    "!",
]


@pytest.mark.parametrize("way", ["free", "D", "T"])
def test_the_names_of_groups_are_quoted_in_a_script(tmp_path, way):
    """It runs in a plain directory, where each command but mkdir and rmdir fails and nothing else happens."""
    commands = []
    for name in NAMES:
        commands += [["mkdir", f"/{name}"], ["cat", f"/{name}", "pids.max"], ["list", f"/{name}"]]
    for name in NAMES[:-1]:
        commands.append(["rmdir", f"/{name}"])
    commands += [
        ["mkdir", "/-x"],
        ["mkdir", "/-x/-y"],
        ["rmdir", "/-x/-y"],
        ["rmdir", "/-x"],
        ["rmdir", f"/{NAMES[-1]}"],
    ]
    script = "\n".join(shell_script(Difference(way, commands, BUSY, Answer("EINVAL")), str(tmp_path), False)) + "\n"
    if way == "T":
        script = re.sub(r"; echo threaded >\S*'?[^;\n]*cgroup\.type'?", "", script)
    ran = subprocess.run(
        ["sh"], input=script, text=True, capture_output=True, timeout=600, env=dict(os.environ, LC_ALL="C")
    )
    assert ran.returncode == 0, ran.stderr
    said = [line for line in ran.stderr.split("\n") if line and not line.startswith("cat: ") and "kill" not in line]
    assert said == [] and ran.stderr.count("No such file") == len(NAMES)
    assert os.listdir(tmp_path) == [], "the script removes what it made, and nothing else was made"


def test_a_script_keeps_what_it_needs_in_any_folder(tmp_path):
    """It reaches its processes by fifos, below TMPDIR."""
    place, folder = tmp_path / "it's $(id>hit) here", tmp_path / "folder"
    place.mkdir()
    folder.mkdir()
    commands = [["fork", "1", "2"], ["fork", "2", "3"], ["exit", "3"], ["exit", "2"]]
    script = (
        "\n".join(shell_script(Difference("free", commands, BUSY, Answer("EINVAL")), str(folder))) + "\necho $p2,$p3\n"
    )
    words = dict(os.environ, LC_ALL="C", TMPDIR=str(place))
    ran = subprocess.run(["sh"], input=script, text=True, capture_output=True, timeout=600, env=words)
    assert re.fullmatch(r"\d+,\d+\n", ran.stdout), ran.stderr
    assert not re.search("mkfifo|rm: |No such file|ambiguous|cannot", ran.stderr) and os.listdir(place) == []
    assert sorted(os.listdir(tmp_path)) == ["folder", place.name]


def test_values_and_the_directory_are_quoted_in_a_script(tmp_path):
    home = tmp_path / "it's $(id>hit) here"
    home.mkdir()
    commands = [["mkdir", "/a"], ["write", "/a", "pids.max", "$(id>hit)"], ["rmdir", "/a"]]
    script = shell_script(Difference("free", commands, BUSY, Answer("EINVAL")), str(home))
    assert "echo '$(id>hit)' >a/pids.max" in "\n".join(script)
    ran = subprocess.run(["sh"], input="\n".join(script[:4]) + "\n", text=True, capture_output=True, timeout=600)
    assert ran.returncode == 0 and os.listdir(home) == [] and os.listdir(tmp_path) == [home.name]


def test_a_process_that_is_none_has_a_number_in_a_script(tmp_path):
    commands = [
        ["fork", "1", "2"],
        ["mkdir", "/a"],
        ["write", "/a", "cgroup.procs", "2"],
        ["write", "/a", "cgroup.procs", "7"],
    ]
    script = shell_script(Difference("free", commands, BUSY, Answer("EINVAL")), str(tmp_path))
    assert script[-1] == "/bin/echo 4194303 >a/cgroup.procs" and "echo $p2 >a/cgroup.procs" in script[-2]


# ---- the directory


def test_a_script_forgets_the_processes_of_a_killed_group_alone():
    """Those of a group whose name only begins alike are moved and waited for as before."""
    commands = [["mkdir", "/a"], ["mkdir", "/a/b"], ["mkdir", "/ab"]]
    for pid, group in (("2", "/a/b"), ("3", "/ab")):
        commands += [["fork", "1", pid], ["write", group, "cgroup.procs", pid]]
    commands += [
        ["write", "/a", "cgroup.kill", "1"],
        ["write", "/a", "cgroup.procs", "3"],
        ["write", "/a", "cgroup.procs", "2"],
    ]
    commands.append(["rmdir", "/a"])
    lines = shell_script(Difference("free", commands, BUSY, Answer("EINVAL")), "/dir", False)
    at = next(i for i, line in enumerate(lines) if "cgroup.kill" in line)
    assert lines[at].endswith("; wait $p2") and lines[at + 1 : at + 3] == [
        "echo $p3 >a/cgroup.procs",
        f"echo {PID_MAX} >a/cgroup.procs",
    ]


def test_room_is_what_a_limit_leaves(tmp_path):
    (tmp_path / "pids.max").write_text("100\n")
    (tmp_path / "pids.current").write_text("36\n")
    opening._room(str(tmp_path))
    (tmp_path / "pids.current").write_text("37\n")
    with pytest.raises(opening.Unusable, match="its pids.max leaves too little room: a check needs 64"):
        opening._room(str(tmp_path))
    (tmp_path / "pids.max").write_text("max\n")
    opening._room(str(tmp_path))


def test_a_process_of_somebody_else_is_seen():
    groups = directory.Groups.__new__(directory.Groups)
    groups.processes = {number: types.SimpleNamespace(pid=100 - number) for number in (2, 3)}
    assert groups.named(["97", "5", "98"]) == ["2", "3", "?5"] and groups.named([]) == []


# ---- differences


@pytest.mark.parametrize(
    "file, value, error, wanted",
    [
        ("pids.max", "0x400000", "ok", known.TAKES_MORE),
        ("pids.max", "0x400001", "ok", CONTRADICTION),
        ("pids.max", "4194305", "ok", CONTRADICTION),
        ("pids.max", "+5", "ok", known.TAKES_MORE),
        ("pids.max", "-1", "ok", CONTRADICTION),
        ("pids.max", "9223372036854775808", "ERANGE", known.OTHER_ERRNO),
        ("pids.max", "9223372036854775807", "ERANGE", CONTRADICTION),
        ("cgroup.max.depth", "0x7fffffff", "ok", known.TAKES_MORE),
        ("cgroup.max.depth", "2147483648", "ok", CONTRADICTION),
        ("cgroup.max.depth", "2147483648", "ERANGE", known.OTHER_ERRNO),
        ("cgroup.max.depth", "-1", "ERANGE", known.OTHER_ERRNO),
        ("cgroup.max.depth", "0x10", "ERANGE", CONTRADICTION),
        ("cgroup.kill", "2", "ok", CONTRADICTION),
        ("cgroup.kill", "01", "ok", known.TAKES_MORE),
        ("cgroup.kill", "2", "ERANGE", known.OTHER_ERRNO),
        ("cgroup.kill", "0x1", "ERANGE", CONTRADICTION),
        ("cgroup.procs", "99999999", "ESRCH", known.OTHER_ERRNO),
        ("cgroup.procs", "-5", "ESRCH", CONTRADICTION),
        ("pids.max", "-5", "ESRCH", CONTRADICTION),
        ("pids.max", "0x10", "ESRCH", CONTRADICTION),
        ("cgroup.procs", "0", "ESRCH", CONTRADICTION),
        ("cgroup.procs", "99999999", "ERANGE", CONTRADICTION),
        ("cgroup.procs", "010", "ERANGE", CONTRADICTION),
        ("pids.max", "x", "ok", CONTRADICTION),
        ("pids.max", "-1", "ENOENT", known.GROUP_FIRST),
        ("pids.max", "-1", "EBUSY", CONTRADICTION),
    ],
)
def test_numbers_that_only_a_kernel_takes(file, value, error, wanted):
    engine = Engine("free", [], False)
    try:
        engine.play(["mkdir", "/a"])
        words, ours = ["write", "/a", file, value], Answer("EINVAL", "", "value")
        assert difference(words, ours, Answer(error), engine, {"kind": "cgroup2", "missing": []}) == wanted
    finally:
        engine.close()


def test_which_processes_a_kill_ends():
    engine = Engine("free", [], False)
    try:
        for line in ("mkdir /a", "mkdir /a/b", "fork 1 2", "write /a/b cgroup.procs 2"):
            engine.play(line.split(" "))
        for value, ended in (("1", [2]), ("0x1", [2]), ("01", [2]), ("2", []), ("0", []), ("x", [])):
            assert engine.dying(["write", "/a", "cgroup.kill", value]) == ended, value
        assert engine.dying(["write", "/b", "cgroup.kill", "1"]) == engine.dying(["write", "/a", "pids.max", "1"]) == []
    finally:
        engine.close()


def played(*lines):
    """What a kernel shows after these lines, each of which it took, or with what it refused it."""
    followed = known.Followed()
    for line in lines:
        words, _, said = line.partition(" -> ")
        followed.play(words.split(" "), said or "ok")
    return followed


def test_peaks_and_events_of_a_kernel():
    """As DECISIONS says it. Plain is the guide's way, then a kernel's with refused forks, with moves, and with both."""
    ways = (False, False), (True, False), (False, True), (True, True)
    start = "mkdir /a", "mkdir /a/b", "mkdir /a/b/c", "fork 1 2", "write /a/b/c cgroup.procs 2"
    refused = played(*start, "fork 2 3 -> refused pidsmax /a/b")
    assert [[refused.peak_by_way(path)[way] for way in ways] for path in ("/a", "/a/b", "/a/b/c")] == [
        [1, 1, 1, 1],
        [1, 1, 1, 1],
        [1, 2, 1, 2],
    ]
    assert [refused.events.total[path] for path in ("/a", "/a/b", "/a/b/c")] == [1, 1, 0]
    assert [refused.events.own[path] for path in ("/a", "/a/b", "/a/b/c")] == [0, 0, 1]
    moved = played(*start, "mkdir /a/d", "write /a/d cgroup.procs 2")
    assert [[moved.peak_by_way(path)[way] for way in ways] for path in ("/a", "/a/b", "/a/d")] == [
        [1, 1, 2, 2],
        [1, 1, 1, 1],
        [1, 1, 1, 1],
    ]
    still = played(*start, "write /a/b/c cgroup.procs 2", "fork 2 3", "exit 3", "fork 2 4")
    assert [still.peak_by_way("/a/b/c")[way] for way in ways] == [2, 2, 2, 2]
    killed = played(
        *start,
        "fork 2 3",
        "write /a cgroup.kill 1",
        "fork 1 5",
        "write /a/b cgroup.procs 5",
        "rmdir /a/b/c",
        "mkdir /a/b/c",
    )
    assert killed.home == {"1": "/", "5": "/a/b"} and killed.peak_by_way("/a")[False, False] == 2
    assert killed.peak_by_way("/a/b/c")[True, True] == 0


def test_the_names_of_known_differences_are_those_of_the_documents():
    """DECISIONS has one table of all of them, by the names that `check` and evidence/compare print."""
    decisions = pathlib.Path(__file__).parents[3] / "docs" / "DECISIONS.md"
    table = re.findall(r"^\| `([^`]*)` \|", decisions.read_text("utf-8"), re.M)
    constants = vars(known).items()
    names = [value for name, value in constants if name.isupper() and isinstance(value, str)]
    assert len(names) > 15 and sorted(table) == sorted(names)
