"""The sleeping processes of `makhloeum check`, and the worker that has them: real ones, without a directory."""

import errno
import os
import signal
import socket
import time
import traceback

import pytest

from makhloeum.check import processes, worker
from makhloeum.check.processes import Process, is_alive, leave_no_zombies, wait_for_end
from makhloeum.check.worker import Hang, Worker, error_name

PATIENCE = 300  # seconds


def in_a_child(body):
    """Runs the body in a process of its own, since it changes how children end. An error of the body is the test's."""
    reading, writing = os.pipe()
    child = os.fork()
    if child == 0:
        try:
            os.close(reading)
            leave_no_zombies()
            body()
        except BaseException:
            os.write(writing, traceback.format_exc().encode()[-4000:])
        finally:
            os._exit(0)
    os.close(writing)
    with open(reading, "rb") as told:
        text = told.read().decode()
    os.waitpid(child, 0)
    assert text == ""


def fields_of(pid):
    """Its state, its parent and more."""
    with open(f"/proc/{pid}/stat", encoding="ascii", errors="replace") as file:
        return file.read().rpartition(")")[2].split()


def parent_of(pid):
    return int(fields_of(pid)[1])


def sockets_of(pid):
    found = set()
    for fd in os.listdir(f"/proc/{pid}/fd"):
        try:
            found.add(os.readlink(f"/proc/{pid}/fd/{fd}"))
        except FileNotFoundError:  # that of the listing itself
            continue
    return {link for link in found if link.startswith("socket:")}


def until(what):
    end = time.monotonic() + PATIENCE
    while not what() and time.monotonic() < end:
        time.sleep(0.002)
    return what()


# ---- processes


def test_processes_fork_and_end():
    def body():
        first = Process.first([], PATIENCE)
        child = first.fork()
        grandchild, other = child.fork(), first.fork()
        assert parent_of(first.pid) == os.getpid() and parent_of(child.pid) == parent_of(other.pid) == first.pid
        assert parent_of(grandchild.pid) == child.pid
        assert child.end(PATIENCE) is True and not is_alive(child.pid)
        assert (
            is_alive(grandchild.pid) and is_alive(first.pid) and until(lambda: parent_of(grandchild.pid) == os.getpid())
        )
        more = grandchild.fork()
        assert parent_of(more.pid) == grandchild.pid, "an orphan goes on"
        assert [it._at.gettimeout() for it in (first, more)] == [PATIENCE / 2] * 2, "half of the limit"
        for process in (more, grandchild, other, first):
            assert process.slay(PATIENCE) is True and not is_alive(process.pid)
        assert first.slay(PATIENCE) is True and first.end(PATIENCE) is True, "it may have ended already"

    in_a_child(body)


def test_how_long_an_end_is_waited_for(monkeypatch):
    """A third of the limit, if the caller doesn't say otherwise."""
    waited = []
    monkeypatch.setattr(processes, "wait_for_end", lambda pids, seconds: waited.append((pids, seconds)) or pids)
    monkeypatch.setattr(processes.os, "kill", lambda pid, number: waited.append((pid, number)))
    for how, words, wanted in (
        ("end", (), [([4711], 20)]),
        ("end", (0,), [([4711], 0)]),
        ("slay", (), [(4711, signal.SIGKILL), ([4711], 20)]),
        ("slay", (5,), [(4711, signal.SIGKILL), ([4711], 5)]),
    ):
        ours, theirs = socket.socketpair()
        with theirs:
            theirs.send(b"4711")
            assert getattr(Process(ours, 60), how)(*words) is False and waited == wanted
        waited.clear()


def test_a_process_ends_with_its_socket():
    def body():
        first = Process.first([], PATIENCE)
        child = first.fork()
        child._at.close()
        assert wait_for_end([child.pid], PATIENCE) == [] and is_alive(first.pid)
        first._at.close()
        assert wait_for_end([first.pid], PATIENCE) == []

    in_a_child(body)


def test_a_process_has_no_socket_of_the_worker():
    """Who waits for the end of the worker at a socket does not wait for the processes."""

    def body():
        before = sockets_of(os.getpid())
        ours, theirs = socket.socketpair()
        theirs.settimeout(PATIENCE)
        first = Process.first([ours, theirs.dup()], PATIENCE)
        child = first.fork()
        before.add(f"socket:[{os.fstat(theirs.fileno()).st_ino}]")
        own = [lambda it=it: sockets_of(it.pid) - before for it in (first, child)]
        assert until(lambda: [len(it()) for it in own] == [1, 1]) and own[0]() != own[1](), "each has its own alone"
        ours.close()
        assert theirs.recv(1) == b"" and is_alive(first.pid) and is_alive(child.pid)
        for process in (child, first):
            process.slay()

    in_a_child(body)


def test_a_process_that_was_ended_leaves_no_socket():
    def body():
        before = sockets_of(os.getpid())
        first = Process.first([], PATIENCE)
        child = first.fork()
        assert len(sockets_of(os.getpid()) - before) == 2
        assert child.end(PATIENCE) and first.slay(PATIENCE)
        assert sockets_of(os.getpid()) == before

    in_a_child(body)


def test_a_process_that_has_ended_forks_nothing():
    def body():
        first = Process.first([], PATIENCE)
        os.kill(first.pid, signal.SIGKILL)
        assert wait_for_end([first.pid], PATIENCE) == []
        for _ in range(2):
            with pytest.raises(ProcessLookupError):
                first.fork()

    in_a_child(body)


@pytest.mark.parametrize("number", [errno.EAGAIN, errno.ENOMEM])
def test_a_fork_that_fails_has_its_errno(number):
    def body():
        def refused():
            raise OSError(number, "")

        ours, theirs = socket.socketpair(socket.AF_UNIX, socket.SOCK_SEQPACKET)
        if os.fork() == 0:
            ours.close()
            os.fork = refused
            theirs.send(b"%d" % os.getpid())
            processes._serve(theirs)
        theirs.close()
        process = Process(ours)
        for _ in range(2):
            with pytest.raises(OSError) as failed:
                process.fork()
            assert failed.value.errno == number and failed.value.strerror == os.strerror(number)
        assert is_alive(process.pid) and process.end(PATIENCE)

    in_a_child(body)


def test_a_process_that_ended_as_it_began():
    for answer in (b"", b"0"):
        ours, theirs = socket.socketpair(socket.AF_UNIX, socket.SOCK_SEQPACKET)
        if answer:
            theirs.send(answer)
        theirs.close()
        with pytest.raises(ProcessLookupError, match="a process ended as it began"):
            Process(ours)
        ours.close()


def test_who_is_alive(monkeypatch):
    def body():
        pid = os.fork()
        if pid == 0:
            os._exit(0)
        assert until(lambda: not is_alive(pid)), "without zombies an ended child is gone"

    in_a_child(body)
    assert is_alive(os.getpid())
    pid = os.fork()
    if pid == 0:
        os._exit(0)
    assert is_alive(pid), "a zombie is there"
    os.waitpid(pid, 0)
    assert not is_alive(pid)

    def of_somebody_else(pid, number):
        assert number == 0
        raise PermissionError(errno.EPERM, "")

    monkeypatch.setattr(os, "kill", of_somebody_else)
    assert is_alive(5)


def test_a_wait_for_ends_has_an_end(monkeypatch):
    now, alive, looked = [100.0], {5, 7}, []

    def pause(seconds):
        assert 0 < seconds <= 0.02
        looked.append(seconds)
        now[0] += seconds
        if len(looked) == 3:
            alive.discard(5)

    monkeypatch.setattr(processes, "is_alive", lambda pid: pid in alive)
    monkeypatch.setattr(processes.time, "monotonic", lambda: now[0])
    monkeypatch.setattr(processes.time, "sleep", pause)
    assert wait_for_end([5, 6, 7], 1) == [7] and 101 < now[0] < 101.05
    assert looked[:4] == sorted(looked[:4]) and looked[0] < looked[3], "it looks less and less often"
    before = len(looked)
    assert wait_for_end([5, 6], 1) == [] and wait_for_end([], 1) == [] and len(looked) == before


# ---- the worker


@pytest.fixture
def own(tmp_path):
    (tmp_path / "own" / "top1" / "a").mkdir(parents=True)
    return tmp_path / "own"


def is_over(pid):
    """Whether it has ended; a child of this process also after it was left to end by itself."""
    try:
        return os.waitpid(pid, os.WNOHANG)[0] == pid
    except ChildProcessError:
        pass
    try:
        return fields_of(pid)[0] == "Z"
    except (FileNotFoundError, ProcessLookupError):  # also while it is read
        return True


def test_a_worker_answers_apart(tmp_path):
    at = Worker(PATIENCE)
    fault = {"fault": "it is not a cgroup2 directory: it has no cgroup.procs"}
    assert at.ask("open", str(tmp_path), "own") == ("ok", fault)
    assert os.getsid(at.pid) == at.pid != os.getsid(0) and parent_of(at.pid) == os.getpid()
    assert {os.readlink(f"/proc/{at.pid}/fd/{fd}") for fd in range(3)} == {os.devnull}
    with open(f"/proc/{at.pid}/status", encoding="ascii") as file:
        masks = dict(line.split(":\t") for line in file.read().split("\n") if line.startswith("Sig"))
    ignored, caught = int(masks["SigIgn"], 16), int(masks["SigCgt"], 16)
    for number in (signal.SIGINT, signal.SIGTERM, signal.SIGHUP):
        assert not (ignored | caught) >> (number - 1) & 1, number
    assert ignored >> (signal.SIGCHLD - 1) & 1
    assert at.ask("end") == ("ok", []) and at.ask("close") == ("ok", [])
    at.leave()
    assert until(lambda: is_over(at.pid))


def test_an_error_of_a_worker_is_its_errno(own):
    at = Worker(PATIENCE)
    assert at.ask("reopen", str(own), 0) == ("ok", None)
    # the first sequence of a new worker has the next number: top1 is there already
    assert at.ask("begin", "free", 0.1) == ("EEXIST", "")
    assert at.ask("begin", "free", 0.1) == ("ENOENT", ""), "a plain directory has no cgroup.procs"
    assert sorted(os.listdir(own)) == ["home2", "top1", "top2"]
    at.leave()


def test_an_error_without_a_name_is_told_as_a_number(monkeypatch):
    """524 is an errno of the kernel alone, which a driver may let out."""

    def refused(self):
        raise OSError(524, "")

    monkeypatch.setattr(worker._Worker, "refused", refused, raising=False)
    at = Worker(PATIENCE)
    assert at.ask("refused") == ("errno 524", "")
    assert at.ask("end") == ("ok", []), "it goes on"
    at.leave()


def test_a_worker_removes_what_it_has_when_the_check_ends(own):
    at = Worker(PATIENCE)
    assert at.ask("reopen", str(own), 5) == ("ok", None)
    at.leave()
    assert until(lambda: is_over(at.pid)) and not own.exists()


def test_what_a_worker_could_not_remove(own):
    (own / "top1" / "busy").write_text("")
    at = Worker(PATIENCE)
    at.ask("reopen", str(own), 5)
    assert at.ask("close") == ("ok", [str(own / "top1"), str(own)])
    (own / "top1" / "busy").unlink()
    assert at.ask("close") == ("ok", [])
    at.leave()


def test_a_request_that_takes_too_long_hangs(monkeypatch):
    monkeypatch.setattr(worker._Worker, "nap", lambda self, seconds: time.sleep(seconds), raising=False)
    at = Worker(0.3)
    began = time.monotonic()
    with pytest.raises(Hang):
        at.ask("nap", 3 * PATIENCE)
    assert time.monotonic() - began >= 0.3
    at.abandon()
    assert until(lambda: is_over(at.pid))
    slow = Worker(PATIENCE)
    assert slow.ask("nap", 0.5) == ("ok", None)
    slow.leave()


@pytest.mark.parametrize("is_waited_for", [False, True])
def test_a_worker_that_was_killed_answers_no_more(monkeypatch, is_waited_for):
    """As by a directory whose cgroup.kill kills the wrong processes. What it doesn't read is no traceback."""
    monkeypatch.setattr(worker._Worker, "die", lambda self: os.kill(os.getpid(), signal.SIGKILL), raising=False)
    at = Worker(PATIENCE)
    if is_waited_for:
        os.kill(at.pid, signal.SIGKILL)
        assert until(lambda: is_over(at.pid))
    else:
        with pytest.raises(Hang):
            at.ask("die")
    for _ in range(2):
        with pytest.raises(Hang):
            at.ask("end")
    at.leave()


def test_a_worker_that_does_not_end_is_killed(monkeypatch):
    monkeypatch.setattr(worker._Worker, "nap", lambda self, seconds: time.sleep(seconds), raising=False)
    at = Worker(0.1)
    with pytest.raises(Hang):
        at.ask("nap", 3 * PATIENCE)
    at.leave()
    assert until(lambda: is_over(at.pid))
    at.abandon()  # once more does nothing


def test_an_abandoned_worker_takes_its_processes_along(monkeypatch):
    def spawn(self):
        pid = os.fork()
        if pid == 0:
            time.sleep(3 * PATIENCE)
        return pid

    monkeypatch.setattr(worker._Worker, "spawn", spawn, raising=False)
    at = Worker(PATIENCE)
    error, pid = at.ask("spawn")
    assert error == "ok" and not is_over(pid)
    at.abandon()
    assert until(lambda: is_over(at.pid)) and until(lambda: is_over(pid))


def test_a_worker_is_waited_for_as_long_as_its_limit(monkeypatch):
    at = Worker(0.3)
    told = []
    monkeypatch.setattr(worker.select, "select", lambda *words: told.append(words[3]) or ([], [], []))
    with pytest.raises(Hang):
        at.ask("end")
    monkeypatch.undo()
    at.abandon()
    (left,) = told
    assert 0 <= left <= 0.3


def test_names_of_errors():
    assert error_name(OSError(errno.EBUSY, "")) == "EBUSY" and error_name(OSError(4711, "")) == "errno 4711"
    assert error_name(OSError("without a number")) == "errno None"


@pytest.mark.parametrize("seconds", [None, 0, 0.5])
def test_how_long_an_answer_is_waited_for(monkeypatch, seconds):
    """A limit of 0 is not none."""
    told = []
    monkeypatch.setattr(worker.select, "select", lambda *words: told.append(words[3]) or ([], [], []))
    ours, theirs = socket.socketpair()
    with ours, theirs, pytest.raises(Hang):
        worker._Lines(ours).get(seconds)
    (left,) = told
    assert left is None if seconds is None else 0 <= left <= seconds
