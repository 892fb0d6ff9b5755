"""poll, select and epoll wait for changes of files under mounted_at, as on a mount."""

import errno
import faulthandler
import gc
import os
import select
import shutil
import signal
import socket
import subprocess
import sys
import threading
import time
from os import read as early_read
from os import write as early_write

import pytest
from open_files import open_files

from makhloeum import PidsMax, _notify, mounted_at
from makhloeum._calls import CALLS

AT = "/sys/fs/cgroup"
PATIENCE = 300_000  # milliseconds


@pytest.fixture(autouse=True)
def an_end():
    """Whoever waits for a lock for ever ends the tests."""
    faulthandler.dump_traceback_later(900, exit=True)
    yield
    faulthandler.cancel_dump_traceback_later()


@pytest.fixture(params=["own", "given"])
def h(request, hierarchy):
    with mounted_at(AT, None if request.param == "own" else hierarchy) as mounted:
        mounted.mkdir("/a")
        yield mounted


def by_poll(fd, milliseconds):
    poller = select.poll()
    poller.register(fd, select.POLLPRI)
    return [mask & select.POLLPRI for _, mask in poller.poll(milliseconds)] == [select.POLLPRI]


def by_epoll(fd, milliseconds):
    with select.epoll() as poller:
        poller.register(fd, select.EPOLLPRI)
        return [mask & select.EPOLLPRI for _, mask in poller.poll(milliseconds / 1000)] == [select.EPOLLPRI]


def by_select(fd, milliseconds):
    return select.select([], [], [fd], milliseconds / 1000)[2] == [fd]


@pytest.fixture(params=[by_poll, by_epoll, by_select])
def ready(request):
    return request.param


def refused_fork(h):
    with pytest.raises(PidsMax):
        h.fork(1, 9)


def test_a_fork_that_a_limit_refuses(h, ready):
    h.mkdir("/a/b")
    h.write("/a", "pids.max", 1)
    h.write("/a/b", "cgroup.procs", 1)
    fds = {
        name: os.open(f"{AT}/{name}", os.O_RDONLY)
        for name in ("a/pids.events", "a/pids.events.local", "a/b/pids.events", "a/b/pids.events.local")
    }
    texts = {name: os.read(fd, 99) for name, fd in fds.items()}
    assert set(texts.values()) == {b"max 0\n"} and not any(ready(fd, 20) for fd in fds.values())
    later = threading.Timer(0.05, refused_fork, [h])
    later.start()
    assert ready(fds["a/pids.events"], PATIENCE)
    later.join()
    assert ready(fds["a/pids.events.local"], PATIENCE) and os.pread(fds["a/pids.events"], 99, 0) == b"max 1\n"
    assert not ready(fds["a/b/pids.events.local"], 100) and not ready(fds["a/pids.events"], 50)
    assert ready(fds["a/pids.events.local"], 0)  # until it is read
    for fd in fds.values():
        os.close(fd)


def test_a_group_that_becomes_populated(h, ready):
    with open(f"{AT}/a/cgroup.events") as file:
        assert ready(file, PATIENCE)  # before the first read, as on a mount
        assert file.read() == "populated 0\nfrozen 0\n" and not ready(file, 20)
        h.fork(1, 2)
        assert not ready(file, 100)
        with open(f"{AT}/a/cgroup.procs", "w") as procs:
            procs.write("2")
        assert ready(file, PATIENCE)
        file.seek(0)
        assert file.read() == "populated 1\nfrozen 0\n"
        h.fork(2, 3)
        assert not ready(file, 100)  # another process doesn't change it
        h.write("/a", "cgroup.kill", 1)
        assert ready(file, PATIENCE)
        file.seek(0)
        assert file.read() == "populated 0\nfrozen 0\n"
        h.undo()
        assert ready(file, PATIENCE)


def test_what_the_program_writes_is_told_at_once(h, ready):
    fd = os.open(f"{AT}/a/cgroup.events", os.O_RDONLY)
    os.read(fd, 99)
    for file, value in (("cgroup.procs", b"1"), ("cgroup.kill", b"1")):
        with open(f"{AT}/a/{file}", "wb", buffering=0) as it:
            it.write(value)
        assert ready(fd, 0)
        os.pread(fd, 99, 0)
        assert not ready(fd, 0)
    os.rmdir(f"{AT}/a")
    assert ready(fd, 0)
    with pytest.raises(OSError):
        os.pread(fd, 99, 0)
    assert ready(fd, 0)  # a group that is gone stays ready
    os.close(fd)


def test_copies_and_other_files(h, ready):
    fd = os.open(f"{AT}/a/pids.events", os.O_RDONLY)
    other, copy = os.open(f"{AT}/a/pids.events", os.O_RDONLY), os.dup(fd)
    assert ready(fd, PATIENCE) and os.read(copy, 99) == b"max 0\n"
    assert not ready(fd, 20) and not ready(copy, 0) and ready(other, 0)
    os.close(fd)
    assert os.pread(other, 99, 0) == b"max 0\n" and not ready(copy, 20) and not ready(other, 0)
    h.write("/a", "pids.max", 1)
    h.write("/a", "cgroup.procs", 1)
    refused_fork(h)
    assert ready(copy, PATIENCE) and ready(other, PATIENCE)
    os.close(copy)
    os.close(other)


def test_a_file_without_notification_is_not_waited_for_silently(h):
    fd = os.open(f"{AT}/a/pids.current", os.O_RDONLY)
    poller = select.poll()
    poller.register(fd, select.POLLPRI)
    assert poller.poll(0) == [(fd, select.POLLNVAL)]
    with select.epoll() as poller, pytest.raises(OSError):
        poller.register(fd, select.EPOLLPRI)
    os.close(fd)


def test_faults_do_not_count_what_the_poll_needs(h):
    fd = os.open(f"{AT}/a/pids.events", os.O_RDONLY)
    os.read(fd, 99)
    h.vanish("/a", nth=2)
    h.mkdir("/b")
    time.sleep(0.2)
    h.mkdir("/c")
    assert h.clear_faults() == 1 and h.has_group("/a")
    os.close(fd)


def test_nothing_is_left_of_it(hierarchy):
    before, threads = open_files(), set(threading.enumerate())
    for _ in range(3):
        with mounted_at(AT, hierarchy):
            for name in ("cgroup.procs", "cgroup.stat"):
                os.close(os.open(f"{AT}/{name}", os.O_RDONLY))
            os.mkdir(f"{AT}/n")
            with open(f"{AT}/n/cgroup.events") as file:
                by_poll(file, 10)
            fd = os.open(f"{AT}/n/cgroup.events", os.O_RDONLY)
            os.rmdir(f"{AT}/n")
        os.close(fd)
    assert not open_files() - before and not set(threading.enumerate()) - threads


def test_nothing_is_kept_of_files_that_are_closed(hierarchy):
    """Neither by the table of descriptors, nor by what looks at open files."""
    hierarchy.mkdir("/a")
    with mounted_at(AT, hierarchy):
        (_, tree), *_ = CALLS._mounts
        for _ in range(20):
            for name in ("cgroup.events", "pids.max"):
                fd = os.open(f"{AT}/a/{name}", os.O_RDONLY)
                copy = os.dup(fd)
                os.read(copy, 9)
                os.close(fd)
                os.close(copy)
                with open(f"{AT}/a/{name}") as file:
                    file.read()
                with pytest.raises(OSError):
                    open(f"{AT}/a/{name}", "x")
            os.close(os.open(f"{AT}/a", os.O_RDONLY))
        del file
        gc.collect()
        assert CALLS.descriptors._opened == {} and tree._opened == set() and tree.watch._pollers == set()
        fd = os.open(f"{AT}/a/cgroup.events", os.O_RDONLY)
        assert list(CALLS.descriptors._opened) == [fd] and len(tree._opened) == len(tree.watch._pollers) == 1
    os.close(fd)
    assert CALLS._mounts == [] and CALLS.descriptors._opened == {}


def test_files_may_be_opened_while_all_are_looked_at(hierarchy):
    """A thread looks at them while others open files."""
    watch, told = _notify.Watch(hierarchy), []

    class Another:
        """A reference whose look adds another, as a thread may at that moment."""

        def __call__(self):
            watch._pollers.add(Another())
            return told

    watch._pollers.update({Another(), Another(), Another()})
    assert watch._added() == [told] * 3


def test_a_kernel_without_bytes_out_of_band(hierarchy, monkeypatch):
    """The file can be read, but not polled, and no socket stays open."""
    real = socket.socketpair

    class Socket:
        """One that can't send."""

        def __init__(self, it):
            self.it = it

        def send(self, *words):
            raise OSError(errno.EOPNOTSUPP, "")

        def __getattr__(self, name):
            return getattr(self.it, name)

    monkeypatch.setattr(_notify.socket, "socketpair", lambda: tuple(map(Socket, real())))
    with mounted_at(AT, hierarchy):
        os.mkdir(f"{AT}/a")
        before = open_files()
        fd = os.open(f"{AT}/a/cgroup.events", os.O_RDONLY)
        assert os.read(fd, 99) == b"populated 0\nfrozen 0\n" and len(open_files() - before) == 1
        poller = select.poll()
        poller.register(fd, select.POLLPRI)
        assert poller.poll(0) == [(fd, select.POLLNVAL)]
        os.close(fd)
        assert not open_files() - before


# ---- ends


def test_a_wait_ends_with_the_hierarchy(hierarchy, ready):
    with mounted_at(AT, hierarchy):
        os.mkdir(f"{AT}/a")
        fd = os.open(f"{AT}/a/cgroup.events", os.O_RDONLY)
        os.read(fd, 99)
        later = threading.Timer(0.05, hierarchy.close)
        later.start()
        assert ready(fd, PATIENCE) and ready(fd, 0)
        later.join()
        with pytest.raises(ValueError, match="closed"):
            os.pread(fd, 99, 0)
        assert ready(fd, 0)
        os.close(fd)


@pytest.mark.parametrize("own", [True, False])
def test_a_wait_ends_with_the_block(hierarchy, ready, own):
    block = mounted_at(AT, None if own else hierarchy)
    block.__enter__()
    os.mkdir(f"{AT}/a")
    fd, file = os.open(f"{AT}/a/cgroup.events", os.O_RDONLY), open(f"{AT}/a/pids.events")
    os.read(fd, 99)
    file.read()
    later = threading.Timer(0.05, block.__exit__, [None, None, None])
    later.start()
    assert ready(fd, PATIENCE) and ready(file, PATIENCE)
    later.join()
    file.close()
    os.close(fd)


UNENDED = """
import makhloeum
block = makhloeum.mounted_at()
h = block.__enter__()
h.mkdir("/a")
file = open("/sys/fs/cgroup/a/cgroup.events")
print(file.read())
"""


def test_a_program_ends_whose_block_does_not():
    """The thread that looks at open files keeps no program."""
    ran = subprocess.run(
        [sys.executable, "-c", UNENDED],
        capture_output=True,
        text=True,
        timeout=60,
        env=dict(os.environ, PYTHONPATH=os.path.dirname(os.path.dirname(_notify.__file__))),
    )
    assert (ran.returncode, ran.stdout) == (0, "populated 0\nfrozen 0\n\n")


# ---- threads, handlers, and many changes


def test_a_number_is_ready_once_nothing_more_will_change(hierarchy):
    hierarchy.mkdir("/a")
    poll = select.poll()
    with mounted_at(AT, hierarchy):
        file = open(f"{AT}/a/cgroup.events")
        poll.register(file, select.POLLPRI)
        assert poll.poll(0) and file.read() == "populated 0\nfrozen 0\n" and not poll.poll(0)
    assert poll.poll(0)
    file.seek(0)
    assert file.read() == "populated 0\nfrozen 0\n" and poll.poll(0), "a read doesn't change that"
    file.close()


def test_each_of_several_threads_sees_the_last_change(h, ready):
    h.write("/a", "pids.max", 1)
    h.write("/a", "cgroup.procs", 1)
    first = os.open(f"{AT}/a/pids.events", os.O_RDONLY)
    fds = [os.open(f"{AT}/a/pids.events", os.O_RDONLY) for _ in range(3)] + [first]
    last, failures = b"max 40\n", []

    def follow(fd):
        try:
            text = os.pread(fd, 99, 0)
            while text != last:
                assert ready(fd, PATIENCE), text
                text = os.pread(fd, 99, 0)
        except BaseException as failure:  # to be raised by the test
            failures.append(failure)

    threads = [threading.Thread(target=follow, args=(fd,)) for fd in fds]
    for thread in threads:
        thread.start()
    for _ in range(40):
        refused_fork(h)
        os.close(os.dup(first))
    for thread in threads:
        thread.join(PATIENCE / 1000)
    assert not failures and not any(thread.is_alive() for thread in threads)
    for fd in fds:
        os.close(fd)


class Met:
    """A call in the middle of which another thread makes the same one, if nothing keeps it from that."""

    def __init__(self, real):
        self.real, self.calls = real, 0
        self.begun, self.other = threading.Event(), threading.Event()

    def __call__(self, *words, **more):
        self.calls += 1
        self.begun.set()
        self.other.wait(0.3)
        return self.real(*words, **more)

    def met(self, call):
        """Makes the call in two threads; how often it came to the middle."""
        thread = REAL_THREAD(target=call)
        thread.start()
        assert self.begun.wait(PATIENCE / 1000)
        call()
        self.other.set()
        thread.join(PATIENCE / 1000)
        return self.calls


REAL_THREAD = threading.Thread


def test_two_files_that_are_opened_at_once_have_one_thread(hierarchy, monkeypatch):
    hierarchy.mkdir("/a")
    watch, pollers = _notify.Watch(hierarchy), [_notify.Poller("/a", "cgroup.events") for _ in range(2)]
    left = list(pollers)
    with monkeypatch.context() as patched:
        made = Met(REAL_THREAD)
        patched.setattr(_notify.threading, "Thread", made)
        assert made.met(lambda: watch.add(left.pop())) == 1
    assert sorted(map(id, watch._added())) == sorted(map(id, pollers))
    watch.end()


def test_a_file_of_two_threads_has_one_pair_of_sockets(monkeypatch):
    poller, fds = _notify.Poller("/a", "cgroup.events"), []
    made = Met(poller._pair)
    monkeypatch.setattr(poller, "_pair", made)
    assert made.met(lambda: fds.append(poller.descriptor())) == 1
    for fd in fds:
        assert by_poll(fd, 0)
        os.close(fd)
    poller.close()


def test_how_long_the_end_of_a_block_may_wait():
    """Its thread looks so often whether it should end."""
    assert _notify._SLICE == 0.05


def test_files_are_opened_while_groups_are_removed(h):
    """The list of open files is read while it grows."""
    stopped, failures = threading.Event(), []

    def use():
        try:
            while not stopped.is_set():
                files = [open(f"{AT}/a/cgroup.events") for _ in range(5)]
                for file in files:
                    file.close()
        except BaseException as failure:  # to be raised by the test
            failures.append(failure)

    threads = [threading.Thread(target=use) for _ in range(2)]
    for thread in threads:
        thread.start()
    try:
        for _ in range(60):
            os.mkdir(f"{AT}/n")
            os.rmdir(f"{AT}/n")
    finally:
        stopped.set()
        for thread in threads:
            thread.join(PATIENCE / 1000)
    assert not failures


def test_a_freeze_is_told_to_those_below(h):
    os.mkdir(f"{AT}/a/b")
    os.mkdir(f"{AT}/ab")
    fds = [os.open(f"{AT}/{name}/cgroup.events", os.O_RDONLY) for name in ("a", "a/b", "ab")]
    limit = os.open(f"{AT}/a/pids.events", os.O_RDONLY)
    poller = select.poll()
    for fd in (*fds, limit):
        poller.register(fd, select.POLLPRI)

    def read():
        os.pread(limit, 99, 0)
        return [os.pread(fd, 99, 0).split()[-1] for fd in fds]

    for value in ("1", "0", "1"):
        read()
        assert poller.poll(0) == []
        with open(f"{AT}/a/cgroup.freeze", "w") as file:
            file.write(value)
        assert [fd for fd, _ in poller.poll(0)] == fds[:2]
        assert read() == [value.encode()] * 2 + [b"0"]
    h.changes()
    os.mkdir(f"{AT}/c")  # a change of another kind wakes nobody
    time.sleep(0.1)
    assert poller.poll(0) == []
    h.fork(1, 2)
    h.write("/a/b", "cgroup.procs", 2)
    assert poller.poll(5000) and read() == [b"1", b"1", b"0"]
    for fd in (*fds, limit):
        os.close(fd)


def test_a_freeze_at_another_place_is_told_too(h, tmp_path):
    fd = os.open(f"{AT}/a/cgroup.events", os.O_RDONLY)
    os.read(fd, 99)
    poller = select.poll()
    poller.register(fd, select.POLLPRI)
    with mounted_at(tmp_path, h):
        (tmp_path / "a" / "cgroup.freeze").write_text("1")
        assert len(poller.poll(0)) == 1 and os.pread(fd, 99, 0) == b"populated 0\nfrozen 1\n"
    os.close(fd)


def test_a_handler_may_read_the_file(h):
    fd, told = os.open(f"{AT}/a/cgroup.events", os.O_RDONLY), []

    def handler(number, frame):
        told.append(os.pread(fd, 99, 0))

    before = signal.signal(signal.SIGUSR1, handler)
    stopped = threading.Event()

    def interrupt():
        while not stopped.is_set():
            handled = len(told)
            os.kill(os.getpid(), signal.SIGUSR1)
            while (
                len(told) == handled and not stopped.is_set()
            ):  # on a busy machine handlers would interrupt one another
                time.sleep(0.0002)

    thread = threading.Thread(target=interrupt)
    thread.start()
    try:
        for pid in range(2, 400):
            h.fork(1, pid)
            with open(f"{AT}/a/cgroup.procs", "w") as procs:
                procs.write(str(pid))
            assert os.pread(fd, 99, 0) == b"populated 1\nfrozen 0\n"
            h.exit(pid)
            assert os.pread(fd, 99, 0) == b"populated 0\nfrozen 0\n"
    finally:
        stopped.set()
        thread.join()
        signal.signal(signal.SIGUSR1, before)
    assert set(told) <= {b"populated 0\nfrozen 0\n", b"populated 1\nfrozen 0\n"} and len(told) > 10
    os.close(fd)


def test_a_thousand_changes(h, ready):
    """Bytes that were taken don't fill the socket."""
    fd = os.open(f"{AT}/a/cgroup.events", os.O_RDONLY)
    os.read(fd, 99)
    for _ in range(500):
        for file, value in (("cgroup.procs", "1"), ("cgroup.procs", None)):
            if value is None:
                h.undo()
            else:
                h.write("/a", file, value)
            assert ready(fd, PATIENCE)
            os.pread(fd, 99, 0)
    os.close(fd)


def test_changes_before_a_read_are_told_once(h, ready):
    """A byte for each of them would fill the socket."""
    fd, limit = os.open(f"{AT}/a/cgroup.events", os.O_RDONLY), os.open(f"{AT}/a/pids.max", os.O_WRONLY)
    for _ in range(1000):
        assert os.write(limit, b"7") == 1
    assert ready(fd, 0) and os.read(fd, 99) == b"populated 0\nfrozen 0\n" and not ready(fd, 0)
    with open(f"{AT}/a/cgroup.procs", "w") as procs:
        procs.write("1")
    assert ready(fd, 0) and os.pread(fd, 99, 0) == b"populated 1\nfrozen 0\n" and not ready(fd, 0)
    for it in (fd, limit):
        os.close(it)


def test_a_number_that_can_be_waited_for_takes_nothing_else(h, tmp_path):
    (tmp_path / "f").write_text("real")
    # only the superuser can open it against its mode
    way = os.O_RDWR if os.geteuid() == 0 else os.O_RDONLY
    fd, real = os.open(f"{AT}/a/cgroup.events", way), os.open(tmp_path / "f", os.O_RDWR)
    for call in (
        lambda: early_read(fd, 9),
        lambda: early_write(fd, b"1"),
        lambda: os.sendfile(fd, real, 0, 4),
        lambda: os.sendfile(real, fd, None, 4),
        lambda: os.splice(real, fd, 4),
        lambda: os.copy_file_range(fd, real, 1),
        lambda: os.posix_fallocate(fd, 0, 1),
    ):
        with pytest.raises(OSError):
            call()
    os.set_blocking(fd, True)  # a read doesn't wait even so
    assert os.read(fd, 99) == b"populated 0\nfrozen 0\n" and os.pread(fd, 99, 0) == b"populated 0\nfrozen 0\n"
    for it in (fd, real):
        os.close(it)
    shutil.copyfile(f"{AT}/a/cgroup.events", tmp_path / "g")
    assert (tmp_path / "g").read_text() == "populated 0\nfrozen 0\n"
    with pytest.raises(OSError):
        shutil.copyfile(tmp_path / "f", f"{AT}/a/cgroup.events")
