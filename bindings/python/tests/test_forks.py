"""A child of a fork reads, opens and polls files under mounted_at, whatever the other threads did at the fork."""

import fcntl
import os
import select
import signal
import threading
import time
import warnings

import pytest
from open_files import open_files

from makhloeum import mounted_at
from makhloeum._calls import CALLS

AT = "/sys/fs/cgroup"
PATIENCE = 15 if os.environ.get("FAIL_FAST") else 300  # seconds


def status_of(child):
    """That of its end; a hang, also within the fork, is ended by SIGKILL."""
    end = time.monotonic() + PATIENCE
    while True:
        found, status = os.waitpid(child, os.WNOHANG)
        if found:
            return status
        if time.monotonic() > end:
            os.kill(child, signal.SIGKILL)
        time.sleep(0.001)


def in_a_child(body):
    """The status of a child that runs the body."""
    with warnings.catch_warnings():
        warnings.simplefilter("ignore", DeprecationWarning)
        child = os.fork()
    if child == 0:
        try:
            os._exit(0 if body() else 1)
        finally:
            os._exit(2)
    return status_of(child)


def test_a_child_reads_what_is_polled(hierarchy):
    hierarchy.mkdir("/a")
    stopped = threading.Event()

    def change():
        while not stopped.is_set():
            hierarchy.write("/a", "cgroup.procs", 1)
            hierarchy.write("/", "cgroup.procs", 1)

    with mounted_at(AT, hierarchy):
        fd = os.open(f"{AT}/a/cgroup.events", os.O_RDONLY)

        def read():
            with open(f"{AT}/a/cgroup.events") as file:
                seen = {os.pread(fd, 99, 0).decode(), file.read()}
            os.mkdir(f"{AT}/of-the-child")
            return seen <= {
                "populated 0\nfrozen 0\n",
                "populated 1\nfrozen 0\n",
            } and os.path.isdir(f"{AT}/of-the-child")

        thread = threading.Thread(target=change)
        thread.start()
        statuses = set()
        try:
            for _ in range(100):
                os.pread(fd, 99, 0)  # so that the thread that watches looks at it again
                statuses.add(in_a_child(read))
                if statuses != {0}:
                    break
        finally:
            stopped.set()
            thread.join()
        assert statuses == {0} and not hierarchy.has_group("/of-the-child")
        os.close(fd)


# What has a lock that another thread may have at a fork, of an open file.
LOCKED = {
    "an open file": lambda fd: CALLS.descriptors.get(fd).poller,
    "what looks at open files": lambda fd: CALLS.descriptors.get(fd).node.tree.watch,
    "the mounts": lambda fd: CALLS,
}


@pytest.mark.parametrize("name", LOCKED)
def test_a_fork_just_as_another_thread_has_a_lock(hierarchy, tmp_path, name):
    hierarchy.mkdir("/a")
    with mounted_at(AT, hierarchy):
        fd = os.open(f"{AT}/a/cgroup.events", os.O_RDONLY)
        has, ends = threading.Event(), threading.Event()

        def lock():
            with LOCKED[name](fd)._lock:
                has.set()
                ends.wait(2 * PATIENCE)

        def read():
            with mounted_at(tmp_path), open(f"{AT}/a/cgroup.events", "rb", 0) as file:
                os.mkdir(tmp_path / "b")
                return os.pread(fd, 99, 0) == file.read() == b"populated 0\nfrozen 0\n"

        thread = threading.Thread(target=lock)
        thread.start()
        assert has.wait(PATIENCE)
        status = in_a_child(read)
        ends.set()
        thread.join()
        assert status == 0
        os.close(fd)


def test_a_child_waits_for_its_own_changes(hierarchy):
    hierarchy.mkdir("/a")
    with mounted_at(AT, hierarchy):
        with open(f"{AT}/a/cgroup.events") as file:
            file.read()

            def poll():
                with open(f"{AT}/a/cgroup.events") as own:
                    own.read()
                    threading.Timer(0.05, hierarchy.write, ["/a", "cgroup.procs", 1]).start()
                    waiting = select.poll()
                    waiting.register(own, select.POLLPRI)
                    return bool(waiting.poll(1000 * PATIENCE))

            assert in_a_child(poll) == 0


def test_a_child_has_its_own_notifications(hierarchy):
    """Of a file that was open at the fork: neither wakes the other, and neither takes the other's."""
    hierarchy.mkdir("/a")
    with mounted_at(AT, hierarchy):
        with open(f"{AT}/a/cgroup.events") as file:
            waiting = select.poll()
            waiting.register(file, select.POLLPRI)
            assert waiting.poll(1000 * PATIENCE) and file.read() == "populated 0\nfrozen 0\n" and not waiting.poll(0)

            def change():
                own = select.poll()
                own.register(file, select.POLLPRI)
                if own.poll(0):
                    return False
                hierarchy.write("/a", "cgroup.procs", 1)
                return bool(own.poll(1000 * PATIENCE))

            assert in_a_child(change) == 0 and not waiting.poll(200)
            hierarchy.write("/a", "cgroup.procs", 1)
            assert waiting.poll(1000 * PATIENCE)

            def read():
                file.seek(0)
                return file.read() == "populated 1\nfrozen 0\n"

            assert in_a_child(read) == 0 and waiting.poll(0)
            file.seek(0)
            assert file.read() == "populated 1\nfrozen 0\n" and not waiting.poll(0)


def test_a_child_has_no_more_open_files_than_its_parent(hierarchy):
    """Its sockets take the places of those of its parent."""
    hierarchy.mkdir("/a")
    with mounted_at(AT, hierarchy):
        fds = [os.open(f"{AT}/a/{name}", os.O_RDONLY) for name in ("cgroup.events", "pids.events", "pids.max", "")]
        count = len(open_files())
        assert in_a_child(lambda: len(open_files()) == count) == 0
        for fd in fds:
            os.close(fd)


def test_a_child_inherits_descriptors_as_before_the_fork(hierarchy):
    """A new descriptor is closed on exec, a copy by dup2 isn't, and either can be set otherwise. A fork changes none of this."""
    hierarchy.mkdir("/a")
    with mounted_at(AT, hierarchy):
        for file in ("cgroup.events", "pids.events", "pids.max"):
            fds = [os.open(f"{AT}/a/{file}", os.O_RDONLY) for _ in range(2)] + [os.open("/dev/null", os.O_RDONLY)]
            new, given, copy = fds
            os.set_inheritable(given, True)
            os.dup2(new, copy)

            def flags():
                return [fcntl.fcntl(fd, fcntl.F_GETFD) for fd in (new, given, copy)]

            assert flags() == [fcntl.FD_CLOEXEC, 0, 0], file
            assert in_a_child(lambda: flags() == [fcntl.FD_CLOEXEC, 0, 0]) == 0, file
            for fd in fds:
                os.close(fd)
