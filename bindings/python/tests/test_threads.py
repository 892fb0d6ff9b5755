"""Threads that share a hierarchy. MAKHLOEUM_SECONDS says for how long."""

import os
import random
import signal
import threading
import time

import pytest

from makhloeum import Hierarchy, NothingToUndo, PidsMax, Refused

SECONDS = float(os.environ.get("MAKHLOEUM_SECONDS", "10"))
THREADS = 4
PATIENCE = 300  # seconds


def run_threads(body, seconds, enough=lambda: True):
    """Runs body(number, stopped) in four threads for these seconds, and until it is enough. Raises what one of them raised."""
    stopped, failures = threading.Event(), []

    def guarded(number):
        try:
            body(number, stopped)
        except BaseException as failure:  # to be raised by the test
            failures.append(failure)
            stopped.set()

    threads = [threading.Thread(target=guarded, args=(number,)) for number in range(THREADS)]
    for thread in threads:
        thread.start()
    stopped.wait(seconds)
    while not (stopped.is_set() or enough()):
        stopped.wait(0.01)
    stopped.set()
    for thread in threads:
        thread.join(PATIENCE)
        assert not thread.is_alive()
    if failures:
        raise failures[0]


def own_group(h, number):
    """A group for the thread with that number, and its process."""
    group, first = f"/t{number}", 100 + number
    h.mkdir(group)
    h.fork(1, first)
    h.write(group, "cgroup.procs", first)
    return group, first


def test_each_thread_in_its_own_group():
    with Hierarchy() as h:
        rounds = [0] * THREADS

        def own(number, stopped):
            group, first = own_group(h, number)
            while not stopped.is_set():
                child = first * 10
                h.fork(first, child)
                assert h.read(group, "pids.current") == "2\n"
                assert h.read(group, "cgroup.procs") == f"{first}\n{child}\n"
                h.write(group, "pids.max", 2)
                with pytest.raises(PidsMax):
                    h.fork(first, child + 1)
                assert h.where(child) == f"0::{group}\n"
                h.mkdir(group + "/below")
                assert h.children(group) == ["below"] and h.groups(group) == [group, group + "/below"]
                h.rmdir(group + "/below")
                h.write(group, "pids.max", "max")
                h.exit(child)
                assert h.read(group, "pids.current") == "1\n"
                rounds[number] += 1
            assert h.read(group, "pids.events") == f"max {rounds[number]}\n"

        run_threads(own, SECONDS, lambda: min(rounds) > 0)


def test_anything_at_once_can_be_undone():
    lines = [
        "mkdir /a",
        "mkdir /a/b",
        "rmdir /a/b",
        "fork 1 2",
        "fork 1 3",
        "exit 3",
        "write /a/b cgroup.procs 2",
        "undo",
        "write /a pids.max 1",
        "write /a cgroup.kill 1",
        "cat /a pids.current",
        "undo",
        "rmdir /a",
        "where 2",
    ]
    with Hierarchy() as h:

        def anything(number, stopped):
            choice = random.Random(number)
            while not stopped.is_set():
                try:
                    h.line(choice.choice(lines))
                except Refused:
                    pass

        run_threads(anything, min(SECONDS, 3))
        for _ in range(h.depth()):
            h.undo()
        with pytest.raises(NothingToUndo):
            h.undo()
        assert h.groups() == ["/"] and h.read("/", "cgroup.procs") == "1\n"


def test_a_close_ends_all_calls():
    for _ in range(100):
        h = Hierarchy()
        closed = threading.Event()

        def call(number, stopped, h=h, closed=closed):
            while True:
                was_closed = closed.is_set()
                try:
                    h.mkdir(f"/t{number}")
                    h.rmdir(f"/t{number}")
                except ValueError:
                    return
                assert not was_closed

        closer = threading.Timer(0.005, lambda h=h, closed=closed: (h.close(), closed.set()))
        closer.start()
        run_threads(call, 0.01)
        closer.join()


def test_a_signal_handler_may_call():
    with Hierarchy() as h:
        h.mkdir("/a")
        h.mkdir("/b")
        h.write("/b", "cgroup.procs", 1)
        wrong, told = [], [0]

        def handler(number, frame):
            told[0] += 1
            if h.read("/b", "pids.current") != "1\n":
                wrong.append(number)

        before = signal.signal(signal.SIGALRM, handler)
        signal.setitimer(signal.ITIMER_REAL, 0.0002, 0.0002)
        try:
            end = time.monotonic() + min(SECONDS, 2)
            while time.monotonic() < end or not told[0]:
                assert h.read("/a", "cgroup.stat") == "nr_descendants 0\nnr_dying_descendants 0\n"
        finally:
            signal.setitimer(signal.ITIMER_REAL, 0)
            signal.signal(signal.SIGALRM, before)
        assert not wrong


def test_a_fork_copies_a_whole_hierarchy():
    with Hierarchy() as h:

        def fork(number, stopped):
            group, first = own_group(h, number)
            while not stopped.is_set():
                h.fork(first, first * 10)
                h.exit(first * 10)

        def forking(number, stopped):
            if number:
                return fork(number, stopped)
            while not stopped.is_set():
                child = os.fork()
                if child == 0:
                    signal.alarm(PATIENCE)
                    for group in h.groups()[1:]:
                        assert len(h.read(group, "cgroup.procs").split()) == int(h.read(group, "pids.current"))
                    h.mkdir("/in-the-child")
                    h.undo()
                    os._exit(0)
                assert os.waitpid(child, 0)[1] == 0

        run_threads(forking, min(SECONDS, 3))
