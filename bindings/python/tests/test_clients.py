"""What tests of programs use: many files in one call, waiting for a change, and faults."""

import errno
import pickle
import threading
import time

import pytest

from makhloeum import BadByte, BadDirection, BadFile, BadPath, NoGroup, Refused, _changes
from makhloeum._library import DONE, TIMED_OUT

PATIENCE = 300  # seconds


def test_many_files_in_one_call(hierarchy):
    h = hierarchy
    h.mkdir("/a")
    h.mkdir("/b")
    for pid in range(2, 3000):
        h.fork(1, pid)
        h.write("/b", "cgroup.procs", pid)
    h.write("/a", "cgroup.procs", 1)
    long = "".join(f"{pid}\n" for pid in range(2, 3000))
    files = [
        ("/a", "pids.current"),
        ("/b", "cgroup.procs"),
        ("/b", "pids.current"),
        ("/b", "cgroup.procs"),
        ("/", "cgroup.procs"),
    ]
    assert h.read_many(files) == ["1\n", long, "2998\n", long, ""]
    assert h.read_many((group, "cgroup.events") for group in h.groups()[1:]) == ["populated 1\nfrozen 0\n"] * 2
    assert h.read_many([]) == []
    told = h.read_many(
        [
            ("/c", "pids.max"),
            ("/a", "pids.max"),
            ("a", "x"),
            ("/a", "none"),
            ("/a", "cgroup.kill"),
            ("/\0", "x"),
            ("/a", "x\0y"),
        ]
    )
    assert told[1] == "max\n"
    assert isinstance(told[0], NoGroup) and str(told[0]) == "read /c pids.max: No such file or directory (nogroup /c)"
    assert isinstance(told[2], BadPath) and isinstance(told[3], BadFile) and isinstance(told[4], BadDirection)
    assert isinstance(told[5], BadByte) and told[5].position == 1 and isinstance(told[6], BadFile)
    h.close()
    with pytest.raises(ValueError, match="read_many: the hierarchy is closed"):
        h.read_many(files)


def test_all_texts_are_of_one_state(hierarchy):
    """A process that is moved to and fro is in exactly one of two groups."""
    h = hierarchy
    h.mkdir("/a")
    h.mkdir("/b")
    stopped = threading.Event()

    def move():
        while not stopped.is_set():
            h.write("/a", "cgroup.procs", 1)
            h.write("/b", "cgroup.procs", 1)

    h.write("/b", "cgroup.procs", 1)
    mover = threading.Thread(target=move)
    mover.start()
    try:
        for _ in range(3000):
            assert sorted(h.read_many([("/a", "cgroup.procs"), ("/b", "cgroup.procs")])) == ["", "1\n"]
    finally:
        stopped.set()
        mover.join()


def test_changes_are_counted(hierarchy):
    h = hierarchy
    assert h.changes() == 0
    h.mkdir("/a")
    h.read("/a", "pids.max")
    with pytest.raises(FileExistsError):
        h.mkdir("/a")
    assert h.changes() == 1
    h.undo()
    assert h.changes() == 2 and h.wait(0) == 2 and h.wait(1, timeout=0) == 2
    start = time.monotonic()
    with pytest.raises(TimeoutError, match="wait: nothing has changed in 0.25 seconds"):
        h.wait(2, timeout=0.25)
    assert time.monotonic() - start >= 0.25


def test_a_wait_ends_with_a_change_and_with_the_hierarchy(hierarchy):
    h = hierarchy
    seen = []

    def watch():
        at = 0
        try:
            while True:
                at = h.wait(at)
                seen.append((at, h.groups()))
        except ValueError as closed:
            seen.append(str(closed))

    watcher = threading.Thread(target=watch)
    watcher.start()
    for name in "ab":
        h.mkdir(f"/{name}")
        end = time.monotonic() + PATIENCE
        while len(seen) < h.changes() and time.monotonic() < end:
            time.sleep(0.001)
    h.close()
    watcher.join(PATIENCE)
    assert not watcher.is_alive()
    assert seen == [(1, ["/", "/a"]), (2, ["/", "/a", "/b"]), "wait: the hierarchy is closed"]


@pytest.mark.parametrize(
    "timeout, wanted",
    [(None, [100, 100, 100]), (3600, [100, 100, 100]), (0.25, [100, 100, 50]), (0.0301, [31, 0]), (0, [0]), (-1, [0])],
)
def test_a_wait_looks_for_signals_ten_times_a_second(hierarchy, monkeypatch, timeout, wanted):
    """And not beyond its end: each call of C takes as long as it was told. No part of a millisecond is left out."""
    now, told = [1000.0], []

    def waiting(at, seen, milliseconds, count):
        told.append(milliseconds)
        now[0] += milliseconds / 1000
        return DONE if timeout is None and len(told) == 3 else TIMED_OUT

    def monotonic():
        if len(told) == 3 and timeout == 3600:
            now[0] += 3600
        return now[0]

    monkeypatch.setattr(_changes, "waiting", waiting)
    monkeypatch.setattr(_changes.time, "monotonic", monotonic)
    if timeout is None:
        assert hierarchy.wait(5) == 0
    else:
        with pytest.raises(TimeoutError, match=f"^wait: nothing has changed in {timeout} seconds$"):
            hierarchy.wait(5, timeout=timeout)
    assert told == wanted or told == wanted[:-1], "the last one may have nothing left to wait for"


def test_the_nth_call_fails(hierarchy):
    h = hierarchy
    h.mkdir("/a")
    h.fail("/a", error=errno.EIO)
    with pytest.raises(OSError) as failed:
        h.read("/a", "pids.max")
    assert (failed.value.errno, failed.value.filename) == (errno.EIO, "/a") and not isinstance(failed.value, Refused)
    assert str(failed.value) == "[Errno 5] Input/output error (asked for by fail, at read /a pids.max): '/a'"
    assert str(pickle.loads(pickle.dumps(failed.value))) == str(failed.value)
    assert h.read("/a", "pids.max") == "max\n"
    h.fail("/a", error=errno.EACCES, nth=3)
    h.write("/a", "pids.max", 5)
    assert h.children("/") == ["a"] and h.limit("/a") == 5
    with pytest.raises(PermissionError):
        h.rmdir("/a")
    for call in (h.current, h.processes, h.children, h.has_group, h.mkdir):
        h.fail("/a", error=errno.ENODEV)
        with pytest.raises(OSError) as failed:
            call("/a")
        assert failed.value.errno == errno.ENODEV
    h.fail("/a", error=errno.EIO)
    told = h.read_many([("/a", "pids.max"), ("/a", "pids.max")])
    assert isinstance(told[0], OSError) and told[0].errno == errno.EIO and told[1] == "5\n"
    assert h.clear_faults() == 0 and h.depth() == 2


def group_whose_second_call_fails(h, count):
    """Makes /a with `count` processes. The second call that names it from then on fails."""
    h.mkdir("/a")
    for pid in range(2, 2 + count):
        h.fork(1, pid)
        h.write("/a", "cgroup.procs", pid)
    h.fail("/a", error=errno.EIO, nth=2)


def test_a_long_list_of_processes_counts_once(hierarchy):
    group_whose_second_call_fails(hierarchy, 100)
    assert hierarchy.processes("/a") == list(range(2, 102))
    with pytest.raises(OSError):
        hierarchy.processes("/a")


def test_a_long_read_counts_once(hierarchy):
    group_whose_second_call_fails(hierarchy, 2998)
    assert len(hierarchy.read("/a", "cgroup.procs").split()) == 2998
    with pytest.raises(OSError):
        hierarchy.read("/a", "cgroup.procs")


def test_a_group_vanishes_between_a_listing_and_a_read(hierarchy):
    h = hierarchy
    for path in ("/a", "/a/b", "/c"):
        h.mkdir(path)
    h.fork(1, 2)
    h.write("/a/b", "cgroup.procs", 2)
    before = h.mark()
    h.vanish("/a")
    assert h.children("/") == ["a", "c"]
    with pytest.raises(NoGroup):
        h.read("/a", "pids.max")
    assert h.groups() == ["/", "/c"]
    h.undo_to(before)
    assert h.where(2) == "0::/a/b\n"
    h.vanish("/a/b", nth=2)
    h.fail("/c", error=errno.EIO, nth=9)
    assert h.limit("/a/b") is None and not h.has_group("/a/b") and h.clear_faults() == 1


def test_only_the_newest_of_the_faults_that_are_due_occurs(hierarchy):
    h = hierarchy
    h.mkdir("/a")
    h.fail("/a", error=errno.EIO)
    h.vanish("/a")
    with pytest.raises(NoGroup):
        h.read("/a", "pids.max")
    assert h.clear_faults() == 0 and h.groups() == ["/"]
    h.mkdir("/a")
    h.vanish("/a")
    h.fail("/a", error=errno.EIO)
    with pytest.raises(OSError) as failed:
        h.read("/a", "pids.max")
    assert failed.value.errno == errno.EIO and h.clear_faults() == 0 and h.groups() == ["/", "/a"]


@pytest.mark.parametrize("path", ["a", "", "/a b", "/a\0", "/é"])
def test_faults_need_a_path(hierarchy, path):
    for call in (lambda: hierarchy.fail(path, error=errno.EIO), lambda: hierarchy.vanish(path)):
        with pytest.raises(BadPath) as bad:
            call()
        assert path in str(bad.value)


def test_faults_that_cannot_come(hierarchy):
    for call in (
        lambda: hierarchy.fail("/a", error=0),
        lambda: hierarchy.fail("/a", error=-5),
        lambda: hierarchy.fail("/a", error=errno.EIO, nth=0),
        lambda: hierarchy.vanish("/a", nth=-1),
        lambda: hierarchy.vanish("/a", nth=1 << 64),
        lambda: hierarchy.vanish("/"),
    ):
        with pytest.raises(ValueError):
            call()
    assert hierarchy.clear_faults() == 0
