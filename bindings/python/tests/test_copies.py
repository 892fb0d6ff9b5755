"""Copies of a hierarchy."""

import copy
import errno
import gc
import threading

import pytest

from makhloeum import Hierarchy, NothingToUndo, PidsMax
from makhloeum._table import FILES

WAYS = [Hierarchy.copy, copy.copy, copy.deepcopy]


def story(h):
    """All that a hierarchy tells."""
    groups = h.groups()
    files = [
        (group, file.name) for group in groups for file in FILES if file.readable and (group != "/" or file.on_root)
    ]
    places = [h.where(pid) for group in groups for pid in h.processes(group)]
    return groups, [h.read(*it) for it in files], places, h.depth()


def filled():
    h = Hierarchy()
    for path in ("/a", "/a/b", "/c"):
        h.mkdir(path)
    for pid in (2, 3, 4):
        h.fork(1, pid)
    h.write("/a/b", "cgroup.procs", 2)
    h.write("/c", "cgroup.procs", 3)
    h.write("/a", "pids.max", 1)
    with pytest.raises(PidsMax):
        h.fork(2, 5)
    h.exit(4)
    h.write("/c", "cgroup.kill", 1)
    h.rmdir("/c")
    return h


@pytest.mark.parametrize("way", WAYS)
def test_a_copy_has_the_same_answers(way):
    with filled() as h, way(h) as same:
        assert type(same) is Hierarchy and same is not h
        while h.depth() > 0:
            assert story(same) == story(h)
            assert same.undo() == h.undo()
        assert story(same) == story(h)
        with pytest.raises(NothingToUndo):
            same.undo()


@pytest.mark.parametrize("way", WAYS)
def test_changes_of_one_do_not_reach_the_other(way):
    with filled() as h, way(h) as other:
        before = story(h)
        other.mkdir("/d")
        other.fork(1, 9)
        other.reset()
        assert story(h) == before and other.groups() == ["/"]
        h.forget()
        h.mkdir("/e")
        assert other.groups() == ["/"] and h.depth() == 1
        h.close()
        other.mkdir("/f")
        assert other.groups() == ["/", "/f"]


def test_a_copy_has_neither_faults_nor_changes():
    with filled() as h:
        h.fail("/a", error=errno.EIO)
        with h.copy() as other:
            assert other.clear_faults() == 0 and other.changes() == 0
            assert other.read("/a", "pids.max") == "1\n"
            assert h.clear_faults() == 1
            other.mkdir("/d")
            assert other.changes() == 1


@pytest.mark.parametrize("way", WAYS)
def test_a_closed_hierarchy_is_not_copied(way):
    h = filled()
    h.close()
    with pytest.raises(ValueError):
        way(h)
    gc.collect()


class Named(Hierarchy):
    """A subclass with a field and a way of its own to begin."""

    def __init__(self, name):
        super().__init__()
        self.name = name

    def copies(self):
        return self.name


@pytest.mark.parametrize("way", WAYS)
def test_a_copy_of_a_subclass_is_a_plain_hierarchy(way):
    with Named("first") as h:
        h.mkdir("/a")
        with way(h) as other:
            assert type(other) is Hierarchy and story(other) == story(h)
            assert not hasattr(other, "name") and not other.closed and not h.closed


def test_a_copy_is_entered_and_closed_by_itself():
    with filled() as h:
        other = h.copy()
        with other:
            with pytest.raises(RuntimeError):
                other.__enter__()
            assert not other.closed
        assert other.closed and not h.closed
        other.close()
        assert h.has_group("/a")
        with h.copy() as third, third.copy() as fourth:
            assert story(fourth) == story(h)


def test_a_copy_in_a_list():
    with filled() as h:
        first, second = copy.deepcopy([h, h])
        assert first is second and story(first) == story(h)
        first.close()


def test_a_copy_can_be_initialized_no_more():
    with filled() as h, h.copy() as other:
        with pytest.raises(RuntimeError):
            other.__init__()
        assert other.has_group("/a")


def test_an_unclosed_copy_gives_a_warning():
    with filled() as h:
        with pytest.warns(ResourceWarning, match="unclosed"):
            h.copy()
            gc.collect()


def test_copies_while_threads_change():
    with Hierarchy() as h:
        stopped = threading.Event()

        def change(name):
            while not stopped.is_set():
                h.mkdir(name)
                h.rmdir(name)
                h.forget()

        threads = [threading.Thread(target=change, args=(f"/t{number}",)) for number in range(3)]
        for thread in threads:
            thread.start()
        try:
            for _ in range(20):
                with h.copy() as other:
                    assert other.depth() == other.reset() and other.depth() == 0
        finally:
            stopped.set()
            for thread in threads:
                thread.join()
