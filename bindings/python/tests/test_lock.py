"""The interpreter's lock: calls that may be long give it up, and short ones don't wait with it."""

import ctypes
import itertools
import threading

import pytest

from makhloeum import Hierarchy, mounted_at
from makhloeum._library import WOULD_BLOCK, library, patient, waiting

PROCESSES = 60_000


@pytest.fixture(scope="module")
def large():
    """A hierarchy whose copy and undo take long."""
    with Hierarchy() as h:
        h.mkdir("/a")
        for pid in range(2, 2 + PROCESSES):
            h.fork(1, pid)
            h.write("/a", "cgroup.procs", pid)
        yield h


@pytest.fixture
def made(monkeypatch):
    """The calls of C that are made: their names, and whether each gives the lock up."""
    calls = []

    def recorded(name, call):
        def made(*words):
            calls.append((name, not call._flags_ & ctypes._FUNCFLAG_PYTHONAPI))
            return call(*words)

        return made

    for module in (library, patient):
        for name in [it for it in vars(module) if it.startswith("mk_")]:
            monkeypatch.setattr(module, name, recorded(name, getattr(module, name)))
    return calls


LONG = {
    "copy": lambda h: h.copy().close(),
    "undo_to": lambda h: h.undo_to(1),
    "reset": lambda h: h.reset(),
    "undo": lambda h: h.undo(),
    "forget": lambda h: h.forget(),
    "close": lambda h: h.close(),
    "groups": lambda h: h.groups(),
    "processes": lambda h: h.processes("/a"),
    "read_many": lambda h: h.read_many([("/a", "pids.max")]),
    "read": lambda h: h.read("/a", "cgroup.procs"),
    "line, a list": lambda h: h.line("cat /a cgroup.procs"),
    "line, a kill": lambda h: h.line("write /a cgroup.kill 1"),
    "line, an undo": lambda h: h.line("undo"),
    "kill": lambda h: h.write("/a", "cgroup.kill", 1),
    "open": lambda h: Hierarchy().close(),
}


@pytest.mark.parametrize("name", LONG)
def test_a_call_that_may_be_long_gives_up_the_lock(hierarchy, made, name):
    hierarchy.mkdir("/a")
    made.clear()
    LONG[name](hierarchy)
    assert made and all(gives_up or call == "mk_nonblocking" for call, gives_up in made), made


def test_a_wait_gives_up_the_lock():
    assert not waiting._flags_ & ctypes._FUNCFLAG_PYTHONAPI


@pytest.mark.parametrize(
    "name, call, is_long",
    [
        ("cgroup.procs", "mk_get", True),
        ("cgroup.threads", "mk_get", True),
        ("pids.max", "mk_get", False),
        ("cgroup.kill", "mk_put", True),
        ("pids.max", "mk_put", False),
    ],
)
def test_a_call_of_a_served_file_gives_up_the_lock_if_it_may_be_long(hierarchy, made, tmp_path, name, call, is_long):
    hierarchy.mkdir("/a")
    with mounted_at(tmp_path, hierarchy):
        path = tmp_path / "a" / name
        path.read_text() if call == "mk_get" else path.write_text("1")
    assert {gives_up for it, gives_up in made if it == call} == {is_long}


SHORT = {
    "mkdir": lambda h: h.mkdir("/b"),
    "fork": lambda h: h.fork(1, 2),
    "move": lambda h: h.write("/a", "cgroup.procs", 1),
    "limit": lambda h: h.write("/a", "pids.max", 1),
    "read": lambda h: h.read("/a", "pids.max"),
    "line": lambda h: h.line("cat /a pids.max"),
    "depth": lambda h: h.depth(),
    "changes": lambda h: h.changes(),
    "children": lambda h: h.children("/"),
    "has_group": lambda h: h.has_group("/a"),
    "current": lambda h: h.current("/a"),
    "fail": lambda h: h.fail("/a", error=5),
    "clear_faults": lambda h: h.clear_faults(),
}


@pytest.mark.parametrize("name", SHORT)
def test_a_short_call_keeps_the_lock_unless_it_would_wait_with_it(hierarchy, made, monkeypatch, name):
    hierarchy.mkdir("/a")
    made.clear()
    with hierarchy.copy() as first:
        SHORT[name](first)
    calls = [it for it in made if it[0] not in ("mk_copy", "mk_nonblocking", "mk_close")]
    assert calls and not any(gives_up for _, gives_up in calls), calls
    for call, _ in calls:
        monkeypatch.setattr(library, call, lambda *words: WOULD_BLOCK)
    made.clear()
    SHORT[name](hierarchy)
    assert [gives_up for call, gives_up in made] == [True] * len(calls), made


@pytest.mark.parametrize("name", LONG)
def test_a_long_call_waits_for_a_call_of_another_thread(hierarchy, monkeypatch, name):
    """The handle whose calls fail where they would wait is not used, or the call is then made again with the one that waits."""
    hierarchy.mkdir("/a")
    quick = hierarchy._quick

    def blocked(call):
        return lambda *words: WOULD_BLOCK if words and words[0] is quick else call(*words)

    for module in (library, patient):
        for call in [it for it in vars(module) if it.startswith("mk_")]:
            monkeypatch.setattr(module, call, blocked(getattr(module, call)))
    LONG[name](hierarchy)


class Ticks:
    """A thread that only counts, and so runs only while no other has the lock."""

    def __enter__(self):
        self.count, self._stopped = itertools.count(), False
        self._thread = threading.Thread(target=self._run)
        self._thread.start()
        return self

    def _run(self):
        while not self._stopped:
            next(self.count)

    def __exit__(self, *exception):
        self._stopped = True
        self._thread.join()


@pytest.mark.parametrize("name", ["copy", "undo_to"])
def test_other_threads_run_within_a_long_call(large, monkeypatch, name):
    """One counts within the call of C, while another makes short calls of the same hierarchy, which wait."""
    call, counted = getattr(library, f"mk_{name}"), []
    with large.copy() as h, Ticks() as ticks:

        def watched(*words):
            before = next(ticks.count)
            status = call(*words)
            counted.append(next(ticks.count) - before)
            return status

        monkeypatch.setattr(library, f"mk_{name}", watched)
        thread = threading.Thread(target=lambda: LONG[name](h))
        thread.start()
        while thread.is_alive():
            h.depth()
        thread.join()
        monkeypatch.undo()
    assert len(counted) == 1 and counted[0] > 100, counted
