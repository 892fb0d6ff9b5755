"""A small monitor, and its test: `python3 -m pytest test_example_monitor.py`, once bindings/build has made the library.

The monitor names the groups that hold more than a share of their `pids.max`. It reads files by a function that it is given:
in a service one that opens /sys/fs/cgroup, in the test one that asks a hierarchy in memory."""

import pytest

from makhloeum import Hierarchy


def crowded(paths, read, share=0.9):
    """The groups whose pids.current has reached the share of their pids.max."""
    found = []
    for path in paths:
        limit = read(path, "pids.max").strip()
        if limit != "max" and int(read(path, "pids.current")) >= share * int(limit):
            found.append(path)
    return found


@pytest.fixture
def hierarchy():
    """A service with a limit of ten processes."""
    with Hierarchy() as h:
        h.mkdir("/service")
        h.mkdir("/service/worker")
        h.write("/service", "pids.max", 10)
        yield h


def test_a_crowded_service_is_named(hierarchy):
    h = hierarchy
    groups = [path for path in h.groups() if path != "/"]
    assert crowded(groups, h.read) == []
    for pid in range(2, 11):
        h.fork(1, pid)
        h.write("/service/worker", "cgroup.procs", pid)
    assert crowded(groups, h.read) == ["/service"]
    h.undo()
    assert crowded(groups, h.read) == []
