"""Numbers without text, marks, and the fixture of the pytest plugin."""

import pytest

from makhloeum import BadByte, NoFile, NoGroup, NothingToUndo


def test_numbers(hierarchy):
    h = hierarchy
    h.mkdir("/a")
    h.mkdir("/a/b")
    h.write("/a", "pids.max", 500)
    for pid in range(2, 202):
        h.fork(1, pid)
        h.write("/a/b", "cgroup.procs", pid)
    assert h.processes("/a/b") == list(range(2, 202)) and h.processes("/a") == [] and h.processes("/") == [1]
    h.exit(201)
    assert (h.current("/a"), h.peak("/a"), h.limit("/a"), h.limit("/a/b")) == (199, 200, 500, None)
    assert h.populated("/a/b")
    h.write("/a", "cgroup.kill", 1)
    assert not h.populated("/a") and h.current("/a") == 0
    h.write("/a", "pids.max", 0)
    assert h.limit("/a") == 0, "a limit, and not none"


def test_numbers_of_what_is_not_there(hierarchy):
    h = hierarchy
    for call in (h.current, h.peak, h.limit, h.populated, h.processes):
        with pytest.raises(NoGroup) as missing:
            call("/c")
        assert (
            missing.value.reply == "nogroup /c"
            and str(missing.value) == f"{call.__name__} /c: No such file or directory (nogroup /c)"
        )
        with pytest.raises(BadByte) as bad:
            call("/\0a")
        assert bad.value.position == 1
    for call in (h.current, h.peak, h.limit, h.populated):
        with pytest.raises(NoFile):
            call("/")
    h.close()
    with pytest.raises(ValueError):
        h.current("/")


def test_marks(hierarchy):
    h = hierarchy
    h.mkdir("/a")
    mark = h.mark()
    h.mkdir("/a/b")
    h.fork(1, 2)
    h.write("/a/b", "cgroup.procs", 2)
    assert h.undo_to(mark) == 3 and h.groups() == ["/", "/a"]
    assert h.undo_to(mark) == 0
    with pytest.raises(NothingToUndo):
        h.undo_to(mark + 1)
    with pytest.raises(ValueError):
        h.undo_to(-1)
    assert h.reset() == 1 and h.groups() == ["/"] and h.depth() == 0


def test_forget(hierarchy):
    hierarchy.mkdir("/a")
    hierarchy.fork(1, 2)
    hierarchy.write("/a", "cgroup.procs", 2)
    hierarchy.forget()
    assert hierarchy.depth() == 0
    with pytest.raises(NothingToUndo):
        hierarchy.undo()
    assert hierarchy.current("/a") == 1
    hierarchy.exit(2)
    assert hierarchy.reset() == 1
    assert hierarchy.where(2) == "0::/a\n"


@pytest.mark.parametrize("again", range(2))
def test_each_test_has_its_own_hierarchy(hierarchy, again):
    assert hierarchy.groups() == ["/"]
    hierarchy.mkdir("/a")
