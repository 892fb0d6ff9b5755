"""What still works, with a warning that says what to write instead."""

import errno

import pytest


@pytest.mark.parametrize("words, more", [((errno.EIO,), {}), ((errno.EIO, 1), {}), ((errno.EIO,), {"nth": 1})])
def test_fail_with_an_errno_by_position(hierarchy, words, more):
    hierarchy.mkdir("/a")
    with pytest.warns(
        DeprecationWarning, match=r"^fail: give error and nth by name: fail\(path, error=.., nth=..\)$"
    ) as told:
        hierarchy.fail("/a", *words, **more)
    assert [it.filename for it in told] == [__file__]
    with pytest.raises(OSError) as failed:
        hierarchy.read("/a", "pids.max")
    assert failed.value.errno == errno.EIO and hierarchy.clear_faults() == 0


@pytest.mark.parametrize("words, more", [((errno.EIO, 2), {}), ((errno.EIO,), {"nth": 2})])
def test_fail_with_an_nth_after_an_errno_by_position(hierarchy, words, more):
    hierarchy.mkdir("/a")
    with pytest.warns(DeprecationWarning):
        hierarchy.fail("/a", *words, **more)
    assert hierarchy.read("/a", "pids.max") == "max\n"
    with pytest.raises(OSError):
        hierarchy.read("/a", "pids.max")


def test_fail_by_name_gives_no_warning(hierarchy, recwarn):
    hierarchy.mkdir("/a")
    hierarchy.fail("/a", error=errno.EIO, nth=3)
    hierarchy.fail("/a", nth=4, error=errno.EIO)
    assert not recwarn.list and hierarchy.clear_faults() == 2


def test_fail_needs_one_errno(hierarchy):
    hierarchy.mkdir("/a")
    with pytest.raises(TypeError):
        hierarchy.fail("/a")
    for words, more in (((errno.EIO,), {"error": errno.EIO}), ((errno.EIO, 1, 1), {})):
        with pytest.warns(DeprecationWarning), pytest.raises(TypeError, match="^fail: a path, one error and one nth$"):
            hierarchy.fail("/a", *words, **more)
    assert hierarchy.clear_faults() == 0
