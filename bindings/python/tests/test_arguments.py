"""Arguments of a wrong type or out of range are refused by the errors that Python has for them, and change nothing."""

import enum
import errno
import math
import threading
from fractions import Fraction

import pytest

from makhloeum import BadSyntax, BadValue, Hierarchy, NothingToUndo, mounted_at

SYNTAX = "Invalid argument (syntax: an unknown command, a wrong number of words, or a line that is too long)"


@pytest.fixture
def h(hierarchy):
    hierarchy.mkdir("/a")
    hierarchy.mkdir("/b")
    return hierarchy


@pytest.mark.parametrize("number", [2**32 + 5, 2**31, 2**64 + 5, 0, -1, -(2**32) + 5])
def test_an_errno_out_of_range_is_a_value_error(h, number):
    with pytest.raises(ValueError, match=f"fail /a: {number} is not an errno"):
        h.fail("/a", error=number)
    assert h.clear_faults() == 0


@pytest.mark.parametrize("wrong", ["0", None, 1.0, True, b"1", [1]])
def test_what_is_no_number_is_a_type_error(h, wrong):
    for call in (
        lambda: h.fail("/a", error=wrong),
        lambda: h.fail("/a", error=errno.EIO, nth=wrong),
        lambda: h.vanish("/a", nth=wrong),
        lambda: h.wait(wrong, timeout=0),
        lambda: h.undo_to(wrong),
        lambda: h.exit(wrong),
        lambda: h.where(wrong),
        lambda: h.fork(wrong, 5),
        lambda: h.fork(1, wrong),
        lambda: mounted_at("/x", pid=wrong).__enter__(),
    ):
        with pytest.raises(TypeError):
            call()
    assert h.clear_faults() == 0 and h.depth() == 2


def test_a_number_of_another_class_is_a_number(h):
    class Limits(enum.IntEnum):
        FEW = 5

    h.write("/a", "pids.max", Limits.FEW)
    assert h.limit("/a") == 5
    h.fork(1, Limits.FEW)
    h.write("/a", "cgroup.procs", Limits.FEW)
    assert h.where(Limits.FEW) == "0::/a\n"


@pytest.mark.parametrize("file", ["pids.max", "cgroup.procs", "cgroup.kill", "cgroup.max.depth"])
@pytest.mark.parametrize("wrong", [True, False])
def test_a_truth_value_is_no_value(h, file, wrong):
    with pytest.raises(TypeError, match="not bool"):
        h.write("/a", file, wrong)
    assert h.depth() == 2 and h.limit("/a") is None


@pytest.mark.parametrize(
    "call, kind, said",
    [
        (lambda h: h.exit(True), TypeError, "a pid is an int, not bool"),
        (lambda h: h.undo_to(True), TypeError, "a mark is an int, not bool"),
        (lambda h: h.wait(True), TypeError, "a number of changes is an int, not bool"),
        (lambda h: h.fail("/a", error=True), TypeError, "an errno is an int, not bool"),
        (lambda h: h.vanish("/a", nth=True), TypeError, "nth is an int, not bool"),
        (lambda h: mounted_at("/x", pid=True).__enter__(), TypeError, "a pid is an int, not bool"),
        (lambda h: mounted_at("/x", "h").__enter__(), TypeError, "mounted_at: a Hierarchy or None, not str"),
        (lambda h: mounted_at("/").__enter__(), ValueError, "mounted_at: a hierarchy can't be mounted at /"),
        (lambda h: h.wait(2, "1"), TypeError, "wait: a timeout is a number of seconds or None, not str"),
        (lambda h: h.wait(2, math.nan), ValueError, "wait: a timeout is a number of seconds, not nan"),
        (lambda h: h.wait(-1), ValueError, "wait: -1 is not a number of changes"),
        (lambda h: h.undo_to(-1), ValueError, "a mark is not negative"),
        (lambda h: h.fail("/a", error=0), ValueError, "fail /a: 0 is not an errno"),
        (lambda h: h.fail("/a", error=5, nth=0), ValueError, "fail /a: nth is 1 for the next call, not 0"),
        (lambda h: h.vanish(b"/a", -1), ValueError, "vanish /a: nth is 1 for the next call, not -1"),
        (lambda h: h.vanish("/"), ValueError, "vanish /: the root cannot be removed"),
        (lambda h: h.read_many(["ab"]), TypeError, "read_many: 'ab' is not a pair of a path and a file's name"),
        (lambda h: h.line("mkdir /a\n"), BadSyntax, f"mkdir /a\n: {SYNTAX}"),
    ],
)
def test_an_error_says_what_is_wrong_with_an_argument(h, call, kind, said):
    with pytest.raises(kind) as wrong:
        call(h)
    assert str(wrong.value) == said and h.depth() == 2 and h.clear_faults() == 0


def test_a_number_of_changes_is_not_wrapped(h):
    for wrong in (-1, 2**64, 2**64 + 2):
        with pytest.raises(ValueError, match="is not a number of changes"):
            h.wait(wrong, timeout=0)
    with pytest.raises(TimeoutError):
        h.wait(2, timeout=-1)
    assert h.wait(2**64 - 1, timeout=0) == 2


def test_a_timeout_is_a_number_of_seconds(h):
    for wrong in ("1", True, [1], b"1"):
        with pytest.raises(TypeError, match="wait: a timeout is"):
            h.wait(2, timeout=wrong)
    # a number that has passed: without its refusal the call returns
    with pytest.raises(ValueError, match="nan"):
        h.wait(1, timeout=math.nan)
    assert h.wait(1, timeout=math.inf) == 2


def test_a_timeout_beyond_each_float_is_refused_as_by_an_event(h):
    for timeout in (10**400, 10**5000):
        for wait in (threading.Event().wait, lambda timeout: h.wait(2, timeout)):
            with pytest.raises(OverflowError):
                wait(timeout)
    with pytest.raises(OverflowError):
        h.wait(2, timeout=Fraction(10**400))


def test_a_time_that_is_long_over_ends_at_once_as_that_of_an_event(h):
    for timeout in (-(10**400), -(10**5000), Fraction(-(10**400)), -1e300, -math.inf):
        assert threading.Event().wait(timeout) is False
        with pytest.raises(TimeoutError, match="nothing has changed"):
            h.wait(2, timeout=timeout)
        assert h.wait(1, timeout=timeout) == 2


def test_a_timeout_of_zero_ends_at_once(h):
    late = threading.Timer(30, h.mkdir, ["/late"])  # ends a wait that has no end
    late.start()
    try:
        with pytest.raises(TimeoutError):
            h.wait(h.changes(), timeout=0)
    finally:
        late.cancel()


def test_a_mark_beyond_64_bits_undoes_nothing(h):
    for mark in (3, 2**63, 2**64, 2**64 + 1, 2**70):
        with pytest.raises(NothingToUndo):
            h.undo_to(mark)
    with pytest.raises(ValueError):
        h.undo_to(-1)
    assert h.depth() == 2


def test_files_to_read_are_pairs(h):
    for wrong in ("ab", b"ab", ("/a",), ("/a", "pids.max", ""), (), 5, None):
        with pytest.raises(TypeError, match="not a pair"):
            h.read_many([("/", "cgroup.procs"), wrong])
    assert h.read_many([["/", "cgroup.procs"], iter(("/", "cgroup.stat"))])[0] == "1\n"
    with pytest.raises(TypeError):
        h.read_many(5)


def test_pids_as_other_ints(h):
    class Number:
        def __index__(self):
            return 2

    h.fork(1, Number())
    assert h.where(Number()) == "0::/\n"
    with pytest.raises(BadValue):
        h.exit(0)


@pytest.mark.parametrize("pid", [0, -1, 2**63, 2**70])
def test_the_caller_is_a_process(pid):
    with pytest.raises(ValueError, match="is not a pid"):
        mounted_at("/x", pid=pid).__enter__()


def test_what_is_mounted_is_a_hierarchy():
    for wrong in (5, "x", Hierarchy):
        with pytest.raises(TypeError, match="a Hierarchy or None"):
            mounted_at("/x", wrong).__enter__()
