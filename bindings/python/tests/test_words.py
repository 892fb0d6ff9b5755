"""Words of any length and content are judged whole, by the library."""

import errno
import os
import pathlib

import pytest

import makhloeum
from makhloeum import BadDirection, BadFile, BadPath, BadSyntax, BadValue, PidsMax, Refused
from makhloeum._table import NAME_MAX

LENGTHS = [
    1,
    2,
    23,
    127,
    254,
    255,
    256,
    257,
    258,
    509,
    510,
    511,
    512,
    519,
    1024,
    4085,
    4086,
    4087,
    4094,
    4095,
    4096,
    4097,
    8180,
    8191,
    8192,
    8193,
    9000,
    65536,
    10**6,
]


@pytest.fixture
def h(hierarchy):
    hierarchy.mkdir("/a")
    hierarchy.fork(1, 2)
    hierarchy.write("/a", "cgroup.procs", 2)
    return hierarchy


LONGEST = "/" + "/".join(["n" * NAME_MAX] * 15 + ["n" * (NAME_MAX - 1)])


def kind(call):
    """The exception's class, or None."""
    try:
        call()
    except Refused as refused:
        return next(
            it for it in (BadPath, BadFile, BadDirection, BadValue, BadSyntax, Refused) if isinstance(refused, it)
        )
    return None


@pytest.mark.parametrize("n", LENGTHS)
def test_the_first_fault_counts_however_long_the_words_are(h, n):
    path, file, digits = "/a/" + "x" * (n + NAME_MAX + 1), "pids.max" + "x" * n, "5" * (n + 7)
    for call, want in (
        (lambda: h.mkdir(path), BadPath),
        (lambda: h.rmdir(path), BadPath),
        (lambda: h.read(path, file), BadPath),
        (lambda: h.write(path, file, digits), BadPath),
        (lambda: h.children(path), BadPath),
        (lambda: h.current(path), BadPath),
        (lambda: h.processes(path), BadPath),
        (lambda: h.fail(path, error=errno.EIO), BadPath),
        (lambda: h.read("/a", file), BadFile),
        (lambda: h.write("/a", file, digits), BadFile),
        (lambda: h.write("/a", file, "max"), BadFile),
        (lambda: h.write("/a", "pids.current", digits), BadDirection),
        (lambda: h.write("/a", "pids.max", digits), BadValue),
        (lambda: h.write("/a", "pids.max", "0" * n + "5"), BadValue),
        (lambda: h.write("/a", "pids.max", "max" + "x" * n), BadValue),
    ):
        assert kind(call) is want
    # with the longest path that is one
    for call, want in (
        (lambda: h.read(LONGEST, file), BadFile),
        (lambda: h.write(LONGEST, file, digits), BadFile),
        (lambda: h.write(LONGEST, "pids.max", digits), BadValue),
        (lambda: h.write(LONGEST, "pids.current", digits), BadDirection),
        (lambda: h.mkdir(LONGEST), Refused),
        (lambda: h.mkdir(LONGEST + "n"), BadPath),
    ):
        assert kind(call) is want
    told = h.read_many([(path, file), ("/a", file), ("/a", "pids.max")])
    assert isinstance(told[0], BadPath) and isinstance(told[1], BadFile) and told[2] == "max\n"


@pytest.mark.parametrize("n", LENGTHS)
@pytest.mark.parametrize("blank", " \t\r\n")
def test_a_value_is_not_cut(h, n, blank):
    for value in ("1" + blank * n + "no", "1" + blank * n + "1", blank * n):
        assert (
            kind(lambda: h.write("/a", "cgroup.kill", value)) is BadValue
            and kind(lambda: h.write("/a", "pids.max", value)) is BadValue
        )
    assert h.where(2) == "0::/a\n"
    h.write("/a", "pids.max", blank * n + "7" + blank * n)
    assert h.limit("/a") == 7


def test_a_zero_byte_ends_no_word(h):
    depth = h.depth()
    for call, want in (
        (lambda: h.mkdir("/b\0"), BadPath),
        (lambda: h.rmdir("/a\0/b"), BadPath),
        (lambda: h.read("/a", "pids.max\0"), BadFile),
        (lambda: h.write("/a", "pids.max", "5\0"), BadValue),
        (lambda: h.write("/a", "pids.max", "\0"), BadValue),
        (lambda: h.current("/a\0"), BadPath),
    ):
        assert kind(call) is want
    assert h.depth() == depth


def test_a_number_of_any_size_is_out_of_range_or_no_number(h):
    for number in (-1, 2**31, 2**64, 2**64 + 1, -(2**64), 10**5000, -(10**5000)):
        for call in (
            lambda: h.write("/a", "pids.max", number),
            lambda: h.exit(number),
            lambda: h.where(number),
            lambda: h.fork(1, number),
        ):
            assert kind(call) is BadValue


def test_a_refusal_names_the_group_that_refuses(h):
    h.mkdir("/a/b")
    h.write("/a", "cgroup.max.depth", 1)
    h.write("/a", "pids.max", 1)
    with pytest.raises(makhloeum.Depth) as refused:
        h.mkdir("/a/b/c")
    assert refused.value.reply == "depth /a"
    with pytest.raises(PidsMax) as refused:
        h.fork(2, 3)
    assert refused.value.reply == "pidsmax /a"


def test_no_line_is_built_in_python():
    """C's calls make the lines, so that there is one rule for words."""
    for name in ("_many", "_words", "hierarchy"):
        text = (pathlib.Path(os.path.dirname(makhloeum.__file__)) / f"{name}.py").read_text()
        assert not [
            word for word in ("mkdir ", "rmdir ", "fork ", "exit ", "cat ", "write ", "where ") if f'b"{word}' in text
        ]
