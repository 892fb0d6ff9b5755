"""What `makhloeum check` expects of a kernel where it differs: peaks, counts of refused forks, and numbers. Each number here is counted by
hand, from what docs/DECISIONS.md says of the kernel."""

import re

import pytest

from makhloeum.check import known
from makhloeum.check.known import (
    BOTH_RAISE,
    MOVE_RAISES,
    REFUSED_RAISES,
    Followed,
    peak_difference,
)

PLAIN, REFUSED, MOVED, BOTH = (False, False), (True, False), (False, True), (True, True)


def followed(*lines):
    """What is known after these lines; one with `!` was refused by the limit of the group after it."""
    it = Followed()
    for line in lines:
        words, _, limit = line.partition(" ! ")
        it.play(words.split(), f"refused pidsmax {limit}" if limit else "ok")
    return it


MADE = (
    "mkdir /a",
    "mkdir /a/b",
    "mkdir /a/c",
    "mkdir /a/b/d",
    "mkdir /x",
    "fork 1 2",
    "write /a/b/d cgroup.procs 2",
)


@pytest.mark.parametrize(
    "lines, path, plain, refused, moved, both",
    [
        ([], "/a", 1, 1, 1, 1),
        ([], "/x", 0, 0, 0, 0),
        # a refused fork raises the peaks below the group with the limit
        (["fork 2 3 ! /a"], "/a/b/d", 1, 2, 1, 2),
        (["fork 2 3 ! /a"], "/a/b", 1, 2, 1, 2),
        (["fork 2 3 ! /a"], "/a", 1, 1, 1, 1),
        (["fork 2 3 ! /a/b"], "/a/b/d", 1, 2, 1, 2),
        (["fork 2 3 ! /a/b"], "/a/b", 1, 1, 1, 1),
        (["fork 2 3 ! /a/b/d"], "/a/b/d", 1, 1, 1, 1),
        (["fork 2 3 ! /a", "fork 2 3 ! /a"], "/a/b", 1, 2, 1, 2),
        (["fork 2 3 ! /a"], "/a/c", 0, 0, 0, 0),
        # a move raises those of the groups that both places lie in
        (["write /a/c cgroup.procs 2"], "/a", 1, 1, 2, 2),
        (["write /a/c cgroup.procs 2"], "/a/b", 1, 1, 1, 1),
        (["write /a/c cgroup.procs 2"], "/a/c", 1, 1, 1, 1),
        (["write /a/b cgroup.procs 2"], "/a/b", 1, 1, 2, 2),
        (["write /a/b cgroup.procs 2"], "/a/b/d", 1, 1, 1, 1),
        (["write /x cgroup.procs 2"], "/a", 1, 1, 1, 1),
        (["write / cgroup.procs 2", "write /x cgroup.procs 2"], "/x", 1, 1, 1, 1),
        (["write /a/b/d cgroup.procs 2"], "/a", 1, 1, 1, 1),
        (["write /a/c cgroup.procs 9"], "/a", 1, 1, 1, 1),
        # both, one after the other
        (["write /a/c cgroup.procs 2", "fork 2 3 ! /a"], "/a/c", 1, 2, 1, 2),
        (
            ["fork 2 3", "write /a/c cgroup.procs 2", "write /a/b/d cgroup.procs 2"],
            "/a",
            2,
            2,
            3,
            3,
        ),
        (["fork 2 3", "write /a/c cgroup.procs 3", "fork 3 4 ! /"], "/a", 2, 3, 3, 3),
        (
            ["fork 2 3", "write /a/c cgroup.procs 2", "fork 3 4 ! /a"],
            "/a/b",
            2,
            2,
            2,
            2,
        ),
        # a count falls by an exit and a kill, a peak doesn't
        (["fork 2 3", "exit 3", "fork 2 4"], "/a", 2, 2, 2, 2),
        (
            [
                "fork 2 3",
                "write /a/b cgroup.kill 1",
                "fork 1 5",
                "write /a cgroup.procs 5",
            ],
            "/a",
            2,
            2,
            2,
            2,
        ),
        (["fork 2 3", "write /a/c cgroup.kill 1", "fork 2 4"], "/a", 3, 3, 3, 3),
        (
            [
                "fork 1 3",
                "write /a cgroup.procs 3",
                "write /a/b cgroup.kill 1",
                "fork 3 4",
            ],
            "/a",
            2,
            2,
            2,
            2,
        ),
        # a group that is made again is new
        (
            ["write / cgroup.procs 2", "rmdir /a/b/d", "mkdir /a/b/d"],
            "/a/b/d",
            0,
            0,
            0,
            0,
        ),
        (
            ["write / cgroup.procs 2", "rmdir /a/b/d", "mkdir /a/b/d"],
            "/a/b",
            1,
            1,
            1,
            1,
        ),
    ],
)
def test_a_peak_by_each_way_of_raising(lines, path, plain, refused, moved, both):
    assert followed(*MADE, *lines).peak_by_way(path) == {
        PLAIN: plain,
        REFUSED: refused,
        MOVED: moved,
        BOTH: both,
    }


def test_a_line_that_was_refused_otherwise_changes_nothing():
    it = followed(*MADE)
    for line, reply in (
        ("mkdir /a", "refused exists"),
        ("fork 2 3", "refused pidinuse 3"),
        ("exit 9", "refused noprocess 9"),
        ("write /a/c cgroup.procs 2", "refused nogroup /a/c"),
        ("write /a cgroup.kill 1", "refused value"),
        ("cat /a pids.max", "ok\n| max"),
    ):
        it.play(line.split(), reply)
    assert it.home == {"1": "/", "2": "/a/b/d"} and it.peak_by_way("/a") == dict.fromkeys(
        (PLAIN, REFUSED, MOVED, BOTH), 1
    )
    assert sum(it.events.total.values()) == sum(it.events.own.values()) == 0


def test_where_a_refused_fork_is_counted():
    """By the guide at the group whose limit it was and those above; before Linux 6.11 at the group of the process alone."""
    it = followed(*MADE, "fork 2 3 ! /a/b", "fork 2 3 ! /a", "fork 1 3 ! /x", "mkdir /x/y")
    assert {path: it.events.total[path] for path in ("/a", "/a/b", "/a/b/d", "/a/c", "/x", "/x/y")} == {
        "/a": 2,
        "/a/b": 1,
        "/a/b/d": 0,
        "/a/c": 0,
        "/x": 1,
        "/x/y": 0,
    }
    assert (
        it.events.own["/a/b/d"],
        it.events.own["/a"],
        it.events.own["/a/b"],
        it.events.own["/"],
    ) == (2, 0, 0, 1)


def test_the_name_of_a_difference_between_two_peaks():
    by_way = {PLAIN: 1, REFUSED: 2, MOVED: 3, BOTH: 4}
    wanted = {
        1: None,
        2: REFUSED_RAISES,
        3: MOVE_RAISES,
        4: BOTH_RAISE,
        5: None,
        0: None,
    }
    for kernel, name in wanted.items():
        assert peak_difference(kernel, 1, by_way) == name
        assert peak_difference(kernel, 2, by_way) is None, "ours is not what the guide says"
    assert peak_difference(2, 1, {PLAIN: 1, REFUSED: 2, MOVED: 2, BOTH: 2}) == REFUSED_RAISES, "the plainest"
    assert peak_difference(3, 1, {PLAIN: 1, REFUSED: 1, MOVED: 3, BOTH: 3}) == MOVE_RAISES


@pytest.mark.parametrize(
    "text, number",
    [
        ("0", 0),
        ("00", 0),
        ("007", 7),
        ("010", 8),
        ("-010", -8),
        ("0x10", 16),
        ("0Xff", 255),
        ("+0x1F", 31),
        ("-0x1", -1),
    ]
    + [("9", 9), ("-9", -9), ("+9", 9), ("18446744073709551616", 1 << 64), ("-0", 0)]
    + [
        (text, None)
        for text in (
            "",
            "+",
            "-",
            "08",
            "0x",
            "0xg",
            "1x",
            "x1",
            " 1",
            "1 ",
            "1\n",
            "1_0",
            "+-1",
            "--1",
            "max",
            "1.0",
            "٣",
        )
    ],
)
def test_a_number_as_the_kernel_reads_it(text, number):
    assert known.kernel_number(text) == number


def test_the_groups_upward():
    assert list(known.upward("/a/b/c")) == ["/a/b/c", "/a/b", "/a"] and list(known.upward("/a")) == ["/a"]
    assert list(known.upward("/")) == list(known.upward("")) == []


def test_each_known_difference_has_a_sentence_of_its_own():
    names = [value for name, value in vars(known).items() if re.fullmatch("[A-Z_]+", name) and isinstance(value, str)]
    assert len(names) == len(set(names)) == 18 and all(len(name.split()) > 3 for name in names)
    before = [name for name in names if name.startswith("before Linux 6.11")]
    assert set(before) == {known.OLD_EVENTS, known.OLD_LOCAL, known.OLD_WHICH}
