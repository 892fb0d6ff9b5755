"""What the random sequences of `makhloeum check` are made of, and how a sequence that shows a difference is made short."""

import collections

import pytest

from makhloeum._table import FILES
from makhloeum.check import sequences, shorten
from makhloeum.check.engine import Answer, Engine
from makhloeum.check.playing import NO_ANSWER, Difference
from makhloeum.check.sequences import Random

READABLE = {file.name for file in FILES if file.readable}
ON_ROOT = {file.name for file in FILES if file.readable and file.on_root}
BUSY = Answer("EBUSY", "", "hasprocesses")


def sequence(number, seed=5):
    """Its commands, those that the engine can't do left out, with the groups at the end of the random ones."""
    engine, following, commands, groups = (
        Engine("free", [], True),
        Random(seed, number),
        [],
        None,
    )
    try:
        for words in iter(lambda: following(engine), None):
            if following._is_dumped and groups is None:
                groups, watched = engine.h.groups(), sorted(engine.changes)
                ends = len(commands)
            if engine.can_do(words):
                commands.append(words)
                engine.play(words)
    finally:
        engine.close()
    return commands[:ends], commands[ends:], groups, watched


@pytest.fixture(scope="module")
def played():
    return [sequence(number) for number in range(500)]  # the rarest words come ten times on average


# what a sequence should do sooner or later: a command by its first word, the end of its path, its file and its value
WRONG = {
    ("write", "pids.max", "x"),
    ("write", "pids.max", "-1"),
    ("write", "pids.max", "4194305"),
    ("write", "pids.max", "99999999999999999999"),
    ("write", "cgroup.max.depth", "x"),
    ("write", "cgroup.max.depth", "-1"),
    ("write", "cgroup.max.depth", "2147483648"),
    ("write", "cgroup.kill", "0"),
    ("write", "cgroup.kill", "2"),
    ("write", "cgroup.kill", "x"),
    ("write", "cgroup.procs", "x"),
    ("write", "pids.current", "1"),
    ("cat", "cgroup.kill"),
    ("cat", "no.such"),
}
LIMITS = {
    *(("write", "pids.max", value) for value in ("0", "1", "2", "5", "max", "4194304")),
    *(
        ("write", file, value)
        for file in ("cgroup.max.depth", "cgroup.max.descendants")
        for value in ("0", "1", "2", "3", "max")
    ),
}
REREAD = {("reread", file) for file in ("cgroup.procs", "cgroup.stat", "pids.current", "pids.max")}


def test_each_kind_of_command_is_played(played):
    kinds = collections.Counter(words[0] for commands, *_ in played for words in commands)
    assert set(kinds) == {
        *(
            "mkdir",
            "rmdir",
            "fork",
            "exit",
            "write",
            "cat",
            "reread",
            "list",
            "watch",
            "told",
            "where",
        )
    }
    assert kinds["cat"] > kinds["reread"] > kinds["where"] and kinds["mkdir"] > kinds["rmdir"]
    files = {(words[0], *words[2:]) for commands, *_ in played for words in commands if len(words) > 2}
    assert WRONG - files == set() and LIMITS - files == set() and REREAD - files == set()
    assert {("cat", name) for name in READABLE} - files == set()
    assert {it for it in files if it[0] == "reread"} == REREAD


def test_commands_about_what_is_not_there(played):
    all_ = [words for commands, *_ in played for words in commands]
    for kind in ("rmdir", "cat", "write", "list", "reread"):
        assert any(words[0] == kind and words[1] == "/nope" for words in all_), kind
    assert any(words[2:] == ["cgroup.procs", "4000000"] for words in all_)
    assert any(words[:2] == ["list", "/"] for words in all_) and any(
        words == ["write", "/", "cgroup.procs", pid] for words in all_ for pid in words[3:] if pid != "4000000"
    )


def test_a_child_is_moved_at_once(played):
    """As a container's is: by the next command, to another group than its parent's, in a part of all forks."""
    pairs = [pair for commands, *_ in played for pair in zip(commands, commands[1:]) if pair[0][0] == "fork"]
    moved = [first for first, second in pairs if second[2:] == ["cgroup.procs", first[2]]]
    assert 0.33 < len(moved) / len(pairs) < 0.5
    others = [first for first, _ in pairs if first[1] != "1"]
    assert len(others) > len(pairs) / 4, "processes other than the first fork too"


def test_after_a_kill_the_counts_are_read(played):
    """Of each group that was there, right after it."""
    seen = 0
    for commands, *_ in played:
        for at, words in enumerate(commands[:-1]):
            if words[2:] == ["cgroup.kill", "1"] and words[1] != "/nope":
                read = commands[at + 1]
                seen += read[0] == "cat" and read[2] == "pids.current"
    assert seen > 20


def test_at_the_end_everything_is_read(played):
    for commands, last, groups, watched in played:
        assert 1 <= len(commands) and len(groups) <= sequences.GROUPS_AT_MOST + 8
        reads = {(words[1], words[2]) for words in last if words[0] == "cat"}
        assert reads == {
            (group, name) for group in groups for name in (ON_ROOT if group == "/" else READABLE)
        }, "every file of every group"
        assert [words[1] for words in last if words[0] == "list"] == groups
        assert sorted(words[1] for words in last if words[0] == "told") == watched


def test_a_sequence_is_short(played):
    """Ten to forty random commands, with those that lead to three refusals."""
    lengths = [len(commands) for commands, *_ in played]
    assert min(lengths) < 25 and 30 < max(lengths) < 120
    assert len({tuple(map(tuple, commands)) for commands, *_ in played}) == len(played)


# ---- made short


class Shown:
    """A difference that shows as long as these commands are there, in this order."""

    def __init__(self, needed, theirs="EINVAL"):
        self.needed, self.theirs, self.tried = (
            [words.split() for words in needed],
            theirs,
            [],
        )

    def found(self, commands):
        return Difference("free", commands, BUSY, Answer(self.theirs))

    def __call__(self, commands):
        self.tried.append(commands)
        at = iter(commands)
        return self.found(commands) if all(any(words == it for it in at) for words in self.needed) else None


def shortened(commands, needed, seconds=3600.0, **how):
    shown = Shown(needed, **how)
    return (
        shorten.shorten(shown.found([words.split() for words in commands]), shown, seconds),
        shown,
    )


@pytest.mark.parametrize("count", [1, 2, 3, 7, 16, 33])
def test_what_is_not_needed_is_left_out(count):
    more = [f"mkdir /x{number}" for number in range(count)]
    for place in range(count + 1):
        short, _ = shortened(
            [*more[:place], "mkdir /a", *more[place:], "rmdir /a"],
            ["mkdir /a", "rmdir /a"],
        )
        assert short.played == [["mkdir", "/a"], ["rmdir", "/a"]]


def test_what_does_not_show_again_stays_as_it_was():
    commands = ["mkdir /a", "mkdir /b", "rmdir /a"]
    short, shown = shortened(commands, ["no such command"])
    assert short.played == [words.split() for words in commands] and shown.tried == [short.played], "it is tried once"


def test_nothing_is_tried_without_time():
    commands = ["mkdir /a", "mkdir /b", "rmdir /a"]
    short, shown = shortened(commands, ["rmdir /a"], seconds=-1)
    assert short.played == [words.split() for words in commands] and shown.tried == []


def test_the_time_ends_it(monkeypatch):
    """What was found until then is the answer."""
    now = [100.0]
    monkeypatch.setattr(shorten.time, "monotonic", lambda: now[0])
    shown, commands = Shown(["rmdir /a"]), [["mkdir", f"/x{number}"] for number in range(64)] + [["rmdir", "/a"]]

    def retry(tried):
        now[0] += 1
        return shown(tried)

    short = shorten.shorten(shown.found(commands), retry, 2)
    assert len(shown.tried) == 2 and 1 < len(short.played) < len(commands) and short.played[-1] == ["rmdir", "/a"]


@pytest.mark.parametrize("first, again", [("EINVAL", NO_ANSWER), (NO_ANSWER, "EINVAL")])
def test_a_hang_is_another_difference(first, again):
    """A shorter sequence that hangs, or no longer hangs, shows something else."""
    commands = [["mkdir", "/a"], ["mkdir", "/b"], ["rmdir", "/a"]]
    shown = Shown(["rmdir /a"], theirs=again)
    short = shorten.shorten(Shown([], theirs=first).found(commands), shown, 3600)
    assert short.played == commands and short.theirs.error == first


def test_forks_are_made_by_the_first_process():
    short, _ = shortened(["fork 1 4", "fork 4 2", "exit 2"], ["exit 2"])
    assert short.played == [["exit", "2"]]
    shown = Shown(["exit 2"])

    def retry(commands):
        return shown(commands) if any(words[0] == "fork" and words[2] == "2" for words in commands) else None

    short = shorten.shorten(
        shown.found([["fork", "1", "4"], ["fork", "4", "2"], ["exit", "2"]]),
        retry,
        3600,
    )
    assert short.played == [["fork", "1", "2"], ["exit", "2"]]


def test_groups_lie_as_high_as_they_can():
    """Where no other group has that path; what lies below a group moves along."""

    def retry(commands):
        return shown.found(commands) if [words[0] for words in commands] == kinds else None

    shown, kinds = Shown([]), ["mkdir", "write", "rmdir"]
    for given, wanted in (
        (
            ["mkdir /a/b/c", "write /a/b/c pids.max 5", "rmdir /a/b/c"],
            ["mkdir /c", "write /c pids.max 5", "rmdir /c"],
        ),
        (
            ["mkdir /a/b", "write /a/b/d pids.max 5", "rmdir /a/b"],
            ["mkdir /b", "write /d pids.max 5", "rmdir /b"],
        ),
        (
            ["mkdir /a/b", "write /b pids.max 5", "rmdir /a/b"],
            ["mkdir /a/b", "write /b pids.max 5", "rmdir /a/b"],
        ),
        (
            ["mkdir /a/b", "write /bb pids.max 5", "rmdir /a/b"],
            ["mkdir /b", "write /bb pids.max 5", "rmdir /b"],
        ),
    ):
        short = shorten.shorten(shown.found([words.split() for words in given]), retry, 3600)
        assert [" ".join(words) for words in short.played] == wanted


def test_what_lies_below_a_group_moves_with_it():
    """A sequence that shows the difference only with a group below another."""

    def retry(commands):
        made = next((words[1] for words in commands if words[0] == "mkdir"), None)
        below = any(words[0] == "write" and made and words[1].startswith(made + "/") for words in commands)
        return shown.found(commands) if below else None

    shown, given = Shown([]), ["mkdir /a/b", "mkdir /a/b/c", "write /a/b/c pids.max 5"]
    short = shorten.shorten(shown.found([words.split() for words in given]), retry, 3600)
    assert [" ".join(words) for words in short.played] == ["mkdir /b", "write /b/c pids.max 5"]
