"""How `makhloeum check` plays a sequence: what it asks the worker, what it counts, and what it does when the worker hangs."""

import os

import pytest

from makhloeum.check import known, playing
from makhloeum.check.engine import Answer
from makhloeum.check.opening import Unusable
from makhloeum.check.playing import NO_ANSWER, Counts, Difference, Player, listed
from makhloeum.check.worker import Hang

FOUND = {"own": "/dir/own", "missing": [], "ways": ["free"], "kind": "fuse"}
OWN = f"/dir/makhloeum-check-{os.getpid()}"
HANGS = object()


class Scripted:
    """A worker whose answers are given by request, each list from its first; the others are ("ok", "")."""

    def __init__(self, limit, answers, asked, ends):
        self.limit, self._answers, self.asked, self.ends = limit, answers, asked, ends

    def ask(self, *request):
        self.asked.append(list(request))
        left = self._answers.get(request[0], [])
        answer = left.pop(0) if left else ("ok", FOUND if request[0] == "open" else [] if request[0] == "close" else "")
        if answer is HANGS:
            raise Hang
        if isinstance(answer, OSError):
            raise answer
        return answer

    def leave(self):
        self.ends.append("leave")

    def abandon(self):
        self.ends.append("abandon")


@pytest.fixture
def scripted(monkeypatch):
    """Makes a player whose workers answer so; they share their answers, and what they were asked."""

    def make(**answers):
        asked, ends, limits = [], [], []

        def worker(limit):
            limits.append(limit)
            return Scripted(limit, answers, asked, ends)

        monkeypatch.setattr(playing, "Worker", worker)
        make.asked, make.ends, make.limits = asked, ends, limits
        return Player("/dir", 2.5)

    return make


def commands(*lines):
    return listed([line.split() for line in lines])


def plays(asked):
    return [request[1:] for request in asked if request[0] == "play"]


# ---- opening


def test_a_directory_is_opened_by_its_worker(scripted):
    player = scripted()
    assert player.found == FOUND and scripted.limits == [2.5]
    assert scripted.asked == [["open", "/dir", os.path.basename(OWN)]] and scripted.ends == []


@pytest.mark.parametrize(
    "answer, sentence",
    [
        (HANGS, f"it does not answer within 2.5 seconds; {OWN} may be left"),
        (("ok", {"fault": "it is not a directory"}), "it is not a directory"),
        (("EIO", ""), "EIO"),
    ],
)
def test_a_directory_that_cannot_be_opened(scripted, answer, sentence):
    with pytest.raises(Unusable) as unusable:
        scripted(open=[answer])
    assert str(unusable.value) == sentence and scripted.ends == ["leave"]


# ---- a sequence


def test_what_the_worker_is_asked_of_a_sequence(scripted):
    texts = ["", "", "1\n2\n", "", None, "", "nothing"]
    player = scripted(play=[("EAGAIN", "") if text is None else ("ok", text) for text in texts])
    counts, told = Counts(), []
    player.on_operation = lambda: told.append(counts.operations)
    lines = ["mkdir /a", "write /a pids.max 1", "undo", "fork 1 2", "write /a cgroup.procs 2", "fork 2 3", "watch /a"]
    assert player.play("free", commands(*lines, "told /a"), counts) is None
    assert scripted.asked[1] == ["begin", "free", 1.25] and scripted.asked[-1] == ["end"]
    assert plays(scripted.asked) == [
        ["mkdir", "/a"],
        ["write", "/a", "pids.max", "1", []],
        ["fork", 1, 2, "/", False],
        ["write", "/a", "cgroup.procs", "2", []],
        ["fork", 2, 3, "/a", True],
        ["watch", "/a"],
        ["told", "/a", False],
    ], "an undo is no command of a directory"
    assert counts.operations == 7 and told == [1, 2, 3, 4, 5, 6, 7] and player.sequences == 1


def test_a_change_is_due_where_the_engine_saw_one(scripted):
    texts = ["", "", "1\n2\n", "", "poll inotify", "nothing"]
    player = scripted(play=[("ok", text) for text in texts])
    lines = ["mkdir /a", "watch /a", "fork 1 2", "write /a cgroup.procs 2", "told /a", "told /a"]
    assert player.play("free", commands(*lines), Counts()) is None
    assert plays(scripted.asked)[-2:] == [["told", "/a", True], ["told", "/a", False]]


def test_a_sequence_that_is_tried_again_is_not_counted(scripted):
    player = scripted()
    assert player.play("D", commands("mkdir /a", "rmdir /a")) is None
    assert scripted.asked[1] == ["begin", "D", pytest.approx(0.075)] and player.counts.operations == 0
    assert player.play("D", commands("mkdir /a"), player.counts) is None
    assert scripted.asked[-3][:2] == ["begin", "D"] and player.counts.operations == 1 and player.sequences == 2
    assert player.patience == 1.25, "half of the limit"


def test_a_contradiction_ends_the_sequence(scripted):
    player = scripted(play=[("ok", ""), ("EINVAL", "a text of no meaning"), ("ok", "")])
    found = player.play("free", commands("mkdir /a", "mkdir /a", "rmdir /a"), Counts())
    assert found == Difference(
        "free", [["mkdir", "/a"], ["mkdir", "/a"]], Answer("EEXIST", "", "exists"), Answer("EINVAL", "")
    )
    assert not found.hangs and len(plays(scripted.asked)) == 2 and scripted.asked[-1] == ["end"]


def test_known_differences_are_counted(scripted):
    player, counts = (
        scripted(play=[("ok", ""), ("ok", "nr_descendants 0\nnr_dying_descendants 0\nnr_subsys_pids 1\n")] * 3),
        Counts(),
    )
    lines = ["mkdir /a", "cat /a cgroup.stat", "mkdir /b", "cat /b cgroup.stat"]
    assert player.play("free", commands(*lines), counts) is None
    assert dict(counts.known) == {known.MORE_KEYS: 2}


def test_a_group_that_only_the_directory_makes_is_removed_there(scripted):
    player, counts = scripted(), Counts()
    assert player.play("free", commands("mkdir /a", "mkdir /pids.x"), counts) is None
    assert plays(scripted.asked) == [["mkdir", "/a"], ["mkdir", "/pids.x"], ["unmake", "/pids.x"]]
    assert dict(counts.known) == {known.TAKES_MORE: 1} and counts.operations == 2


def test_the_engine_gets_a_value_that_only_the_directory_takes(scripted):
    texts = ["", "1\n2\n", "", "", None]
    player = scripted(play=[("EAGAIN", "") if text is None else ("ok", text) for text in texts])
    counts = Counts()
    lines = ["mkdir /a", "fork 1 2", "write /a cgroup.procs 2", "write /a pids.max 0x1", "fork 2 3"]
    assert player.play("free", commands(*lines), counts) is None
    assert plays(scripted.asked)[3:] == [["write", "/a", "pids.max", "0x1", []], ["fork", 2, 3, "/a", True]]
    assert dict(counts.known) == {known.TAKES_MORE: 1}, "the fork is refused on both sides"


# ---- hangs


def test_a_command_that_hangs_ends_the_sequence(scripted):
    player = scripted(play=[("ok", ""), HANGS])
    found = player.play("free", commands("mkdir /a", "rmdir /a", "mkdir /b"), Counts())
    assert (
        found == Difference("free", [["mkdir", "/a"], ["rmdir", "/a"]], Answer("ok"), Answer(NO_ANSWER)) and found.hangs
    )


@pytest.mark.parametrize("answer, theirs", [(HANGS, NO_ANSWER), (("EBUSY", ""), "EBUSY")])
def test_a_sequence_that_cannot_begin(scripted, answer, theirs):
    player = scripted(begin=[answer])
    found = player.play("T", commands("mkdir /a"), Counts())
    assert found == Difference("T", [["mkdir", "/"]], Answer("ok"), Answer(theirs))
    assert plays(scripted.asked) == [] and scripted.asked[-1] == ["end"]


@pytest.mark.parametrize(
    "error, why", [("ENOENT", "No such file or directory"), ("ENOTCONN", "Transport endpoint is not connected")]
)
def test_a_directory_that_is_gone(scripted, error, why):
    player = scripted(begin=[(error, "")])
    with pytest.raises(Unusable) as unusable:
        player.play("free", commands("mkdir /a"), Counts())
    assert str(unusable.value) == f"it is gone: {why}" and scripted.asked[-1] == ["end"]


def test_a_worker_that_hangs_is_replaced(scripted):
    player = scripted(play=[HANGS], end=[HANGS], reopen=[HANGS])
    player.play("free", commands("mkdir /a"), Counts())
    player.sequences = 7
    assert scripted.ends == ["abandon"] and scripted.limits == [2.5, 2.5]
    assert scripted.asked[-1] == ["reopen", OWN, 1], "a new one goes on with the next number, also if it hangs at once"
    assert player.play("free", commands("mkdir /a"), Counts()) is None and player.sequences == 8


def test_what_is_left_is_known_after_the_second_try(scripted):
    player = scripted(close=[("ok", ["/dir/own/top1"])])
    player.close()
    assert player.left == ["/dir/own/top1"] and scripted.ends == ["leave"]
    for failure in (HANGS, BrokenPipeError(32, "")):
        player = scripted(close=[failure, ("ok", ["/dir/own"])])
        player.close()
        assert player.left == ["/dir/own"] and scripted.ends == ["abandon", "leave"]
        assert [request[0] for request in scripted.asked] == ["open", "close", "reopen", "close"]
        player = scripted(close=[failure, failure])
        player.close()
        assert player.left == [OWN] and scripted.ends == ["abandon"] * 3
