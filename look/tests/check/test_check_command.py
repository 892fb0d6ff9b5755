"""The command `makhloeum check` over a player that finds what it is told to: when it ends, what it prints and its status."""

import re
import shlex
import signal

import pytest

from makhloeum.check import command, playing
from makhloeum.check.engine import Answer, Engine
from makhloeum.check.opening import Unusable
from makhloeum.check.playing import NO_ANSWER, Counts, Difference

ENDING = (signal.SIGINT, signal.SIGTERM, signal.SIGHUP)


@pytest.fixture(autouse=True)
def handlers():
    before = [signal.getsignal(number) for number in ENDING]
    for number in ENDING:
        signal.signal(number, signal.SIG_DFL)  # the tests may have been started with some ignored, as by nohup
    yield
    for number, handler in zip(ENDING, before):
        signal.signal(number, handler)


def difference(command_line, ours="EBUSY", theirs="EINVAL", before=3):
    played = [["mkdir", f"/x{number}"] for number in range(before)] + [command_line.split()]
    return Difference("free", played, Answer(ours, "", "hasprocesses"), Answer(theirs))


class Scripted:
    """Each sequence has ten operations and finds the next of these. Nothing shows again, unless `again` says so."""

    def __init__(self, *found, ways=("free",), again=lambda commands: None):
        self.counts, self.left, self.ways, self._found, self._again = Counts(), [], [], list(found), again
        self.found, self.on_operation, self.is_closed = {"ways": list(ways), "missing": []}, None, False

    def play(self, way, following, counts=None):
        if counts is None:
            return self._again([words for words in iter(lambda: following(None), None)])
        self.ways.append(way)
        counts.operations += 10
        found = self._found.pop(0) if self._found else None
        if isinstance(found, Exception):
            raise found
        return found

    def close(self):
        self.is_closed = True


def checked(capsys, player, *words):
    """The status, what was printed, and the lines on standard error."""
    status = command._checked(command._arguments(["/dir", "--no-worked", "--quiet", *words]), player)
    told = capsys.readouterr()
    assert player.is_closed
    return status, told.out, told.err.split("\n")[:-1]


# ---- the end


@pytest.mark.parametrize("count, sequences", [(1, 1), (10, 1), (11, 2), (100, 10), (101, 11), (0, 0)])
def test_it_ends_after_so_many_operations(capsys, count, sequences):
    player = Scripted()
    status, out, error = checked(capsys, player, "--count", str(count))
    assert (status, error, len(player.ways)) == (0, [], sequences)
    assert re.fullmatch(rf"{10 * sequences} operations in \d+\.\d s \(\d+ a second\), 0 differences\n", out)


def test_it_ends_after_so_many_seconds(capsys):
    player = Scripted()
    assert checked(capsys, player, "--time", "0", "--count", "1000000")[0] == 0 and player.ways == []
    player = Scripted()
    assert (
        checked(capsys, player, "--time", "0.1", "--count", "0")[0] == 0 and len(player.ways) > 3
    ), "whatever the count"


def test_a_sequence_ends_when_the_time_is_over():
    options = command._arguments(["/dir", "--time", "0"])
    check = command._Check(options, Scripted())
    assert check._timed(lambda engine: ["mkdir", "/a"])(None) is None
    options = command._arguments(["/dir", "--time", "1000"])
    check = command._Check(options, Scripted())
    assert check._timed(lambda engine: ["mkdir", "/a"])(None) == ["mkdir", "/a"]
    assert command._Check(command._arguments(["/dir"]), Scripted())._timed(lambda engine: ["x"])(None) == ["x"]


KINDS = [
    difference("rmdir /a"),
    difference("rmdir /b"),
    difference("cat /a pids.max"),
    difference("cat /a pids.peak"),
    difference("mkdir /c"),
]


@pytest.mark.parametrize("most, shown, found", [(1, 1, 1), (2, 2, 3), (3, 3, 4), (9, 4, 5)])
def test_it_ends_after_so_many_kinds(capsys, most, shown, found):
    """Each kind is shown once: a command, its file and the errnos."""
    status, out, _ = checked(capsys, Scripted(*KINDS), "--most", str(most), "--count", "200")
    assert status == 1 and out.count("difference: ") == shown and f", {found} differences\n" in out
    assert out.count("#!/bin/sh\n") == shown and out.count("it did not show again") == shown


def test_the_ways_alternate_and_sequences_have_numbers(capsys):
    found = [None, None, difference("rmdir /a"), None, difference("mkdir /b")]
    player = Scripted(*found, ways=("D", "N", "T"))
    _, out, _ = checked(capsys, player, "--seed", "77", "--count", "60")
    assert player.ways == ["N", "T", "D", "N", "T", "D"]
    assert re.findall(r"^\((.*?); (\d+) operations", out, re.M) == [
        ("random sequence 3 of seed 77", "4"),
        ("random sequence 5 of seed 77", "4"),
    ]


def test_a_directory_that_hangs_ends_the_check(capsys):
    """It is shown once, without another try: the reads before it are left out."""
    again = []
    hang = Difference("free", [["mkdir", "/a"], ["cat", "/a", "pids.max"], ["list", "/"], ["reread", "/a", "pids.max"], ["rmdir", "/a"]],
                      Answer("ok"), Answer(NO_ANSWER))  # fmt: skip
    player = Scripted(hang, *KINDS, again=again.append)
    status, out, _ = checked(capsys, player, "--count", "500")
    assert (status, len(player.ways), again) == (1, 1, [])
    assert out.startswith("difference: rmdir /a: the engine: ok; the directory: nothing, it hangs\n")
    assert (
        "(random sequence 1 of seed 1; 5 operations, made 2)\n" in out
        and "cat " not in out.split("exit 2")[1].split("EXIT")[1]
    )


def test_a_directory_in_which_no_sequence_can_begin_ends_the_check(capsys):
    """Without operations their number never comes."""
    player = Scripted(Difference("free", [["mkdir", "/"]], Answer("ok"), Answer("EBUSY")), *KINDS)
    status, out, _ = checked(capsys, player, "--count", "500")
    assert (status, len(player.ways)) == (1, 1) and ", 1 differences\n" in out
    assert out.startswith("difference: mkdir /: the engine: ok; the directory: EBUSY (Device or resource busy)\n")


def test_a_directory_that_is_gone_ends_the_check(capsys):
    """What it answered before isn't counted if it can't be tried again."""

    def gone(commands):
        raise Unusable("it is gone")

    status, out, error = checked(capsys, Scripted(None, KINDS[0], again=gone), "--count", "500")
    assert (status, error) == (2, ["makhloeum check: /dir: it is gone"]) and re.fullmatch("20 .*, 0 differences\n", out)
    status, out, error = checked(capsys, Scripted(KINDS[0], Unusable("it is gone")), "--count", "500")
    assert (status, error) == (1, ["makhloeum check: /dir: it is gone"]) and ", 1 differences\n" in out


def test_a_difference_is_made_short(capsys):
    def again(commands):
        """It shows whenever /x1 was made before /a was removed."""
        shows = ["mkdir", "/x1"] in commands and commands[-1] == ["rmdir", "/a"]
        return Difference("free", commands, KINDS[0].ours, KINDS[0].theirs) if shows else None

    status, out, _ = checked(capsys, Scripted(difference("rmdir /a", before=20), again=again))
    assert status == 1 and "(random sequence 1 of seed 1; 21 operations, made 2)\n" in out
    assert out.split("EXIT\n")[1].startswith("mkdir x1\nrmdir a\n\n")


def test_a_difference_stays_as_it_is_without_time(capsys):
    again = []
    _, out, _ = checked(capsys, Scripted(difference("rmdir /a", before=20), again=again.append), "--shorten", "0")
    assert again == [] and "; 21 operations, not made short)\n" in out


# ---- what is printed


def test_known_differences_come_by_their_number(capsys):
    player = Scripted()
    player.counts.known.update({"seldom": 1, "often": 1234, "sometimes": 20})
    status, out, _ = checked(capsys, player, "--count", "10")
    assert status == 0, "they don't change the status"
    assert out.split("\n")[1:] == ["    1234 known: often", "      20 known: sometimes", "       1 known: seldom", ""]


@pytest.mark.parametrize(
    "found, left, status",
    [
        ([], [], 0),
        ([difference("rmdir /a")], [], 1),
        ([], ["/dir/\x1b[31mx\n", "/dir/y"], 2),
        ([difference("rmdir /a")], ["/dir/x"], 1),
    ],
)
def test_the_status(capsys, found, left, status):
    player = Scripted(*found)
    player.left = left
    got, _, error = checked(capsys, player, "--count", "20")
    shown = [path.replace("\x1b", "\\x1b").replace("\n", "\\n") for path in left]
    assert got == status and error == [f"makhloeum check: /dir: {path} could not be removed" for path in shown]


class Terminal:
    def __init__(self, is_terminal):
        self.is_terminal, self.told, self.seen = is_terminal, "", []

    def isatty(self):
        return self.is_terminal

    def write(self, text):
        self.told += text

    def flush(self):
        self.seen.append(self.told)


def test_a_difference_is_seen_at_once(monkeypatch):
    out = Terminal(False)
    monkeypatch.setattr(command.sys, "stdout", out)
    words = ["/dir", "--no-worked", "--quiet", "--count", "20"]
    assert command._checked(command._arguments(words), Scripted(KINDS[0])) == 1
    assert [seen.endswith("\nrmdir a\n\n") for seen in out.seen] == [True]


def test_the_time_for_making_it_short_is_not_that_of_the_operations(capsys, monkeypatch):
    now = [1000.0]
    monkeypatch.setattr(command.time, "monotonic", lambda: now[0])
    player = Scripted(KINDS[0], again=lambda commands: now.append(now.pop() + 100))
    checked(capsys, player, "--count", "20", "--shorten", "50")
    assert (now, player.counts.began) == ([1100.0], 1100.0)


@pytest.mark.parametrize(
    "is_terminal, is_quiet, seconds, wanted",
    [
        (True, False, [0.1, 0.19], 0),
        (True, False, [0.21, 0.3, 0.42], 2),
        (True, True, [1, 2, 3], 0),
        (False, False, [1, 4.9], 0),
        (False, False, [5.1, 6, 10.2], 2),
        (False, True, [10, 20], 0),
    ],
)
def test_progress(monkeypatch, is_terminal, is_quiet, seconds, wanted):
    now, out, counts = [1000.0], Terminal(is_terminal), Counts()
    monkeypatch.setattr(command.sys, "stderr", out)
    monkeypatch.setattr(command.time, "monotonic", lambda: now[0])
    counts.operations, counts.differences, counts.began = 50, 2, 990.0
    progress = command._Progress(counts, is_quiet)
    for after in seconds:
        now[0] = 1000.0 + after
        progress()
    lines = [it for it in re.split(r"[\r\n]", out.told) if it]
    assert len(lines) == wanted and all(re.fullmatch(r"50 operations, 2 differences, \d a second", it) for it in lines)
    assert out.told.count("\n") == (0 if is_terminal else wanted)
    assert len(out.seen) == wanted and out.seen[-1:] == [out.told][:wanted], "each is seen at once"
    before = len(out.told)
    progress.clear()
    assert out.told[before:] == ("\r" + " " * 78 + "\r" if is_terminal and not is_quiet else "")
    assert "".join(out.seen[-1:]) == out.told


def test_the_options():
    plain = vars(command._arguments(["/dir"]))
    assert plain == {
        "directory": "/dir",
        "seed": 1,
        "count": 1000,
        "time": None,
        "most": 3,
        "limit": 10,
        "shorten": 30,
        "no_worked": False,
        "quiet": False,
    }
    words = "--seed 7 --count 5 --time 1.5 --most 2 --limit 0.5 --shorten 9 --no-worked --quiet /x".split()
    given = {
        "directory": "/x",
        "seed": 7,
        "count": 5,
        "time": 1.5,
        "most": 2,
        "limit": 0.5,
        "shorten": 9.0,
        "no_worked": True,
        "quiet": True,
    }
    assert vars(command._arguments(words)) == given
    twice = vars(command._arguments("/x --seed 1 --count 9 --seed 2 --quiet --quiet --count 8".split()))
    assert (twice["seed"], twice["count"], twice["quiet"]) == (2, 8, True), "the last one counts"
    for wrong in (["/x", "/y"], [], ["/x", "--see", "1"], ["/x", "--seed"], ["/x", "--seed", "one"], ["/x", "--wrong"]):
        with pytest.raises(SystemExit) as ended:
            command._arguments(wrong)
        assert ended.value.code == 2, wrong


@pytest.mark.parametrize("option", ["--time", "--limit", "--shorten"])
def test_numbers_of_seconds(capsys, option):
    """What a wait can't take is refused before anything is made in the directory."""
    for right in ("0", "0.5", "1e6", "1000000"):
        assert vars(command._arguments(["/x", option, right]))[option[2:]] == float(right)
    for wrong in ("-1", "nan", "inf", "1e300", "1000001"):
        with pytest.raises(SystemExit) as ended:
            command._arguments(["/x", option, wrong])
        said = f"makhloeum check: error: argument {option}: {wrong} is not from 0 to 1000000\n"
        assert ended.value.code == 2 and capsys.readouterr().err.endswith(said), wrong
    with pytest.raises(SystemExit):
        command._arguments(["/x", option, "one"])
    assert capsys.readouterr().err.endswith(f"argument {option}: invalid seconds value: 'one'\n")


def test_the_help_says_what_each_option_is_without_it(capsys, monkeypatch):
    monkeypatch.setenv("COLUMNS", "200")
    with pytest.raises(SystemExit) as ended:
        command._arguments(["--help"])
    told = capsys.readouterr().out
    assert ended.value.code == 0 and told.startswith("usage: makhloeum check [-h] ")
    plain = vars(command._arguments(["/dir"]))
    shown = dict(re.findall(r"^ *--(\w+) .*\((\d+)\)$", told, re.M))
    assert shown == {name: str(plain[name]) for name in ("seed", "count", "most", "limit", "shorten")}
    assert set(re.findall(r"^ *--([\w-]+)", told, re.M)) == {name.replace("_", "-") for name in plain} - {"directory"}


def test_a_rate_is_by_the_second(monkeypatch):
    counts = Counts()
    monkeypatch.setattr(playing.time, "monotonic", lambda: counts.began + 3)
    counts.operations = 300
    assert counts.rate() == 100
    monkeypatch.setattr(playing.time, "monotonic", lambda: counts.began)
    assert counts.rate() > 1e9, "in no time it is no division by zero"


@pytest.mark.parametrize(
    "one, other, same",
    [
        ("rmdir /a", "rmdir /b/c", True),
        ("rmdir /a", "mkdir /a", False),
        ("cat /a pids.max", "cat /b pids.max", True),
        ("cat /a pids.max", "cat /a pids.peak", False),
        ("cat /a pids.max", "reread /a pids.max", False),
        ("reread /a pids.max", "reread /b pids.max", True),
        ("reread /a pids.max", "reread /a pids.peak", False),
        ("write /a pids.max 5", "write /b pids.max 6", True),
        ("write /a pids.max 5", "write /a cgroup.kill 5", False),
        ("fork 1 2", "fork 3 4", True),
    ],
)
def test_the_kind_of_a_difference(one, other, same):
    assert (difference(one).kind() == difference(other).kind()) == same
    assert (
        difference(one).kind() != difference(one, theirs="ok").kind() != difference(one, ours="ok", theirs="ok").kind()
    )


# ---- which commands a directory can do

STATE = (
    "mkdir /a",
    "mkdir /a/b",
    "mkdir /c",
    "mkdir /d",
    "fork 1 2",
    "write /a/b cgroup.procs 2",
    "fork 1 3",
    "write /c cgroup.procs 3",
    "watch /c",
)
DEEP = "/x" * 24
CAN = [
    # the command, and the ways in which a directory can do it: free, D, N, T
    ("mkdir /e", "free D N T"),
    ("mkdir /", ""),
    ("rmdir /", ""),
    ("rmdir /a", "free D N T"),
    ("mkdir /c/x", "free N T"),
    ("mkdir /a/b/x", "free N T"),
    ("mkdir /a/x", "free D N T"),
    ("mkdir /none/x", "free D N T"),
    (f"mkdir {DEEP}", "free D N T"),
    (f"mkdir {DEEP}/x", ""),
    (f"mkdir /{'x' * 2999}", "free D N T"),
    (f"mkdir /{'x' * 3000}", ""),
    ("fork 1 4", "free D N T"),
    ("fork 1 2", ""),
    ("fork 9 4", ""),
    ("fork 1 1", ""),
    ("fork 1 x", ""),
    ("exit 2", "free D N T"),
    ("exit 9", ""),
    ("exit x", ""),
    ("where 2", "free D N T"),
    ("where 9", ""),
    ("undo", ""),
    ("# x", ""),
    ("list /", "free D N T"),
    ("watch /a", "free D N T"),
    ("watch /c", ""),
    ("watch /", ""),
    ("watch /none", ""),
    ("told /c", "free D N T"),
    ("told /a", ""),
    ("cat / cgroup.procs", "free D N T"),
    ("cat / pids.max", ""),
    ("cat / cgroup.events", ""),
    ("cat /a pids.current", "free D T"),
    ("cat /a pids.peak", ""),
    ("reread /a pids.max", "free D T"),
    ("cat /a no.such", "free D N T"),
    ("cat /a cgroup.kill", "free D N"),
    ("write /a cgroup.kill 1", "free D N T"),
    ("write /a cgroup.kill 2", "free D N"),
    ("write /none cgroup.kill 1", "free D N"),
    ("write /a pids.max 5", "free D T"),
    ("write /a cgroup.max.depth 5", "free D N T"),
    ("write /c cgroup.procs 2", "free D N T"),
    ("write /a cgroup.procs 2", "free N T"),
    ("write / cgroup.procs 2", "free D N T"),
    ("write /none cgroup.procs 2", "free D N T"),
    ("write /c cgroup.procs 0", ""),
    ("write /c cgroup.procs 010", ""),
    ("write /c cgroup.procs +2", ""),
    ("write /c cgroup.procs -2", ""),
    ("write /c cgroup.procs 0x2", ""),
    ("write /c cgroup.procs x", "free D N T"),
]


@pytest.mark.parametrize("way", ["free", "D", "N", "T"])
def test_which_commands_a_directory_can_do(way):
    engine = Engine(way, ["pids.peak"], True)
    try:
        for line in STATE:
            engine.play(line.split())
        for line, ways in CAN:
            assert engine.can_do(line.split()) == (way in ways.split()), (way, line[:60])
    finally:
        engine.close()
    engine = Engine(way, [], False)
    try:
        assert not engine.can_do(["where", "1"]), "the directory's processes have other places in /proc"
        for pid in range(2, 49):
            assert engine.can_do(["fork", "1", str(pid)]), pid
            engine.play(["fork", "1", str(pid)])
        assert not engine.can_do(["fork", "1", "49"]) and engine.can_do(["exit", "7"])
    finally:
        engine.close()


# ---- the whole command


class Played(Scripted):
    """A player as the command makes it."""

    made = []

    def __init__(self, directory, limit):
        super().__init__()
        self.found = {"ways": ["free"], "missing": ["pids.peak", "pids.events.local"]}
        self.made.append((directory, limit))

    def play(self, way, following, counts=None):
        assert all(signal.getsignal(number) is command._interrupt for number in ENDING)
        return super().play(way, following, counts)


@pytest.mark.parametrize("ignored", [(), (signal.SIGHUP,), ENDING])
def test_a_signal_that_the_caller_ignores_stays_ignored(ignored):
    """As nohup asks for, and a shell for a command in the background."""
    for number in ENDING:
        signal.signal(number, signal.SIG_IGN if number in ignored else signal.SIG_DFL)
    command._handle_ending()
    for number in ENDING:
        assert signal.getsignal(number) == (signal.SIG_IGN if number in ignored else command._interrupt)


@pytest.mark.parametrize("quiet", [False, True])
def test_a_directory_that_lacks_files_is_said_so(capsys, monkeypatch, quiet):
    monkeypatch.setattr(command, "Player", Played)
    monkeypatch.setattr(Played, "made", [])
    words = ["/dir", "--no-worked", "--count", "10", "--limit", "2.5", *(["--quiet"] if quiet else [])]
    assert command.main(words) == 0 and Played.made == [("/dir", 2.5)]
    told = capsys.readouterr()
    missing = "makhloeum check: /dir: not there, and so not compared: pids.peak, pids.events.local\n"
    assert told.err == ("" if quiet else missing) and told.out.startswith("10 operations in ")


def test_a_directory_that_lacks_nothing(capsys, monkeypatch):
    class Whole(Played):
        def __init__(self, directory, limit):
            super().__init__(directory, limit)
            self.found["missing"] = []

    monkeypatch.setattr(command, "Player", Whole)
    assert command.main(["/dir", "--no-worked", "--count", "10"]) == 0 and capsys.readouterr().err == ""


@pytest.mark.parametrize(
    "failure, sentence",
    [(command.Unusable("it is not a directory"), "it is not a directory"), (command.Interrupted(), "interrupted")],
)
def test_a_directory_that_cannot_be_checked_ends_the_command(capsys, monkeypatch, failure, sentence):
    def refused(directory, limit):
        raise failure

    monkeypatch.setattr(command, "Player", refused)
    assert command.main(["/dir"]) == 2
    assert capsys.readouterr() == ("", f"makhloeum check: /dir: {sentence}\n")


def test_a_signal_just_before_it_plays_is_no_traceback(capsys, monkeypatch):
    def interrupted(options, player):
        raise command.Interrupted

    monkeypatch.setattr(command, "Player", Played)
    monkeypatch.setattr(command, "_Check", interrupted)
    assert command.main(["/dir", "--quiet"]) == 2
    assert capsys.readouterr() == ("", "makhloeum check: /dir: interrupted\n")


def test_worked_sequences_come_first(capsys):
    names = [f"rows/{name}" for name in ("first", "second")]
    plain = command.worked
    command.worked = lambda ways: [(name, "free", [["mkdir", "/a"]]) for name in names if ways == ["free"]]
    try:
        player = Scripted(difference("rmdir /a"), None, difference("mkdir /b"))
        command._checked(command._arguments(["/dir", "--count", "30", "--quiet"]), player)
    finally:
        command.worked = plain
    told = re.findall(r"^\((.*?); \d+ operations", capsys.readouterr().out, re.M)
    assert told == ["worked sequence rows/first", "random sequence 1 of seed 1"] and len(player.ways) == 3


@pytest.mark.parametrize("has_control", [False, True])
def test_a_script_turns_the_controller_on_where_there_is_one(capsys, tmp_path, has_control):
    if has_control:
        (tmp_path / "cgroup.subtree_control").write_text("")
    options = command._arguments([str(tmp_path), "--no-worked", "--quiet", "--count", "10"])
    assert command._checked(options, Scripted(difference("rmdir /a"))) == 1
    out = capsys.readouterr().out
    assert f"\ncd {shlex.quote(str(tmp_path))} && mkdir " in out and ("echo +pids >" in out) == has_control


def test_a_shorter_difference_of_another_kind_is_not_shown_again(capsys):
    def again(commands):
        return Difference("free", [["mkdir", "/c"]], KINDS[4].ours, KINDS[4].theirs) if len(commands) == 4 else None

    status, out, _ = checked(
        capsys, Scripted(KINDS[0], KINDS[4], KINDS[2], KINDS[1], again=again), "--count", "50", "--most", "9"
    )
    assert (
        status == 1 and out.count("difference: mkdir /c: ") == 2
    ), "the third one is made short alike, the fourth is the first"


def test_no_progress_is_shown_while_a_difference_is_made_short(capsys, monkeypatch):
    told = []
    monkeypatch.setattr(command._Progress, "clear", lambda self: told.append("cleared"))
    player = Scripted(KINDS[0], again=lambda commands: told.append(isinstance(player.on_operation, command._Progress)))
    checked(capsys, player, "--count", "20")
    assert told == ["cleared", False, "cleared"] and isinstance(player.on_operation, command._Progress)
