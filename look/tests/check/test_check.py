"""The parts of `makhloeum check` that need no directory. look/test-check has the others."""

import pathlib
import re
import subprocess
import sys

import pytest

from makhloeum.check import known, recordings
from makhloeum.check.differences import CONTRADICTION, difference
from makhloeum.check.engine import Answer, Engine
from makhloeum.check.playing import Difference
from makhloeum.check.refusals import chosen
from makhloeum.check.script import shell_script
from makhloeum.check.sequences import Random, worked
from makhloeum.check.shorten import shorten

FOUND = {"kind": "fuse", "missing": []}
BUSY = Answer("EBUSY", "", "hasprocesses")


def commands_of(text):
    return [line.split() for line in text.strip().split("\n")]


def played(text, way="free"):
    """An engine that has answered these commands."""
    engine = Engine(way, [], False)
    for words in commands_of(text):
        engine.play(words)
    return engine


def test_numbers_as_the_kernel_reads_them():
    for text, number in {"10": 10, "010": 8, "0x1F": 31, "+5": 5, "-0": 0, "-3": -3, "0": 0}.items():
        assert known.kernel_number(text) == number
    for text in ("", "x", "08", "1x", "0x", "--1", "max"):
        assert known.kernel_number(text) is None


def test_the_answers_are_compared():
    engine = played("mkdir /a\nfork 1 2\nwrite /a cgroup.procs 2")
    try:
        rmdir = ["rmdir", "/a"]
        assert difference(rmdir, BUSY, Answer("EBUSY"), engine, FOUND) is None
        assert difference(rmdir, BUSY, Answer("EINVAL"), engine, FOUND) == CONTRADICTION
        assert difference(rmdir, BUSY, Answer("ok"), engine, FOUND) == CONTRADICTION
        cat = ["cat", "/a", "pids.current"]
        assert difference(cat, Answer("ok", "1\n"), Answer("ok", "1\n"), engine, FOUND) is None
        assert difference(cat, Answer("ok", "1\n"), Answer("ok", "0\n"), engine, FOUND) == CONTRADICTION
        refused = Answer("EAGAIN", "", "pidsmax /a")
        assert difference(["fork", "2", "3"], refused, Answer("ok"), engine, FOUND) == known.NOT_STOPPED
        assert (
            difference(["fork", "2", "3"], refused, Answer("ok"), engine, {**FOUND, "kind": "cgroup2"}) == CONTRADICTION
        )
    finally:
        engine.close()


def test_known_differences_have_their_names():
    engine = played("mkdir /a\nmkdir /a/b\nfork 1 2\nwrite /a/b cgroup.procs 2\nwrite /a cgroup.procs 2")
    try:
        value = Answer("EINVAL", "", "value")
        write = ["write", "/a", "cgroup.max.depth", "2147483648"]
        assert difference(write, value, Answer("ERANGE"), engine, FOUND) == known.OTHER_ERRNO
        assert difference([*write[:3], "x"], value, Answer("ERANGE"), engine, FOUND) == CONTRADICTION
        assert difference([*write[:3], "0x10"], value, Answer("ok"), engine, FOUND) == known.TAKES_MORE
        peak = ["cat", "/a", "pids.peak"]
        assert difference(peak, Answer("ok", "1\n"), Answer("ok", "2\n"), engine, FOUND) == known.MOVE_RAISES
        assert difference(peak, Answer("ok", "1\n"), Answer("ok", "3\n"), engine, FOUND) == CONTRADICTION
        stat, text = ["cat", "/a", "cgroup.stat"], "nr_descendants 1\nnr_dying_descendants 0\n"
        assert (
            difference(stat, Answer("ok", text), Answer("ok", text + "nr_subsys_pids 2\n"), engine, FOUND)
            == known.MORE_KEYS
        )
        assert (
            difference(stat, Answer("ok", text), Answer("ok", text.replace(" 0", " 3")), engine, FOUND) == known.DYING
        )
        assert (
            difference(stat, Answer("ok", text), Answer("ok", text.replace(" 1", " 2")), engine, FOUND) == CONTRADICTION
        )
    finally:
        engine.close()


STAT = "nr_descendants 2\nnr_dying_descendants 0\n"
LONG = "/" + "x" * 60
OLD = {**FOUND, "missing": ["pids.events.local"]}
KERNEL = {**FOUND, "kind": "cgroup2"}


@pytest.mark.parametrize(
    "line, ours, theirs, found, wanted",
    [
        # a kernel before 6.11 counts at the group of the process that forks, and nowhere else
        ("cat /a pids.events", "max 1\n", "max 0\n", OLD, known.OLD_EVENTS),
        ("cat /a/b pids.events", "max 0\n", "max 1\n", OLD, known.OLD_EVENTS),
        ("cat /a/c pids.events", "max 0\n", "max 1\n", OLD, CONTRADICTION),
        ("cat /a/b pids.events", "max 0\n", "max 2\n", OLD, CONTRADICTION),
        ("cat /a/b pids.events", "max 0\n", "max 1\n", FOUND, CONTRADICTION),
        ("reread /a/b pids.events", "max 0\n", "max 1\n", OLD, known.OLD_EVENTS),
        ("cat /a/b pids.peak", "1\n", "2\n", FOUND, known.REFUSED_RAISES),
        ("cat /a/c pids.peak", "1\n", "2\n", FOUND, CONTRADICTION),
        ("cat /a pids.peak", "1\n", "2\n", FOUND, known.MOVE_RAISES),
        ("cat /a pids.peak", "1\n", "0\n", FOUND, CONTRADICTION),
        ("cat /a pids.peak", "1\n", "x\n", FOUND, CONTRADICTION),
        ("cat /a pids.current", "1\n", "2\n", FOUND, CONTRADICTION),
        ("cat /a pids.current", "1\n", "1\n", FOUND, None),
        ("cat /a cgroup.stat", STAT, STAT + "nr_dying_subsys_pids 1\n", FOUND, known.MORE_KEYS),
        ("cat /a cgroup.stat", STAT, STAT + "nr_other 1\n", FOUND, CONTRADICTION),
        (
            "cat /a cgroup.stat",
            STAT,
            STAT.replace(" 0", " 1") + "nr_subsys_pids 3\n",
            FOUND,
            known.DYING,
        ),
        ("list /a", "b c\n\n", "b\n\n", FOUND, CONTRADICTION),
        ("list /a", "b c\n\n", "b c\n\n", FOUND, None),
        ("fork 2 3", "EAGAIN pidsmax /a", "ok", FOUND, known.NOT_STOPPED),
        ("fork 2 3", "EAGAIN pidsmax /a", "ok", KERNEL, CONTRADICTION),
        ("fork 9 3", "ESRCH noprocess 9", "ok", FOUND, CONTRADICTION),
        ("mkdir /d", "ENOSPC noslot", "ok", FOUND, known.MOST_GROUPS),
        ("mkdir /d", "ENOSPC noslot", "EAGAIN", FOUND, CONTRADICTION),
        ("mkdir /cgroup.x", "EINVAL path", "ok", FOUND, known.TAKES_MORE),
        ("mkdir /pids.max", "EINVAL path", "EEXIST", FOUND, known.FILE_NAMES),
        ("mkdir /pids.max", "EINVAL path", "EPERM", FOUND, CONTRADICTION),
        ("mkdir /x.y", "EINVAL path", "ENOENT", FOUND, known.GROUP_FIRST),
        ("mkdir " + LONG, "EINVAL path", "ENAMETOOLONG", FOUND, known.LONG_NAMES),
        ("mkdir " + LONG, "EINVAL path", "EAGAIN", FOUND, known.LONG_NAMES),
        ("mkdir " + LONG[:-1], "EINVAL path", "ENAMETOOLONG", FOUND, CONTRADICTION),
        ("write /a pids.current 1", "EINVAL direction", "EACCES", FOUND, known.AT_THE_OPEN),
        ("write /a pids.current 1", "EINVAL direction", "EPERM", FOUND, CONTRADICTION),
        ("write /a pids.current 1", "EINVAL direction", "ok", FOUND, CONTRADICTION),
        ("write /n pids.current 1", "EINVAL direction", "ENODEV", FOUND, known.GROUP_FIRST),
        ("cat /n no.such", "ENOENT file", "ENODEV", FOUND, known.GROUP_FIRST),
        ("cat /n pids.max", "ENOENT nogroup /n", "ENODEV", FOUND, CONTRADICTION),
        ("rmdir /a", "EBUSY haschildren", "EBUSY", FOUND, None),
        ("rmdir /a", "EBUSY haschildren", "ok", FOUND, CONTRADICTION),
    ],
)
def test_what_is_a_known_difference_and_what_is_none(line, ours, theirs, found, wanted):
    """Errnos begin with a capital letter, the engine's with its reply; the others are texts."""
    engine = played(
        "mkdir /a\nmkdir /a/b\nmkdir /a/c\nfork 1 2\nwrite /a/b cgroup.procs 2\nwrite /a pids.max 1\nfork 2 3\n"
        "write /a/c cgroup.procs 2"
    )
    error, _, reply = ours.partition(" ")
    here = Answer(error, "", reply) if ours[0] == "E" else Answer("ok", ours)
    there = Answer(theirs) if theirs == "ok" or theirs[0] == "E" else Answer("ok", theirs)
    try:
        assert difference(line.split(), here, there, engine, found) == wanted
    finally:
        engine.close()


def test_changes_of_populated_are_counted():
    engine = played(
        "mkdir /a\nmkdir /a/b\nwatch /a\nfork 1 2\nfork 1 3\nwrite /a/b cgroup.procs 2\nwrite /a cgroup.procs 3"
    )
    try:
        assert engine.changes == {"/a": 1}
        assert engine.play(["told", "/a"]).text == "poll inotify"
        assert engine.play(["told", "/a"]).text == "nothing"
        engine.play(["write", "/a", "cgroup.kill", "1"])
        engine.play(["fork", "1", "4"])
        engine.play(["write", "/a", "cgroup.procs", "4"])
        assert engine.changes == {"/a": 2}
        told, late = ["told", "/a"], Answer("ok", "inotify")
        ours = engine.play(told)
        for text in ("nothing", "poll", "inotify"):
            assert difference(told, ours, Answer("ok", text), engine, FOUND) == CONTRADICTION
        assert difference(told, ours, Answer("ok", "poll inotify"), engine, FOUND) is None
        # the notification of the second change may come later, but no third
        assert difference(told, engine.play(told), late, engine, FOUND) is None
        assert difference(told, engine.play(told), late, engine, FOUND) == CONTRADICTION
        engine.play(["exit", "4"])
        assert (
            difference(told, engine.play(told), Answer("ok", "poll inotify, again inotify"), engine, FOUND)
            == CONTRADICTION
        )
    finally:
        engine.close()


def test_a_leaf_alone_holds_processes_where_the_kernel_wants_it():
    engine = played("mkdir /a\nfork 1 2\nwrite /a cgroup.procs 2\nmkdir /b\nmkdir /b/c", way="D")
    try:
        assert not engine.can_do(["mkdir", "/a/x"]) and engine.can_do(["mkdir", "/b/x"])
        assert not engine.can_do(["write", "/b", "cgroup.procs", "2"]) and engine.can_do(
            ["write", "/b/c", "cgroup.procs", "2"]
        )
        assert not engine.can_do(["write", "/a", "cgroup.procs", "0"]) and not engine.can_do(["rmdir", "/"])
    finally:
        engine.close()


def test_a_random_sequence_is_that_of_its_number():
    def sequence(number):
        engine, following = Engine("free", [], False), Random(7, number)
        found = []
        try:
            for words in iter(lambda: following(engine), None):
                if engine.can_do(words):
                    found.append(words)
                    engine.play(words)
        finally:
            engine.close()
        return found

    # both aim at the same refusals
    assert chosen(7, 1) == chosen(7, 11) != chosen(7, 2)
    assert sequence(1) == sequence(1) != sequence(11)
    assert any(words[0] == "fork" for words in sequence(1))


def test_each_worked_sequence_is_played_once():
    names = [name for name, _, _ in worked(["free"])]
    assert "rows/own_limit-D" in names and "rows/own_limit-T" not in names
    assert "rows/own_limit-T" in [name for name, way, _ in worked(["D", "N", "T"]) if way == "T"]


@pytest.mark.parametrize("ways", [["free"], ["D", "N", "T"], ["N"], []])
def test_worked_sequences_are_the_recorded_ones(ways):
    """Each with its own way, where the directory has it, or freely; none of them twice."""
    linux = pathlib.Path(__file__).parents[3] / "evidence" / "linux-6.12"
    wanted, seen = [], set()
    recorded = [(kind, it) for kind in ("rows", "text") for it in recordings.of_set(str(linux), kind)]
    for kind, recording in recorded:
        trace = recording.trace.decode("latin1")
        lines = [re.split("[ \t\r]+", line.strip(" \t\r")) for line in trace.split("\n")]
        way = "free" if ways == ["free"] else lines[0][2] if lines[0][:2] == ["#", "mode"] else "D"
        commands = [words for words in lines if words != [""] and not words[0].startswith("#")]
        if way in ways and (way, str(commands)) not in seen:
            wanted.append((f"{kind}/{recording.name}", way, commands))
        seen.add((way, str(commands)))
    assert list(worked(ways)) == wanted and (len(wanted) > 10 or ways in (["N"], []))


def test_a_difference_is_made_short():
    """Halves and then single commands: what stays is what is needed."""
    text = "\n".join(f"mkdir /x{number}" for number in range(40))
    long = commands_of(
        text
        + "\nmkdir /c\nfork 1 4\nfork 4 2\ncat /c cgroup.procs\nwrite /c cgroup.procs 2\ncat /c pids.peak\nrmdir /c"
    )

    def retry(commands):
        has = [["mkdir", "/c"], ["write", "/c", "cgroup.procs", "2"], ["rmdir", "/c"]]
        order = [commands.index(words) for words in has if words in commands]
        born = any(words[0] == "fork" and words[2] == "2" for words in commands)
        shows = len(order) == 3 and order == sorted(order) and born
        return Difference("free", commands, BUSY, Answer("EINVAL")) if shows else None

    short = shorten(Difference("free", long, BUSY, Answer("EINVAL")), retry, 30)
    assert short.played == commands_of("mkdir /c\nfork 1 2\nwrite /c cgroup.procs 2\nrmdir /c")


def test_a_script_is_one_of_the_shell():
    commands = commands_of(
        "mkdir /a\nmkdir /a/b\nwrite /a pids.max 1\nfork 1 2\nwrite /a/b cgroup.procs 2\nfork 2 3\nrmdir /a/b"
    )
    for way in ("free", "D", "T"):
        script = shell_script(Difference(way, commands, BUSY, Answer("EINVAL")), "/tmp/it's here", way != "free")
        assert script[0] == "#!/bin/sh" and script[-1].endswith("rmdir a/b")
        assert ("threaded" in "\n".join(script)) == (way == "T")
        ran = subprocess.run(["sh", "-n"], input="\n".join(script) + "\n", text=True, capture_output=True)
        assert (ran.returncode, ran.stderr) == (0, "")


def test_the_command_line():
    ran = subprocess.run([sys.executable, "-m", "makhloeum.check", "--help"], capture_output=True, text=True)
    assert ran.returncode == 0 and "cgroup2" in ran.stdout
    assert subprocess.run([sys.executable, "-m", "makhloeum.check"], capture_output=True).returncode == 2
