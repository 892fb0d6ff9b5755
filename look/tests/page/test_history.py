"""What the page gets of a run, against the engine; and the page as a file."""

import json
import os
import random
import re
import shutil
import subprocess

import pytest
from support import HERE, HOSTILE, FILES, history_of, long_trace, page_of, random_trace, wide_trace

from makhloeum import Hierarchy, Refused
from makhloeum.page.history import History, shown
from makhloeum.page.listing import FEW, Listing
from makhloeum.page.page import data, script

NODE = shutil.which("node") or shutil.which("nodejs")


def said(h, path):
    """What the engine says of a group: limit, peak, refused forks with those below and here, current; its processes."""
    if path == "/":
        return [[], h.processes("/")]
    limit = h.limit(path)
    events = [int(h.read(path, file).split()[1]) for file in ("pids.events", "pids.events.local")]
    return [[-1 if limit is None else limit, h.peak(path), *events, h.current(path)], h.processes(path)]


def answer(h, line):
    try:
        text = h.line(line)
    except Refused as refused:
        return f"refused {refused.reply}"
    return "ok" + "".join(f"\n| {one}" for one in text.split("\n")[:-1])


@pytest.mark.skipif(not NODE, reason="node is missing")
@pytest.mark.parametrize("seed", range(3))
def test_the_page_has_the_engines_state_at_every_moment(seed, tmp_path):
    lines = random_trace(seed, 1600, pids=14 if seed else 80)
    lines[46:46] = ["cat / cgroup.procs"] * (seed == 0)  # a list that is too long to be kept
    history = history_of("\n".join(lines))
    moments, answers = [], []
    with Hierarchy() as h:
        moments.append({path: said(h, path) for path in h.groups()})
        for line in lines:
            answers.append(answer(h, line))
            moments.append({path: said(h, path) for path in h.groups()})
    run = json.loads(data(history))
    run["answers_whole"] = answers
    file = tmp_path / "run"
    file.write_text(json.dumps({"data": run, "moments": moments}))
    words = dict(os.environ, MAKHLOEUM_RUN=str(file))
    name = "the page's state is the engine's at every moment"
    command = [NODE, "--test", "--test-name-pattern", name, os.path.join(HERE, "state.test.mjs")]
    ran = subprocess.run(command, env=words, capture_output=True, text=True)
    assert ran.returncode == 0 and re.search(r"^# fail 0$", ran.stdout, re.M), ran.stdout[-3000:]
    if seed == 0:
        assert any(re.fullmatch("ok\n[0-9]+", answer) for answer in history.answers)


def test_a_number_that_stays_is_no_step():
    """Of a command the number of its steps comes first."""
    with Hierarchy() as h:
        history = History(h)
        for number in (b"1", b"100000", b"max"):
            history.line(b"mkdir /a%s" % number)
            history.line(b"write /a%s pids.max %s" % (number, number))
            before = json.loads(data(history))["steps"]
            history.line(b"write /a%s pids.max %s" % (number, number))
            assert json.loads(data(history))["steps"] == [*before, 0]


def test_every_command_is_audited():
    for seed in range(15):
        with Hierarchy() as h:
            history = History(h)
            for line in random_trace(seed, 150):
                history.line(line.encode())
                history.audit()


def test_an_undone_kill_of_a_group_that_was_removed_and_restored():
    with Hierarchy() as h:
        history = History(h)
        for line in (
            "mkdir /a",
            "fork 1 2",
            "write /a cgroup.procs 2",
            "write /a cgroup.kill 1",
            "rmdir /a",
            "undo",
            "undo",
        ):
            history.line(line.encode())
            history.audit()
        assert [*history.copy.at("/a").pids] == [2]


def test_a_wrong_state_is_not_shown():
    with Hierarchy() as h:
        history = History(h)
        history.line(b"mkdir /a")
        h.fork(1, 2)
        with pytest.raises(RuntimeError, match="after 1 commands"):
            history.audit()


def test_a_read_is_answered_once_in_each_state():
    """500 lists of 30,000 processes would take seconds otherwise."""
    asked = []

    class Asked(Hierarchy):
        def line(self, line, path=None):
            asked.append(line.decode())
            return super().line(line, path)

    changes = [
        "fork 1 3",
        "exit 3",
        "write /a pids.max 1",
        "fork 2 3",
        "undo",
        "mkdir /b",
        "undo",
        "write /a cgroup.kill 1",
    ]
    reads = ["cat /a cgroup.procs", "cat /a pids.events", "where 1"]
    lines = ["mkdir /a", "fork 1 2", "write /a cgroup.procs 2"]
    for change in changes:
        lines += [change, *reads, *reads]
    with Asked() as h:
        history = History(h)
        history.read("\n".join([*lines, "cat /none pids.max", "cat /none pids.max"]).encode())
    assert all(asked.count(read) == len(changes) for read in reads)
    assert history.refused == 3, "a refused fork, and both reads of a group that isn't there"
    with Hierarchy() as h:
        assert [history.answers[one] for one in history.answer[:-2]] == [answer(h, line) for line in lines]


@pytest.mark.parametrize("blank", [" ", "\t", "  "])
def test_a_long_list_follows_the_processes(blank):
    """It is asked for after each change, and the page takes it from its state."""
    read = blank.join(["cat", "/a", "cgroup.procs"])
    setup = ["mkdir /a", "mkdir /a/b", "write /a cgroup.procs 1"] + [f"fork 1 {pid}" for pid in range(100, 130)]
    changes = ["fork 1 99", "fork 1 4194303", "fork 1 105", "exit 100", "exit 129", "exit 115", "undo", "undo"]
    changes += [
        "write /a/b cgroup.procs 110",
        "write /a/b cgroup.procs 1",
        "write /a cgroup.procs 1",
        "write /a cgroup.kill 1",
        "undo",
    ]
    lines = [*setup, read, *(line for change in changes for line in (change, read))]
    history = history_of("\n".join(lines))
    with Hierarchy() as h:
        told = [answer(h, line) for line in lines]
    for line, one, wanted in zip(lines, history.answer, told):
        is_long = line == read and wanted.count("\n") > 8
        assert history.answers[one] == (f"ok\n{wanted.count(chr(10))}" if is_long else wanted), line


def test_a_list_that_the_page_has_otherwise_is_shown_whole():
    with Hierarchy() as h:
        history = History(h)
        for line in [b"mkdir /a", b"write /a cgroup.procs 1", *(b"fork 1 %d" % pid for pid in range(2, 20))]:
            history.line(line)
        h.exit(5)
        history.line(b"cat /a cgroup.procs")
    assert history.answers[history.answer[-1]] == "ok" + "".join(f"\n| {pid}" for pid in range(1, 20) if pid != 5)


def test_a_line_that_is_too_long_lists_nothing():
    lines = ["mkdir /a", "write /a cgroup.procs 1", *(f"fork 1 {pid}" for pid in range(2, 20))]
    history = history_of("\n".join([*lines, "cat /a" + " " * 9000 + "cgroup.procs"]))
    assert history.answers[history.answer[-1]] == "refused syntax" and history.refused == 1


def test_a_listing_is_that_of_its_processes():
    choice, pids = random.Random(7), dict.fromkeys([5, 50, 500])
    listing = Listing(pids)
    for round_ in range(60):
        # now and then more than are put in one by one
        for _ in range(choice.choice([0, 1, 3, FEW, FEW + 1])):
            pid = choice.choice([1, 9, 10, 4194303, choice.randrange(1, 2000)])
            if pid in pids:
                del pids[pid]
                listing.remove(pid)
            else:
                pids[pid] = None
                listing.add(pid)
        if round_ % 3:
            assert listing.text().decode() == "".join(f"| {pid}\n" for pid in sorted(pids))


def test_a_listing_is_made_anew_only_after_many_changes():
    looks = []

    class Pids(dict):
        def __iter__(self):
            looks.append(1)
            return super().__iter__()

    pids = Pids.fromkeys(range(1, 1000))
    listing = Listing(pids)
    listing.text()
    for pid in range(1000, 1000 + FEW):
        pids[pid] = None
        listing.add(pid)
    assert listing.text().count(b"\n") == len(pids) and len(looks) == 1
    for pid in range(1, FEW + 2):
        del pids[pid]
        listing.remove(pid)
    assert listing.text().count(b"\n") == len(pids) and len(looks) == 2


def test_a_process_costs_as_many_calls_at_each_level():
    class Counted(Hierarchy):
        calls = 0

        def _call(self, *words):
            self.calls += 1
            return super()._call(*words)

        def _told(self, *words):
            self.calls += 1
            return super()._told(*words)

    def calls(levels):
        with Counted() as h:
            history = History(h)
            for level in range(1, levels + 1):
                history.line(b"mkdir " + b"/a" * level)
            history.line(b"write " + b"/a" * levels + b" cgroup.procs 1")
            h.calls = 0
            for line in (b"fork 1 2", b"exit 2"):
                history.line(line)
            return h.calls

    assert calls(31) == calls(1) <= 6


def test_lines_comments_and_times():
    history = history_of(
        b"# a run\n \t\r\n# at 0.5\nmkdir /a\n#at 7\n  # at 1.25\n\tmkdir   /a\r\n# at 1\nfork 1 2\n\xff\x00\n"
        + b"x" * 9000
    )
    assert history.lines[:3] == ["mkdir /a", "mkdir   /a", "fork 1 2"]
    assert history.lines[3] == "\\xff\\x00" and history.lines[4].endswith(" .. (9000 bytes)")
    assert [history.answers[n] for n in history.answer] == [
        "ok",
        "refused exists",
        "ok",
        "refused syntax",
        "refused syntax",
    ]
    assert history.times == [500000, 1250000, 1250000, 1250000, 1250000], "a clock that goes back stands still"
    assert history.notes == {0: "# a run", 1: "#at 7"}
    assert (history.refused, history.kills) == (3, 0)
    assert shown("a\u202eb\u2028\x1b".encode()) == "a\\u202eb\\u2028\\x1b"
    assert history_of(b"mkdir\t/a\nmkdir \r/b\n").lines == ["mkdir /a", "mkdir  /b"], "the page splits a line at blanks"


def test_times_are_comments_to_the_engine():
    lines = random_trace(5, 300)
    plain, timed = history_of("\n".join(lines)), history_of(
        "".join(f"# at {n}.5\n{line}\n" for n, line in enumerate(lines))
    )
    assert (plain.answer, plain.answers, plain.steps) == (timed.answer, timed.answers, timed.steps)
    assert plain.times == [] and len(timed.times) == len(lines)


DEEP = ["mkdir " + "/d" * level for level in range(1, 33)] + ["write " + "/d" * 32 + " cgroup.procs 1"]
SHAPES = {
    "times": long_trace(2000),
    "no times": re.sub("#.*\n", "", long_trace(2000)),
    "wide": wide_trace(),
    "reads": "fork 1 2\n" + "".join(f"fork 1 {n}\ncat / cgroup.procs\n" for n in range(3, 400)),
    "kills": "mkdir /a\nwrite /a cgroup.procs 1\n"
    + "".join(f"fork 1 {n}\n" for n in range(2, 200))
    + "write /a cgroup.kill 1\nundo\n" * 300,
    "deep": "\n".join(DEEP + [line for n in range(2, 300) for line in (f"fork 1 {n}", "undo")] * 2) + "\n",
    "refused": "\n".join(DEEP + ["write /d/d pids.max 1"] + ["fork 1 2", "undo"] * 300) + "\n",
    "random": "\n".join(random_trace(9, 2000)) + "\n",
    "noise": "".join(random.Random(3).choices("<>\x01\x7f é\u202e", k=20000)).replace(" ", "\n"),
    "moves": "mkdir /a\nmkdir /b\n" + "write /a cgroup.procs 1\nwrite /b cgroup.procs 1\n" * 500,
    "cats": "mkdir /a\n" + "".join(f"cat /a {file}\n" for file in FILES) * 200,
}


@pytest.mark.parametrize("shape", SHAPES)
def test_the_page_is_at_most_ten_times_the_trace(shape):
    trace = SHAPES[shape]
    empty, whole = len(page_of("").encode()), len(page_of(trace).encode())
    assert empty < 65000
    assert whole - empty <= 10 * len(trace.encode()), (whole - empty) / len(trace.encode())


def test_nothing_of_the_trace_is_markup():
    whole = page_of(HOSTILE, "<b>&\"'@DATA@")
    assert whole.count("<script") == 2 and whole.count("</script") == 2
    assert "<b>" not in whole.replace(script(), "") and "<img" not in whole and "\u202e" not in whole
    run = json.loads(re.search(r'id="run">(.*?)</script>', whole).group(1))
    assert "/<script>/&quot;" in run["lines"] and "@DATA@" in run["names"] and "$&" in run["names"]


def test_the_page_loads_nothing():
    whole = page_of("mkdir /a\n")
    assert "default-src 'none'" in whole and not re.search(
        r"<(?:link|iframe|img|object|embed|base)|@import|url\(", whole
    )
    assert re.sub(r"http://www\.w3\.org/2000/svg", "", whole).count("http") == 1  # http-equiv
    assert not re.search(r"^\s*(?:import|export) ", script(), re.M)
