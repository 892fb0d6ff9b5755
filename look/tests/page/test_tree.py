"""The tree as text: bars, columns and numbers, each by a table; and the words of `view` and `tree`."""

import io
import os
import queue
import re
import subprocess
import sys
import threading
import traceback

import pytest
from support import open_files

from makhloeum import PidsMax, mounted_at
from makhloeum.page import tree, view
from makhloeum.page.tree import Node, draw, of_directory

# seconds: a wait ends at once if what it waits for has come
LONG = 15 if os.environ.get("FAIL_FAST") else 120
WEEK = 7 * 24 * 3600


def node(name="g", processes=(), below=(), **numbers):
    return Node(name, list(processes), below=list(below), **numbers)


# ---- bars


@pytest.mark.parametrize(
    "current, limit, peak, bar",
    [
        (0, 10, None, "[          ]"),
        (0, 10, 0, "[          ]"),
        (1, 10, 1, "[█|        ]"),
        (1, 10, 9, "[█        |]"),
        # parts of an eighth and of a place are left out
        (1, 3, None, "[███▎      ]"),
        (2, 7, None, "[██▊       ]"),
        (0, 3, 2, "[      |   ]"),
        (0, 7, 6, "[        | ]"),
        (1, 10, 10, "[█         ]"),
        (5, 10, 5, "[█████|    ]"),
        (10, 10, 10, "[██████████]"),
        (12, 10, 15, "[██████████]"),
        (1, 80, 1, "[▏         ]"),
        (7, 80, 8, "[▉|        ]"),
        (9, 80, 9, "[█▏        ]"),
        (79, 80, 79, "[█████████▉]"),
        (3, 4, 3, "[███████▌  ]"),
        (0, 0, 0, "[          ]"),
        (1, 0, 1, "[██████████]"),
        (1, 1, 1, "[██████████]"),
        (0, 1, 1, "[          ]"),
        (1, 3, 2, "[███▎  |   ]"),
        (5, None, 7, "            "),
        (None, 5, 7, "            "),
    ],
)
def test_a_bar_is_the_count_as_a_part_of_the_limit(current, limit, peak, bar):
    told = draw(node(current=current, limit=limit, peak=peak)).rstrip("\n")
    assert told.ljust(15)[3:15] == bar
    parts = tree._bar(node(current=current, limit=limit, peak=peak))
    is_full = current is not None and limit is not None and current >= limit
    assert ("full" in {kind for _, kind in parts}) == is_full and "".join(text for text, _ in parts) == bar


WIDE = node(current=123456, limit=1234567, peak=9, populated=True, here=1, total=2, processes=[1])
DEEP = node("much longer", current=1, limit=None, peak=123456789012, populated=False, processes=[2])
ONLY_NAME = node("x", processes=[3])


@pytest.mark.parametrize("is_ascii", [False, True])
@pytest.mark.parametrize("rows", [[WIDE, DEEP, ONLY_NAME], [DEEP, WIDE, ONLY_NAME], [ONLY_NAME, DEEP, WIDE]])
def test_the_columns_are_below_each_other(rows, is_ascii):
    first, *more = rows
    root = node(first.name, first.processes, more)
    for number in ("current", "limit", "peak", "populated", "here", "total"):
        setattr(root, number, getattr(first, number))
    lines = draw(root, is_ascii=is_ascii).split("\n")[:-1]
    for words in ("peak|peak", "populated|empty", r"\d$|\d$"):
        assert len({found.start() for line in lines for found in [re.search(words, line)] if found}) == 1, lines
    assert len({found.end() for line in lines for found in [re.search(r"/(\d+|max)", line)] if found}) == 1, lines


def test_a_blank_has_no_colour():
    for rows in ([WIDE, DEEP, ONLY_NAME], [ONLY_NAME]):
        told = draw(node("top", below=rows), colour=True)
        assert "\x1b[" in told and not re.search(r"\x1b\[[\d;]+m *\x1b\[0m", told)


def test_each_part_of_a_line_has_its_colour():
    told = draw(node(current=2, limit=2, peak=1, populated=True, here=1, total=3), colour=True)
    for part in ("\x1b[1mg\x1b[0m", "\x1b[31m█\x1b[0m", "\x1b[33m  peak 1\x1b[0m", "\x1b[32m  populated\x1b[0m"):
        assert part in told, part
    assert "\x1b[1;31m  refused 1 here, 3 in all\x1b[0m" in told
    told = draw(node(current=1, limit=4, peak=3, populated=False), colour=True)
    for part in ("\x1b[34m█\x1b[0m", "\x1b[33m|\x1b[0m", "\x1b[2m  empty\x1b[0m"):
        assert part in told, part


# ---- columns


@pytest.mark.parametrize(
    "numbers, columns",
    [
        ({}, ("", "", "", "", "")),
        ({"current": 0}, ("0/max", "", "", "", "")),
        ({"current": 3, "limit": 0}, ("3/0", "", "", "", "")),
        ({"current": 3, "limit": tree.UNKNOWN}, ("3/?", "", "", "", "")),
        ({"peak": 0}, ("", "peak 0", "", "", "")),
        ({"populated": True}, ("", "", "populated", "", "")),
        ({"populated": False}, ("", "", "empty", "", "")),
        ({"total": 0, "here": 0}, ("", "", "", "", "")),
        ({"total": 2, "here": 0}, ("", "", "", "refused 0 here, 2 in all", "")),
        ({"total": 2}, ("", "", "", "refused 2 in all", "")),
        ({"here": 2}, ("", "", "", "refused 2 here, 0 in all", "")),
        ({"processes": range(1, 17)}, ("", "", "", "", " ".join(map(str, range(1, 17))))),
        ({"processes": range(1, 18)}, ("", "", "", "", " ".join(map(str, range(1, 17))) + " .. 1 more")),
        ({"processes": range(1, 118)}, ("", "", "", "", " ".join(map(str, range(1, 17))) + " .. 101 more")),
    ],
)
def test_the_columns_of_a_group(numbers, columns):
    assert tree._columns(node(**numbers)) == columns


def test_columns_are_below_each_other_and_groups_are_joined():
    deepest = node("y", current=1000, limit=2000, peak=1500, populated=True)
    root = node("/", [1], [node("a", below=[node("b", below=[deepest]), node("c", current=1, peak=1)]), node("dd")])
    lines = draw(root).split("\n")
    assert [line[:9].rstrip() for line in lines[:-1]] == ["/", "├─ a", "│  ├─ b", "│  │  └─", "│  └─ c", "└─ dd"]
    assert lines[3] == "│  │  └─ y  [█████  |  ]  1000/2000  peak 1500  populated"
    assert lines[4] == "│  └─ c" + " " * 23 + "1/max  peak 1"
    assert draw(root, is_ascii=True).split("\n")[3] == "|  |  `- y  [#####  |  ]  1000/2000  peak 1500  populated"


@pytest.mark.parametrize("width", [1, 3, 4, 12, 17, 30, 200])
@pytest.mark.parametrize("colour", [False, True])
def test_a_line_is_cut_to_the_width(width, colour):
    whole = draw(node("group", range(5), current=1, limit=2, peak=2, populated=True)).rstrip("\n")
    told = draw(node("group", range(5), current=1, limit=2, peak=2, populated=True), colour=colour, width=width)
    plain = told.rstrip("\n")
    for kind in tree.COLOURS.values():
        plain = plain.replace(f"\x1b[{kind}m", "")
    assert plain.replace("\x1b[0m", "").rstrip() == whole[:width].rstrip() and told.count("\n") == 1


def test_wide_letters_take_two_columns():
    names = ["\u6f22\u5b57", "a\u0301b", "\uff21", "abcd"]
    root = node("g", below=[node(name, current=1, limit=2, peak=1) for name in names])
    lines = draw(root).splitlines()[1:]
    columns = [4, 2, 2, 4]  # of the names
    assert [tree._wide(name) for name in names] == columns
    assert [line.index("[") - len(name) + wide for line, name, wide in zip(lines, names, columns)] == [9] * 4
    assert [tree._fitting("a\u0301b", columns) for columns in (0, 1, 2, 3)] == ["", "a\u0301", "a\u0301b", "a\u0301b"]
    cut = {width: draw(root, width=width).splitlines()[1] for width in (3, 4, 5, 6, 7, 9, 10)}
    first = "├─ \u6f22"
    wanted = ["├─", "├─", first, first, first + "\u5b57", first + "\u5b57", first + "\u5b57  ["]
    assert list(cut.values()) == wanted, "half a letter is none"


# ---- a directory


@pytest.mark.parametrize(
    "file, text, field, number",
    [
        ("pids.max", "max\n", "limit", None),
        ("pids.max", "5\n", "limit", 5),
        ("pids.max", "0\n", "limit", 0),
        ("pids.max", "", "limit", None),
        ("pids.max", "five\n", "limit", None),
        ("pids.current", "7\n", "current", 7),
        ("pids.peak", "8\n", "peak", 8),
        ("pids.events", "max 3\n", "total", 3),
        ("pids.events", "max\n", "total", None),
        ("pids.events", "other 1\nmax 4\n", "total", 4),
        ("pids.events.local", "max 2\n", "here", 2),
        ("cgroup.events", "populated 1\nfrozen 0\n", "populated", True),
        ("cgroup.events", "frozen 1\npopulated 0\n", "populated", False),
        ("cgroup.events", "frozen 1\n", "populated", None),
        ("cgroup.procs", "5\n6\n", "processes", [5, 6]),
        ("cgroup.procs", "5\nx\n", "processes", [5]),
    ],
)
def test_a_number_of_a_directory(tmp_path, file, text, field, number):
    (tmp_path / file).write_text(text)
    found = of_directory(str(tmp_path))
    assert getattr(found, field) == number and found.name == str(tmp_path)
    nothing = node(str(tmp_path))
    setattr(nothing, field, number)
    nothing.limit = tree.UNKNOWN if field == "current" else nothing.limit
    assert found == nothing, "the other numbers are not there"


@pytest.mark.parametrize(
    "text, limit", [("max\n", None), ("7\n", 7), ("", tree.UNKNOWN), ("x\n", tree.UNKNOWN), (None, tree.UNKNOWN)]
)
def test_a_limit_that_cannot_be_read_is_not_none(tmp_path, text, limit):
    (tmp_path / "pids.current").write_text("5\n")
    if text is not None:
        (tmp_path / "pids.max").write_text(text)
    found = of_directory(str(tmp_path), "g")
    assert found.limit == limit and ("[" in draw(found)) == (limit == 7)


def test_the_groups_of_a_directory(tmp_path):
    for name in ("b", "a", ".group", "no-group", ".makhloeum"):
        (tmp_path / name).mkdir()
        if name not in ("no-group", ".makhloeum"):
            (tmp_path / name / "cgroup.procs").write_text("")
    (tmp_path / "link").symlink_to(tmp_path / "a")
    (tmp_path / "file").write_text("")
    assert [below.name for below in of_directory(str(tmp_path)).below] == [".group", "a", "b"]
    assert of_directory(str(tmp_path / "gone")).below == []


def test_groups_deeper_than_functions_may_call_each_other(tmp_path, monkeypatch):
    monkeypatch.chdir(tmp_path)
    folder, levels, limit = "d", 150, sys.getrecursionlimit()
    for level in range(levels):
        os.mkdir(folder)
        with open(f"{folder}/cgroup.procs", "w") as file:
            file.write(f"{level}\n")
        folder += "/d"
    sys.setrecursionlimit(len(traceback.extract_stack()) + 100)
    try:
        found = of_directory("d")
        lines, paths = draw(found).splitlines(), list(tree._paths("d", found))
    finally:
        sys.setrecursionlimit(limit)
    assert [line.split()[-2:] for line in (lines[0], lines[-1])] == [["d", "0"], ["d", str(levels - 1)]]
    assert len(lines) == len(paths) == levels and paths[-1] == folder[:-2]


# ---- command lines


@pytest.mark.parametrize(
    "words, wanted",
    [
        (["d"], ("d", None)),
        (["d", "--watch"], ("d", 0.5)),
        (["--watch", "d"], ("d", 0.5)),
        (["--watch", "2", "d"], ("d", 2.0)),
        (["d", "--watch", "0.25"], ("d", 0.25)),
        (["d", "--watch", "3."], ("d", 3.0)),
        (["--watch", "--", "-d"], ("-d", 0.5)),
        (["--", "--watch"], ("--watch", None)),
        (["d", "--watch", "0"], None),
        (["d", "--watch", "-1"], None),
        (["d", "--watch", "x"], None),
        (["d", "e"], None),
        (["--", "d", "e"], None),
        (["d", "--", "e"], None),
        (["d", "--"], ("d", None)),
        (["--"], None),
        ([], None),
        (["-x", "d"], None),
        (["d", "--watch", "1.2.3"], None),
        (["--watch", "2", "d", "--watch", "3"], ("d", 3.0)),  # the last one counts
        (["--watch", "2", "d", "--watch"], ("d", 0.5)),
        (["d", "--watch", "."], None),
        (["--watch", ".5", "d"], ("d", 0.5)),
        (["--watch", "0.0", "d"], None),
        (["--watch", "\u00b2", "d"], None),  # a digit of no number
        (["--watch", "9" * 400, "d"], ("d", float("inf"))),
    ],
)
def test_the_words_of_tree(words, wanted):
    assert tree._words(words) == wanted


@pytest.mark.parametrize(
    "words, wanted",
    [
        (["t"], ("t", "t.html")),
        (["-"], ("-", "-")),
        (["t", "-o", "p"], ("t", "p")),
        (["-o", "p", "t"], ("t", "p")),
        (["-op", "t"], ("t", "p")),
        (["t", "-o", "-"], ("t", "-")),
        (["-", "-o", "p"], ("-", "p")),
        (["--", "-o"], ("-o", "-o.html")),
        (["-o", "p", "--", "-t"], ("-t", "p")),
        (["t", "--"], ("t", "t.html")),
        (["t", "--", "u"], None),
        (["t", "-o"], None),
        (["t", "-o", "p", "-o", "q"], None),
        (["t", "-o", ""], ("t", "")),  # of an unset variable: no such file
        (["-op", "-oq", "t"], None),
        (["t", "u"], None),
        (["--", "t", "u"], None),
        ([], None),
        (["-o", "p"], None),
        (["-x", "t"], None),
        (["--output", "p", "t"], None),
    ],
)
def test_the_words_of_view(words, wanted):
    assert view._words(words) == wanted


# ---- what --watch waits for


@pytest.fixture
def followed():
    """A hierarchy with files that tell of changes, and what waits for those of the groups that there are."""
    with mounted_at("/cg") as h:
        h.mkdir("/a")
        h.mkdir("/a/b")
        watch = tree.Watch("/cg")
        watch.follow(of_directory("/cg"))
        watch.wait(0)  # each file is ready before its first read
        yield h, watch
        watch.close()
        assert watch.files == {}


def ready(watch):
    return sorted(path for path, file in watch.files.items() if file in [it for it, _ in watch.poll.poll(0)])


def test_the_event_files_of_each_group_are_watched(followed):
    h, watch = followed
    wanted = {f"/cg{group}/{file}" for group in ("/a", "/a/b") for file in ("cgroup.events", "pids.events")}
    assert set(watch.files) == wanted, "the root has none"
    before, descriptors = dict(watch.files), len(open_files())
    watch.follow(of_directory("/cg"))
    assert watch.files == before, "no file is opened twice"
    h.mkdir("/c")
    h.rmdir("/a/b")
    watch.follow(of_directory("/cg"))
    assert set(watch.files) == {f"/cg/{group}/{file}" for group in "ac" for file in ("cgroup.events", "pids.events")}
    assert len(open_files()) == descriptors, "those of a group that is gone are closed"


def test_a_wait_ends_with_a_change_and_takes_it(followed):
    h, watch = followed
    assert ready(watch) == []
    with open("/cg/a/b/cgroup.procs", "w") as file:
        file.write("1")
    assert ready(watch) == ["/cg/a/b/cgroup.events", "/cg/a/cgroup.events"]
    watch.wait(LONG)
    assert ready(watch) == [], "a file that was read waits for the next change"
    h.write("/a", "pids.max", 1)
    with pytest.raises(PidsMax):
        h.fork(1, 2)
    watch.wait(LONG)
    watch.wait(0)
    assert ready(watch) == []


@pytest.mark.parametrize("seconds", [2147483.6, 2147483.7, 1e300, float("inf")])
def test_a_wait_may_be_longer_than_poll_takes(followed, seconds):
    h, watch = followed
    h.write("/a", "cgroup.procs", 1)
    watch.wait(seconds)
    assert ready(watch) == []


def test_a_group_that_is_gone_is_watched_no_more(followed):
    h, watch = followed
    os.rmdir("/cg/a/b")
    watch.wait(LONG)
    assert set(watch.files) == {"/cg/a/cgroup.events", "/cg/a/pids.events"}


def test_a_closed_file_is_not_waited_for(followed):
    h, watch = followed
    h.rmdir("/a/b")
    watch.follow(of_directory("/cg"))
    assert len(watch.files) == 2 and {it for it, _ in watch.poll.poll(0)} <= set(watch.files.values())
    watch.wait(0)
    watch.follow(node())
    assert watch.files == {} and watch.poll.poll(0) == []


def test_at_most_so_many_groups_are_watched(monkeypatch):
    monkeypatch.setattr(tree, "WATCHED_MOST", 3)
    with mounted_at("/cg") as h:
        for name in "abcd":
            h.mkdir(f"/{name}")
        watch = tree.Watch("/cg")
        watch.follow(of_directory("/cg"))
        assert {os.path.dirname(path) for path in watch.files} == {"/cg/a", "/cg/b"}, "the root is one of them"
        watch.close()


@pytest.mark.parametrize("limit, groups", [(0, 0), (15, 3), (16, 4), (799, 199), (800, 200), (1 << 20, 200), (-1, 200)])
def test_watched_files_leave_descriptors_for_reading(monkeypatch, limit, groups):
    monkeypatch.setattr(tree.resource, "getrlimit", lambda which: (limit, -1))
    assert tree._watched_most() == groups


def test_few_descriptors_are_enough(tmp_path):
    """As many groups are drawn as there are, though they can't all be watched."""
    for name in range(60):
        (tmp_path / f"g{name}").mkdir()
        for file in ("cgroup.procs", "cgroup.events", "pids.events"):
            (tmp_path / f"g{name}" / file).write_text("")
    (tmp_path / "cgroup.procs").write_text("")
    script = (
        "import io, resource, sys; from makhloeum.page import tree\n"
        "resource.setrlimit(resource.RLIMIT_NOFILE, (40, 40)); out = io.StringIO()\n"
        "class Ended(Exception): pass\n"
        "def wait(self, seconds): raise Ended\n"
        "tree.Watch.wait = wait\n"
        "try: tree.watch(sys.argv[1], 1, out)\n"
        "except Ended: print(out.getvalue().count('─ g'))\n"
    )
    told = subprocess.run([sys.executable, "-c", script, str(tmp_path)], capture_output=True, text=True)
    assert (told.stdout, told.stderr) == ("60\n", "")


# ---- what --watch draws


class Screen(io.StringIO):
    """An output that is a terminal or not."""

    def __init__(self, is_terminal):
        super().__init__()
        self.is_terminal, self.flushed = is_terminal, []

    def isatty(self):
        return self.is_terminal

    def flush(self):
        self.flushed.append(self.getvalue())


@pytest.mark.parametrize(
    "is_terminal, term, clears", [(False, "xterm", False), (True, "xterm", True), (True, "dumb", False)]
)
def test_a_watch_draws_changes_until_the_directory_is_gone(tmp_path, monkeypatch, is_terminal, term, clears):
    """A terminal that can't move its cursor gets no letters that would do it."""
    (tmp_path / "cgroup.procs").write_text("")
    monkeypatch.setenv("TERM", term)
    monkeypatch.setenv("NO_COLOR", "1")
    monkeypatch.setenv("COLUMNS", "80")
    waits = [
        lambda: (tmp_path / "pids.current").write_text("3\n"),
        lambda: None,
        lambda: (tmp_path / "cgroup.procs").unlink(),
    ]
    monkeypatch.setattr(tree.Watch, "wait", lambda self, seconds: waits.pop(0)() and None)
    monkeypatch.setattr(tree.time, "sleep", lambda seconds: None)
    closed, followed = [], []
    monkeypatch.setattr(tree.Watch, "close", lambda self: closed.append(self.folder))
    monkeypatch.setattr(tree.Watch, "follow", lambda self, node: followed.append(node.current))
    monkeypatch.setattr(tree, "of_directory", lambda folder: of_directory(folder, "top"))
    screen = Screen(is_terminal)
    tree.watch(str(tmp_path), 5, screen)
    first, second = "top\n", "top" + " " * 16 + "3/?\n"
    clear = "\x1b[H\x1b[2J"
    wanted = clear + first + clear + second if clears else f"{first}\n{second}"
    assert screen.getvalue() == wanted and waits == [] and closed == [str(tmp_path)]
    assert [text.count("top") for text in screen.flushed] == [1, 2] and followed == [None, 3, 3], "each is seen at once"


class Ended(Exception):
    """Ends a watch."""


def test_what_is_announced_is_drawn_at_once(monkeypatch):
    """On the busiest machine too: without the announcement it would be drawn in a week."""
    drawn = queue.Queue()
    monkeypatch.setattr(Screen, "flush", lambda self: drawn.put(self.getvalue()))

    def watched():
        with pytest.raises(Ended):
            tree.watch("/cg", WEEK, Screen(False))
        drawn.put("the end")

    def ends(folder):
        raise Ended

    with mounted_at("/cg") as h:
        h.mkdir("/a")
        h.write("/a", "pids.max", 1)
        h.write("/a", "cgroup.procs", 1)
        thread = threading.Thread(target=watched, daemon=True)
        thread.start()
        assert "refused" not in drawn.get(timeout=LONG)
        for count in (1, 2):
            with pytest.raises(PidsMax):
                h.fork(1, 2)
            assert f"refused {count} here, {count} in all" in drawn.get(timeout=LONG)
        monkeypatch.setattr(tree, "of_directory", ends)
        with pytest.raises(PidsMax):
            h.fork(1, 2)
        assert drawn.get(timeout=LONG) == "the end"
        thread.join(LONG)


def test_changes_that_come_together_are_drawn_once(tmp_path, monkeypatch):
    """After a change it waits another 20 ms, but no longer than the time between two looks."""
    (tmp_path / "cgroup.procs").write_text("")
    now, slept = [100.0], []

    def wait(self, seconds):
        now[0] += lasts.pop(0)
        if not lasts:
            (tmp_path / "cgroup.procs").unlink()

    lasts = [0.0, 0.49, 0.495, 0.7]
    monkeypatch.setattr(tree.Watch, "wait", wait)
    monkeypatch.setattr(tree.time, "monotonic", lambda: now[0])
    monkeypatch.setattr(tree.time, "sleep", slept.append)
    tree.watch(str(tmp_path), 0.5, Screen(False))
    assert [round(it, 3) for it in slept] == [0.02, 0.01, 0.005, 0]


@pytest.mark.parametrize(
    "failure, status, said",
    [
        (KeyboardInterrupt(), 0, ""),
        (OSError(5, "Input/output error"), 1, "makhloeum tree: [Errno 5] Input/output error\n"),
    ],
)
def test_what_ends_a_tree(tmp_path, monkeypatch, capsys, failure, status, said):
    def fails(*words):
        raise failure

    (tmp_path / "cgroup.procs").write_text("")
    monkeypatch.setattr(tree, "watch", fails)
    assert tree.main([str(tmp_path), "--watch"]) == status and capsys.readouterr() == ("", said)


@pytest.mark.parametrize(
    "terminal, words, coloured",
    [
        (True, {"TERM": "xterm"}, True),
        (True, {}, True),
        (True, {"TERM": "xterm", "NO_COLOR": ""}, True),  # an empty text says nothing
        (True, {"TERM": "xterm", "NO_COLOR": "0"}, False),
        (True, {"TERM": "dumb"}, False),
        (False, {"TERM": "xterm"}, False),
    ],
)
def test_when_a_tree_is_coloured(monkeypatch, terminal, words, coloured):
    for name in ("TERM", "NO_COLOR"):
        monkeypatch.delenv(name, raising=False)
    for name, word in words.items():
        monkeypatch.setenv(name, word)
    assert tree.uses_colour(Screen(terminal)) == coloured


@pytest.mark.parametrize(
    "failure, why",
    [
        (PermissionError(13, "Permission denied"), "Permission denied"),
        (FileNotFoundError(2, "No such file or directory"), "it has no cgroup.procs"),
    ],
)
def test_why_a_directory_is_none_of_a_hierarchy(tmp_path, monkeypatch, capsys, failure, why):
    if isinstance(failure, PermissionError):
        (tmp_path / "cgroup.procs").write_text("")
    failure.filename = str(tmp_path / "cgroup.procs")

    def fails(*words):
        raise failure

    monkeypatch.setattr(tree.os, "open", fails)
    assert tree.main([str(tmp_path)]) == 2
    told = capsys.readouterr()
    assert told == ("", f"makhloeum tree: {tmp_path} is not a cgroup2 directory: {why}\n")


def test_the_title_of_a_page_is_the_name_of_its_trace(tmp_path, capsys):
    """Not its folder, and without the letters of a tag."""
    trace = tmp_path / "a<b>.trace"
    trace.write_text("mkdir /a\n")
    assert view.main([str(trace), "-o", str(tmp_path / "page")]) == 0
    assert "<title>a&lt;b&gt;.trace</title>" in (tmp_path / "page").read_text()
    assert capsys.readouterr().out == f"{tmp_path / 'page'}: 1 commands, 0 refused\n"


@pytest.mark.parametrize("trace", ["", "\n", "# a comment\n", "  \t\r\n\n", "# at 5.0\n"])
def test_a_page_of_no_command(tmp_path, capsys, trace):
    """It is no page of something else than a trace."""
    (tmp_path / "t").write_text(trace)
    page = tmp_path / "t.html"
    assert view.main([str(tmp_path / "t")]) == 0
    assert capsys.readouterr() == (f"{page}: 0 commands, 0 refused\n", "") and page.read_text().startswith(
        "<!DOCTYPE html>"
    )


def test_what_is_no_trace_is_no_page(tmp_path, capsys):
    (tmp_path / "t").write_text("hello\nworld\n")
    assert view.main([str(tmp_path / "t")]) == 1
    assert capsys.readouterr() == ("", f"makhloeum view: no line of {tmp_path / 't'} is a command\n")
    # one that is a command makes it a trace, also if it is refused
    (tmp_path / "t").write_text("hello\nrmdir /\n")
    assert view.main([str(tmp_path / "t")]) == 0
    assert capsys.readouterr() == (f"{tmp_path / 't'}.html: 2 commands, 2 refused\n", "")


def test_a_page_without_memory(tmp_path, monkeypatch, capsys):
    def fails(*words):
        raise MemoryError

    (tmp_path / "t").write_text("mkdir /a\n")
    monkeypatch.setattr(view, "page", fails)
    assert view.main([str(tmp_path / "t")]) == 1 and capsys.readouterr() == ("", "makhloeum view: out of memory\n")
    assert not (tmp_path / "t.html").exists()


def test_a_change_before_its_file_is_watched_is_drawn_at_once(monkeypatch):
    """However long a busy machine takes between both. The looks at the directory are the moments at which something changes."""
    changes = [lambda h: h.mkdir("/a/b"), lambda h: h.write("/a/b", "pids.max", 5)]
    waits, looks, out = [], [], io.StringIO()

    class Ended(Exception):
        pass

    def look(folder, name=None):
        found = of_directory(folder, name)
        if name is None:
            looks.append(folder)
        if name is None and changes:
            changes.pop(0)(h)
        return found

    def wait(self, seconds):
        waits.append((seconds, len(self.files), out.getvalue()))
        raise Ended

    monkeypatch.setattr(tree, "of_directory", look)
    monkeypatch.setattr(tree.Watch, "wait", wait)
    with mounted_at("/cg") as h:
        h.mkdir("/a")
        with pytest.raises(Ended):
            tree.watch("/cg", LONG, out)
        ((seconds, files, drawn),) = waits
    assert [line.split()[:2] for line in drawn.splitlines()] == [
        ["/cg", "1"],
        ["└─", "a"],
        ["└─", "b"],
    ] and "0/5" in drawn
    assert (seconds, files, len(looks)) == (LONG, 4, 3), "it looks again only after it has opened a file"
