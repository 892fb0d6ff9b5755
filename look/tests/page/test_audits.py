"""A run that the page would show otherwise than the engine is refused; times, notes and lines of a run as the page gets them."""

import json
import time

import pytest
from support import history_of

from makhloeum import Hierarchy
from makhloeum._table import LINE_MAX
from makhloeum.page import history as module
from makhloeum.page.history import History, shown
from makhloeum.page.page import data, page
from makhloeum.page.state import CURRENT, DEPTH, DESCENDANTS, FILES, LIMIT, LOCAL, PEAK, TOTAL, Copy

TRACE = b"mkdir /a\nmkdir /a/b\nfork 1 2\nwrite /a/b cgroup.procs 2\nwrite /a pids.max 1\nfork 2 3\n"


# ---- audits


@pytest.fixture
def audited():
    """A history whose copy is the engine's."""
    with Hierarchy() as h:
        history = History(h)
        history.read(TRACE)
        yield history


def first_group(copy):
    return copy.at("/a")


@pytest.mark.parametrize("field", FILES)
@pytest.mark.parametrize("path", ["/a", "/a/b"])
def test_each_number_is_audited(audited, field, path):
    audited.copy.at(path).numbers[field] += 1
    with pytest.raises(RuntimeError, match=rf"^after 6 commands the page has another state than the engine: {path}$"):
        audited.audit()


@pytest.mark.parametrize("field", [DESCENDANTS, DEPTH])
def test_the_limits_of_the_root_are_audited(audited, field):
    audited.copy.at("/").numbers[field] = 7
    with pytest.raises(RuntimeError, match=": /$"):
        audited.audit()


@pytest.mark.parametrize("field", [LIMIT, PEAK, TOTAL, LOCAL])
def test_what_the_root_lacks_is_not_asked_for(audited, field):
    audited.copy.at("/").numbers[field] = 7
    audited.audit()


def wrong_processes(copy):
    copy.at("/a/b").pids[9] = None


def missing_process(copy):
    copy.at("/a/b").pids.clear()


def other_home(copy):
    del copy.at("/a/b").pids[2]
    copy.at("/a").pids[2] = None


def missing_group(copy):
    del copy.groups[copy.ids["/a/b"]]


def more_groups(copy):
    copy.make(copy.id_of("/zz"))


@pytest.mark.parametrize(
    "change, path",
    [
        (wrong_processes, "/a/b"),
        (missing_process, "/a/b"),
        (other_home, "/a"),
        (missing_group, "/a/b"),
        (more_groups, "/zz"),
    ],
)
def test_groups_and_processes_are_audited(audited, change, path):
    change(audited.copy)
    with pytest.raises(RuntimeError, match=f": {path}$"):
        audited.audit()


def test_a_run_is_audited_at_its_end():
    with Hierarchy() as h:
        history = History(h)
        h.mkdir("/of-somebody-else")
        with pytest.raises(RuntimeError, match="^after 1 commands .*: /of-somebody-else$"):
            history.read(b"mkdir /a\n")


def test_a_run_is_audited_now_and_then(monkeypatch):
    monkeypatch.setattr(module, "AUDIT_EACH", 3)
    with Hierarchy() as h:
        history = History(h)
        h.mkdir("/of-somebody-else")
        history.line(b"mkdir /a")
        history.line(b"# a comment")
        history.line(b"mkdir /a")
        with pytest.raises(RuntimeError, match="^after 3 commands "):
            history.line(b"where 1")


# ---- long lists


class Asked(Hierarchy):
    """Counts the lists that the engine makes for the page."""

    lists = 0

    def _answer_of(self, line, size):
        self.lists += 1
        return super()._answer_of(line, size)


MANY = ["mkdir /a", "write /a cgroup.procs 1", *(f"fork 1 {pid}" for pid in range(2, 801))]
READ = "cat /a cgroup.procs"


@pytest.mark.parametrize(
    "between, lists",
    [
        ([], 1),
        (["mkdir /b", "rmdir /b"], 1),
        (["fork 1 5000", "exit 5000"], 3),
        (["fork 1 {}"], 1),
        (["exit {}"], 2),
        (["write /a cgroup.kill 1", "undo"], 101),
    ],
)
def test_a_long_list_is_asked_for_once_a_part_of_it_changed(between, lists):
    """Of 800 processes an eighth; 100 times what comes between two lists."""
    told = []
    for round_ in range(100):
        told += [*(line.format((1000 if line[0] == "f" else 100) + round_) for line in between), READ]
    with Asked() as h:
        history = History(h)
        history.read("\n".join([*MANY, READ, *told]).encode())
        assert h.lists == lists
    assert {history.answers[one].split("\n")[0] for one in history.answer} == {"ok"}


def test_a_list_that_was_not_asked_for_is_audited():
    with Hierarchy() as h:
        history = History(h)
        history.read("\n".join([*MANY, READ]).encode())
        h.exit(300)
        with pytest.raises(RuntimeError, match=": /a$"):
            history.read(f"where 1\nmkdir /b\n{READ}\n".encode())


def test_a_list_of_a_group_that_is_not_there_is_no_list():
    history = history_of(
        "\n".join([*MANY, READ, "cat /none cgroup.procs", "cat /none/a cgroup.procs", "cat a cgroup.procs"])
    )
    told = [history.answers[one] for one in history.answer[-4:]]
    assert told == ["ok\n800", "refused nogroup /none", "refused nogroup /none/a", "refused path"]


@pytest.mark.parametrize("line", [b"fork 1 2", b"exit 1"])
def test_a_group_that_the_page_alone_has(line):
    with Hierarchy() as h:
        history = History(h)
        history.read(b"mkdir /a\nwrite /a cgroup.procs 1\n")
        h.write("/", "cgroup.procs", 1)
        h.rmdir("/a")
        with pytest.raises(RuntimeError, match="^after 2 commands the engine has no group /a, which the page has$"):
            history.line(line)


# ---- times, notes and lines


@pytest.mark.parametrize(
    "comment, microseconds",
    [
        ("# at 0", 0),
        ("# at 7", 7000000),
        ("# at 0.5", 500000),
        ("# at 0.000001", 1),
        ("# at 1.1234567", 1123456),
        ("# at 1.123456789", 1123456),
        ("# at 12.01", 12010000),
        ("# at 999999999999.999999", 999999999999999999),
        ("\t# at 3 ", 3000000),
    ],
)
def test_a_time_is_in_microseconds(comment, microseconds):
    history = history_of(f"{comment}\nmkdir /a\n")
    assert history.times == [microseconds] and history.notes == {}


@pytest.mark.parametrize(
    "comment",
    [
        "# at",
        "# at x",
        "# at -1",
        "# at 1.",
        "# at .5",
        "# at 1.2.3",
        "# at 1 s",
        "#at 1",
        "#  at 1",
        "# at 1.1234567890",
        "# at 1234567890123",
    ],
)
def test_a_comment_that_is_no_time(comment):
    history = history_of(f"{comment}\nmkdir /a\n")
    assert history.times == [] and history.notes == {0: comment}


def test_a_time_holds_until_the_next():
    trace = "mkdir /a\nmkdir /b\n# at 1\n# at 2\nmkdir /c\nmkdir /d\n# at 1.5\nmkdir /e\n# at 3\n"
    history = history_of(trace)
    assert history.times == [2000000] * 5, "those before the first have its time"
    assert json.loads(data(history))["times"] == [2000000, 0, 0, 0, 0]
    later = history_of("# at 1\nmkdir /a\n# at 1.25\nmkdir /b\nmkdir /c\n# at 4\nmkdir /d\n")
    assert json.loads(data(later))["times"] == [1000000, 250000, 0, 2750000]
    assert json.loads(data(history_of("mkdir /a\n")))["times"] is None


def test_comments_are_notes_before_the_next_command():
    history = history_of("# one\n\n  # two\nmkdir /a\n# three\nmkdir /b\nmkdir /c\n# last")
    assert history.notes == {0: "# one # two", 1: "# three", 3: "# last"}
    assert json.loads(data(history))["notes"] == {"0": "# one # two", "1": "# three", "3": "# last"}


def test_many_comments_take_as_long_as_they_are():
    """Eight times as many don't take sixty-four times as long."""

    def seconds(count):
        trace = b"# a comment of many words\n" * count + b"mkdir /a\n"
        began = time.process_time()
        assert len(history_of(trace).notes[0]) == 26 * count - 1
        return time.process_time() - began

    fewer, more = (min(seconds(count) for _ in range(3)) for count in (4000, 32000))
    assert more < 25 * fewer


@pytest.mark.parametrize(
    "line, text",
    [
        (b"mkdir /a", "mkdir /a"),
        (b"x" * LINE_MAX, "x" * LINE_MAX),
        (b"x" * (LINE_MAX + 1), "x" * LINE_MAX + f" .. ({LINE_MAX + 1} bytes)"),
        (b"\xff\x00\x7f", "\\xff\\x00\\x7f"),
        ("ü €".encode(), "ü €"),
        ("\u2028\u200b\U000e0001".encode(), "\\u2028\\u200b\\U000e0001"),
        (b"", ""),
    ],
)
def test_a_line_as_the_page_shows_it(line, text):
    assert shown(line) == text


def test_the_data_of_a_page():
    run = json.loads(data(history_of(TRACE.decode() + "cat /a/b cgroup.procs\nundo\nmkdir /a\n")))
    assert run["lines"].split("\n")[-3:] == ["cat /a/b cgroup.procs", "undo", "mkdir /a"]
    assert run["answers"][0] == "ok" and [run["answers"][one] for one in run["answer"]] == [
        *["ok"] * 5,
        "refused pidsmax /a",
        "ok\n| 2",
        "ok\n| fork 2 3",
        "refused exists",
    ]
    assert (run["names"], run["parents"]) == (["/", "a", "b"], [0, 0, 1])
    steps, at = [], 0
    while at < len(run["steps"]):
        steps.append(run["steps"][at + 1 : at + 1 + run["steps"][at]])
        at += 1 + run["steps"][at]
    # MAKE, MAKE, BORN, MOVE, SET, ADD twice, nothing, the additions taken back, nothing
    assert steps[:5] == [[0, 1], [0, 2], [2, 2, 0], [4, 2, 2], [7, LIMIT, 1, 1]]
    assert steps[5] == [8, TOTAL, 1, 1, 1, 8, LOCAL, 1, 1, 1] and steps[6] == []
    assert steps[7] == [8, TOTAL, 1, 1, -1, 8, LOCAL, 1, 1, -1] and steps[8] == []


def test_the_title_of_a_page_is_text():
    made = page(history_of("mkdir /a\n"), "a & <b> \"c\" 'd' @DATA@ \\1")
    assert "<title>a &amp; &lt;b&gt; &quot;c&quot; &#x27;d&#x27; @DATA@ \\1</title>" in made
    assert made.count('"lines":"mkdir /a"') == 1


# ---- the copy


def test_a_kill_and_its_undo_count_each_group_once():
    copy = Copy()
    for path in ("/a", "/a/b", "/ab"):
        copy.make(copy.id_of(path))
    for pid in range(10, 20):
        copy.born(pid, copy.ids["/a/b" if pid < 14 else "/a" if pid < 19 else "/ab"])
    copy.change((5, copy.ids["/a"]), 77)
    counts = {path: copy.at(path).numbers[CURRENT] for path in ("/", "/a", "/a/b", "/ab")}
    assert counts == {"/": 2, "/a": 0, "/a/b": 0, "/ab": 1} and sorted(copy.home) == [1, 19]
    copy.at("/a").numbers[PEAK] = 3
    copy.change((6, 77), 80)
    counts = {path: copy.at(path).numbers[CURRENT] for path in ("/", "/a", "/a/b", "/ab")}
    assert counts == {"/": 11, "/a": 9, "/a/b": 4, "/ab": 1} and len(copy.home) == 11
    assert copy.at("/a").numbers[PEAK] == 9 and sorted(copy.at("/a/b").pids) == [10, 11, 12, 13]
