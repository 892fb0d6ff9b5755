"""The page's controls in a real browser: names, the state before a line, refusals of a group, and the focus."""

import re

import pytest
from demo import demo
from webdriver import is_there, row_of

pytestmark = pytest.mark.skipif(not is_there(), reason="chromium and chromedriver are missing")
FOCUSED = "const it = document.activeElement; return it.id || it.textContent"


@pytest.fixture
def opened(browser, pages):
    """The page of a trace."""

    def show(name, trace, link=""):
        browser.open("about:blank")
        browser.open(pages(name, trace) + link)
        return browser

    yield show
    assert browser.complaints() == []


# ---- names of buttons


def names(b, role):
    """The names that a screen reader says of the controls of a role."""
    nodes = b.cdp("Accessibility.getFullAXTree")["nodes"]
    return [
        one["name"]["value"] for one in nodes if one.get("role", {}).get("value") == role and not one.get("ignored")
    ]


def test_buttons_have_names(shown):
    b = shown(32)
    buttons = names(b, "button")
    assert len(buttons) == len(set(buttons)) >= 13, buttons
    for name in ("Play", "Play backwards", "One command forward", "One command back", "To the start", "To the end", "The next match",
                 "The match before", "State before this line", "First of 3 refusals", "Remove the plot of /batch"):  # fmt: skip
        assert name in buttons, (name, buttons)
    assert all(any(letter.isascii() and letter.isalpha() for letter in name) for name in buttons)
    assert names(b, "combobox") == ["commands a second"]
    assert "batch: pids.current 8, pids.max 8, pids.peak 8, refused here 1, in all 1" in names(b, "treeitem")
    assert any(re.fullmatch(r"system: pids.current \d+, pids.max max, .*", name) for name in names(b, "treeitem"))


def test_a_step_and_playing_have_signs_of_their_own(shown):
    b = shown(10)
    signs = b.texts("nav button")
    assert (
        len(set(signs)) == 6
        and b.text("#play").startswith("▶")
        and not any("▶" in sign for sign in signs[:3] + signs[4:])
    )
    clicked = "const play = document.getElementById('play'); return [1, 2].map(() => (play.click(), [play.ariaPressed, play.textContent.includes('▶')]))"
    assert b.run(clicked) == [["true", False], ["false", True]]


# ---- the group of the last command


@pytest.mark.parametrize(
    "line, path",
    [
        (5, "/batch/job"),
        (7, "/system/web"),
        (10, "/"),
        (11, "/system/db"),
        (32, "/batch"),
        (36, "/system/web"),
        (42, "/batch"),
        (44, "/"),
        (46, "/system/web"),
        (0, "/"),
    ],
)
def test_it_opens_at_the_group_of_the_command(shown, line, path):
    b = shown(line)
    assert b.text("#path") == path
    assert b.run("return document.querySelector('#tree [aria-selected=true] .name').title") == path


def test_it_opens_at_the_group_of_the_last_command(opened):
    groups = "".join(f"mkdir /g{number:03}\n" for number in range(300))
    b = opened("last", groups + "write /g277 pids.max 3\n")
    assert b.text("#path") == "/g277"
    script = """const tree = document.getElementById("tree").getBoundingClientRect();
        const row = document.querySelector("#tree [aria-selected=true]").getBoundingClientRect();
        return row.top >= tree.top && row.bottom <= tree.bottom"""
    assert b.run(script), "the row of the group is in sight"


# ---- colours


def test_only_the_answer_of_a_refused_row_is_coloured(shown):
    b = shown(20)
    b.press("page down")
    script = """const colours = (row) => [...row.children].map((one) => [getComputedStyle(one).color, getComputedStyle(one).fontWeight].join());
        return ["31", "30"].map((at) => colours(document.querySelector(`#list .row[data-at="${at}"]`)))"""
    refused, accepted = b.run(script)
    assert refused[:-1] == accepted[:-1] and refused[-1] != accepted[-1]


# ---- the state before a line


def test_the_state_before_this_line(shown):
    b = shown(42)
    assert row_of(b, "/batch")[3] == "0 / 8"
    b.click("#before")
    assert b.text("#moment").startswith("before 42 of 47") and b.text("#when") == "Groups before this line"
    assert row_of(b, "/batch")[3] == "7 / 8" and b.text("#answer").startswith("42 write /batch cgroup.kill 1")
    assert b.run("return document.querySelector('#list .row.now').dataset.at") == "41"
    assert (
        "changed" in row_of(b, "/batch")[0] and "changed" not in row_of(b, "/system")[0]
    ), "what the line changes is marked"
    assert b.run("return document.getElementById('before').ariaPressed") == "true"
    assert b.run(FOCUSED) == "before"
    assert b.until(lambda: b.run("return location.hash") == "#before=42")
    b.press("left")
    assert b.text("#moment").startswith("before 41") and row_of(b, "/batch")[3] == "6 / 8"
    b.press("b")
    assert b.text("#moment").startswith("after 41") and row_of(b, "/batch")[3] == "7 / 8"
    b.press("home", "b")
    assert b.text("#moment").startswith("before 0") and row_of(b, "/") is not None
    assert b.until(lambda: b.run("return location.hash") == "#before=0"), "the page has written its own link"
    b.run("location.hash = 'before=42'")
    assert b.until(lambda: b.text("#moment").startswith("before 42")) and row_of(b, "/batch")[3] == "7 / 8"


def test_a_link_to_the_state_before_a_line(opened):
    b = opened("demo", demo(), "#before=1")
    assert b.text("#moment").startswith("before 1 of") and row_of(b, "/system") is None


# ---- the refusals of a group

REFUSALS = (
    "mkdir /a\nmkdir /a/bc\nmkdir /a/b\nwrite /a/b pids.max 1\nwrite /a/bc pids.max 0\nfork 1 2\nwrite /a/bc cgroup.procs 2\nfork 2 3\n"
    "fork 1 4\nwrite /a/b cgroup.procs 4\nmkdir /a/b/x\nwrite /a/b/x cgroup.procs 4\nfork 4 5\nfork 4 6\nrmdir /a/b\nrmdir /a/bc\n"
)


def test_the_refusals_of_a_group(opened):
    b = opened("refusals", REFUSALS, "#line=3")
    assert (b.text("#path"), b.text("#refusals")) == ("/a/b", "First of 3 refusals")
    b.click("#refusals")
    assert b.text("#answer") == "13 fork 4 5\nrefused pidsmax /a/b" and b.text("#found") == "1 of 3"
    assert b.run("return document.getElementById('query').value") == "refused /a/b" and b.run(FOCUSED) == "refusals"
    b.press("n")
    assert b.text("#moment").startswith("after 14 ") and b.text("#found") == "2 of 3"
    b.press("n")
    assert b.text("#answer") == "15 rmdir /a/b\nrefused haschildren"
    b.press("r")
    assert b.text("#moment").startswith("after 13 ")
    b.type("#query", "refused /a/bc")
    assert (b.text("#path"), b.text("#found"), b.text("#answer")) == (
        "/a/bc",
        "2 of 2",
        "16 rmdir /a/bc\nrefused hasprocesses",
    )
    b.click("#refusals")
    assert b.text("#answer") == "8 fork 2 3\nrefused pidsmax /a/bc"
    b.type("#query", "refused /a")
    assert (b.text("#path"), b.text("#found"), b.text("#refusals")) == ("/a", "nothing", "No refusals")
    assert b.run("return document.getElementById('refusals').disabled")


# ---- the focus


def test_the_focus_is_kept(shown):
    b = shown(31)
    assert b.text("#path") == "/batch/job"
    for control in ("#plot-it", "#group .pid[data-pid='31']", "#before", "#life a"):
        if control == "#life a":
            b.click("#group .pid[data-pid='31']")
        b.run("document.querySelector(arguments[0]).focus()", control)
        told = b.run(FOCUSED)
        b.press("left", "right", "b", "b")
        assert b.run(FOCUSED) == told and b.run("return document.activeElement.matches(arguments[0])", control), control
    b.run("document.querySelector('#plot-it').focus()")
    b.press("enter")
    assert b.texts("figcaption strong") == ["/batch", "/system/web", "/batch/job"] and b.run(FOCUSED) == "plot-it"
    b.run("document.querySelector('figcaption button').focus()")
    b.press("enter")
    assert (
        b.texts("figcaption strong") == ["/system/web", "/batch/job"] and b.run(FOCUSED) == "plots"
    ), "its place keeps the focus"
    b.run("document.querySelectorAll('figcaption button')[1].focus()")
    b.press("p")
    assert b.texts("figcaption strong") == ["/system/web"] and b.run(FOCUSED) == "plots"
    b.run("document.querySelector(`#group .pid[data-pid='30']`).focus()")
    b.press("home")
    assert b.run(FOCUSED) == "group", "a process that isn't there any more"
