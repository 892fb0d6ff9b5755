"""Which key does what on the page, and where a key belongs to the control that has the focus, in a real browser."""

import pytest
from demo import demo
from support import pods_trace
from webdriver import is_there, moment

pytestmark = pytest.mark.skipif(not is_there(), reason="chromium and chromedriver are missing")
FOCUS = "document.querySelector(arguments[0]).focus()"
VALUE = "return document.getElementById('query').value"
PRESSED = "return ['before', 'play', 'play-back'].filter((id) => document.getElementById(id).ariaPressed === 'true')"


@pytest.mark.parametrize(
    "keys, wanted",
    [
        (["left"], 31),
        (["up"], 31),
        (["right"], 33),
        (["down"], 33),
        (["page up"], 12),
        (["page down"], 47),
        (["home"], 0),
        (["end"], 47),
        (["end", "right"], 47),
        (["home", "left"], 0),
        (["home", "page down"], 20),
        (["n"], 32),
        (["x"], 32),
        (["p", "b", "b"], 32),
    ],
)
def test_a_key_moves_so_far(shown, keys, wanted):
    b = shown(32)
    b.run("document.activeElement.blur()")
    b.press(*keys)
    assert moment(b) == wanted and b.run(PRESSED) == []


@pytest.mark.parametrize("held", ["control", "alt"])
def test_a_key_with_another_one_is_the_browsers(shown, held):
    b = shown(32)
    for key in ("b", "n", "p", "r", "end"):
        b.press(key, held=held)
    assert moment(b) == 32 and b.run(PRESSED) == [] and len(b.texts("figcaption strong")) == 2
    assert b.run(VALUE) == ""


def test_keys_in_the_search_are_letters(shown):
    b = shown(32)
    b.run(FOCUS, "#query")
    b.press("~", "n", "N", "p", "b", "r", "/", " ", "x")
    assert b.run(VALUE) == "~nNpbr/ x" and moment(b) == 32 and b.run(PRESSED) == []
    b.press("home", "left", "up", "page up")
    assert moment(b) == 32 and b.text("#found") == "nothing"


def test_keys_of_a_list_of_choices_are_its_own(shown):
    b = shown(32)
    b.run(FOCUS, "#speed")
    b.press("down")
    assert b.run("return document.getElementById('speed').value") == "100" and moment(b) == 32
    b.press("home")
    assert b.run("return document.getElementById('speed').value") == "2" and moment(b) == 32


def test_a_key_on_a_button_presses_the_button_alone(shown):
    b = shown(30)
    b.run(FOCUS, "#next")
    b.press(" ")
    assert moment(b) == 31 and b.run(PRESSED) == []
    b.press("enter")
    assert moment(b) == 32 and b.run(PRESSED) == []
    b.run(FOCUS, "#before")
    b.press(" ")
    assert b.run(PRESSED) == ["before"]
    b.press(" ")
    b.press("left")
    assert moment(b) == 31, "other keys are those of the page"


def test_a_match_before_and_after_by_keys(shown):
    b = shown(20)
    b.type("#query", "pidsmax")
    b.run("document.activeElement.blur()")
    found = [b.text("#found")]
    for key in ("n", "n", "n", "N", "N", "N"):
        b.press(key)
        found.append(b.text("#found"))
    assert found == [f"{at} of 3" for at in (1, 2, 3, 1, 3, 2, 1)]
    b.press("right", "right", "right")
    assert b.text("#found") == "– of 3"
    b.run(FOCUS, "#query")
    b.press("enter")
    assert b.text("#found") == "1 of 3", "after the last match comes the first"


def test_keys_without_an_effect(shown):
    b = shown(0)
    b.run("document.activeElement.blur()")
    b.press("p", "r", "n", "N")
    assert moment(b) == 0 and len(b.texts("figcaption strong")) == 2 and b.text("#found") == ""
    b.press("escape")
    assert b.run(PRESSED) == []


def test_keys_in_the_tree(shown):
    b = shown(32)
    b.run(FOCUS, "#tree")
    paths = []
    for _ in range(8):
        b.press("up")
        paths.append(b.text("#path"))
    assert paths[-1] == "/" and moment(b) == 32, "the first row stays chosen"
    paths = []
    for _ in range(8):
        b.press("down")
        paths.append(b.text("#path"))
    assert paths == ["/batch", "/batch/job", "/system", "/system/db", "/system/web"] + ["/system/web"] * 3
    assert b.run("return document.getElementById('tree').getAttribute('aria-activedescendant')") == "tree-5"
    b.press("left")
    assert moment(b) == 31, "other keys are those of the page"


def test_the_width_of_names_by_enter_and_a_double_click(browser, pages):
    b = browser
    b.open("about:blank")
    b.open(pages("pods", pods_trace()))
    width = "return document.querySelector('#tree .name').getBoundingClientRect().width"
    first = b.run(width)
    b.run(FOCUS, "#name-width")
    b.press("end")
    longest = b.run(width)
    b.press("home", "enter")
    assert b.run(width) == longest > first
    b.press("home")
    b.run("document.getElementById('name-width').dispatchEvent(new MouseEvent('dblclick', { bubbles: true }))")
    assert b.run(width) == longest
    for _ in range(3):
        before = b.run(width)
        b.press("right")
        assert b.run(width) == min(1600, before + 24)
    b.run(
        "for (let i = 0; i < 100; i++) document.getElementById('name-width').dispatchEvent(new KeyboardEvent('keydown', { key: 'ArrowRight' }))"
    )
    assert b.run(width) == 1600, "it can't be wider"
    assert b.complaints() == []


@pytest.mark.parametrize(
    "hash, wanted",
    [
        ("#line=7", "after 7 of"),
        ("#before=7", "before 7 of"),
        ("#line=-7", "after 47"),
        ("#other=7", "after 47"),
        ("#line=7x", "after 47"),
    ],
)
def test_a_link_opens_at_its_moment(browser, pages, hash, wanted):
    browser.open("about:blank")
    browser.open(pages("demo", demo()) + hash)
    assert browser.text("#moment").startswith(wanted) and browser.complaints() == []


def test_a_long_answer_scrolls_by_keys(browser, pages):
    """Once Tab has reached it. The keys that scroll nothing are the page's."""
    b = browser
    forks = "".join(f"fork 1 {pid}\n" for pid in range(2, 102))
    b.open("about:blank")
    b.open(pages("hundred", forks + "cat / cgroup.procs\n") + "#line=101")
    b.run(FOCUS, "#list")
    b.press("tab")
    assert b.run("return document.activeElement.id") == "answer"
    top = "return document.getElementById('answer').scrollTop"
    end = b.run("const it = document.getElementById('answer'); return it.scrollHeight - it.clientHeight")
    for key, is_reached in (
        ("down", lambda at: 10 < at),
        ("page down", lambda at: 90 < at),
        ("end", lambda at: at > end - 1),
        ("up", lambda at: at < end - 10),
        ("page up", lambda at: at < end - 90),
        ("home", lambda at: at == 0),
        (" ", lambda at: 50 < at),
    ):
        b.press(key)
        assert b.until(lambda: is_reached(b.run(top))), key
    assert moment(b) == 101 and b.run(PRESSED) == []
    b.press("left")
    assert moment(b) == 100
    b.press("down")
    assert moment(b) == 101, "an answer that is whole has nothing to scroll"
    assert b.complaints() == []
