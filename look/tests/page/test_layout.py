"""The page's layout in a real browser: widths from 400 to 1,600 pixels."""

import re

import pytest
from demo import demo
from support import deep_trace, pods_trace
from webdriver import Browser, is_there, row_of

pytestmark = pytest.mark.skipif(not is_there(), reason="chromium and chromedriver are missing")
WIDTHS = (400, 1000, 1400, 1600)


@pytest.fixture
def sized(browser, pages):
    """A page of a width."""

    def show(name, trace, width, link=""):
        browser.size(width)
        browser.open("about:blank")
        browser.open(pages(name, trace) + link)
        return browser

    yield show
    browser.size()
    assert browser.complaints() == []


# ---- narrow pages


@pytest.mark.parametrize("width", WIDTHS)
def test_details_and_plots_are_whole(sized, width):
    b = sized("demo", demo(), width, "#line=32")
    assert b.run("return document.documentElement.scrollWidth") <= width, "the page itself doesn't scroll sideways"
    for part in ("#group", "#plots svg"):
        b.run("document.querySelector(arguments[0]).scrollIntoView({ block: 'nearest' })", part)
        script = """const it = document.querySelector(arguments[0]), box = it.getBoundingClientRect();
            const inside = (x, y) => it.contains(document.elementFromPoint(x, y));
            return [box.height, inside(box.left + box.width / 2, box.top + 3), inside(box.left + 60, box.bottom - 12)]"""
        height, top, bottom = b.run(script, part)
        assert height > 90 and top and bottom, (part, height, top, bottom)
    assert b.run("return document.querySelector('#groups').getBoundingClientRect().height") > 250
    assert b.run("return document.querySelector('#list').clientHeight") > 100


def test_each_column_of_a_narrow_tree_can_be_reached(sized):
    b = sized("demo", demo(), 400, "#line=32")
    assert b.run("return document.querySelector('#tree .row').lastElementChild.getBoundingClientRect().width") > 60
    b.run("document.querySelector('#columns').scrollLeft = 1e4; document.querySelector('#groups').scrollIntoView()")
    script = """const [head, row] = document.querySelectorAll("#groups .row");
        return [head, row].map((one) => one.lastElementChild.getBoundingClientRect().right)"""
    assert all(300 < right <= 400 for right in b.run(script))


# ---- names

# Of each name: the width of its cell, and whether its first three and last eight letters are in sight.
NAMES = """
return [...document.querySelectorAll("#tree .row > .name")].map((cell) => {
  const box = cell.getBoundingClientRect(), start = cell.querySelector(".start"), last = cell.lastElementChild.firstChild;
  const seen = (text, from, to) => {
    const range = document.createRange();
    range.setStart(text, Math.max(0, from));
    range.setEnd(text, to);
    const part = range.getBoundingClientRect(), around = text.parentElement.getBoundingClientRect();
    return Math.min(part.right, around.right, box.right) - Math.max(part.left, around.left, box.left) >= part.width - 1;
  };
  return [cell.title, Math.round(box.width), seen(start.firstChild, 0, Math.min(1, start.firstChild.length)), seen(last, last.length - 8, last.length)];
})
"""


@pytest.mark.parametrize("name, trace", [("pods", pods_trace()), ("deep", deep_trace())])
def test_the_ends_of_names_are_shown_at_each_level(sized, name, trace):
    b = sized(name, trace, WIDTHS[0])
    for width in WIDTHS:
        b.size(width)
        names = b.run(NAMES)
        assert len(names) > 10
        for title, wide, first, last in names:
            assert (wide >= 200, first, last) == (True, True, True), (width, title, wide, first, last)


def test_deeper_names_are_indented_more(sized):
    b = sized("deep", deep_trace(), 1400)
    lefts = b.run(
        "return [...document.querySelectorAll('#tree .row .twist')].map((one) => one.getBoundingClientRect().left)"
    )
    assert len(lefts) > 10 and all(later > one + 1 for one, later in zip(lefts, lefts[1:]))


IS_WHOLE = "return [...document.querySelectorAll('#tree .start, #tree .end')].every((one) => one.scrollWidth <= one.clientWidth)"
WIDTH = "return document.querySelector('#tree .name').getBoundingClientRect().width"
HANDLE = "const box = document.getElementById('name-width').getBoundingClientRect(); return [box.left + box.width / 2, box.top + box.height / 2]"


def test_the_column_of_names_is_resized(sized):
    b = sized("pods", pods_trace(), 1400)
    before = b.run(WIDTH)
    x, y = b.run(HANDLE)
    b.drag(x, y, x + 60, y)
    assert abs(b.run(WIDTH) - before - 60) <= 1
    b.run("document.getElementById('name-width').focus()")
    moment = b.text("#moment")
    b.press("left")
    assert abs(b.run(WIDTH) - before - 36) <= 1 and b.text("#moment") == moment
    b.press("right", "right")
    assert abs(b.run(WIDTH) - before - 84) <= 1
    assert b.run("return Number(document.getElementById('name-width').ariaValueNow)") == round(b.run(WIDTH))
    assert not b.run(IS_WHOLE)
    b.press("end")
    assert b.run(IS_WHOLE) and b.run("return document.documentElement.scrollWidth") <= 1400
    assert b.run("return document.querySelector('#tree .row').lastElementChild.getBoundingClientRect().width") > 60
    b.press("home")
    assert b.run(WIDTH) == 160
    b.press("left")
    assert b.run(WIDTH) == 160, "it can't be narrower"
    x, y = b.run(HANDLE)
    b.drag(x, y, x - 150, y)
    assert b.run(WIDTH) == 160
    assert all(last for _, _, _, last in b.run(NAMES))


# ---- heads and lists


def test_the_button_of_the_groups_is_at_the_right_end(sized):
    b = sized("demo", demo(), WIDTHS[-1])
    ends = "return ['h2', '#before', null].map((one) => (one ? document.querySelector('#groups ' + one) : document.getElementById('groups'))"
    title, button, groups = b.run(ends + ".getBoundingClientRect().right)")
    assert title + 100 < button and groups - 20 < button < groups


def test_heads_are_above_their_columns(pages):
    """With scrollbars that take room."""
    script = """const [head, row] = ["#columns .head", "#tree .row:nth-child(4)"].map((one) => [...document.querySelector(one).children]);
        return head.map((one, at) => [one, row[at]].map((it) => (({ left, right }) => [left, right])(it.getBoundingClientRect())))"""
    b = Browser(scrollbars=True)
    try:
        b.open(pages("pods", pods_trace()))
        for width in WIDTHS:
            b.size(width, 600)
            assert b.run("const tree = document.getElementById('tree'); return tree.offsetWidth - tree.clientWidth") > 5
            for head, cell in b.run(script):
                assert abs(head[0] - cell[0]) <= 1 and abs(head[1] - cell[1]) <= 1, (width, head, cell)
    finally:
        b.close()


def test_a_list_that_is_cut_says_how_many_there_are(sized):
    many = (
        "mkdir /a\nwrite /a cgroup.procs 1\n"
        + "".join(f"fork 1 {pid}\n" for pid in range(1000, 1039))
        + "cat /a cgroup.procs\n"
    )
    b = sized("many", "mkdir /b\nfork 1 7\nwrite /b cgroup.procs 7\n" + many, WIDTHS[0])
    fits = "return [...document.querySelectorAll('#tree .row > span:last-child')].every((one) => one.scrollWidth <= one.clientWidth)"
    # at once, since the page may draw the row again between two scripts
    row = "const last = [...document.querySelectorAll('#tree .row')][1].lastElementChild;"
    row += "return [last.textContent, last.querySelectorAll('.pid').length]"
    shown_at = []
    for width in WIDTHS:
        b.size(width)
        assert b.until(lambda: b.run(fits)), width
        shown, pids = b.run(row)
        shown_at.append(pids)
        cut = re.fullmatch(r"(.*?) \.\. (\d+) more|(40) in all", shown)
        assert cut and (cut.group(3) or pids + int(cut.group(2)) == 40), (width, shown)
        assert row_of(b, "/b")[-1] == "7"
    assert max(shown_at) > min(shown_at), "a wide column has more of them"
    assert b.texts("#list .row.now .said") == ["40 lines"]
    assert len(b.text("#answer").split("\n")) == 42


# Of each row: its line, whether line and answer fit beside each other, whether the answer is cut, and its part of the row.
ANSWERS = """
const letter = document.querySelector("#list .number").getBoundingClientRect().width / 4;
return [...document.querySelectorAll("#list .row")].map((row) => {
  const [number, text, said] = row.children, room = row.clientWidth - 16;
  const fits = (4 + text.textContent.length + said.textContent.length) * letter + 24 <= room;
  return [text.textContent, fits, said.scrollWidth > said.clientWidth, said.offsetWidth / room];
})
"""


def test_an_answer_has_the_room_that_its_line_leaves(sized):
    for width in WIDTHS:
        rows = sized("demo", demo(), width, "#line=32").run(ANSWERS)
        assert ["fork 4 37", True, False] in [row[:3] for row in rows], width
        assert [row for row in rows if row[1] and row[2]] == []
    rows = sized("pods", pods_trace(), 400).run(ANSWERS)
    cut = [part for _, fits, is_cut, part in rows if is_cut and not fits]
    assert cut and min(cut) > 0.44


def test_a_short_line_is_whole_beside_a_long_answer(sized):
    cut = """return [...document.querySelectorAll("#list .row.refused")].map((row) => row.children[1])
      .map((text) => [text.textContent, text.scrollWidth > text.clientWidth])"""
    for width in WIDTHS:
        lines = sized("pods", pods_trace(), width).run(cut)
        assert lines and [line for line, is_cut in lines if is_cut] == [], width


def test_an_answer_that_is_cut_says_how_many_lines_it_has(sized):
    b = sized("few", "fork 1 2\nfork 1 3\ncat / cgroup.procs\ncat / cgroup.stat\n", 1400, "#line=3")
    assert b.texts("#list .said")[2:] == ["3 lines: | 1 | 2 | 3", "| nr_descendants 0 | nr_dying_descendants 0"]


# ---- without scripts


def test_without_scripts_a_sentence_says_so(browser, pages):
    b = browser
    try:
        b.cdp("Emulation.setScriptExecutionDisabled", value=True)
        b.open("about:blank")
        b.open(pages("demo", demo()))
        root = b.cdp("Accessibility.getFullAXTree")["nodes"]
        texts = [one["name"]["value"] for one in root if one.get("role", {}).get("value") == "StaticText"]
        assert any("runs no scripts" in text for text in texts), texts
        assert not [one for one in root if one.get("role", {}).get("value") in ("button", "slider", "tree")]
    finally:
        b.cdp("Emulation.setScriptExecutionDisabled", value=False)
