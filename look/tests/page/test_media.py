"""The page as it is for other eyes, on other screens and on paper: forced colours, low and narrow screens, large letters, print."""

import base64
import re
import zlib

import pytest
from demo import demo
from support import pods_trace
from webdriver import Browser, is_there

pytestmark = pytest.mark.skipif(not is_there(), reason="chromium and chromedriver are missing")


@pytest.fixture
def media(browser, pages):
    """The demo's page with features of a medium, and of a size."""

    def show(features=(), size=(0, 900), kind="", link="#line=32"):
        browser.cdp(
            "Emulation.setEmulatedMedia",
            media=kind,
            features=[{"name": name, "value": value} for name, value in features],
        )
        browser.size(*size)
        browser.open("about:blank")
        browser.open(pages("demo", demo()) + link)
        return browser

    yield show
    browser.cdp("Emulation.setEmulatedMedia", media="", features=[])
    browser.size()
    assert browser.complaints() == []


def colours(b, *selectors):
    """Of the first element of each: its background."""
    return [
        b.run("return getComputedStyle(document.querySelector(arguments[0])).backgroundColor", one) for one in selectors
    ]


# ---- what looks alike, and what doesn't

# Of each pair of a selector and a property: its value for the first element; `::before` may follow the selector.
LOOKS = """
return arguments[0].map(([selector, property]) => {
  const [element, part] = selector.split("::");
  return getComputedStyle(document.querySelector(element), part ? "::" + part : null).getPropertyValue(property);
});
"""


@pytest.mark.parametrize("scheme", ["light", "dark"])
def test_a_key_has_the_colour_and_the_line_of_what_it_names(media, scheme):
    b = media([("prefers-color-scheme", scheme)], link="#line=42")
    kinds = [
        [
            ("svg .current", "stroke"),
            (".key-current::before", "border-top-color"),
            ("#tree .bar:not(.full) > b", "background-color"),
        ],
        [("svg .limit", "stroke"), (".key-limit::before", "border-top-color")],
        [
            ("svg .peak", "stroke"),
            (".key-peak::before", "border-top-color"),
            ("#tree .bar > i", "background-color"),
            (".head .peak-key", "background-color"),
        ],
        [
            ("svg .mark-refused", "fill"),
            (".key-refused::before", "border-top-color"),
            ("#list .refused .said", "color"),
        ],
        [("svg .mark-kill", "stroke"), (".key-kill::before", "border-left-color"), ("#list .kill", "color")],
    ]
    found = [set(b.run(LOOKS, kind)) for kind in kinds]
    assert [len(one) for one in found] == [1] * 5 and len(set.union(*found)) == 5, found
    lines = [("svg .current", "stroke-dasharray"), (".key-current::before", "border-top-style")]
    assert b.run(LOOKS, lines) == ["none", "solid"]
    dashes = b.run(LOOKS, [("svg .limit", "stroke-dasharray"), ("svg .peak", "stroke-dasharray")])
    assert "none" not in dashes and dashes[0] != dashes[1]
    assert b.run(LOOKS, [(".key-limit::before", "border-top-style"), (".key-peak::before", "border-top-style")]) == [
        "dashed",
        "dotted",
    ]
    assert b.run(LOOKS, [(f"svg .{kind}", "fill") for kind in ("current", "limit", "peak")]) == ["none"] * 3
    # a full bar has the colour of the limit
    b.run("location.hash = 'line=32'")
    assert b.until(lambda: b.run("return document.querySelector('#tree .bar.full') !== null"))
    full, limit = b.run(LOOKS, [("#tree .bar.full > b", "background-color"), ("svg .limit", "stroke")])
    assert full == limit
    assert b.run(LOOKS, [("#tree .bar.free", "border-top-style"), ("#tree .bar.full", "border-top-style")]) == [
        "dashed",
        "solid",
    ]


@pytest.mark.parametrize("scheme", ["light", "dark"])
def test_each_kind_of_row_has_a_ground_of_its_own(media, scheme):
    b = media([("prefers-color-scheme", scheme)])
    b.type("#query", "fork 4")
    rows = [
        "#list .row.now",
        "#list .row.hit:not(.now)",
        "#list .row:not(.hit, .now)",
        "#tree .row.changed",
        "#tree .row:not(.changed)",
    ]
    grounds = colours(b, "body", *rows)
    assert grounds[3] == grounds[5] == "rgba(0, 0, 0, 0)", "the page's"
    assert len({*grounds}) == 5, grounds
    shadows = b.run(
        LOOKS,
        [(one, "box-shadow") for one in ("#list .row.now", "#tree .row.chosen", rows[1], "#tree .row:not(.chosen)")],
    )
    assert shadows[0] == shadows[1] != "none" and shadows[2:] == ["none", "none"]
    b.run("location.hash = 'line=33'")
    assert b.until(lambda: b.run("return document.querySelector('#tree .was') !== null"))
    plain, was = b.run(
        LOOKS, [("#tree .number-cell:not(.was)", "text-decoration-line"), ("#tree .was", "text-decoration-line")]
    )
    assert (plain, was) == ("none", "underline"), "a number that the command changes"
    yes, no = b.run(LOOKS, [("#tree .yes", "color"), ("#summary", "color")])
    assert yes != no


def test_what_can_be_clicked_shows_it_and_what_is_long_is_cut_or_scrolls(media):
    b = media(link="#line=42")
    b.run("document.getElementById('refusals').disabled = true")
    hands = [
        (one, "cursor") for one in ("#before", "#tree .twist", "#tree .pid", "#refusals", "#list .row", "#name-width")
    ]
    assert b.run(LOOKS, hands) == ["pointer", "pointer", "pointer", "default", "default", "col-resize"]
    cut = ("#list .text", "#list .said", "#tree .start", "#tree .row > span:last-child")
    assert {*b.run(LOOKS, [(one, "text-overflow") for one in cut])} == {"ellipsis"}
    assert {*b.run(LOOKS, [(one, "overflow-x") for one in cut])} == {"hidden"}
    scrolls = ("#list", "#tree", "#answer", "#more", "#plots")
    assert {*b.run(LOOKS, [(one, "overflow-y") for one in scrolls])} == {"auto"}
    assert {*b.run(LOOKS, [(one, "white-space-collapse") for one in ("#answer", "#tip")])} == {"preserve"}
    assert {*b.run(LOOKS, [(one, "overflow-wrap") for one in ("h1", "#answer", "#more h3", "#tip", "figcaption")])} == {
        "anywhere"
    }
    numbers = ("#tree .number-cell", "#moment")
    assert {*b.run(LOOKS, [(one, "font-variant-numeric") for one in numbers])} == {"tabular-nums"}
    assert {*b.run(LOOKS, [(one, "text-align") for one in (*numbers, "#list .number")])} == {"right"}
    assert all(
        "monospace" in it
        for it in b.run(LOOKS, [(one, "font-family") for one in ("#list", "#answer", "#tree", "#tip")])
    )
    assert b.run(LOOKS, [("#tip", "position"), ("#tip", "pointer-events")]) == [
        "fixed",
        "none",
    ], "it hides no mark from the pointer"


# ---- forced colours


@pytest.mark.parametrize("scheme", ["light", "dark"])
def test_bars_are_visible_in_forced_colours(media, scheme):
    b = media([("forced-colors", "active"), ("prefers-color-scheme", scheme)])
    assert b.run("return matchMedia('(forced-colors: active)').matches")
    back, bar, peak, key = colours(b, "body", "#tree .bar > b", "#tree .bar > i", ".head .peak-key")
    assert back not in (bar, peak) and bar != peak and key == peak
    # the colours above are those of the style, which the browser replaces unless it is told not to
    kept = "return getComputedStyle(document.querySelector(arguments[0]), arguments[1]).forcedColorAdjust"
    for selector, part in (
        ("#tree .bar > b", None),
        ("#tree .bar > i", None),
        (".head .peak-key", None),
        (".key", "::before"),
    ):
        assert b.run(kept, selector, part) == "none", selector
    assert b.run("return document.querySelector('#tree .bar > b').getBoundingClientRect().width") > 10
    outlines = "return [...document.querySelectorAll(arguments[0])].map((row) => getComputedStyle(row).outlineStyle)"
    assert b.run(outlines, "#list .row.now, #tree .row.chosen") == ["solid", "solid"]
    assert "solid" not in b.run(outlines, "#list .row:not(.now), #tree .row:not(.chosen)")
    b.click("#before")
    pressed, plain = colours(b, "#before", "#refusals")
    assert pressed not in (plain, back)
    borders = "return [...document.querySelectorAll('#tree .row')].map((row) => [row.classList.contains('changed'), getComputedStyle(row).borderLeftStyle])"
    assert {tuple(it) for it in b.run(borders)} == {(True, "double"), (False, "none")}
    grid = b.run(LOOKS, [(".grid", "stroke-dasharray"), (".grid", "stroke"), ("body", "color")])
    assert grid[0] == "1px, 5px" and grid[1] != grid[2], "its lines are weaker than those of a plot"


# ---- low and narrow screens

COVERED = """
const nav = document.querySelector("nav").getBoundingClientRect(), height = Math.min(nav.bottom, innerHeight) - Math.max(nav.top, 0);
return Math.max(0, height) / innerHeight
"""


@pytest.mark.parametrize("size", [(320, 256), (640, 400), (1280, 256)])
def test_on_a_low_screen_the_controls_do_not_cover_what_they_control(media, size):
    b = media(size=size)
    b.run("document.getElementById('groups').scrollIntoView()")
    assert b.run("return document.getElementById('groups').getBoundingClientRect().top") < 5
    assert b.run(COVERED) == 0
    assert b.run("return document.documentElement.scrollWidth") <= size[0]
    for part in ("#answer", "#tree", "#group", "#plots svg"):
        b.run("document.querySelector(arguments[0]).scrollIntoView({ block: 'start' })", part)
        script = """const it = document.querySelector(arguments[0]), box = it.getBoundingClientRect();
            return [box.height, it.contains(document.elementFromPoint(box.left + 60, box.top + 4))]"""
        height, is_seen = b.run(script, part)
        assert height > 60 and is_seen, part


@pytest.mark.parametrize("size", [(400, 900), (1000, 900)])
def test_on_a_high_screen_the_controls_stay(media, size):
    b = media(size=size)
    b.run("document.getElementById('groups').scrollIntoView()")
    assert 0 < b.run(COVERED) < 0.25


# ---- large letters

OVERLAPS = """
const rows = [...document.querySelectorAll("#list .row, #tree .row")].map((row) => [row.parentElement.parentElement.id, row.getBoundingClientRect()]);
return rows.some(([id, box], at) => at > 0 && rows[at - 1][0] === id && Math.abs(rows[at - 1][1].bottom - box.top) > 0.5)
"""
IS_CUT = """
return [...document.querySelectorAll("#list .row, #tree .row")].some((row) => [...row.children].some((it) => it.scrollHeight > row.clientHeight + 1))
"""


@pytest.mark.parametrize("letters, tall", [(16, 22), (20, 27.5), (32, 44)])
def test_letters_of_another_size(pages, letters, tall):
    """That a person has set in the browser: rows are as high as their letters need, and none covers the next one."""
    b = Browser(letters=letters)
    try:
        b.open(pages("pods", pods_trace()))
        assert b.run("return getComputedStyle(document.body).fontSize") == f"{letters * 0.875:g}px"
        assert b.run("return document.querySelector('#tree .row').getBoundingClientRect().height") == tall
        assert not b.run(OVERLAPS) and not b.run(IS_CUT)
        assert b.run("return document.documentElement.scrollWidth") <= 1400
        b.run("document.getElementById('tree').scrollTop = 1e5; document.getElementById('list').scrollTop = 0")
        assert b.until(lambda: b.run("return document.querySelector('#list .row').dataset.at") == "0")
        ends = """const box = document.getElementById("tree").getBoundingClientRect();
            return [...document.querySelectorAll("#tree .row")].at(-1).getBoundingClientRect().bottom - box.bottom"""
        assert b.until(lambda: abs(b.run(ends)) < 1), "the last row is the end of what can be scrolled"
        assert b.complaints() == []
    finally:
        b.close()


# ---- on paper


def printed(b):
    """The texts of a print's drawing operators, and its pages."""
    paper = base64.b64decode(b.cdp("Page.printToPDF", printBackground=False, preferCSSPageSize=True)["data"])
    return paper, len(re.findall(rb"/Type\s*/Page\b", paper))


def fills(paper):
    """The colours that are filled on its pages, as three hundredths."""
    found = set()
    for stream in re.findall(rb"stream\r?\n(.*?)endstream", paper, re.S):
        try:
            text = zlib.decompress(stream)
        except zlib.error:
            continue
        for rgb in re.findall(rb"([\d.]+) ([\d.]+) ([\d.]+) rg\b", text):
            found.add(tuple(round(float(it) * 255) for it in rgb))
    return found


@pytest.mark.parametrize("scheme", ["light", "dark"])
def test_paper_has_bars_and_no_controls(media, scheme):
    """Also where a browser leaves out backgrounds, and from a dark page."""
    b = media([("prefers-color-scheme", scheme)])
    paper, pages = printed(b)
    assert 1 <= pages <= 3
    assert {(0x2F, 0x6F, 0xC4), (0xC0, 0x39, 0x2B)} <= fills(paper), "the bars of a page on a light ground"
    assert (0x14, 0x17, 0x1A) not in fills(paper)
    b = media([("prefers-color-scheme", scheme)], kind="print")
    hidden = "return arguments[0].filter((one) => [...document.querySelectorAll(one)].some((it) => it.getClientRects().length > 0))"
    assert b.run(hidden, ["nav", "footer", "#search", "#before", "#refusals", "figcaption button", "#name-width"]) == []
    shown = "return arguments[0].filter((one) => ![...document.querySelectorAll(one)].some((it) => it.getClientRects().length > 0))"
    assert (
        b.run(shown, ["h1", "#summary", "#list .row.now", "#answer", "#tree .row.chosen", "#group table", "#plots svg"])
        == []
    )
    assert b.run("return getComputedStyle(document.body).color") == "rgb(22, 25, 29)"
    exact = "return ['#tree .bar > b', '#plots svg'].map((one) => getComputedStyle(document.querySelector(one)).printColorAdjust)"
    assert b.run(exact) == ["exact", "exact"], "an economical printer leaves out no bar"
    assert not b.run(OVERLAPS)
    whole = "return ['list', 'tree', 'answer', 'plots'].filter((id) => { const it = document.getElementById(id); return it.scrollHeight > it.clientHeight + 1; })"
    assert b.run(whole) == [], "nothing is cut"


# ---- the style

# What the page shows only after a choice: a life of a process, a tip at a mark, a list that is cut.
AFTER_A_CHOICE = {"#more a", ".life", ".name > .end", ".rest", ".sample"}
# The selectors of the style that nothing on the page has now.
UNUSED = r"""
const all = (rules) => [...rules].flatMap((it) => (it.media ? all(it.cssRules) : it.selectorText ? it.selectorText.split(",") : []));
const states = /:(focus-visible|hover|disabled)|::[a-z-]+/g;
return all(document.styleSheets[0].cssRules).map((it) => it.replace(states, "").trim()).filter((it) => it && !document.querySelector(it));
"""


def test_each_rule_of_the_style_is_of_something_on_the_page(media):
    b = media()
    b.type("#query", "batch")
    b.click("#before")
    unused = set(b.run(UNUSED))
    for line in range(1, int(b.run("return document.getElementById('slider').max")) + 1):
        b.run("location.hash = '#line=' + arguments[0]", line)
        unused &= set(b.run(UNUSED))
    assert unused == AFTER_A_CHOICE
