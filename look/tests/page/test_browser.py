"""The page in a real browser: headless Chromium, by its driver."""

import re
import time

import pytest
from demo import demo
from support import HOSTILE, long_trace, wide_trace
from webdriver import is_there, moment, row_of

pytestmark = pytest.mark.skipif(not is_there(), reason="chromium and chromedriver are missing")


# ---- opening, stepping, playing


def test_it_opens(shown):
    b = shown(32)
    assert b.run("return document.title") == "demo.trace" and b.text("h1") == "demo.trace"
    assert b.text("#summary") == "47 commands, 4 refused, 1 kill, 5 groups"
    assert b.text("#moment") == "after 32 of 47, at 0.790000 s"
    assert b.text("#answer") == "32 fork 4 37\nrefused pidsmax /batch"
    assert row_of(b, "/batch")[2:] == ["", "8 / 8", "8", "● yes", "1 / 1", ""]
    assert row_of(b, "/system/db")[2:] == ["", "3 / max", "3", "● yes", "0 / 0", "32021"]
    assert b.run("return getComputedStyle(document.querySelector('#list .refused .said')).color") != b.run(
        "return getComputedStyle(document.querySelector('#list .row:not(.refused) .said')).color"
    )
    assert b.run("return document.querySelector('#list .row.now').dataset.at") == "31"


def test_it_opens_at_the_end_without_a_link(browser, pages):
    browser.open("about:blank")
    browser.open(pages("demo", demo()))
    assert moment(browser) == 47
    browser.open("about:blank")
    browser.open(pages("empty", "# nothing\n"))
    assert browser.text("#moment") == "after 0 of 0" and browser.text("#answer").startswith("The start")
    assert browser.complaints() == []


def test_it_steps_by_keys_clicks_and_the_slider(shown):
    b = shown(32)
    b.press("left")
    assert moment(b) == 31 and row_of(b, "/batch")[3:] == ["8 / 8", "8", "● yes", "0 / 0", ""]
    b.press("right", "right")
    assert moment(b) == 33
    b.press("home")
    assert moment(b) == 0 and row_of(b, "/batch") is None
    b.press("page down", "down", "up", "down")
    assert moment(b) == 21
    b.press("end", "page up")
    assert moment(b) == 27
    b.click("#list .row[data-at='25'] .text")
    assert moment(b) == 26 and b.text("#answer") == "26 fork 4 31\nok"
    b.run(
        "const slider = document.getElementById('slider'); slider.value = 5; slider.dispatchEvent(new Event('input'))"
    )
    assert moment(b) == 5
    b.run("document.getElementById('slider').focus()")
    b.press("right")
    assert moment(b) == 6, "one key is one step, also on the slider"
    for button, wanted in (("last", 47), ("back", 46), ("next", 47), ("first", 0)):
        b.click(f"#{button}")
        assert moment(b) == wanted
    assert b.until(lambda: b.run("return location.hash") == "#line=0")


def test_it_plays_and_plays_back(shown):
    b = shown(40)
    b.run("document.getElementById('speed').value = '100'")
    b.press(" ")
    plays = "return ['play', 'play-back'].map((id) => document.getElementById(id).ariaPressed)"
    assert b.until(lambda: moment(b) == 47 and b.run(plays) == ["false", "false"]), "it stops at the end"
    b.press(" ", held="shift")
    assert b.until(lambda: moment(b) < 30)
    b.press("escape")
    stopped = moment(b)
    time.sleep(0.3)
    assert moment(b) == stopped
    b.click("#play-back")
    assert b.until(lambda: moment(b) == 0 and b.run(plays) == ["false", "false"])
    b.run(
        "document.getElementById('speed').value = '2'"
    )  # so slowly that it doesn't reach the end before the second click
    b.click("#play")
    assert b.until(lambda: moment(b) > 1)
    b.click("#play")
    stopped = moment(b)
    time.sleep(0.6)
    assert 1 < moment(b) == stopped < 47


def test_a_link_to_a_moment(shown):
    b = shown(12)
    assert moment(b) == 12
    b.run("location.hash = 'line=42'")
    assert b.until(lambda: moment(b) == 42)
    assert row_of(b, "/batch")[3] == "0 / 8"
    b.run("location.hash = 'line=999999'")
    assert b.until(lambda: moment(b) == 47)


# ---- the tree


def test_what_the_last_command_changed_is_marked(shown):
    b = shown(25)
    assert b.text("#answer") == "25 fork 4 30\nok"
    changed = b.run("return [...document.querySelectorAll('#tree .row.changed')].map((one) => one.firstChild.title)")
    assert changed == ["/", "/batch", "/batch/job"]
    assert b.texts("#tree .pid.fresh") == ["30"]
    assert b.texts("#tree .was") == ["16 in all", "2 / 8", "2", "2 / max", "2"]
    b.press("left", "left")
    assert b.run("return [...document.querySelectorAll('#tree .row.changed')].map((one) => one.firstChild.title)") == [
        "/",
        "/system",
        "/system/db",
    ]


def test_bars_and_peaks(shown):
    b = shown(42)
    bar = """const bar = [...document.querySelectorAll("#tree .row")].find((one) => one.firstChild.title === arguments[0]).children[1];
        const whole = bar.clientWidth;
        return [bar.className, Math.round(100 * bar.querySelector("b").offsetWidth / whole), Math.round(100 * (bar.querySelector("i").offsetLeft + 2) / whole)]"""
    kind, fill, peak = b.run(bar, "/system/web")
    assert (kind, abs(fill - 44) <= 2, abs(peak - 63) <= 3) == ("bar", True, True), (fill, peak)
    assert b.run(bar, "/batch")[:2] == ["bar", 0]
    assert b.run(bar, "/system/db")[0] == "bar free"
    b.press("left")
    assert b.run(bar, "/batch")[0] == "bar" and b.run(bar, "/batch")[1] in (86, 87, 88, 89)
    assert shown(32).run(bar, "/batch")[:2] == ["bar full", 100]


def test_groups_are_folded_and_chosen(shown):
    b = shown(32)
    b.click("#tree .row[data-at='1'] .twist")
    assert row_of(b, "/batch/job") is None and row_of(b, "/batch") is not None
    b.click("#tree .row[data-at='1'] .twist")
    assert row_of(b, "/batch/job") is not None
    b.run("document.getElementById('tree').focus()")
    b.press("down")
    assert b.text("#path") == "/batch/job"
    b.press("up", "enter")
    assert b.text("#path") == "/batch" and row_of(b, "/batch/job") is None and moment(b) == 32
    b.press("enter")
    assert b.texts("#group td")[:6] == ["cgroup.procs", "", "pids.max", "8", "pids.current", "8"]
    assert b.texts("figcaption strong") == ["/batch", "/system/web"]
    b.press("p")
    assert b.texts("figcaption strong") == ["/system/web"]


def test_a_thousand_siblings_are_folded(browser, pages):
    b = browser
    b.open("about:blank")
    b.open(pages("wide", wide_trace()))
    rows = "return document.querySelector('#tree > div').clientHeight / 22"
    assert b.run(rows) == 1 + 20 + 1 + 1, "the root, the first twenty, the changed one, the rest"
    assert row_of(b, "/g0777")[3] == "1 / max" and b.texts("#tree .rest") == ["▸ 979 more groups"]
    b.run("document.querySelector('#tree .rest').click()")
    assert b.run(rows) == 1002
    assert b.run("return document.querySelectorAll('#tree .row').length") < 80, "only rows in sight are drawn"
    b.run("document.getElementById('tree').scrollTop = 1e9")
    assert b.until(lambda: b.texts("#tree .rest") == ["▾ fold these groups"])
    b.run("document.querySelector('#tree .rest').click()")
    assert b.run(rows) == 23
    assert b.complaints() == []


# ---- search, lives


def test_search_by_group_pid_and_word(shown):
    b = shown(0)
    b.type("#query", "/batch")
    assert (b.text("#found"), moment(b), b.text("#path")) == ("1 of 11", 4, "/batch")
    b.click("#found-after")
    assert (b.text("#found"), moment(b)) == ("2 of 11", 5)
    b.click("#found-before")
    b.click("#found-before")
    assert (b.text("#found"), moment(b)) == ("11 of 11", 44)
    b.type("#query", "hasprocesses")
    assert (b.text("#found"), moment(b)) == ("1 of 1", 46)
    b.type("#query", "no such thing")
    assert b.text("#found") == "nothing"
    b.type("#query", "32")
    assert b.text("#found") == "1 of 2"
    b.press("tab", "n")
    assert (b.text("#found"), moment(b)) == ("2 of 2", 42), "a process that was killed is found at the kill"
    b.press("home", "/")
    assert b.run("return document.activeElement.id") == "query"
    b = shown(33)
    b.type("#query", "pidsmax")
    assert (b.text("#found"), moment(b)) == ("2 of 3", 33), "the next match is that of the moment, or after it"


def test_a_processs_life(shown):
    b = shown(0)
    b.type("#query", "4")
    life = b.run(
        "return [...document.querySelectorAll('.life tr')].map((row) => [...row.cells].map((one) => one.textContent))"
    )
    assert life == [
        ["line 12", "born /", "fork 1 4"],
        ["line 13", "moved /batch/job", "write /batch/job cgroup.procs 4"],
        ["line 42", "ended /batch/job", "write /batch cgroup.kill 1"],
    ]
    b.click(".life a[href='#line=13']")
    assert b.until(lambda: moment(b) == 13)
    b.click("#tree .pid[data-pid='2']")
    assert b.text("#life h3") == "Process 2"


# ---- plots


def test_plots_have_marks_and_tell_the_command(shown):
    b = shown(20)
    assert b.texts("figcaption strong") == ["/batch", "/system/web"]
    assert b.run(
        "return [document.querySelectorAll('.mark-refused').length, document.querySelectorAll('.mark-kill').length]"
    ) == [3, 1]
    box = "const box = document.querySelector(arguments[0]).getBoundingClientRect(); return [box.left + box.width / 2, box.top + box.height / 2]"
    x, y = b.run(box, ".mark-refused")
    b.point(x, y)
    assert b.text("#tip") == "32  fork 4 37\nrefused pidsmax /batch\npids.current 8, pids.max 8\nat 0.79 s"
    x, y = b.run(box, ".mark-kill")
    b.point(x, y)
    assert b.text("#tip").startswith("42  write /batch cgroup.kill 1\nok\npids.current 0")
    b.point(x, y, click=True)
    assert moment(b) == 42
    b.point(5, 5)
    assert b.run("return document.getElementById('tip').hidden")
    b.click("figcaption button")
    b.click("figcaption button")
    assert "press p" in b.text("#plots")
    b.run("document.querySelector('#tree').focus()")
    b.press("up", "p")
    assert b.texts("figcaption strong") == ["/system/db"]


def test_without_times_the_axis_is_the_number_of_the_line(browser, pages):
    browser.open("about:blank")
    browser.open(pages("plain", re.sub("#.*\n", "", demo())) + "#line=32")
    assert browser.text("#moment") == "after 32 of 47"
    ticks = browser.texts("svg text[text-anchor=middle]")
    assert ticks[:3] == ["0", "10", "20"] and browser.complaints() == []


def test_a_limit_far_above_the_processes_is_not_drawn(browser, pages):
    """It would flatten the rest, or be outside of the plot. Once it is near, it is drawn."""
    trace = "mkdir /a\nwrite /a pids.max 1000\nfork 1 2\nwrite /a cgroup.procs 2\nfork 2 3\n"
    lines = "return [...document.querySelectorAll('svg .limit, svg .current')].map((one) => one.getAttribute('d'))"
    browser.open("about:blank")
    browser.open(pages("far", trace))
    assert ["", True] == [line and True for line in browser.run(lines)]
    browser.open("about:blank")
    browser.open(pages("near", trace + "write /a pids.max 7\nfork 2 4\n"))
    limit, current = browser.run(lines)
    heights = [float(y) for y in re.findall(r"(?:M[0-9.]+ |V)([0-9.-]+)", limit)]
    assert current and heights and all(0 <= y <= 108 for y in heights), limit


# ---- what one may rely on


def test_names_are_shown_as_written(browser, pages):
    b = browser
    b.open("about:blank")
    b.open(pages("hostile", HOSTILE))
    assert b.run(
        "return [window.hacked === undefined, document.scripts.length, document.querySelectorAll('img').length]"
    ) == [True, 2, 0]
    names = b.run(
        "return [...document.querySelectorAll('#tree .row > span:first-child')].map((one) => one.textContent.replace(/[▸▾\\u00a0]/g, ''))"
    )
    assert sorted(names) == sorted(
        ["/", "<script>", "&quot;", "<img", '"onload=hacked=1', "@DATA@", "$&", "__proto__", "constructor"]
    )
    b.press("home")
    assert "</script><script>window.hacked = 1</script>" in b.text("#list") and "\\u202e" in b.text("#list")
    for query in ("/__proto__", "/constructor", "/<script>/&quot;", "__proto__", "</script>"):
        b.type("#query", query)
        assert re.match(r"\d+ of \d", b.text("#found")), query
    b.type("#query", "/<script>/&quot;")
    b.click("#last")
    assert b.text("#path") == "/<script>/&quot;" and row_of(b, "/<script>/&quot;")[3] == "1 / 0"
    assert b.complaints() == []


def test_no_global_names_and_no_network(browser, pages, tmp_path):
    b = browser
    (tmp_path / "empty.html").write_text("<!DOCTYPE html><title>empty</title>")
    b.open((tmp_path / "empty.html").as_uri())
    names = set(b.run("return Object.getOwnPropertyNames(window)"))
    b.open("about:blank")
    b.open(pages("demo", demo()) + "#line=32")
    more = {
        name
        for name in set(b.run("return Object.getOwnPropertyNames(window)")) - names
        if not name.startswith(("cdc_", "$cdc"))
    }
    assert more == set()
    assert b.run("return performance.getEntriesByType('resource').length") == 0
    assert (
        b.run("return fetch('http://127.0.0.1:9/').then(() => 'went', (error) => error.constructor.name)")
        == "TypeError"
    )
    assert any("Content Security Policy" in message for message in b.complaints())


CONTRAST = """
const light = (colour) => {
  const [r, g, b] = colour.match(/[\\d.]+/g).slice(0, 3).map((one) => one / 255).map((one) => (one <= 0.04045 ? one / 12.92 : ((one + 0.055) / 1.055) ** 2.4));
  return 0.2126 * r + 0.7152 * g + 0.0722 * b;
};
const behind = (element) => {
  for (let at = element; at; at = at.parentElement) {
    const colour = getComputedStyle(at).backgroundColor;
    if (!/, 0\\)$/.test(colour)) return colour;
  }
  return "rgb(255, 255, 255)";
};
const found = [];
for (const element of document.querySelectorAll("body *:not(script):not(option):not(select)")) {
  if (element.namespaceURI.endsWith("svg") || ![...element.childNodes].some((one) => one.nodeType === 3 && one.data.trim()) || !element.offsetParent) continue;
  const [a, b] = [light(getComputedStyle(element).color), light(behind(element))], ratio = (Math.max(a, b) + 0.05) / (Math.min(a, b) + 0.05);
  if (ratio < 4.5) found.push(`${element.tagName} ${element.className} ${element.textContent.slice(0, 20)} ${ratio.toFixed(2)}`);
}
return [document.querySelectorAll("body *").length, found];
"""


@pytest.mark.parametrize("is_dark", [False, True])
def test_text_has_contrast(shown, is_dark):
    b = shown(32)
    try:
        b.dark(is_dark)
        for line in (32, 42, 25, 46):
            b.run(f"location.hash = 'line={line}'")
            assert b.until(lambda at=line: moment(b) == at)
            b.type("#query", "refused" if line == 32 else "30")
            elements, found = b.run(CONTRAST)
            assert elements > 200 and found == []
        dark = b.run("return getComputedStyle(document.body).backgroundColor")
        assert dark == ("rgb(20, 23, 26)" if is_dark else "rgb(255, 255, 255)")
    finally:
        b.dark(False)


def test_everything_can_be_reached_by_the_keyboard(shown):
    b = shown(22)
    seen = []
    for _ in range(40):
        b.press("tab")
        seen.append(
            b.run("const it = document.activeElement; return it.id || it.className || it.title || it.textContent")
        )
        assert b.run(
            "return document.activeElement === document.body || getComputedStyle(document.activeElement).outlineWidth"
        ) in (True, "3px")
    for wanted in (
        "query",
        "found-after",
        "first",
        "play-back",
        "last",
        "speed",
        "slider",
        "list",
        "before",
        "name-width",
        "tree",
        "refusals",
        "plot-it",
        "pid",
        "Remove this plot",
    ):
        assert wanted in seen, (wanted, seen)


def test_roles_and_names(shown):
    b = shown(32)
    assert b.run("return document.getElementById('list').getAttribute('aria-activedescendant')") == "list-31"
    assert b.run("return [...document.querySelectorAll('#list [aria-selected=true]')].map((one) => one.id)") == [
        "list-31"
    ]
    assert b.run("return document.querySelector('#tree .row[data-at=\"2\"]').ariaLevel") == "3"
    assert b.run("return document.querySelector('#tree .row[data-at=\"1\"]').ariaExpanded") == "true"
    assert b.run("return document.getElementById('slider').getAttribute('aria-valuetext')").startswith("after 32 of 47")
    assert (
        b.run(
            "return [...document.querySelectorAll('button, input, select')].filter((one) => !one.title && !one.labels?.length && !one.ariaLabel && !one.textContent).length"
        )
        == 0
    )


# ---- size and speed


def test_a_trace_of_100000_lines(browser, pages, tmp_path):
    """Times of the page's thread, so that other work on the machine doesn't count."""
    b, address = browser, pages("long", long_trace(100000))
    (tmp_path / "empty.html").write_text("<!DOCTYPE html><title>empty</title>")
    b.open((tmp_path / "empty.html").as_uri())
    b.cdp("Performance.enable", timeDomain="threadTicks")
    before = b.busy()
    b.open(address + "#line=50000")
    opening = b.busy() - before
    assert moment(b) == 50000 and len(b.texts("figure")) == 2
    before = b.busy()
    b.run(
        """const slider = document.getElementById("slider");
        for (let at = 1; at <= 60; at++) {
          slider.value = (at * 61819) % 100001;
          slider.dispatchEvent(new Event("input"));
          document.body.offsetHeight;
        }"""
    )
    moving = (b.busy() - before) / 60
    wall = b.run("return performance.getEntriesByType('navigation')[0].domContentLoadedEventEnd")
    print(
        f"100,000 lines: opens in {opening:.3f} s of its thread ({wall / 1000:.3f} s), moves in {moving * 1000:.1f} ms"
    )
    assert 0.02 < opening < 2 and 0.0001 < moving < 0.05
    assert b.complaints() == []
