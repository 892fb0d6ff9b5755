"""What the page says of a small run, text by text, in a real browser."""

import pytest
from webdriver import is_there, row_of

pytestmark = pytest.mark.skipif(not is_there(), reason="chromium and chromedriver are missing")

SHORT, LONG = "abcdefghijklmnop", "abcdefghijklmnopq"  # of 16 and 17 letters
TRACE = (
    f"mkdir /{SHORT}\nmkdir /{LONG}\nfork 1 2\nwrite /{SHORT} cgroup.procs 2\nwrite /{SHORT} pids.max 1\nfork 2 3\ncat / cgroup.procs\n"
    f"cat /{SHORT} cgroup.events\nrmdir /{LONG}\nwrite /{SHORT} cgroup.kill 1\n"
)


@pytest.fixture
def opened(browser, pages):
    def show(moment, name="texts", trace=TRACE):
        browser.open("about:blank")
        browser.open(pages(name, trace) + f"#line={moment}")
        return browser

    yield show
    assert browser.complaints() == []


def choose(b, name):
    b.run(
        "[...document.querySelectorAll('#tree .row')].find((one) => one.firstChild.title === arguments[0]).click()",
        name,
    )


def details(b):
    pairs = b.run(
        "return [...document.querySelectorAll('#group tr')].map((row) => [...row.cells].map((one) => one.textContent.trim()))"
    )
    return [tuple(pair) for pair in pairs]


@pytest.mark.parametrize(
    "trace, summary",
    [
        ("# nothing\n", "0 commands, 0 refused, 0 kills, 0 groups"),
        ("mkdir /a\n", "1 command, 0 refused, 0 kills, 1 group"),
        ("mkdir /a\nmkdir /a\nwrite /a cgroup.kill 1\n", "3 commands, 1 refused, 1 kill, 1 group"),
        ("mkdir /a\n" + "cat /a pids.max\n" * 1199, "1,200 commands, 0 refused, 0 kills, 1 group"),
        (TRACE, "10 commands, 1 refused, 1 kill, 2 groups"),
    ],
)
def test_the_summary(opened, trace, summary):
    b = opened(1, summary.replace(",", "").replace(" ", "-"), trace)
    assert b.text("#summary") == summary


def test_what_is_said_of_each_group(opened):
    b = opened(6)
    labels = b.run("return [...document.querySelectorAll('#tree .row')].map((one) => one.ariaLabel)")
    assert labels == [
        "/: 2 processes in all",
        f"{SHORT}: pids.current 1, pids.max 1, pids.peak 1, refused here 1, in all 1",
        f"{LONG}: pids.current 0, pids.max max, pids.peak 0, refused here 0, in all 0",
    ]
    assert row_of(b, "/")[2:] == ["", "2 in all", "", "", "", "1"]
    assert row_of(b, f"/{SHORT}")[2:] == ["", "1 / 1", "1", "● yes", "1 / 1", "2"]
    assert row_of(b, f"/{LONG}")[2:] == ["", "0 / max", "0", "○ no", "0 / 0", ""]
    refused = "return [...document.querySelectorAll('#tree .number-cell.refused')].map((one) => one.textContent)"
    assert b.run(refused) == ["1 / 1"]
    parts = "return [...document.querySelectorAll('#tree .name')].map((one) => ['start', 'end'].map((part) => one.querySelector('.' + part)?.textContent ?? null))"
    assert b.run(parts) == [["/", None], [SHORT, None], [LONG[:5], LONG[5:]]]
    peaks = "return [...document.querySelectorAll('#tree .bar')].map((one) => [one.className, one.querySelectorAll('i').length])"
    assert b.run(peaks) == [["bar full", 1], ["bar free", 0]]


def test_the_details_of_a_group(opened):
    b = opened(6)
    assert b.text("#path") == f"/{SHORT}" and details(b) == [
        ("cgroup.procs", "2"),
        ("pids.max", "1"),
        ("pids.current", "1"),
        ("pids.peak", "1"),
        ("pids.events", "max 1"),
        ("pids.events.local", "max 1"),
        ("populated", "1"),
        ("cgroup.max.depth", "max"),
        ("cgroup.max.descendants", "max"),
        ("nr_descendants", "0"),
    ]
    assert (b.text("#refusals"), b.text("#plot-it")) == ("First of 1 refusal", "Remove the plot")
    choose(b, "/")
    rest = [("cgroup.max.depth", "max"), ("cgroup.max.descendants", "max"), ("nr_descendants", "2")]
    assert details(b) == [("cgroup.procs", "1"), *rest] and b.text("#refusals") == "No refusals"
    assert b.run("return document.getElementById('plot-it').hidden && document.getElementById('refusals').disabled")
    choose(b, f"/{LONG}")
    assert ("populated", "0") in details(b) and ("cgroup.procs", "") in details(b) and b.text("#plot-it") == "Plot"
    b.press("end")
    assert b.text("#group") == "There is no such group at this moment." and b.text("#path") == f"/{LONG}"
    b.press("home")
    assert b.text("#group") == "There is no such group at this moment."


@pytest.mark.parametrize(
    "moment, answer",
    [
        (0, "The start: the root, and process 1 in it."),
        (1, f"1 mkdir /{SHORT}\nok"),
        (6, f"6 fork 2 3\nrefused pidsmax /{SHORT}"),
        (7, "7 cat / cgroup.procs\nok\n| 1"),
        (8, f"8 cat /{SHORT} cgroup.events\nok\n| populated 1\n| frozen 0"),
    ],
)
def test_the_answer_to_a_line(opened, moment, answer):
    b = opened(moment)
    assert b.text("#answer") == answer and b.text("#moment") == f"after {moment} of 10"
    colour = "const it = document.querySelector('#answer span'); return it ? it.className : ''"
    assert b.run(colour) == ("" if moment == 0 else "refused" if moment == 6 else "yes")


def test_each_line_with_its_answer(opened):
    b = opened(1)
    said = b.texts("#list .said")
    assert said == ["ok"] * 5 + [f"✗ refused pidsmax /{SHORT}", "| 1", "| populated 1 | frozen 0", "ok", "ok"]
    assert b.texts("#list .number") == [str(number) for number in range(1, 11)]
    assert b.texts("#list .kill") == [f"write /{SHORT} cgroup.kill 1"] and b.texts("#list .row.refused .text") == [
        "fork 2 3"
    ]


def test_what_a_line_changes_is_marked(opened):
    b = opened(1)
    changed = "return [...document.querySelectorAll('#tree .row.changed')].map((one) => one.firstChild.title)"
    was = "return [...document.querySelectorAll('#tree .was')].map((one) => one.textContent)"
    for moment, groups, numbers in (
        (1, ["/", f"/{SHORT}"], []),
        (3, ["/"], ["2 in all"]),
        (4, ["/", f"/{SHORT}"], ["1 / max", "1"]),
        (5, [f"/{SHORT}"], ["1 / 1"]),
        (6, [f"/{SHORT}"], ["1 / 1"]),
        (7, [], []),
        (10, ["/", f"/{SHORT}"], ["1 in all", "0 / 1"]),
    ):
        b.run(f"location.hash = 'line={moment}'")
        assert b.until(lambda at=moment: b.text("#moment") == f"after {at} of 10")
        assert (b.run(changed), b.run(was)) == (groups, numbers), moment


def test_lives(opened):
    b = opened(0)
    life = (
        "return [...document.querySelectorAll('.life tr')].map((row) => [...row.cells].map((one) => one.textContent))"
    )
    b.type("#query", "1")
    assert b.text("#life h3") == "Process 1" and b.run(life) == [["start", "born /", ""]]
    b.type("#query", "99")
    assert b.text("#life") == "Process 99There is no such process in this run."
    b.type("#query", "2")
    assert [row[:2] for row in b.run(life)] == [
        ["line 3", "born /"],
        ["line 4", f"moved /{SHORT}"],
        ["line 10", f"ended /{SHORT}"],
    ]


def test_the_tip_of_a_plot(opened):
    b = opened(4)
    box = "const box = document.querySelector('figure svg').getBoundingClientRect(); return [box.left, box.top, box.width, box.height]"
    left, top, width, height = b.run(box)
    # from 46 to 12 pixels before the end there are moments 0 to 10
    tips = []
    for moment in (0, 2, 4, 8):
        b.point(left + 46 + (width - 58) * moment / 10, top + height / 2)
        tips.append(b.text("#tip"))
    assert tips == [
        "start\nno such group",
        f"2  mkdir /{LONG}\nok\npids.current 0, pids.max max",
        f"4  write /{SHORT} cgroup.procs 2\nok\npids.current 1, pids.max max",
        f"8  cat /{SHORT} cgroup.events\nok\npids.current 1, pids.max 1",
    ]
    b.point(left + 46 + (width - 58) * 3 / 10, top + height / 2, click=True)
    assert b.text("#moment") == "after 3 of 10"
    keys = b.texts("figcaption .key")
    assert keys[:5] == ["pids.current", "pids.max", "pids.peak", "refused fork", "kill"]
    assert b.texts("svg text[text-anchor=middle]")[:6] == ["0", "2", "4", "6", "8", "10"]


def test_a_comma_is_beside_its_key(opened):
    b = opened(1)
    script = """return [...document.querySelectorAll("footer kbd")].filter((one) => /^[,.]/.test(one.nextSibling?.data ?? "")).map((one) => {
      const range = document.createRange();
      range.setStart(one.nextSibling, 0);
      range.setEnd(one.nextSibling, 1);
      return range.getBoundingClientRect().left - one.getBoundingClientRect().right;
    })"""
    gaps = b.run(script)
    assert len(gaps) >= 1 and max(gaps) <= 1, gaps
