// What the page shows of a moment, and how its controls, keys and links get to another, without a browser. test_browser.py and its
// like have the same in a real one.
//   node --test look/tests/page/page.test.mjs
import assert from "node:assert";
import test from "node:test";
import { Element, observed } from "./document.mjs";
import { CURRENT, DATA, DEPTH, DESCENDANTS, LIMIT, LINES, LOCAL, PEAK, STEPS, TIMED, TOTAL, addresses, later, open, timers, window } from "./opened.mjs";

// ---- opening

test("the summary, the slider and the moment at first", async () => {
  const { at, moment } = await open(DATA);
  assert.deepStrictEqual([at("summary").textContent, at("slider").max, at("moment").textContent], ["12 commands, 2 refused, 1 kill, 2 groups", 12, "after 12 of 12"]);
  assert.deepStrictEqual([moment(), at("slider").value, at("slider").getAttribute("aria-valuetext"), at("path").textContent], [12, 12, "after 12 of 12", "/a"]);
  const one = await open({ ...DATA, lines: "mkdir /a", steps: [2, 0, 1], answer: [0], notes: {}, names: ["/", "a"], parents: [0, 0] });
  assert.strictEqual(one.at("summary").textContent, "1 command, 0 refused, 0 kills, 1 group");
  const none = await open({ ...DATA, lines: "", steps: [], answer: [], notes: {}, names: ["/"], parents: [0] });
  assert.deepStrictEqual([none.at("summary").textContent, none.at("moment").textContent, none.at("answer").textContent],
    ["0 commands, 0 refused, 0 kills, 0 groups", "after 0 of 0", "The start: the root, and process 1 in it."]);
});

test("a link to a moment, and the link that the page gives itself", async () => {
  for (const [hash, wanted, path] of [["#line=4", "after 4 of 12", "/a"], ["#before=4", "before 4 of 12", "/a"], ["#before=1", "before 1 of 12", "/a"], ["#before=6", "before 6 of 12", "/a/b"], ["#line=0", "after 0 of 12", "/"], ["#line=3", "after 3 of 12", "/"],
    ["#line=99", "after 12 of 12", "/a"], ["#line=7", "after 7 of 12", "/a"], ["#line=10", "after 10 of 12", "/a/b"], ["#LINE=4", "after 12 of 12", "/a"], ["#line=4 ", "after 12 of 12", "/a"],
    ["#line=1234567890", "after 12 of 12", "/a"], ["#line=000000004", "after 4 of 12", "/a"], ["#line=999999999", "after 12 of 12", "/a"], ["#before=", "after 12 of 12", "/a"], ["x#line=4", "after 12 of 12", "/a"]]) {
    const { at } = await open(DATA, hash);
    assert.deepStrictEqual([at("moment").textContent, at("path").textContent], [wanted, path], hash);
  }
  const { at, key } = await open(DATA, "#line=4");
  location.hash = "#before=6";
  window.dispatch("hashchange");
  assert.strictEqual(at("moment").textContent, "before 6 of 12");
  addresses.length = 0;
  key("ArrowRight");
  key("ArrowRight");
  assert.deepStrictEqual([addresses, later.size, [...later.values()][0].after], [[], 1, 250], "the last one alone, after a quarter of a second");
  [...later.values()][0].act();
  key("b");
  [...later.values()].at(-1).act();
  assert.deepStrictEqual(addresses, ["#before=8", "#line=8"]);
});

test("a link is followed from the moment that is shown, not from the last address", async () => {
  const { at, key, search } = await open(DATA, "#line=3");
  search("2");
  addresses.length = 0;
  key("ArrowRight");
  at("life").querySelector("a").bubble("click");
  assert.deepStrictEqual([addresses, later.size], [["#line=4"], 0], "the address is the moment's before the browser follows the link");
  at("list").bubble("click");
  assert.strictEqual(addresses.length, 1, "other clicks are no links");
});

test("the time of a moment", async () => {
  const { at, key } = await open(TIMED, "#line=3");
  assert.strictEqual(at("moment").textContent, "after 3 of 12, at 0.750000 s");
  key("Home");
  assert.strictEqual(at("moment").textContent, "after 0 of 12, at 0.000000 s");
});

// ---- commands and their answers

test("the rows of commands", async () => {
  const { rows, texts } = await open(DATA, "#line=8");
  assert.deepStrictEqual(texts("list"), LINES.map((line, at) => [
    String(at + 1), line, ...(at === 7 ? ["# one too many"] : []),
    { 7: "✗ refused pidsmax /a", 9: "| nr_descendants 0 | nr_dying_descendants 0", 11: "✗ refused haschildren /a" }[at] ?? "ok",
  ]));
  assert.deepStrictEqual(rows("list").map((row) => row.className), LINES.map((_, at) => ({ 7: "row refused now", 11: "row refused" }[at] ?? "row")));
  assert.deepStrictEqual(rows("list").map((row) => row.ariaSelected), LINES.map((_, at) => String(at === 7)));
  assert.deepStrictEqual(rows("list")[8].children.map((one) => one.className), ["number", "text kill", "said"]);
  assert.deepStrictEqual(rows("list")[7].children.map((one) => one.className), ["number", "text", "text note", "said"]);
  // four letters for the number at least, and two for the gap after each text
  assert.deepStrictEqual([0, 7].map((at) => rows("list")[at].style["--letters"]), [String(4 + 8 + 2), String(4 + 8 + 2 + 14 + 2)]);
  assert.strictEqual(rows("list")[0].role, "option");
  assert.deepStrictEqual([...new Set(rows("list").map((row) => [row.tag, ...row.children.map((one) => one.tag)].join(" ")))], ["div span span span", "div span span span span"]);
  const many = await open({ ...DATA, lines: Array(10000).fill("exit 9").join("\n"), answer: Array(10000).fill(0), steps: Array(10000).fill(0), notes: {} }, "#line=10000");
  assert.deepStrictEqual(many.rows("list").slice(-2).map((row) => row.style["--letters"]), [String(4 + 6 + 2), String(5 + 6 + 2)], "a number of five digits");
  const { texts: short } = await open({ ...DATA, answers: ["ok", "ok\n5", "ok\n| 1\n| 2\n| 3", "ok\n1234"] }, "#line=1");
  assert.deepStrictEqual([7, 9, 11].map((at) => short("list")[at].at(-1)), ["5 lines", "3 lines: | 1 | 2 | 3", "1,234 lines"]);
  const ten = ["ok", ...Array.from({ length: 10 }, (_, at) => `| ${at}`)].join("\n");
  const { texts: cut } = await open({ ...DATA, answers: ["ok", ten, ten, ten] }, "#line=1");
  assert.strictEqual(cut("list")[7].at(-1), "10 lines: | 0 | 1 | 2 | 3 | 4 | 5 | 6 | 7 | 8");
});

test("the whole answer", async () => {
  const { at, key } = await open(DATA, "#line=10");
  assert.strictEqual(at("answer").textContent, "10 cat /a/b cgroup.stat\nok\n| nr_descendants 0\n| nr_dying_descendants 0");
  assert.strictEqual(at("answer").querySelectorAll("span")[0].className, "yes");
  key("ArrowLeft");
  assert.strictEqual(at("answer").textContent, "9 write /a cgroup.kill 1\nok");
  key("ArrowLeft");
  assert.deepStrictEqual([at("answer").textContent, at("answer").querySelectorAll("span")[0].className], ["8 fork 2 5\nrefused pidsmax /a", "refused"]);
});

test("the row of the line is the one that a screen reader is told of, and in sight", async () => {
  const { at, key } = await open(DATA, "#line=8", 88), told = () => at("list").getAttribute("aria-activedescendant");
  // four of twelve rows have room
  assert.deepStrictEqual([told(), at("list").scrollTop], ["list-7", 7 * 22 - 44]);
  key("ArrowRight");
  assert.deepStrictEqual([told(), at("list").scrollTop], ["list-8", 8 * 22 - 44]);
  key("ArrowRight");
  assert.deepStrictEqual([told(), at("list").scrollTop], ["list-9", 9 * 22 - 44]);
  key("Home");
  assert.deepStrictEqual([told(), at("list").scrollTop], ["list-0", 0]);
});

test("a click on a command", async () => {
  const { at, rows, moment } = await open(DATA, "#line=10");
  rows("list")[4].children[1].bubble("click");
  assert.strictEqual(moment(), 5);
  at("list").bubble("click");
  assert.strictEqual(moment(), 5, "beside the rows");
});

// ---- moments

test("keys and buttons that move", async () => {
  const { at, key, click, moment } = await open(DATA, "#line=6");
  const wanted = [["ArrowLeft", 5], ["ArrowUp", 4], ["ArrowRight", 5], ["ArrowDown", 6], ["End", 12], ["ArrowRight", 12], ["PageUp", 0], ["ArrowLeft", 0], ["PageDown", 12], ["Home", 0], ["x", 0]];
  for (const [name, there] of wanted) {
    const { prevented } = key(name);
    assert.deepStrictEqual([moment(), prevented], [there, name !== "x"], name);
  }
  for (const [id, there] of [["next", 1], ["last", 12], ["back", 11], ["first", 0]]) click(id), assert.strictEqual(moment(), there, id);
  at("slider").value = "7";
  at("slider").dispatch("input");
  assert.deepStrictEqual([moment(), at("slider").value], [7, 7]);
  const long = await open({ ...DATA, lines: Array(60).fill("cat / cgroup.stat").join("\n"), answer: Array(60).fill(0), steps: Array(60).fill(0), notes: {} }, "#line=30");
  long.key("PageUp");
  const before = long.moment();
  long.key("PageDown");
  assert.deepStrictEqual([before, long.moment()], [10, 30]);
});

test("keys that belong to others", async () => {
  const { at, key, moment } = await open(DATA, "#line=6");
  for (const more of [{ ctrlKey: true }, { altKey: true }, { metaKey: true }]) assert.strictEqual(key("ArrowLeft", more).prevented, false);
  for (const [tag, type] of [["input", "search"], ["select", ""]]) key("ArrowLeft", { target: Object.assign(new Element(tag), { type }) });
  assert.strictEqual(moment(), 6);
  for (const tag of ["button", "a"]) {
    for (const name of [" ", "Enter"]) assert.strictEqual(key(name, { target: new Element(tag) }).prevented, false);
    key("ArrowLeft", { target: new Element(tag) });
  }
  assert.deepStrictEqual([moment(), timers.size], [4, 0]);
  key("ArrowLeft", { target: Object.assign(new Element("input"), { type: "range" }) });
  assert.strictEqual(moment(), 3, "of the slider a key is that of the page");
  key("/");
  assert.strictEqual(document.activeElement, at("query"));
});

test("the state before a line", async () => {
  const { at, key, click, texts } = await open(DATA, "#line=9");
  const told = () => [at("moment").textContent, at("when").textContent, at("before").ariaPressed, texts("tree").map((cells) => cells[2]).join()];
  assert.deepStrictEqual(told(), ["after 9 of 12", "Groups after this line", "false", "1 in all,0 / 3,0 / max"]);
  click("before");
  assert.deepStrictEqual(told(), ["before 9 of 12", "Groups before this line", "true", "4 in all,3 / 3,0 / max"]);
  assert.strictEqual(at("answer").textContent, "9 write /a cgroup.kill 1\nok");
  key("ArrowLeft");
  assert.deepStrictEqual(told(), ["before 8 of 12", "Groups before this line", "true", "4 in all,3 / 3,0 / max"]);
  key("b");
  assert.deepStrictEqual(told(), ["after 8 of 12", "Groups after this line", "false", "4 in all,3 / 3,0 / max"]);
  key("Home");
  key("b");
  assert.deepStrictEqual(told(), ["before 0 of 12", "Groups before this line", "true", "1 in all"]);
  key("ArrowRight");
  assert.deepStrictEqual(told(), ["before 1 of 12", "Groups before this line", "true", "1 in all"]);
  key("ArrowRight");
  assert.deepStrictEqual(told(), ["before 2 of 12", "Groups before this line", "true", "1 in all,0 / max"]);
});

test("what a line changes is marked, on both of its sides", async () => {
  const { key, rows } = await open(DATA, "#line=5"), marked = () => rows("tree").map((row) => [row.className, row.children.filter((one) => /\bwas\b/.test(one.className)).map((one) => one.textContent).join()]);
  assert.deepStrictEqual(marked(), [["row changed", "3 in all"], ["row changed chosen", "2 / 3,2"]]);
  const fresh = () => rows("tree").map((row) => row.querySelectorAll(".fresh").map((one) => one.textContent).join());
  assert.deepStrictEqual(fresh(), ["", "3"]);
  key("b");
  assert.deepStrictEqual([marked(), fresh()], [[["row changed", "2 in all"], ["row changed chosen", "1 / 3,1"]], ["", ""]]);
  key("b");
  key("ArrowRight");
  assert.deepStrictEqual(marked(), [["row", ""], ["row changed chosen", ""], ["row changed", ""]], "a group that is made");
  key("b");
  assert.deepStrictEqual(marked(), [["row", ""], ["row changed chosen", ""]], "and that isn't there before");
  key("ArrowLeft");
  key("ArrowLeft");
  assert.deepStrictEqual([fresh(), rows("tree").map((row) => row.lastElementChild.textContent)], [["", ""], ["12", ""]], "a process that will be moved");
  key("b");
  assert.deepStrictEqual(fresh(), ["", "2"]);
});

test("the tree says how deep it is", async () => {
  const { at, key } = await open(DATA, "#line=7");
  assert.strictEqual(at("tree").style["--deepest"], "2");
  key("Home");
  assert.strictEqual(at("tree").style["--deepest"], "1");
});

// ---- playing

const tick = () => [...timers.values()][0].act();

test("it plays forward and back, and stops at the ends", async () => {
  const { at, key, click, moment } = await open(DATA, "#line=10"), told = () => ["play", "play-back"].map((id) => [at(id).ariaPressed, at(id).textContent]);
  click("play");
  assert.deepStrictEqual([told(), [...timers.values()].map(({ each }) => each)], [[["true", "❚❚"], ["false", "◀\ufe0e"]], [100]]);
  tick();
  tick();
  assert.deepStrictEqual([moment(), timers.size], [12, 1]);
  tick();
  assert.deepStrictEqual([moment(), timers.size, told()], [12, 0, [["false", "▶\ufe0e"], ["false", "◀\ufe0e"]]]);
  key(" ", { shiftKey: true });
  tick();
  assert.deepStrictEqual([moment(), told()], [11, [["false", "▶\ufe0e"], ["true", "❚❚"]]]);
  key(" ");
  assert.deepStrictEqual([timers.size, told()[0][0], told()[1][0]], [1, "true", "false"], "the other way stops this one");
  key(" ");
  assert.strictEqual(timers.size, 0);
  click("play-back");
  for (let left = 11; left > 0; left--) tick();
  assert.deepStrictEqual([moment(), timers.size], [0, 1]);
  tick();
  assert.deepStrictEqual([moment(), timers.size, told()], [0, 0, [["false", "▶\ufe0e"], ["false", "◀\ufe0e"]]]);
  click("play");
  key("Escape");
  assert.deepStrictEqual([timers.size, told()[0][0]], [0, "false"]);
  key("Escape");
  assert.strictEqual(timers.size, 0);
});

test("at high speeds it goes several commands at a time", async () => {
  for (const [speed, each, step] of [["2", 500, 1], ["10", 100, 1], ["100", 40, 4], ["1000", 40, 40]]) {
    const { at, click, moment } = await open(DATA, "#line=0");
    at("speed").value = speed;
    click("play");
    assert.strictEqual([...timers.values()][0].each, each);
    tick();
    assert.strictEqual(moment(), Math.min(12, step), speed);
  }
});

test("another speed holds at once", async () => {
  const { at, click } = await open(DATA, "#line=6"), choose = (speed) => ((at("speed").value = speed), at("speed").dispatch("change"));
  const told = () => [...timers.values()].map(({ each }) => each);
  choose("100");
  assert.deepStrictEqual([told(), at("play").ariaPressed], [[], undefined], "it begins nothing");
  for (const [id, other] of [["play", "play-back"], ["play-back", "play"]]) {
    choose("10");
    click(id);
    choose("2");
    assert.deepStrictEqual([told(), at(id).ariaPressed, at(other).ariaPressed], [[500], "true", "false"]);
    click(id);
    assert.deepStrictEqual(told(), []);
  }
});

// ---- search

test("a search goes to the match at the moment, or the next one", async () => {
  const { at, key, click, rows, search } = await open(DATA, "#line=5");
  assert.deepStrictEqual(search("/a"), ["4 of 8", 6]);
  assert.deepStrictEqual(rows("list").map((row) => row.className.includes("hit")), LINES.map((line) => line.includes("/a")).map((is, at) => is || at === 7));
  assert.strictEqual(at("path").textContent, "/a");
  assert.deepStrictEqual(search("/a/b"), ["1 of 2", 6]);
  assert.strictEqual(at("path").textContent, "/a/b");
  assert.deepStrictEqual(search("kill"), ["1 of 1", 9]);
  assert.deepStrictEqual(search("mkdir"), ["1 of 2", 1], "from the start, if there is none behind");
  assert.deepStrictEqual(search("nothing of it"), ["nothing", 1]);
  assert.deepStrictEqual(search("  "), ["", 1]);
  assert.deepStrictEqual(search(" fork"), ["1 of 5", 3]);
  const found = [];
  for (const name of ["n", "n", "n", "n", "n", "N", "N"]) key(name), found.push(at("found").textContent);
  assert.deepStrictEqual(found, ["2 of 5", "3 of 5", "4 of 5", "5 of 5", "1 of 5", "5 of 5", "4 of 5"]);
  key("ArrowRight");
  assert.strictEqual(at("found").textContent, "– of 5");
  click("found-before");
  assert.strictEqual(at("found").textContent, "4 of 5");
  click("found-after");
  click("found-after");
  assert.strictEqual(at("found").textContent, "1 of 5");
  const { prevented } = at("search").dispatch("submit");
  assert.deepStrictEqual([prevented, at("found").textContent], [true, "2 of 5"]);
});

test("the only match can be gone to again", async () => {
  const { at, key, moment, search } = await open(DATA, "#line=1");
  assert.deepStrictEqual(search("kill"), ["1 of 1", 9]);
  for (const name of ["n", "N"]) {
    key("ArrowRight");
    assert.strictEqual(at("found").textContent, "– of 1");
    key(name);
    assert.deepStrictEqual([at("found").textContent, moment()], ["1 of 1", 9]);
  }
});

test("a search for a process shows its life", async () => {
  const { at, search } = await open(DATA, "#line=1"), rows = () => at("life").querySelectorAll("tr").map((row) => row.children.map((one) => one.textContent));
  assert.deepStrictEqual(search("2"), ["1 of 6", 3]);
  assert.deepStrictEqual([at("life").querySelector("h3").textContent, rows()],
    ["Process 2", [["line 3", "born /", "fork 1 2"], ["line 4", "moved /a", "write /a cgroup.procs 2"], ["line 9", "ended /a", "write /a cgroup.kill 1"]]]);
  assert.deepStrictEqual(at("life").querySelectorAll("a").map((one) => one.href), ["#line=3", "#line=4", "#line=9"]);
  search("1");
  assert.deepStrictEqual([rows(), at("life").querySelectorAll("a").map((one) => one.href)], [[["start", "born /", ""]], ["#line=0"]]);
  for (const pid of ["77", "1234567890"]) {
    search(pid);
    assert.strictEqual(at("life").textContent, `Process ${pid}There is no such process in this run.`);
  }
  const early = await open({ ...DATA, lines: "fork 1 2", steps: [3, 2, 2, 0], answer: [0], notes: {}, names: ["/"], parents: [0] });
  early.search("2");
  assert.deepStrictEqual(early.at("life").querySelectorAll("td").map((one) => one.textContent), ["line 1", "born /", "fork 1 2"]);
});

test("the refusals of a group", async () => {
  const { at, key, click, search, moment } = await open(DATA, "#line=2");
  assert.deepStrictEqual([at("path").textContent, at("refusals").textContent, at("refusals").disabled], ["/a", "First of 2 refusals", false]);
  click("refusals");
  assert.deepStrictEqual([moment(), at("query").value, at("found").textContent, at("path").textContent], [8, "refused /a", "1 of 2", "/a"]);
  key("n");
  key("r");
  assert.strictEqual(moment(), 8);
  assert.deepStrictEqual(search("refused  /a"), ["1 of 2", 8]);
  assert.deepStrictEqual(search("/a/b"), ["2 of 2", 10]);
  assert.deepStrictEqual([at("refusals").textContent, at("refusals").disabled], ["No refusals", true]);
  key("r");
  assert.deepStrictEqual([moment(), at("query").value], [10, "/a/b"]);
  const { at: once } = await open({ ...DATA, answer: [0, 0, 0, 0, 0, 0, 0, 1, 0, 2, 0, 0] }, "#line=2");
  assert.strictEqual(once("refusals").textContent, "First of 1 refusal");
});

// ---- the tree

test("groups are chosen and folded by clicks", async () => {
  const { at, rows, names, moment } = await open(DATA, "#line=7");
  assert.deepStrictEqual(names(), ["/", "/a", "/a/b"]);
  rows("tree")[2].children[2].bubble("click");
  assert.deepStrictEqual([at("path").textContent, rows("tree").map((row) => row.ariaSelected)], ["/a/b", ["false", "false", "true"]]);
  rows("tree")[1].querySelector(".twist").bubble("click");
  assert.deepStrictEqual([names(), at("path").textContent], [["/", "/a"], "/a/b"]);
  rows("tree")[1].querySelector(".twist").bubble("click");
  assert.deepStrictEqual(names(), ["/", "/a", "/a/b"]);
  rows("tree")[1].querySelector(".pid").bubble("click");
  assert.deepStrictEqual([at("path").textContent, at("life").querySelector("h3").textContent], ["/a/b", "Process 2"], "a click on a process shows it, and chooses no group");
  at("tree").bubble("click");
  assert.deepStrictEqual([at("path").textContent, moment()], ["/a/b", 7]);
});

test("keys in the tree", async () => {
  const { at, key, names, moment } = await open(DATA, "#line=7"), press = (name) => key(name, { target: at("tree") });
  const paths = ["ArrowDown", "ArrowDown", "ArrowUp", "ArrowUp", "ArrowUp"].map((name) => (press(name), at("path").textContent));
  assert.deepStrictEqual([paths, moment(), at("tree").getAttribute("aria-activedescendant")], [["/a/b", "/a/b", "/a", "/", "/"], 7, "tree-0"]);
  const { prevented, stopped } = press("Enter");
  assert.deepStrictEqual([names(), prevented, stopped], [["/"], true, true]);
  press("Enter");
  assert.deepStrictEqual(names(), ["/", "/a", "/a/b"]);
  press("ArrowLeft");
  assert.strictEqual(moment(), 6, "other keys are those of the page");
});

test("a group without groups below it does not fold", async () => {
  const { at, key, names, rows } = await open(DATA, "#line=5");
  key("Enter", { target: at("tree") });
  rows("tree")[1].querySelector(".twist").bubble("click");
  assert.strictEqual(at("path").textContent, "/a");
  rows("tree")[0].children[1].bubble("click");
  rows("tree")[1].querySelector(".twist").bubble("click");
  assert.strictEqual(at("path").textContent, "/a", "a click there chooses it");
  key("ArrowRight");
  assert.deepStrictEqual(names(), ["/", "/a", "/a/b"], "the groups that it gets are shown");
});

test("rows that are folded away open by the arrow keys, and by a click", async () => {
  const many = 60, name = (at) => `g${String(at).padStart(2, "0")}`;
  const wide = {
    ...DATA, lines: Array.from({ length: many }, (_, at) => `mkdir /${name(at)}`).join("\n"), names: ["/", ...Array.from({ length: many }, (_, at) => name(at))],
    parents: Array(many + 1).fill(0), notes: {}, answer: Array(many).fill(0), steps: Array.from({ length: many }, (_, at) => [2, 0, at + 1]).flat(),
  };
  const { at, key, names } = await open(wide, "#line=60", 22 * 80), press = (its) => key(its, { target: at("tree") });
  assert.deepStrictEqual([names().length, names().at(-1), at("path").textContent], [23, "▸ 39 more groups", "/g59"]);
  press("ArrowDown");
  assert.deepStrictEqual([names().length, at("path").textContent], [62, "/g59"], "there is nothing below the row");
  at("tree").children[0].children.at(-1).querySelector(".rest").bubble("click");
  assert.strictEqual(names().length, 23);
  at("tree").children[0].children.at(-1).querySelector(".rest").bubble("click");
  assert.deepStrictEqual([names().length, names().at(-1)], [62, "▾ fold these groups"]);
});

test("the arrow keys go on in the order of the rows where some are folded away", async () => {
  const below = Array.from({ length: 60 }, (_, at) => `g${String(at).padStart(2, "0")}`), names = ["a", ...below, "z"];
  const data = {
    ...DATA, lines: names.map((name, at) => `mkdir ${at > 0 && at < 61 ? "/a" : ""}/${name}`).join("\n"), names: ["/", ...names], notes: {}, answer: names.map(() => 0),
    parents: [0, 0, ...below.map(() => 1), 0], steps: names.flatMap((_, at) => [2, 0, at + 1]),
  };
  const up = await open(data, "#line=62", 22 * 80);
  assert.strictEqual(up.at("path").textContent, "/z");
  const after = (its, key) => (its.key(key, { target: its.at("tree") }), its.at("path").textContent);
  assert.deepStrictEqual([after(up, "ArrowUp"), after(up, "ArrowUp"), after(up, "ArrowDown"), after(up, "ArrowDown")], ["/a/g59", "/a/g58", "/a/g59", "/z"]);
  const down = await open(data, "#line=62", 22 * 80);
  down.rows("tree")[21].bubble("click");
  assert.deepStrictEqual([down.at("path").textContent, after(down, "ArrowDown"), after(down, "ArrowDown"), after(down, "ArrowUp")], ["/a/g19", "/a/g20", "/a/g21", "/a/g20"]);
});

test("the group that is chosen is in sight, and a step leaves the tree where it is", async () => {
  const below = Array.from({ length: 40 }, (_, at) => `g${at + 10}`);
  const data = {
    ...DATA, lines: below.map((name) => `mkdir /${name}`).join("\n"), names: ["/", ...below], notes: {}, answer: below.map(() => 0), parents: Array(41).fill(0),
    steps: below.flatMap((_, at) => [2, 0, at + 1]),
  };
  const { at, key, search } = await open(data, "#line=40", 220), tree = at("tree");
  // ten of 41 rows have room: the last is the end of the box
  assert.deepStrictEqual([at("path").textContent, tree.scrollTop, tree.getAttribute("aria-activedescendant")], ["/g49", 41 * 22 - 220, "tree-40"]);
  for (const top of [110, 0]) {
    tree.scrollTop = top;
    tree.dispatch("scroll");
    key("ArrowLeft");
    assert.strictEqual(tree.scrollTop, top);
  }
  search("/g30");
  assert.deepStrictEqual([at("path").textContent, tree.scrollTop], ["/g30", 0], "a search goes to a command");
  key("ArrowUp", { target: tree });
  assert.deepStrictEqual([at("path").textContent, tree.getAttribute("aria-activedescendant"), tree.scrollTop], ["/g29", "tree-20", 22 * 22 - 220], "the end of 22 rows");
});

test("a screen reader is told of the row of the chosen group, wherever a step puts it", async () => {
  const data = { ...DATA, lines: "mkdir /b\nmkdir /a\nrmdir /b", names: ["/", "b", "a"], parents: [0, 0, 0], notes: {}, answer: [0, 0, 0], steps: [2, 0, 1, 2, 0, 2, 2, 1, 1] };
  const { at, key } = await open(data, "#line=1"), told = () => at("tree").getAttribute("aria-activedescendant");
  const steps = ["ArrowRight", "ArrowRight", "ArrowLeft", "Home", "ArrowRight"].map((name) => (key(name), told()));
  assert.deepStrictEqual([at("path").textContent, steps], ["/b", ["tree-2", null, "tree-2", null, "tree-1"]]);
  at("tree").dispatch("scroll");
  assert.strictEqual(told(), "tree-1");
});

test("the details of a group", async () => {
  const { at, key, search, rows } = await open(DATA, "#line=8"), lines = () => at("group").querySelectorAll("tr").map((row) => row.children.map((one) => one.textContent));
  assert.deepStrictEqual(lines(), [["cgroup.procs", "234"], ["pids.max", "3"], ["pids.current", "3"], ["pids.peak", "3"], ["pids.events", "max 1"], ["pids.events.local", "max 1"],
    ["populated", "1"], ["cgroup.max.depth", "max"], ["cgroup.max.descendants", "max"], ["nr_descendants", "1"]]);
  assert.deepStrictEqual([at("group").querySelectorAll("button").map((one) => one.textContent), at("plot-it").hidden], [["2", "3", "4"], false]);
  at("group").querySelectorAll("button")[1].bubble("click");
  assert.strictEqual(at("life").querySelector("h3").textContent, "Process 3");
  rows("tree")[0].bubble("click");
  assert.deepStrictEqual([lines().map(([name]) => name), lines().at(-1), at("plot-it").hidden], [["cgroup.procs", "cgroup.max.depth", "cgroup.max.descendants", "nr_descendants"], ["nr_descendants", "2"], true]);
  search("/a/b");
  assert.deepStrictEqual([lines()[0], lines().find(([name]) => name === "populated")], [["cgroup.procs", ""], ["populated", "0"]]);
  key("Home");
  assert.deepStrictEqual([lines(), at("path").textContent], [[["There is no such group at this moment.", ""]], "/a/b"]);
  const steps = STEPS.map((step, at) => (at === 9 ? [7, DEPTH, 1, 4, 7, DESCENDANTS, 1, 5, 7, DEPTH, 0, 6, 7, DESCENDANTS, 0, 7] : step));
  const limited = await open({ ...DATA, steps: steps.flatMap((step) => [step.length, ...step]) }, "#line=10");
  const limits = () => limited.at("group").querySelectorAll("tr").map((row) => row.children.map((one) => one.textContent).join(" ")).filter((line) => /max\./.test(line));
  for (const [row, wanted] of [[1, ["4", "5"]], [0, ["6", "7"]]]) {
    limited.rows("tree")[row].bubble("click");
    assert.deepStrictEqual(limits(), [`cgroup.max.depth ${wanted[0]}`, `cgroup.max.descendants ${wanted[1]}`]);
  }
});

test("each of the details is its own number", async () => {
  for (const [current, populated] of [[2, "1"], [0, "0"]]) {
    const apart = [LIMIT, 9, CURRENT, current, PEAK, 5, TOTAL, 7, LOCAL, 6, DEPTH, 4, DESCENDANTS, 3];
    const sets = Array.from({ length: 7 }, (_, at) => [7, apart[2 * at], 1, apart[2 * at + 1]]).flat();
    const steps = STEPS.map((step, at) => (at === 9 ? sets : step));
    const { at, rows } = await open({ ...DATA, steps: steps.flatMap((step) => [step.length, ...step]) }, "#line=10");
    rows("tree")[1].bubble("click");
    const told = at("group").querySelectorAll("tr").slice(1).map((row) => row.children.map((one) => one.textContent));
    assert.deepStrictEqual(told, [["pids.max", "9"], ["pids.current", String(current)], ["pids.peak", "5"], ["pids.events", "max 7"], ["pids.events.local", "max 6"],
      ["populated", populated], ["cgroup.max.depth", "4"], ["cgroup.max.descendants", "3"], ["nr_descendants", "1"]]);
  }
});

test("the details have as many processes as two thousand letters", async () => {
  for (const [many, wanted] of [[400, 400], [401, 398]]) {
    const pids = Array.from({ length: many }, (_, at) => at + 1000), steps = [[0, 1], ...pids.map((pid) => [2, pid, 1])];
    const { at } = await open({ ...DATA, lines: steps.map(() => "x").join("\n"), answer: steps.map(() => 0), notes: {}, steps: steps.flatMap((step) => [step.length, ...step]) });
    const [, cell] = (at("tree").children[0].children[1].bubble("click"), at("group").querySelectorAll("tr")[0].children);
    assert.deepStrictEqual([cell.querySelectorAll("button").length, /more$/.test(cell.textContent)], [wanted, many > wanted], `${many} of four digits and a blank`);
  }
});

// ---- plots

test("plots of the busiest groups, and of those that are chosen", async () => {
  const { at, key, click, rows } = await open(DATA, "#line=7"), plotted = () => at("plots").querySelectorAll("strong").map((one) => one.textContent);
  assert.deepStrictEqual([plotted(), at("plot-it").textContent], [["/a"], "Remove the plot"]);
  assert.strictEqual(at("plots").querySelector("svg").getAttribute("viewBox"), "0 0 400 108");
  const cursor = () => at("plots").querySelectorAll(".cursor").map((one) => one.getAttribute("d"));
  assert.deepStrictEqual(cursor(), ["M245.5 8V92"], "seven of twelve commands on 342 pixels after 46");
  key("Home");
  assert.deepStrictEqual(cursor(), ["M46 8V92"]);
  key("End");
  key("ArrowLeft");
  key("ArrowLeft");
  rows("tree")[2].bubble("click");
  assert.strictEqual(at("plot-it").textContent, "Plot");
  key("p");
  assert.deepStrictEqual([plotted(), at("plot-it").textContent], [["/a", "/a/b"], "Remove the plot"]);
  click("plot-it");
  assert.deepStrictEqual(plotted(), ["/a"]);
  at("plots").querySelector("button").onclick();
  assert.match(at("plots").textContent, /press p to plot/);
  rows("tree")[0].bubble("click");
  key("p");
  assert.deepStrictEqual(plotted(), [], "the root has no pids.current");
  rows("tree")[1].bubble("click");
  key("p");
  at("plots").clientWidth = 824;
  window.dispatch("resize");
  assert.deepStrictEqual([plotted(), at("plots").querySelector("svg").getAttribute("viewBox"), cursor()], [["/a"], "0 0 800 108", ["M664.3333333333334 8V92"]]);
});

test("at first the two busiest groups are plotted", async () => {
  const names = ["a", "b", "c"], arrivals = [1, 2, 2, 3, 3, 3], steps = [...names.map((_, at) => [0, at + 1]), ...arrivals.map((group, at) => [2, at + 2, group])];
  const { at } = await open({
    ...DATA, lines: steps.map(String).join("\n"), names: ["/", ...names], parents: [0, 0, 0, 0], notes: {}, answer: steps.map(() => 0),
    steps: steps.flatMap((step) => [step.length, ...step]),
  });
  assert.deepStrictEqual(at("plots").querySelectorAll("strong").map((one) => one.textContent), ["/c", "/b"]);
});

// ---- widths

test("the column of processes has as many letters as have room", async () => {
  const { at, rows } = await open(DATA, "#line=8"), head = at("columns").querySelector(".head").lastElementChild;
  const shown = () => rows("tree")[1].lastElementChild.textContent;
  assert.strictEqual(shown(), "234");
  head.clientWidth = 8 * 5;
  observed.filter(([element]) => element === head).at(-1)[1]();
  assert.strictEqual(shown(), "3 in all");
  head.clientWidth = 8 * 6;
  observed.filter(([element]) => element === head).at(-1)[1]();
  assert.strictEqual(shown(), "234");
});

test("the column of names is as wide as the longest name", async () => {
  const { at, rows } = await open(DATA, "#line=8");
  at("name-width").dispatch("keydown", { key: "End" });
  // the name b of the second level: two letters for each level, three for the sign, eight pixels each, and eight beside it
  assert.deepStrictEqual([at("groups").style["--name"], rows("tree").length], ["160px", 3]);
  const name = "a".repeat(40), long = await open({ ...DATA, lines: `mkdir /${name}`, steps: [2, 0, 1], answer: [0], notes: {}, names: ["/", name], parents: [0, 0] });
  long.at("name-width").dispatch("keydown", { key: "End" });
  assert.strictEqual(long.at("groups").style["--name"], `${(2 + 3 + 40) * 8 + 8}px`);
});
