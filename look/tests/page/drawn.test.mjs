// What the parts of the page draw, element by element: plots, rows of the tree, lists, widths. test_browser.py and its like have
// the same in a real browser, with a layout.
//   node --test look/tests/page/drawn.test.mjs
import assert from "node:assert";
import test from "node:test";
import { Element, observed } from "./document.mjs";

const folder = new URL("../../page/", import.meta.url);
const { LIMIT, LOCAL, PEAK, TOTAL, Run, treeRows } = await import(new URL("state.mjs", folder));
const { plotOf } = await import(new URL("figure.mjs", folder));
const { nameWidth, processes, treeRow } = await import(new URL("groups.mjs", folder));
const { Rows, count, limitText, make, makeSvg, refill } = await import(new URL("parts.mjs", folder));
const { letterWidth, resizable } = await import(new URL("widths.mjs", folder));

const LINES = [
  "mkdir /a", "write /a pids.max 3", "fork 1 2", "write /a cgroup.procs 2", "fork 2 3", "fork 2 4", "fork 2 5", "exit 3", "write /a cgroup.kill 1", "rmdir /a",
];
const STEPS = [[0, 1], [7, LIMIT, 1, 3], [2, 2, 0], [4, 2, 1], [2, 3, 1], [2, 4, 1], [8, TOTAL, 1, 1, 1, 8, LOCAL, 1, 1, 1], [3, 3], [5, 1], [1, 1]];
const run = (times = null, limit = 3) => new Run({
  lines: LINES.join("\n"), names: ["/", "a"], parents: [0, 0], notes: {}, times: times && times.map((n) => n * 1e6), answers: ["ok", "refused pidsmax /a\nmore"],
  answer: LINES.map((_, at) => Number(at === 6)), steps: STEPS.map((step) => (step[0] === 7 ? [7, LIMIT, 1, limit] : step)).flatMap((step) => [step.length, ...step]),
});

// ---- plots: 300 pixels from 46 to 346 for the ten commands, 76 pixels from 88 up to 12 for the numbers

const plot = (its, wide = 358) => {
  const tip = new Element("div"), gone = [], off = [];
  Object.assign(tip, { hidden: true, offsetWidth: 200, offsetHeight: 50 });
  const made = plotOf(its, its.series([1])[0], wide, tip, (moment) => gone.push(moment), (id) => off.push(id));
  const [caption, svg] = made.figure.children;
  svg.box = { left: 100, top: 0, width: 716, height: 216 };
  const at = (x) => ({ clientX: 100 + 2 * x, clientY: 300 });
  return { ...made, caption, svg, tip, gone, off, at, of: (kind) => svg.querySelectorAll(`.${kind}`).map((one) => one.getAttribute("d")) };
};
const pointed = (its, ...all) => all.map((x) => (its.svg.dispatch("click", its.at(x)), its.gone.at(-1)));

test("the lines of a plot", () => {
  const { of, svg } = plot(run());
  assert.deepStrictEqual(svg.attributes, { viewBox: "0 0 358 108", preserveAspectRatio: "none", role: "img", "aria-label": "pids.current of /a" });
  assert.deepStrictEqual(of("current"), ["M76 88V88H106H106V88V88H166H166V69V69H196H196V50V50H226H226V31V31H256H256V31V31H286H286V50V50H316H316V88V88H346"]);
  assert.deepStrictEqual(of("limit"), ["M106 31V31H166H166V31V31H196H196V31V31H226H226V31V31H256H256V31V31H286H286V31V31H316H316V31V31H346"]);
  assert.deepStrictEqual(of("peak"), ["M76 88V88H106H106V88V88H166H166V69V69H196H196V50V50H226H226V31V31H256H256V31V31H286H286V31V31H316H316V31V31H346"]);
  assert.deepStrictEqual(svg.children.filter((one) => one.tag === "path").map((one) => one.getAttribute("class")),
    ["grid", "grid", "grid", "grid", "grid", "peak", "limit", "current", "mark-kill", "mark-refused", "cursor"]);
});

test("the axes of a plot", () => {
  const texts = (its) => its.svg.querySelectorAll("text").map((one) => [one.textContent, ...["x", "y", "text-anchor"].map((name) => one.getAttribute(name))]);
  const upward = [["0", "40", "92", "end"], ["1", "40", "73", "end"], ["2", "40", "54", "end"], ["3", "40", "35", "end"], ["4", "40", "16", "end"]];
  const across = [0, 2, 4, 6, 8, 10].map((at) => [String(at), String(46 + 30 * at), "104", "middle"]);
  assert.deepStrictEqual(texts(plot(run())), [...upward, ...across]);
  assert.deepStrictEqual(plot(run()).of("grid"), ["M46 88H346", "M46 69H346", "M46 50H346", "M46 31H346", "M46 12H346"]);
  const timed = texts(plot(run([1, 1, 1, 1, 1, 1, 1, 1, 1, 1]))).slice(5);
  assert.deepStrictEqual(timed, across.map(([text, ...more]) => [`${text} s`, ...more]));
  assert.strictEqual(plot(run(), 100).svg.getAttribute("viewBox"), "0 0 320 108", "it has a least width");
  // at most four steps upward, eight across
  const nine = new Run({ lines: "mkdir /a\nx", names: ["/", "a"], parents: [0, 0], notes: {}, times: null, answers: ["ok"], answer: [0, 0], steps: [2, 0, 1, 5, 8, PEAK, 1, 1, 9] });
  assert.deepStrictEqual(texts(plot(nine)).filter(([, , , anchor]) => anchor === "end").map(([text]) => text), ["0", "5"]);
  // a place is one of the tenths of a pixel: 88 - 76 * 5 / 9
  assert.deepStrictEqual(plot(nine).of("grid"), ["M46 88H346", "M46 45.8H346"]);
  const peaks = (most, lines = 2) => new Run({ lines: ["mkdir /a", ...Array(lines - 1).fill("x")].join("\n"), names: ["/", "a"], parents: [0, 0], notes: {}, times: null, answers: ["ok"], answer: Array(lines).fill(0), steps: [2, 0, 1, 5, 8, PEAK, 1, 1, most, ...Array(lines - 2).fill(0)] });
  assert.deepStrictEqual(texts(plot(peaks(5000, 12000))).map(([text]) => text), ["0", "2,000", "4,000", "0", "2,000", "4,000", "6,000", "8,000", "10,000", "12,000"]);
  // no half of a command, but parts of a second
  assert.deepStrictEqual(texts(plot(peaks(8))).map(([text]) => text), ["0", "2", "4", "6", "8", "0", "1", "2"]);
  assert.deepStrictEqual(texts(plot(run(Array(10).fill(0.1)))).slice(5).map(([text]) => text), ["0 s", "0.2 s", "0.4 s", "0.6 s", "0.8 s", "1 s"]);
  const seconds = (most) => texts(plot(run([1, 1, 1, 1, 1, 1, 1, 1, 1, most - 9]))).slice(5).map(([text]) => text);
  assert.deepStrictEqual([seconds(40), seconds(45)], [[0, 5, 10, 15, 20, 25, 30, 35, 40].map((at) => `${at} s`), [0, 10, 20, 30, 40].map((at) => `${at} s`)]);
});

test("marks of a plot, and the line at the shown moment", () => {
  const { of, mark } = plot(run());
  assert.deepStrictEqual([of("mark-refused"), of("mark-kill")], [["M251 2h10l-5 9z"], ["M316 12V88"]]);
  mark(3);
  assert.deepStrictEqual(of("cursor"), ["M136 8V92"]);
  const timed = plot(run([1, 1, 1, 1, 1, 1, 4, 0, 10, 10]));
  timed.mark(7);
  assert.deepStrictEqual([timed.of("mark-refused"), timed.of("cursor")], [["M143 2h10l-5 9z"], ["M146 8V92"]]);
});

test("a limit is drawn up to twice what was used", () => {
  const drawn = (limit) => plot(run(null, limit)).of("limit")[0];
  assert.match(drawn(8), /^M106 12V12H/);
  assert.strictEqual(drawn(9), "", "it would flatten the rest");
  assert.match(plot(run(null, 9)).of("current")[0], /V31/, "and then the numbers have all the height");
  const many = new Run({
    lines: "mkdir /a\nx", names: ["/", "a"], parents: [0, 0], notes: {}, times: null, answers: ["ok"], answer: [0, 0], steps: [2, 0, 1, 4, 7, PEAK, 1, 8],
  });
  assert.deepStrictEqual(plot(many).of("peak"), ["M196 88V88H346H346V12V12H346"], "a peak above the count has room");
});

test("what is told where the pointer is", () => {
  const its = plot(run()), told = (x) => (its.svg.dispatch("pointermove", its.at(x)), its.tip.textContent);
  assert.deepStrictEqual([46, 76, 106, 166, 256, 316, 346].map(told), [
    "start\nno such group", "1  mkdir /a\nok\npids.current 0, pids.max max", "2  write /a pids.max 3\nok\npids.current 0, pids.max 3",
    "4  write /a cgroup.procs 2\nok\npids.current 1, pids.max 3", "7  fork 2 5\nrefused pidsmax /a\npids.current 3, pids.max 3",
    "9  write /a cgroup.kill 1\nok\npids.current 0, pids.max 3", "10  rmdir /a\nok\nno such group",
  ]);
  assert.strictEqual(told(136), "3  fork 1 2\nok\npids.current 0, pids.max 3", "a point lasts until the next one");
  assert.deepStrictEqual([its.tip.hidden, its.tip.style.left, its.tip.style.top], [false, "386px", "240px"]);
  its.svg.dispatch("pointermove", { clientX: 990, clientY: 55 });
  assert.deepStrictEqual([its.tip.style.left, its.tip.style.top], ["792px", "4px"], "it stays in the window");
  its.svg.dispatch("pointerleave");
  assert.strictEqual(its.tip.hidden, true);
  const far = plot(run([1, 1, 1, 1, 1, 1, 1, 1, 1, 1], 1000));
  far.svg.dispatch("pointermove", far.at(256));
  assert.strictEqual(far.tip.textContent, "7  fork 2 5\nrefused pidsmax /a\npids.current 3, pids.max 1000\nat 7 s", "also a limit that isn't drawn");
  const none = plot(run(null, 0));
  none.svg.dispatch("pointermove", none.at(106));
  assert.match(none.tip.textContent, /pids.max 0$/);
});

test("the moment at the pointer", () => {
  assert.deepStrictEqual(pointed(plot(run()), -100, 46, 60, 62, 136, 345, 400), [0, 0, 0, 1, 3, 10, 10]);
  // 10 pixels for a second: the refusal at 146, the next command at 149, the kill at 151
  const near = plot(run([1, 1, 1, 1, 1, 1, 4, 0.3, 0.2, 19.5]));
  assert.deepStrictEqual(pointed(near, 141.5, 142, 146, 148, 149, 151, 155, 246), [6, 7, 7, 7, 9, 9, 9, 9], "a mark is that within four pixels, the nearest first");
  assert.deepStrictEqual(pointed(plot(run([1, 1, 1, 1, 1, 1, 4, 0.3, 9.7, 10])), 149, 150, 150.5), [7, 7, 8]);
});

test("the caption of a plot", () => {
  const { caption, off } = plot(run()), [name, ...rest] = caption.children, button = rest.pop();
  assert.deepStrictEqual([name.tag, name.textContent, caption.tag], ["strong", "/a", "figcaption"]);
  const keys = [["current", "pids.current"], ["limit", "pids.max"], ["peak", "pids.peak"], ["refused", "refused fork"], ["kill", "kill"]];
  assert.deepStrictEqual(rest.map((one) => [one.className, one.textContent]), keys.map(([kind, text]) => [`key key-${kind}`, text]));
  assert.deepStrictEqual([button.textContent, button.title, button.ariaLabel, button.dataset.key], ["✕", "Remove this plot", "Remove the plot of /a", 1]);
  button.onclick();
  assert.deepStrictEqual(off, [1]);
});

// ---- rows of the tree

const view = (more = {}) => ({ chosen: 0, others: new Map(), fresh: new Set(), room: 40, ...more });
const rowsOf = (its, moment, more) => treeRows(its.go(moment), new Set(), new Set(), new Set()).map((row) => treeRow(its, row, view(more)));
const texts = (row) => row.children.map((one) => one.textContent);

test("the cells of a row", () => {
  const its = run(), [root, a] = rowsOf(its, 7);
  assert.deepStrictEqual([texts(root), texts(a)], [["▾/", "", "4 in all", "", "", "", "1"], ["a", "", "3 / 3", "3", "● yes", "1 / 1", "234"]]);
  assert.deepStrictEqual(root.children.map((one) => one.className), ["name", "", "number-cell", "", "", "", ""]);
  assert.deepStrictEqual(a.children.map((one) => one.className), ["name", "bar full", "number-cell", "number-cell", "yes", "number-cell refused", ""]);
  assert.deepStrictEqual([root.ariaLevel, a.ariaLevel, root.style["--level"], a.style["--level"]], ["1", "2", "0", "1"]);
  assert.deepStrictEqual([root.ariaExpanded, a.ariaExpanded, root.ariaSelected, a.ariaSelected], ["true", undefined, "true", "false"]);
  assert.deepStrictEqual([root.ariaLabel, a.ariaLabel], ["/: 4 processes in all", "a: pids.current 3, pids.max 3, pids.peak 3, refused here 1, in all 1"]);
  assert.deepStrictEqual([a.firstChild.title, a.className, root.className], ["/a", "row", "row chosen"]);
  assert.strictEqual(texts(rowsOf(its, 4)[1])[4], "● yes", "one process is enough");
  const [, before] = rowsOf(its, 1);
  assert.deepStrictEqual(texts(before), ["a", "", "0 / max", "0", "○ no", "0 / 0", ""]);
  assert.deepStrictEqual(before.children.map((one) => one.className), ["name", "bar free", "number-cell", "number-cell", "no", "number-cell", ""]);
  const refusedBelow = treeRow(its, { group: { ...its.state.groups.get(1), numbers: [-1, -1, -1, 0, 0, 2, 0], own: 0 }, level: 1, children: 2, closed: true }, view({ chosen: 1 }));
  assert.deepStrictEqual([texts(refusedBelow)[5], refusedBelow.children[5].className, texts(refusedBelow)[0]], ["0 / 2", "number-cell refused", "▸a"]);
  assert.deepStrictEqual([refusedBelow.ariaExpanded, refusedBelow.ariaSelected, refusedBelow.className], ["false", "true", "row chosen"]);
});

test("a row says its place among those beside it, and their number", () => {
  const its = run(), group = its.go(7).groups.get(1);
  const row = treeRow(its, { group, level: 1, place: 2, beside: 5, children: 0 }, view());
  const rest = treeRow(its, { group: null, of: its.state.groups.get(0), level: 1, place: 5, beside: 6, rest: 3 }, view());
  assert.deepStrictEqual([row.ariaLevel, row.ariaPosInSet, row.ariaSetSize], ["2", "2", "5"]);
  assert.deepStrictEqual([rest.ariaLevel, rest.ariaPosInSet, rest.ariaSetSize], ["2", "5", "6"]);
});

test("each cell and the label have their own number", () => {
  const its = run();
  its.go(7);
  const group = { ...its.state.groups.get(1), numbers: [1, 2, 9, 3, 5, 7, 6], own: 0 }, row = treeRow(its, { group, level: 1, children: 0 }, view());
  assert.strictEqual(row.ariaLabel, "a: pids.current 3, pids.max 9, pids.peak 5, refused here 6, in all 7");
  assert.deepStrictEqual(texts(row).slice(2, 6), ["3 / 9", "5", "● yes", "6 / 7"]);
  const root = treeRow(its, { group: { ...its.state.groups.get(0), numbers: [1, 2, -1, 3, 5, 7, 6] }, level: 0, children: 1 }, view());
  assert.deepStrictEqual([root.ariaLabel, texts(root)[2]], ["/: 3 processes in all", "3 in all"]);
  for (const it of [row, root]) assert.deepStrictEqual([it.tag, ...new Set([...it.all()].map((one) => one.tag))], ["div", "span", "b", "i"].slice(0, it === row ? 4 : 2));
});

test("what a command changed is marked, in the cells that differ alone", () => {
  const its = run(), was = (numbers) => {
    const [root, a] = rowsOf(its, 7, { others: new Map([[1, numbers]]) });
    assert.strictEqual(root.className, "row chosen");
    return [a.className, a.children.map((one, at) => (one.className.split(" ").includes("was") ? at : -1)).filter((at) => at >= 0)];
  };
  // now: descendants and depth max, limit 3, current 3, peak 3, refused in all 1, refused here 1
  assert.deepStrictEqual(was([-1, -1, 3, 3, 3, 1, 1]), ["row changed", []]);
  assert.deepStrictEqual(was([-1, -1, -1, 3, 3, 1, 1]), ["row changed", [2]]);
  assert.deepStrictEqual(was([-1, -1, 3, 2, 3, 1, 1]), ["row changed", [2]]);
  assert.deepStrictEqual(was([-1, -1, 3, 3, 2, 1, 1]), ["row changed", [3]]);
  assert.deepStrictEqual(was([-1, -1, 3, 3, 3, 0, 1]), ["row changed", [5]]);
  assert.deepStrictEqual(was([-1, -1, 3, 3, 3, 1, 0]), ["row changed", [5]]);
  assert.deepStrictEqual(was(null), ["row changed", []], "a group that it made or removed");
  const [root] = rowsOf(its, 7, { others: new Map([[0, [-1, -1, -1, 3, 3, 0, 0]]]) });
  assert.deepStrictEqual([root.className, root.children[2].className], ["row changed chosen", "number-cell was"]);
});

test("bars end at the limit, or without one at the peak", () => {
  const its = run(), bar = (limit, current, peak) => {
    its.go(7);
    const group = { ...its.state.groups.get(1), numbers: [-1, -1, limit, current, peak, 0, 0], own: 0 }, box = treeRow(its, { group, level: 1, children: 0 }, view()).children[1];
    return [box.className, box.firstChild.style.width, box.children.length > 1 ? box.lastChild.style.left : null];
  };
  assert.deepStrictEqual(bar(8, 2, 4), ["bar", "25%", "calc(50% - 2px)"]);
  assert.deepStrictEqual(bar(8, 8, 8), ["bar full", "100%", "calc(100% - 2px)"]);
  assert.deepStrictEqual(bar(8, 7, 8), ["bar", "87.5%", "calc(100% - 2px)"]);
  assert.deepStrictEqual(bar(4, 6, 12), ["bar full", "100%", "calc(100% - 2px)"], "a limit below what is there");
  assert.deepStrictEqual(bar(4, 0, 1), ["bar", "0%", "calc(25% - 2px)"], "a peak of one process");
  assert.deepStrictEqual(bar(-1, 3, 4), ["bar free", "75%", "calc(100% - 2px)"]);
  assert.deepStrictEqual(bar(-1, 0, 0), ["bar free", "0%", null]);
  assert.deepStrictEqual(bar(0, 0, 0), ["bar full", "0%", null]);
  assert.deepStrictEqual(bar(0, 1, 4), ["bar full", "100%", "calc(100% - 2px)"]);
});

test("a long name has its last twelve letters in a part of its own", () => {
  const parts = (name) => {
    const its = new Run({ lines: "mkdir", names: ["/", name], parents: [0, 0], notes: {}, times: null, answers: ["ok"], answer: [0], steps: [2, 0, 1] });
    const [cell] = rowsOf(its, 1)[1].children;
    return cell.children.slice(1).map((one) => [one.className, one.textContent]);
  };
  assert.deepStrictEqual(parts("abcdefghijklmnop"), [["start", "abcdefghijklmnop"]]);
  assert.deepStrictEqual(parts("abcdefghijklmnopq"), [["start", "abcde"], ["end", "fghijklmnopq"]]);
});

test("the row of those that are folded away", () => {
  const its = run();
  its.go(1);
  const row = (rest, level = 1) => treeRow(its, { group: null, of: its.state.groups.get(0), rest, level }, view());
  assert.deepStrictEqual([row(1234).textContent, row(1).textContent, row(0).textContent], ["▸ 1,234 more groups", "▸ 1 more groups", "▾ fold these groups"]);
  assert.deepStrictEqual([row(1).children.length, row(1).firstChild.className, row(1, 3).ariaLevel, row(1, 3).style["--level"]], [1, "name rest", "4", "3"]);
  assert.deepStrictEqual([nameWidth(its, { group: null, level: 4 }), nameWidth(its, { group: { id: 1 }, level: 2 }), nameWidth(its, { group: { id: 0 }, level: 0 })], [0, 8, 4]);
});

test("as many processes as have room, those that just came first", () => {
  const pids = [2, 30, 31, 100, 101, 4194303], steps = [[0, 1], ...pids.map((pid) => [2, pid, 1])];
  const its = new Run({
    lines: steps.map(String).join("\n"), names: ["/", "a"], parents: [0, 0], notes: {}, times: null, answers: ["ok"], answer: steps.map(() => 0),
    steps: steps.flatMap((step) => [step.length, ...step]),
  });
  const group = its.go(7).groups.get(1), shown = (room, ...fresh) => processes(its, group, new Set(fresh), "span", room).map((one) => one.textContent ?? one);
  // with a blank after each: 2 + 3 + 3 + 4 + 4 + 8 letters
  assert.deepStrictEqual(shown(24), ["2", "30", "31", "100", "101", "4194303"]);
  assert.deepStrictEqual(shown(23), ["2", "30", "31", "100", " .. 2 more"], "the text of ten letters needs room too");
  assert.deepStrictEqual(shown(22), ["2", "30", "31", "100", " .. 2 more"]);
  assert.deepStrictEqual(shown(21), ["2", "30", "31", " .. 3 more"]);
  assert.deepStrictEqual(shown(18), ["2", "30", "31", " .. 3 more"]);
  assert.deepStrictEqual(shown(17), ["2", "30", " .. 4 more"]);
  assert.deepStrictEqual(shown(12), ["2", " .. 5 more"]);
  assert.deepStrictEqual(shown(11), ["6 in all"]);
  assert.deepStrictEqual(shown(0), ["6 in all"]);
  assert.deepStrictEqual(shown(18, 4194303), ["4194303", " .. 5 more"], "one that just came");
  assert.deepStrictEqual(shown(20, 4194303), ["2", "4194303", " .. 4 more"], "they are in ascending order");
  assert.deepStrictEqual(shown(18, 1), ["2", "30", "31", " .. 3 more"], "one of another group");
  const twelve = Array.from({ length: 12 }, (_, at) => at + 10), born = [[0, 1], ...twelve.map((pid) => [2, pid, 1])];
  const more = new Run({
    lines: born.map(String).join("\n"), names: ["/", "a"], parents: [0, 0], notes: {}, times: null, answers: ["ok"], answer: born.map(() => 0),
    steps: born.flatMap((step) => [step.length, ...step]),
  });
  const few = (room) => processes(more, more.go(13).groups.get(1), new Set(), "span", room).map((one) => one.textContent ?? one);
  assert.deepStrictEqual([13, 14, 16, 17, 18, 19].map(few), [["12 in all"], ["10", " .. 11 more"], ["10", " .. 11 more"], ["10", "11", " .. 10 more"], ["10", "11", " .. 10 more"],
    ["10", "11", "12", " .. 9 more"]], "a number of two digits is longer");
  const [first, second] = processes(its, group, new Set([30]), "button", 40);
  assert.deepStrictEqual([[first.tag, first.className, first.dataset], [second.tag, second.className, second.dataset]],
    [["button", "pid", { pid: 2, key: 2 }], ["button", "pid fresh", { pid: 30, key: 30 }]]);
});

// ---- parts

test("texts of numbers", () => {
  assert.deepStrictEqual([count(0), count(1000), count(4194304), limitText(-1), limitText(0), limitText(4194304)], ["0", "1,000", "4,194,304", "max", "0", "4194304"]);
});

test("an element has what it is made of", () => {
  const it = make("p", { className: "note" }, "<b>", make("b", {}, "x"));
  assert.deepStrictEqual([it.tag, it.className, it.nodes[0], it.textContent], ["p", "note", "<b>", "<b>x"]);
  const svg = makeSvg("text", { x: 3, class: "c" }, "text");
  assert.deepStrictEqual([svg.tag, svg.attributes, svg.textContent, makeSvg("path", {}).textContent], ["text", { x: "3", class: "c" }, "text", ""]);
  assert.deepStrictEqual([svg.space, it.space], ["http://www.w3.org/2000/svg", undefined]);
});

test("what had the focus in a box keeps it", () => {
  const box = new Element("div"), keyed = (key) => Object.assign(make("button"), { dataset: { key } }), aside = new Element("a");
  const old = keyed("2");
  box.append(keyed("1"), old);
  document.activeElement = aside;
  refill(box, keyed("1"), keyed("2"));
  assert.strictEqual(document.activeElement, aside, "what is elsewhere");
  document.activeElement = box.children[1];
  refill(box, keyed("2"), keyed("1"));
  assert.deepStrictEqual([document.activeElement === box.children[0], document.activeElement.focused], [true, { preventScroll: true }]);
  refill(box, keyed("1"));
  assert.strictEqual(document.activeElement, box, "its key is gone");
  refill(box, keyed("1"));
  assert.strictEqual(document.activeElement, box, "the box itself");
  assert.strictEqual(box.children.length, 1);
});

const listOf = (tall = 220) => {
  const box = Object.assign(new Element("div"), { id: "list", clientHeight: tall }), list = new Rows(box, "option", (at) => make("div", {}, `row ${at}`));
  return { box, list, space: box.children[0], shown: () => box.children[0].children.map((row) => row.dataset.at) };
};
const range = (from, end) => Array.from({ length: end - from }, (_, at) => from + at);

test("a list draws only the rows in sight and some beside them", () => {
  const { box, list, space, shown } = listOf();
  list.show(3);
  assert.deepStrictEqual([shown(), space.style.height], [[0, 1, 2], "66px"]);
  list.show(1000);
  assert.deepStrictEqual([shown(), space.style.height], [range(0, 14), "22000px"]);
  assert.deepStrictEqual(space.children.slice(0, 3).map((row) => [row.id, row.role, row.style.top, row.textContent]),
    [["list-0", "option", "0px", "row 0"], ["list-1", "option", "22px", "row 1"], ["list-2", "option", "44px", "row 2"]]);
  box.scrollTop = 2200;
  box.dispatch("scroll");
  assert.deepStrictEqual(shown(), range(98, 112));
  box.scrollTop = 2200.5;
  space.nodes = [];
  box.dispatch("scroll");
  assert.deepStrictEqual(shown(), [], "less than a pixel is none");
  box.scrollTop = 2199;
  box.dispatch("scroll");
  assert.deepStrictEqual(shown(), range(97, 111));
  list.show(100);
  assert.deepStrictEqual(shown(), [97, 98, 99]);
  list.show(0);
  assert.deepStrictEqual([shown(), space.style.height], [[], "0px"]);
});

test("a row that is reached is in sight", () => {
  const { box, list } = listOf(), reached = (row, from) => {
    box.scrollTop = from;
    list.moveTo(from);
    list.show(1000, row);
    return [box.scrollTop, box.getAttribute("aria-activedescendant")];
  };
  // ten rows have room; a row at least beside it is shown too
  assert.deepStrictEqual(reached(5, 0), [0, "list-5"]);
  assert.deepStrictEqual(reached(8, 0), [0, "list-8"]);
  assert.deepStrictEqual(reached(9, 0), [88, "list-9"], "in the middle");
  assert.deepStrictEqual(reached(1, 22), [0, "list-1"]);
  assert.deepStrictEqual(reached(2, 22), [22, "list-2"]);
  assert.deepStrictEqual(reached(999, 0), [21780, "list-999"], "the end of the list is the end of the box");
  assert.deepStrictEqual(reached(0, 4400), [0, "list-0"]);
  list.show(1000);
  assert.deepStrictEqual([box.scrollTop, box.getAttribute("aria-activedescendant")], [0, "list-0"], "without a row nothing moves");
  const short = listOf(2200);
  short.list.show(5, 4);
  assert.strictEqual(short.box.scrollTop, 0);
});

test("a list whose box gets another size shows the row that was reached", () => {
  const { box, list, shown } = listOf();
  list.show(1000, 9);
  const [element, resized] = observed.at(-1);
  assert.strictEqual(element, box);
  box.clientHeight = 44;
  resized();
  assert.deepStrictEqual([box.scrollTop, shown()], [176, range(6, 12)]);
  list.show(1000, 0);
  box.scrollTop = 440;
  box.dispatch("scroll");
  resized();
  assert.deepStrictEqual([box.scrollTop, shown()], [0, range(0, 6)], "also the first");
  const other = listOf();
  other.list.show(1000);
  other.box.clientHeight = 44;
  observed.at(-1)[1]();
  assert.deepStrictEqual([other.shown(), other.box.getAttribute("aria-activedescendant")], [range(0, 6), null]);
});

// ---- widths

test("the width of a letter", () => {
  const box = new Element("div");
  const sampled = [];
  const append = box.append.bind(box);
  box.append = (sample) => (sampled.push([sample.className, sample.textContent]), sample.box = { width: 705 }, append(sample));
  assert.strictEqual(letterWidth(box), 7.05);
  assert.deepStrictEqual([sampled, box.children], [[["sample", "0".repeat(100)]], []]);
  assert.strictEqual(letterWidth(new Element("div")), 8, "where nothing is laid out");
});

test("the handle of the column of names", () => {
  const cell = Object.assign(new Element("span"), { offsetWidth: 300 }), handle = new Element("span"), box = new Element("div");
  cell.append(handle);
  resizable(handle, box, () => 512.4);
  const press = (key) => {
    const { prevented, stopped } = handle.dispatch("keydown", { key });
    const set = [box.style["--name"], handle.ariaValueNow, prevented, stopped];
    delete box.style["--name"];
    return set;
  };
  assert.deepStrictEqual([handle.ariaValueMin, handle.ariaValueMax], ["160", "1600"]);
  handle.dispatch("focus");
  assert.strictEqual(handle.ariaValueNow, "300");
  const wanted = { ArrowLeft: "276", ArrowRight: "324", Home: "160", End: "512", Enter: "512" };
  for (const [key, wide] of Object.entries(wanted)) assert.deepStrictEqual(press(key), [`${wide}px`, wide, true, true], key);
  assert.deepStrictEqual(press("a"), [undefined, "512", false, false], "another key is the page's");
  handle.dispatch("dblclick");
  assert.strictEqual(box.style["--name"], "512px");
  cell.offsetWidth = 170;
  assert.strictEqual(press("ArrowLeft")[0], "160px");
  cell.offsetWidth = 1590;
  assert.strictEqual(press("ArrowRight")[0], "1600px");
});

test("the handle is dragged from where it was taken", () => {
  const cell = Object.assign(new Element("span"), { offsetWidth: 300 }), handle = new Element("span"), box = new Element("div");
  cell.append(handle);
  resizable(handle, box, () => 0);
  handle.dispatch("pointermove", { clientX: 500 });
  assert.strictEqual(box.style["--name"], undefined, "it was not taken");
  for (const end of ["pointerup", "pointercancel"]) {
    handle.dispatch("pointerdown", { clientX: 310, pointerId: 7 });
    handle.dispatch("pointermove", { clientX: 350 });
    assert.deepStrictEqual([box.style["--name"], handle.captured], ["340px", 7]);
    handle.dispatch("pointermove", { clientX: 300 });
    assert.strictEqual(box.style["--name"], "290px");
    handle.dispatch(end);
    handle.dispatch("pointermove", { clientX: 900 });
    assert.strictEqual(box.style["--name"], "290px", end);
  }
});

test("rows become higher with their letters", () => {
  const box = new Element("div"), append = box.append.bind(box);
  let tall = 27.5;
  box.id = "list";
  box.clientHeight = 110;
  box.append = (...nodes) => (append(...nodes), nodes.forEach((node) => (node.box = { ...node.box, height: node.className === "row sample" ? tall : 0 })));
  const list = new Rows(box, "option", () => make("div", { className: "row" }));
  list.show(100);
  const tops = () => box.children[0].children.slice(0, 3).map((row) => row.style.top);
  assert.deepStrictEqual([box.children.length, box.children[0].style.height, tops()], [1, "2750px", ["0px", "27.5px", "55px"]]);
  tall = 44;
  observed.find(([element]) => element === box)[1]();
  assert.deepStrictEqual([box.children.length, box.children[0].style.height, tops()], [1, "4400px", ["0px", "44px", "88px"]]);
});
