// What the page shows at the edges of numbers: none, one, and thousands; and of many groups.
//   node --test look/tests/page/edges.test.mjs
import assert from "node:assert";
import test from "node:test";
import { DATA, LINES, open, window } from "./opened.mjs";

const cells = ({ at }) => Object.fromEntries(at("group").children[0].children.map((row) => row.children.map((cell) => cell.textContent)));
const thousands = (count, more = {}) => ({ ...DATA, lines: Array(count).fill("exit 9").join("\n"), answer: Array(count).fill(0), steps: Array(count).fill(0), notes: {}, ...more });

test("thousands have a comma, also of refused commands, matches and refusals", async () => {
  const page = await open(thousands(2345, { answers: ["refused nogroup /a"], names: ["/", "a"], parents: [0, 0] }), "#line=1234");
  assert.strictEqual(page.at("summary").textContent, "2,345 commands, 2,345 refused, 0 kills, 1 group");
  assert.strictEqual(page.at("moment").textContent, "after 1,234 of 2,345");
  assert.strictEqual(page.at("slider").getAttribute("aria-valuetext"), "after 1,234 of 2,345");
  assert.deepStrictEqual(page.search("exit"), ["1234 of 2,345", 1234]);
  page.search("refused /a");
  assert.strictEqual(page.at("refusals").textContent, "First of 2,345 refusals");
});

test("the details of a group with no process, with one and with two", async () => {
  const born = (count) => Array.from({ length: count }, (_, at) => [2, 2 + at, 1]).flat();
  for (const [count, populated] of [[0, "0"], [1, "1"], [2, "1"]]) {
    const steps = [2, 0, 1, 3 * count, ...born(count)];
    const page = await open({ ...DATA, lines: "mkdir /a\ncat /a pids.max", answer: [0, 0], steps, names: ["/", "a"], parents: [0, 0], notes: {} });
    page.search("/a");
    const { populated: told, "pids.current": current, "pids.peak": peak, "cgroup.procs": pids, nr_descendants: below } = cells(page);
    assert.deepStrictEqual([told, current, peak, pids, below], [populated, String(count), String(count), ["", "2", "23"][count], "0"], `${count} processes`);
  }
});

test("of thousands of processes the details say how many more there are", async () => {
  const steps = [2, 0, 1, 3 * 3000, ...Array.from({ length: 3000 }, (_, at) => [2, 1000 + at, 1]).flat()];
  const page = await open({ ...DATA, lines: "mkdir /a\ncat /a pids.max", answer: [0, 0], steps, names: ["/", "a"], parents: [0, 0], notes: {} });
  page.search("/a");
  const [, more] = /^(?:\d{4})+( \.\. .*)$/.exec(cells(page)["cgroup.procs"]), shown = page.at("group").querySelectorAll(".pid").length;
  // each takes four digits and a blank; with the text these are at most two thousand letters: 5 * 397 + 14
  assert.deepStrictEqual([shown, more, more.length], [397, " .. 2,603 more", 14]);
});

test("groups below a group are counted at every depth", async () => {
  const page = await open({ ...DATA, lines: "mkdir /a\nmkdir /a/b\nmkdir /a/b/c\nmkdir /d", answer: [0, 0, 0, 0], steps: [2, 0, 1, 2, 0, 2, 2, 0, 3, 2, 0, 4], names: ["/", "a", "b", "c", "d"], parents: [0, 0, 1, 2, 0], notes: {} });
  for (const [path, below] of [["/", "4"], ["/a", "2"], ["/a/b", "1"], ["/a/b/c", "0"], ["/d", "0"]]) {
    page.search(path);
    page.key("End");
    assert.deepStrictEqual([page.at("path").textContent, cells(page).nr_descendants], [path, below]);
  }
});

// Sixty groups side by side, and then a process in each of two that are folded away.
const MANY = 60;
const names = ["/", ...Array.from({ length: MANY }, (_, at) => `g${String(at).padStart(2, "0")}`)];
const FOLDED = {
  ...DATA, names, parents: names.map(() => 0), notes: {}, answer: Array(MANY + 2).fill(0),
  lines: [...names.slice(1).map((name) => `mkdir /${name}`), "fork 1 2", "fork 2 3"].join("\n"),
  steps: [...names.slice(1).flatMap((_, at) => [2, 0, at + 1]), 3, 2, 2, 51, 3, 2, 3, 56],
};

test("a group that the line changes is shown, though those beside it are folded away", async () => {
  const page = await open(FOLDED, `#line=${MANY + 1}`, 22 * MANY);
  const shown = () => page.names().filter((name) => name.startsWith("/g")).slice(20);
  assert.deepStrictEqual(shown(), ["/g50"], "the group that gets the process");
  page.key("ArrowRight");
  assert.deepStrictEqual(shown(), ["/g55"], "the next line changes another");
  page.key("b");
  assert.deepStrictEqual(shown(), ["/g55"], "also before it");
  page.search("/g40");
  page.key("End");
  assert.deepStrictEqual(shown(), ["/g40", "/g55"], "the one that is chosen too");
  page.key("b");
  assert.deepStrictEqual([shown(), page.moment()], [["/g40", "/g55"], MANY + 2]);
  assert.ok(page.names().includes("▸ 38 more groups"), page.names().at(-1));
});

test("a line of the root's own processes marks the root", async () => {
  const page = await open({ ...DATA, lines: "fork 1 2", answer: [0], steps: [3, 2, 2, 0], names: ["/"], parents: [0], notes: {} });
  assert.deepStrictEqual([page.rows("tree").length, page.rows("tree")[0].className], [1, "row changed chosen"]);
  assert.strictEqual(page.rows("tree")[0].ariaLabel, "/: 2 processes in all");
});

const buttons = (box) => [...box.querySelectorAll("[data-key]")];

test("a process or a plot that has the focus keeps it when the details and plots are drawn again", async () => {
  const page = await open(DATA, "#line=6"), [group, plots] = ["group", "plots"].map((id) => page.at(id));
  page.search("/a");
  page.search("fork 2 3");
  const first = buttons(group).find((one) => one.textContent === "2");
  document.activeElement = first;
  page.key("ArrowRight");
  assert.notStrictEqual(document.activeElement, first);
  assert.deepStrictEqual([document.activeElement.textContent, buttons(group).includes(document.activeElement)], ["2", true]);
  page.key("Home");
  assert.strictEqual(document.activeElement, group, "without the process the box has it");
  const [plot] = buttons(plots);
  document.activeElement = plot;
  window.dispatch("resize");
  assert.notStrictEqual(document.activeElement, plot);
  assert.deepStrictEqual([document.activeElement.dataset.key, buttons(plots).includes(document.activeElement)], [plot.dataset.key, true]);
});

test("each row says its place and how many there are", async () => {
  const page = await open(DATA), said = (id) => page.rows(id).map((row) => [row.ariaPosInSet, row.ariaSetSize]);
  page.key("Home");
  page.at("list").dispatch("scroll");
  assert.deepStrictEqual(said("list"), LINES.map((_, at) => [String(at + 1), "12"]));
  for (let at = 0; at < 6; at++) page.key("ArrowRight");
  assert.deepStrictEqual(said("tree"), [["1", "1"], ["1", "1"], ["1", "1"]], "a group that is alone below another one");
  const many = await open(thousands(2345), "#line=1000"), row = many.rows("list")[5];
  assert.deepStrictEqual([row.ariaPosInSet, row.ariaSetSize], [String(row.dataset.at + 1), "2345"], "those out of sight count too");
});

test("keys scroll a long answer that has the focus, and others stay the page's", async () => {
  const page = await open(DATA, "#line=4"), answer = page.at("answer"), keys = ["ArrowUp", "ArrowDown", "PageUp", "PageDown", "Home", "End", " "];
  const told = (name) => [page.key(name, { target: answer }).prevented, page.moment()];
  Object.assign(answer, { scrollHeight: 400, clientHeight: 130 });
  for (const key of keys) assert.deepStrictEqual(told(key), [false, 4], key);
  assert.deepStrictEqual([told("ArrowRight"), told("ArrowLeft")], [[true, 5], [true, 4]]);
  Object.assign(answer, { scrollHeight: 130 });
  assert.deepStrictEqual([told("ArrowDown"), told("ArrowUp"), told("Home")], [[true, 5], [true, 4], [true, 0]], "a whole answer has nothing to scroll");
  Object.assign(page.at("more"), { scrollHeight: 400, clientHeight: 130 });
  assert.deepStrictEqual(page.key("End", { target: page.at("more") }).prevented, true);
});

test("plots have the width of a paper while the page is printed", async () => {
  const page = await open(DATA), widths = () => page.at("plots").querySelectorAll("svg").map((svg) => svg.getAttribute("viewBox"));
  const before = widths();
  window.dispatch("beforeprint");
  assert.deepStrictEqual([before.length > 0, new Set(before), new Set(widths())], [true, new Set(["0 0 400 108"]), new Set(["0 0 680 108"])]);
  window.dispatch("afterprint");
  assert.deepStrictEqual(widths(), before);
});
