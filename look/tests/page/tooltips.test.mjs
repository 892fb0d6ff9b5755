// What the page says of its keys and controls is what they do: the tooltip of a button names a key that does the same, and the line at
// the foot names each key.
//   node --test look/tests/page/tooltips.test.mjs
import assert from "node:assert";
import test from "node:test";
import { DATA, html, open, timers } from "./opened.mjs";

const KEYS = { "←": ["ArrowLeft"], "→": ["ArrowRight"], Space: [" "], "Shift+Space": [" ", { shiftKey: true }] };
const BUTTONS = [...html.matchAll(/<button[^>]* id="([a-z-]+)"([^>]*)>/g)].map(([, id, more]) => ({ id, title: /title="([^"]*)"/.exec(more)?.[1] ?? "", label: /aria-label="([^"]*)"/.exec(more)?.[1] }));
const shown = ({ at, names }) => ["moment", "answer", "path", "found", "refusals", "plot-it"].map((id) => at(id).textContent)
  .concat(["play", "play-back", "before"].map((id) => at(id).ariaPressed), at("query").value, at("plots").children.length, names().join());

// the page at the second of three matches, with a group chosen that has a refusal and whose plot isn't shown
async function opened() {
  const page = await open(DATA, "#line=8");
  page.search("fork 2");
  page.search("/a");
  page.at("plots");
  return page;
}

test("each button has a key in its tooltip, which does the same", async () => {
  assert.deepStrictEqual(BUTTONS.map(({ id }) => id), ["found-before", "found-after", "first", "back", "play-back", "play", "next", "last", "before", "refusals", "plot-it"]);
  for (const { id, title, label } of BUTTONS) {
    const [, words, name] = /^(.*) \((.*)\)$|^(?:.*), and back \((.*)\)$/.exec(title) ?? [];
    assert.ok(name, `${id}: ${title}`);
    if (label) assert.ok(words.startsWith(label), `${id}: ${label}, and ${title}`);
    const by = {}, [key, more] = KEYS[name] ?? [name];
    for (const way of ["key", "click"]) {
      const page = await opened(), before = shown(page);
      if (way === "key") page.key(key, more);
      else page.click(id);
      by[way] = shown(page);
      assert.notDeepStrictEqual(by[way], before, `${id}: the ${way} does something`);
    }
    assert.deepStrictEqual(by.key, by.click, `${id}: ${name}`);
  }
});

test("the tooltips and labels say what each of them does", () => {
  const wanted = {
    "found-before": "The match before (N)", "found-after": "The next match (n)", first: "To the start (Home)", back: "One command back (←)", "play-back": "Play backwards (Shift+Space)",
    play: "Play (Space)", next: "One command forward (→)", last: "To the end (End)", before: "The state before this line, and back (b)", refusals: "To the first command that this group refused (r)",
    "plot-it": "Plot of this group (p)",
  };
  assert.deepStrictEqual(Object.fromEntries(BUTTONS.map(({ id, title }) => [id, title])), wanted);
  for (const text of ['title="by this limit / by this one and those below">refused here / in all<', 'title="Width of the names: drag, ← →, Home, End"', 'placeholder="/group, refused /group, pid or word"',
    'aria-label="Moment: commands so far"', "Choose a process to see its life.", "Allow them for this file; it loads nothing.", "<option>2</option><option selected>10</option><option>100</option><option>1000</option>"]) {
    assert.strictEqual(html.split(text).length, 2, text);
  }
});

test("the foot names each key, with what it does", async () => {
  const foot = /<footer>([^]*)<\/footer>/.exec(html)[1].replace(/<\/?kbd>/g, "").replace(/\s+/g, " ").trim();
  assert.strictEqual(foot, "Keys: ← → one command, PgUp PgDn twenty, Home End, Space play, b state before, / search, n N matches, r first refusal of the group, p its plot. In the tree: ↑ ↓ choose, Enter fold. In a long answer keys scroll it.");
  const many = { ...DATA, lines: Array(50).fill("exit 9").join("\n"), answer: Array(50).fill(0), steps: Array(50).fill(0), notes: {} };
  for (const [key, wanted] of [["ArrowLeft", 24], ["ArrowRight", 26], ["PageUp", 5], ["PageDown", 45], ["Home", 0], ["End", 50], ["x", 25], ["R", 25], ["B", 25]]) {
    const page = await open(many, "#line=25");
    page.key(key);
    assert.strictEqual(page.moment(), wanted, key);
  }
  for (const [key, wanted] of [["PageUp", 0], ["PageDown", 50]]) {
    const page = await open(many, key === "PageUp" ? "#line=19" : "#line=31");
    page.key(key);
    assert.strictEqual(page.moment(), wanted, `${key} goes no farther than an end`);
  }
});

test("Escape stops it in either direction, and starts nothing", async () => {
  for (const [shiftKey, wanted] of [[false, ["true", "false"]], [true, ["false", "true"]]]) {
    const page = await open(DATA, "#line=6"), pressed = () => ["play", "play-back"].map((id) => page.at(id).ariaPressed);
    page.key("Escape");
    assert.strictEqual(timers.size, 0);
    page.key(" ", { shiftKey });
    assert.deepStrictEqual([pressed(), timers.size], [wanted, 1]);
    page.key("Escape");
    assert.deepStrictEqual([pressed(), timers.size, page.moment()], [["false", "false"], 0, 6]);
  }
});

test("a page of no command", async () => {
  const page = await open({ ...DATA, lines: "", steps: [], answer: [], notes: {}, names: ["/"], parents: [0] });
  for (const { id } of BUTTONS) page.click(id);
  for (const key of ["ArrowLeft", "ArrowRight", "PageUp", "PageDown", "Home", "End", "n", "N", "r", "p", "Escape"]) page.key(key);
  assert.deepStrictEqual([page.moment(), page.at("summary").textContent, page.at("refusals").textContent, page.at("plot-it").hidden], [0, "0 commands, 0 refused, 0 kills, 0 groups", "No refusals", true]);
  assert.deepStrictEqual(page.search("refused /"), ["nothing", 0]);
  assert.deepStrictEqual(page.search("1"), ["nothing", 0]);
  assert.strictEqual(page.at("life").textContent, "Process 1startborn /", "process 1 is there from the start");
  assert.strictEqual(page.at("plots").textContent, "Choose a group in the tree and press p to plot its pids.current.");
});
