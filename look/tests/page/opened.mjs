// A page without a browser, for tests of what it shows and does: the elements of page.html that have an id, timers that are called by
// hand, and a run.
import { readFileSync } from "node:fs";
import { Element } from "./document.mjs";

const folder = new URL("../../page/", import.meta.url);
export const { CURRENT, DEPTH, DESCENDANTS, LIMIT, LOCAL, PEAK, TOTAL } = await import(new URL("state.mjs", folder));
export const html = readFileSync(new URL("page.html", folder), "utf8");

let opened = 0;
export const timers = new Map(), later = new Map(), addresses = [], window = new Element("window");
let lastTimer = 0;
Object.assign(globalThis, {
  setInterval: (act, each) => (timers.set(++lastTimer, { act, each }), lastTimer),
  clearInterval: (timer) => timers.delete(timer),
  setTimeout: (act, after) => (later.set(++lastTimer, { act, after }), lastTimer),
  clearTimeout: (timer) => later.delete(timer),
  addEventListener: (kind, act) => window.addEventListener(kind, act),
  history: { replaceState: (state, title, address) => addresses.push(address) },
});

export async function open(data, hash = "", tall = 440) {
  const elements = new Map();
  for (const [, tag, id] of html.matchAll(/<([a-z0-9]+)[^>]*? id="([a-z-]+)"/g)) elements.set(id, Object.assign(new Element(tag), { id, value: "" }));
  const at = (id) => elements.get(id), head = Object.assign(new Element("div"), { className: "row head" });
  head.append(new Element("span"), Object.assign(new Element("span"), { clientWidth: 400 }));
  head.children[0].append(at("name-width"));
  at("columns").append(head, at("tree"));
  at("query").type = "search";
  at("query").focus = () => (document.activeElement = at("query"));
  at("speed").value = "10";
  for (const id of ["list", "tree"]) at(id).clientHeight = tall;
  at("plots").clientWidth = 424;
  at("run").textContent = JSON.stringify(data);
  Object.assign(window, { listeners: {} });
  Object.assign(document, { listeners: {}, getElementById: at, activeElement: null });
  globalThis.location = { hash };
  timers.clear();
  later.clear();
  await import(new URL(`page.mjs?${++opened}`, folder));
  const rows = (id) => at(id).children[0].children;
  const key = (name, more = {}) => (more.target ?? new Element("body")).bubble("keydown", { key: name, ...more });
  const click = (id) => at(id).bubble("click");
  const texts = (id) => rows(id).map((row) => row.children.map((one) => one.textContent));
  const moment = () => Number(/^(?:after|before) ([\d,]+)/.exec(at("moment").textContent)[1].replace(",", ""));
  const search = (text) => ((at("query").value = text), at("query").dispatch("input"), [at("found").textContent, moment()]);
  const names = () => rows("tree").map((row) => row.firstChild.title ?? row.textContent);
  return { at, rows, key, click, texts, moment, search, names };
}

export const LINES = [
  "mkdir /a", "write /a pids.max 3", "fork 1 2", "write /a cgroup.procs 2", "fork 2 3", "mkdir /a/b", "fork 2 4", "fork 2 5", "write /a cgroup.kill 1", "cat /a/b cgroup.stat",
  "fork 1 6", "rmdir /a",
];
export const STEPS = [
  [0, 1], [7, LIMIT, 1, 3], [2, 2, 0], [4, 2, 1], [2, 3, 1], [0, 2], [2, 4, 1], [8, TOTAL, 1, 1, 1, 8, LOCAL, 1, 1, 1], [5, 1], [], [2, 6, 0], [],
];
export const DATA = {
  lines: LINES.join("\n"), names: ["/", "a", "b"], parents: [0, 0, 1], notes: { 7: "# one too many" }, times: null, steps: STEPS.flatMap((step) => [step.length, ...step]),
  answers: ["ok", "refused pidsmax /a", "ok\n| nr_descendants 0\n| nr_dying_descendants 0", "refused haschildren /a"], answer: [0, 0, 0, 0, 0, 0, 0, 1, 0, 2, 0, 3],
};
export const TIMED = { ...DATA, times: LINES.map(() => 250000) };
