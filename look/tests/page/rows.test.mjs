// Which rows the tree has, which groups are plotted first, and where ticks, steps and marks of a plot lie.
//   node --test look/tests/page/rows.test.mjs
import assert from "node:assert";
import test from "node:test";

const folder = new URL("../../page/", import.meta.url);
const { CURRENT, LIMIT, LOCAL, PEAK, TOTAL, Run, treeRows } = await import(new URL("state.mjs", folder));
const { columns, momentAt, scale, stepPath, ticks } = await import(new URL("plot.mjs", folder));
const { search } = await import(new URL("search.mjs", folder));

// A run of commands, each with the differences that it makes. `names` and `parents` are those of the groups.
const runOf = (names, parents, steps, answers = []) => new Run({
  lines: steps.map((_, at) => `line ${at + 1}`).join("\n"), names: ["/", ...names], parents: [0, ...parents], notes: {}, times: null,
  answers: ["ok", ...answers], answer: steps.map((_, at) => (answers[at] ? at + 1 : 0)), steps: steps.flatMap((step) => [step.length, ...step]),
});
const made = (names, parents = names.map(() => 0)) => runOf(names, parents, names.map((_, at) => [0, at + 1]));
const none = () => [new Set(), new Set(), new Set()];
const named = (run, rows) => rows.map(({ group, level, rest }) => (group ? `${level} ${run.names[group.id]}` : `${level} +${rest}`));

// ---- rows

test("groups are in the order of their names, each before those below it", () => {
  const run = made(["b", "a", "B", "a-", "a1", "x", "c"], [0, 0, 0, 0, 0, 2, 6]), rows = treeRows(run.go(7), ...none());
  assert.deepStrictEqual(named(run, rows), ["0 /", "1 B", "1 a", "2 x", "3 c", "1 a-", "1 a1", "1 b"]);
  assert.deepStrictEqual(rows.map(({ children, closed }) => [children, closed]), [[5, false], [0, false], [1, false], [1, false], [0, false], [0, false], [0, false], [0, false]]);
});

test("a group that was removed has no row, and one again once that is undone", () => {
  const run = runOf(["a", "b", "c"], [0, 1, 0], [[0, 1], [0, 2], [0, 3], [1, 2], [1, 1], [0, 1], [0, 2]]), rows = (moment) => named(run, treeRows(run.go(moment), ...none()));
  const wanted = [["0 /"], ["0 /", "1 a"], ["0 /", "1 a", "2 b"], ["0 /", "1 a", "2 b", "1 c"], ["0 /", "1 a", "1 c"], ["0 /", "1 c"], ["0 /", "1 a", "1 c"], ["0 /", "1 a", "2 b", "1 c"]];
  for (const moment of [0, 1, 2, 3, 4, 5, 6, 7, 5, 3, 4, 7]) assert.deepStrictEqual(rows(moment), wanted[moment], `moment ${moment}`);
  assert.deepStrictEqual([...run.go(4).groups.get(0).down()].map(({ id }) => id), [0, 1, 3]);
});

test("a group that is folded hides those below it alone", () => {
  const run = made(["a", "x", "y", "b"], [0, 1, 2, 0]), state = run.go(4);
  assert.deepStrictEqual(named(run, treeRows(state, new Set([1]), new Set(), new Set())), ["0 /", "1 a", "1 b"]);
  assert.deepStrictEqual(named(run, treeRows(state, new Set([2]), new Set(), new Set([3]))), ["0 /", "1 a", "2 x", "1 b"]);
  assert.deepStrictEqual(treeRows(state, new Set([1]), new Set(), new Set()).map(({ closed }) => closed), [false, true, false]);
});

test("up to fifty groups side by side are shown, of more the first twenty", () => {
  const many = (count) => made(Array.from({ length: count }, (_, at) => `g${String(at).padStart(3, "0")}`));
  for (const [count, wanted] of [[49, 50], [50, 51], [51, 22], [52, 22]]) {
    const run = many(count), rows = treeRows(run.go(count), ...none());
    assert.strictEqual(rows.length, wanted, `${count} groups`);
    if (count > 50) assert.deepStrictEqual(named(run, rows.slice(-2)), ["1 g019", `1 +${count - 20}`]);
  }
  const run = many(60), kept = treeRows(run.go(60), new Set(), new Set(), new Set([5, 21, 60]));
  assert.deepStrictEqual(named(run, kept.slice(-4)), ["1 g019", "1 g020", "1 g059", "1 +38"]);
  const open = treeRows(run.state, new Set(), new Set([0]), new Set());
  assert.deepStrictEqual([open.length, open.at(-1).rest, open.at(-1).of.id], [62, 0, 0]);
});

test("a group below one of many is shown with those above it", () => {
  const beside = Array.from({ length: 60 }, (_, at) => `g${at + 10}`), run = made([...beside, "x", "y"], [...beside.map(() => 0), 56, 61]);
  const rows = (...keep) => named(run, treeRows(run.go(62), new Set(), new Set(), new Set(keep))).slice(21);
  assert.deepStrictEqual([rows(62), rows(61), rows()], [["1 g65", "2 x", "3 y", "1 +39"], ["1 g65", "2 x", "3 y", "1 +39"], ["1 +40"]]);
});

test("each row has its place among those beside it, folded ones included", () => {
  const run = made(["b", "a", "x", "y", "z"], [0, 0, 2, 2, 2]), places = (rows) => rows.map(({ place, beside }) => `${place} of ${beside}`);
  assert.deepStrictEqual(places(treeRows(run.go(5), ...none())), ["1 of 1", "1 of 2", "1 of 3", "2 of 3", "3 of 3", "2 of 2"]);
  const many = made(Array.from({ length: 60 }, (_, at) => `g${String(at).padStart(3, "0")}`)), folded = treeRows(many.go(60), new Set(), new Set(), new Set([5, 21, 60]));
  assert.deepStrictEqual(places(folded.slice(-4)), ["20 of 61", "21 of 61", "60 of 61", "61 of 61"], "the row for the rest is the last");
  assert.deepStrictEqual(places(treeRows(many.state, new Set(), new Set([0]), new Set()).slice(-2)), ["60 of 61", "61 of 61"]);
  const fifty = made(Array.from({ length: 50 }, (_, at) => `g${at}`));
  assert.deepStrictEqual(places(treeRows(fifty.go(50), ...none()).slice(-1)), ["50 of 50"]);
});

test("some of the processes of a group", () => {
  const run = runOf(["a"], [0], [[0, 1], ...[5, 9, 2, 7].map((pid) => [2, pid, 1])]), group = run.go(5).groups.get(1);
  assert.deepStrictEqual([0, 1, 2, 3, 4, 5].map((most) => run.state.pidsOf(group, most)), [[], [2], [2, 5], [2, 5, 7], [2, 5, 7, 9], [2, 5, 7, 9]]);
  assert.deepStrictEqual(run.state.pidsOf(group), [2, 5, 7, 9]);
});

// ---- what is asked of the whole run

test("the busiest groups: those that refused first, then those with most arrivals", () => {
  const steps = [[0, 1], [0, 2], [0, 3], [2, 5, 1], [2, 6, 1], [2, 7, 1], [2, 8, 2], [4, 5, 3], [2, 9, 0], [2, 10, 0], [2, 11, 0], [2, 12, 0],
    [8, TOTAL, 2, 1, 1, 8, LOCAL, 2, 1, 1]];
  const run = runOf(["a", "b", "c"], [0, 0, 0], steps);
  assert.deepStrictEqual([1, 2, 3, 9].map((count) => run.busiest(count)), [[2], [2, 1], [2, 1, 3], [2, 1, 3]], "the root is none of them");
  assert.deepStrictEqual(runOf(["a", "b"], [0, 0], [[0, 1], [0, 2], [2, 5, 2], [2, 6, 1]]).busiest(2), [1, 2], "of equal ones the first that was made");
  assert.deepStrictEqual(runOf(["a"], [0], [[0, 1], [8, TOTAL, 1, 1, 1]]).busiest(2), [], "a refusal is that of the limit");
  const refused = (id) => [8, TOTAL, id, 1, 1, 8, LOCAL, id, 1, 1], born = (id, from, count) => Array.from({ length: count }, (_, at) => [2, from + at, id]);
  const many = [[0, 1], [0, 2], [0, 3], ...born(1, 1000, 3000), refused(2), ...born(3, 5000, 20), refused(3)];
  assert.deepStrictEqual(runOf(["a", "b", "c"], [0, 0, 0], many).busiest(3), [3, 2, 1], "one refusal comes before any number of arrivals");
  assert.deepStrictEqual(runOf(["a", "b"], [0, 0], [[0, 1], [0, 2], refused(1), ...born(1, 5, 2000), refused(2), refused(2)]).busiest(2), [2, 1], "more refusals before more arrivals");
  const undone = (id) => [8, TOTAL, id, 1, -1, 8, LOCAL, id, 1, -1], three = [refused(1), refused(1), refused(1)];
  assert.deepStrictEqual(runOf(["a", "b"], [0, 0], [[0, 1], [0, 2], ...three, refused(2), refused(2), undone(2), undone(2)]).busiest(2), [1, 2], "an undo is no refusal");
});

test("a life goes through kills that are undone, in the group where they hit", () => {
  const steps = [[0, 1], [0, 2], [2, 5, 1], [2, 6, 2], [4, 5, 2], [5, 1], [6, 5], [5, 2], [6, 7], [3, 5]];
  const run = runOf(["a", "b"], [0, 1], steps), told = (pid) => run.life(pid).map(({ what, group, moment }) => `${moment} ${what} ${run.paths[group]}`);
  assert.deepStrictEqual(told(5), ["3 born /a", "5 moved /a/b", "6 ended /a/b", "7 born /a/b", "8 ended /a/b", "9 born /a/b", "10 ended /a/b"]);
  assert.deepStrictEqual(told(6), ["4 born /a/b", "6 ended /a/b", "7 born /a/b", "8 ended /a/b", "9 born /a/b"]);
  const aside = runOf(["a", "ab"], [0, 0], [[0, 1], [0, 2], [2, 5, 2], [5, 1]]);
  assert.deepStrictEqual(aside.life(5).length, 1, "a kill elsewhere");
});

test("points of a series are the moments at which a number changes", () => {
  const steps = [[0, 1], [7, LIMIT, 1, 5], [2, 5, 1], [7, LIMIT, 1, 5], [8, PEAK, 1, 1, 2], [8, TOTAL, 1, 1, 1], [5, 1], [1, 1], [0, 1]];
  const [series] = runOf(["a"], [0], steps, [, , , , , "refused pidsmax /a"]).series([1]);
  const points = series.points.map(({ moment, limit, peak, current, total }) => [moment, limit, peak, current, total]);
  assert.deepStrictEqual(points, [[0, -1, -1, -1, -1], [1, -1, 0, 0, 0], [2, 5, 0, 0, 0], [3, 5, 1, 1, 0], [5, 5, 3, 1, 0], [6, 5, 3, 1, 1], [7, 5, 3, 0, 1],
    [8, -1, -1, -1, -1], [9, -1, 0, 0, 0]]);
  assert.deepStrictEqual([series.refused, series.kills], [[{ moment: 6, current: 1 }], [{ moment: 7, current: 0 }]]);
});

test("numbers, words and notes of a query", () => {
  const run = runOf(["a"], [0], [[0, 1], [2, 5, 1], [3, 5]], [, "refused value"]);
  Object.assign(run, { notes: { 2: "# A Remark" } });
  assert.deepStrictEqual([search(run, "5"), search(run, "  line  "), search(run, "REMARK"), search(run, "value"), search(run, "line 2"), search(run, "55")],
    [[2, 3], [1, 2, 3], [3], [2], [2], []]);
});

test("a comment behind the last command is one of it", () => {
  const noted = (notes, lines = "mkdir /a\nmkdir /b") => new Run({
    lines, names: ["/", "a", "b"], parents: [0, 0, 0], notes, times: null, answers: ["ok"], answer: [0, 0], steps: lines && [2, 0, 1, 2, 0, 2],
  });
  assert.deepStrictEqual(search(noted({ 0: "# first", 2: "# the end" }), "end"), [2]);
  assert.strictEqual(noted({ 1: "# before", 2: "# behind" }).notes[1], "# before # behind");
  assert.deepStrictEqual([noted({ 1: "# before" }).notes[1], noted({}).notes[1], noted({ 0: "# alone" }, "").length], ["# before", undefined, 0]);
});

// ---- plots

test("ticks are round numbers up to the greatest, not more than wanted", () => {
  const wanted = [[4, 4, [0, 1, 2, 3, 4]], [5, 4, [0, 2, 4]], [8, 4, [0, 2, 4, 6, 8]], [9, 4, [0, 5]], [16, 4, [0, 5, 10, 15]], [40, 4, [0, 10, 20, 30, 40]],
    [41, 4, [0, 20, 40]], [1500, 8, [0, 200, 400, 600, 800, 1000, 1200, 1400]], [47, 8, [0, 10, 20, 30, 40]], [0.05, 4, [0, 0.02, 0.04]], [1, 8, [0, 0.2, 0.4, 0.6, 0.8, 1]]];
  for (const [most, count, all] of wanted) assert.deepStrictEqual(ticks(most, count), all, `${most}, ${count}`);
});

test("a scale maps both ends, also downwards", () => {
  assert.deepStrictEqual([0, 5, 10].map(scale(0, 10, 100, 0)), [100, 50, 0]);
  assert.deepStrictEqual([2, 3, 4].map(scale(2, 4, 46, 66)), [46, 56, 66]);
  assert.strictEqual(scale(0, 0, 46, 66)(0), 46);
});

test("a path has steps, and gaps where there is no number", () => {
  const same = (value) => value, path = (...points) => stepPath(points.map(([moment, n]) => ({ moment, n })), "n", same, same, 9);
  assert.strictEqual(path([0, 3]), "M0 3V3H9");
  assert.strictEqual(path([0, 3], [4, 1]), "M0 3V3H4H4V1V1H9");
  assert.strictEqual(path([0, -1], [4, 1]), "M4 1V1H9");
  assert.strictEqual(path([0, 3], [4, -1]), "M0 3V3H4");
  assert.strictEqual(path([0, -1], [4, -1]), "");
  assert.strictEqual(path([0, 2], [3, 0], [6, 5]), "M0 2V2H3H3V0V0H6H6V5V5H9", "0 is a number");
  assert.strictEqual(path([2, 1], [2.1, 7], [2.2, 4]), "M2 1V1V7V4H9", "three in one column");
  assert.strictEqual(path([1.5, 1], [2, 4], [2.74, 3], [2.76, 5]), "M1.5 1V1H2H2V4V4H2.5H2.5V3V3H3H3V5V5H9", "a column is half a pixel wide");
  assert.strictEqual(path([2, -1], [2.1, 5]), "M2 5V5H9", "the first number of a column that begins without one");
  assert.strictEqual(path([0, 3], [2, -1], [2.1, 5]), "M0 3V3H2H2V5V5H9");
  assert.strictEqual(path([0, 3], [2, 4], [2.1, -1], [6, 1]), "M0 3V3H2H2V4M6 1V1H9");
});

test("marks in one column are one, at the last moment", () => {
  const marks = (...moments) => columns(moments.map((moment) => ({ moment })), (moment) => moment).map(({ at, moment, count }) => [at, moment, count]);
  assert.deepStrictEqual(marks(), []);
  assert.deepStrictEqual(marks(3, 4, 5), [[4, 5, 3]]);
  assert.deepStrictEqual(marks(0, 2, 8, 9), [[0, 0, 1], [4, 2, 1], [8, 9, 2]]);
});

test("the last moment at or before a place, where several have one", () => {
  const places = [0, 1, 1, 1, 5];
  assert.deepStrictEqual([-1, 0, 0.9, 1, 4.9, 5, 99].map((place) => momentAt(places, place)), [0, 0, 0, 3, 3, 4, 4]);
  assert.strictEqual(momentAt([7], 3), 0);
});

test("a moment far away and back has the same numbers", () => {
  const steps = [[0, 1], ...Array.from({ length: 3000 }, (_, at) => [at % 3 === 2 ? 3 : 2, ...(at % 3 === 2 ? [at + 1] : [at + 2, 1])])];
  const run = runOf(["a"], [0], steps), seen = new Map(), all = [0, 1, 2, 499, 500, 501, 999, 1000, 1001, 1500, 2999, 3000, 3001];
  for (const moment of all) seen.set(moment, run.go(moment).groups.get(1)?.numbers[CURRENT]);
  for (const moment of [...all].reverse()) assert.strictEqual(run.go(moment).groups.get(1)?.numbers[CURRENT], seen.get(moment), `moment ${moment}`);
  for (const moment of [3001, 1, 1500, 501, 500, 0, 2999]) assert.strictEqual(run.go(moment).groups.get(1)?.numbers[CURRENT], seen.get(moment), `moment ${moment}`);
  const kept = run.checkpoints.map(({ moment }) => moment), gaps = kept.slice(1).map((moment, at) => moment - kept[at]);
  assert.ok(kept[0] === 0 && kept.length > 3 && kept.length < 60 && Math.max(...gaps, 3001 - kept.at(-1)) <= 1000 && Math.min(...gaps) > 9, kept.join());
});

// ---- differences

test("each kind of difference may follow each other one in a command", () => {
  // what each does on its own to the group 1 and process 5, from a state in which it can be done; all are seen in the numbers below
  const start = [[0, 1], [0, 2], [0, 3], [2, 5, 1], [2, 6, 2], [2, 7, 3], [5, 3]];
  const kinds = {
    make: [0, 4], gone: [1, 3], born: [2, 8, 1], died: [3, 6], move: [4, 5, 2], kill: [5, 2], back: [6, 6], set: [7, LIMIT, 1, 9], add: [8, LOCAL, 2, 2, 3],
  };
  const told = (...steps) => {
    const run = runOf(["a", "b", "c", "d"], [0, 1, 0, 0], [...start, ...steps]), state = run.go(start.length + steps.length);
    return [...state.groups.values()].sort((a, b) => a.id - b.id).map((group) => [group.id, group.own, ...group.numbers, state.pidsOf(group).join()].join(" "));
  };
  for (const [first, one] of Object.entries(kinds)) {
    for (const [second, two] of Object.entries(kinds)) {
      if (first === second || (first === "gone" && second === "back") || (first === "back" && second === "gone") || /kill|died/.test(first) && /kill|died/.test(second)) continue;
      assert.deepStrictEqual(told([...one, ...two]), told(one, two), `${first} and ${second}`);
    }
  }
  assert.deepStrictEqual(told([...kinds.set, ...kinds.add, ...kinds.born, ...kinds.move]), ["0 1 -1 -1 -1 4 4 0 0 1", "1 1 -1 -1 9 3 3 0 3 8", "2 2 -1 -1 -1 2 2 0 3 5,6", "3 0 -1 -1 -1 0 1 0 0 "]);
});

test("a kill ends those that are there, in the group and below it, and none beside it", () => {
  const start = [[0, 1], [0, 2], [0, 3], [2, 5, 1], [2, 6, 2], [2, 7, 3], [2, 8, 1], [3, 5], [4, 1, 1]], run = runOf(["a", "b", "ab"], [0, 1, 0], [...start, [5, 1], [6, start.length]]);
  const homes = (moment) => [...run.go(moment).home];
  assert.deepStrictEqual([...run.pids], [1, 5, 6, 7, 8]);
  assert.deepStrictEqual([homes(9), homes(10), homes(11), homes(10), homes(9)], [[1, -1, 2, 3, 1], [-1, -1, -1, 3, -1], [1, -1, 2, 3, 1], [-1, -1, -1, 3, -1], [1, -1, 2, 3, 1]]);
  const counts = (moment) => [...run.go(moment).groups.values()].map((group) => [group.own, group.numbers[CURRENT], group.numbers[PEAK]]);
  assert.deepStrictEqual(counts(10), [[0, 1, 5], [0, 0, 3], [0, 0, 1], [1, 1, 1]]);
  assert.deepStrictEqual(counts(11), [[0, 4, 5], [2, 3, 3], [1, 1, 1], [1, 1, 1]]);
  assert.deepStrictEqual([8, 9, 10, 11].map((moment) => [...run.go(moment).fresh]), [[], [1], [], [1, 6, 8]], "those that the last command brought");
  assert.deepStrictEqual([0, 4].map((moment) => [...run.go(moment).fresh]), [[], [5]]);
  assert.deepStrictEqual([run.isKill(9), run.isKill(10), run.isKill(0)], [true, false, false]);
  const none = runOf(["a", "b"], [0, 0], [[0, 1], [], [2, 5, 1, 0, 2]]);
  assert.deepStrictEqual([0, 1, 2].map((command) => none.isKill(command)), [false, false, false], "a command that changes nothing, before one of five numbers");
});
