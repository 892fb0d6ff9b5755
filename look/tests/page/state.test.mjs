// What has no document: the state at each moment, searches, lives, series, rows, and the shapes of plots.
//   node --test look/tests/page/state.test.mjs
// MAKHLOEUM_RUN is a file with a run as the page has it, and with what the engine said of every moment (test_history.py makes it).
import assert from "node:assert";
import { readFileSync } from "node:fs";
import test from "node:test";

const folder = new URL("../../page/", import.meta.url);
const { LIMIT, PEAK, TOTAL, LOCAL, CURRENT, Run, treeRows } = await import(new URL("state.mjs", folder));
const { groupOf, refusalsOf, search } = await import(new URL("search.mjs", folder));
const { columns, momentAt, scale, stepPath, ticks } = await import(new URL("plot.mjs", folder));

// mkdir /a; write /a pids.max 1; fork 1 2; write /a cgroup.procs 2; fork 2 3 (refused); write /a cgroup.kill 1; undo; exit 2; rmdir /a
const LINES = [
  "mkdir /a", "write /a pids.max 1", "fork 1 2", "write /a cgroup.procs 2", "fork 2 3", "write /a cgroup.kill 1", "undo", "exit 2", "rmdir /a",
];
const STEPS = [[0, 1], [7, LIMIT, 1, 1], [2, 2, 0], [4, 2, 1], [8, TOTAL, 1, 1, 1, 8, LOCAL, 1, 1, 1], [5, 1], [6, 5], [3, 2], [1, 1]];
const run = () => new Run({
  lines: LINES.join("\n"), names: ["/", "a"], parents: [0, 0], notes: { 4: "# too many" }, times: [1, 1, 1, 1, 1, 5, 5, 5, 5].map((n) => n * 1e6),
  answers: ["ok", "refused pidsmax /a", "ok\n| write /a cgroup.kill 1"], answer: [0, 0, 0, 0, 1, 0, 2, 0, 0], steps: STEPS.flatMap((step) => [step.length, ...step]),
});
const numbers = (state, id = 1) => [LIMIT, PEAK, TOTAL, LOCAL, CURRENT].map((field) => state.groups.get(id).numbers[field]);

test("each moment, forwards and backwards", () => {
  const wanted = [undefined, [-1, 0, 0, 0, 0], [1, 0, 0, 0, 0], [1, 0, 0, 0, 0], [1, 1, 0, 0, 1], [1, 1, 1, 1, 1], [1, 1, 1, 1, 0], [1, 1, 1, 1, 1],
    [1, 1, 1, 1, 0], undefined];
  const there = run();
  for (const moment of [...wanted.keys(), ...[...wanted.keys()].reverse(), 5, 2, 9, 0, 6, 7]) {
    const state = there.go(moment);
    if (wanted[moment]) assert.deepStrictEqual(numbers(state), wanted[moment], `moment ${moment}`);
    else assert.ok(!state.groups.has(1));
  }
  assert.deepStrictEqual(there.go(4).pidsOf(there.state.groups.get(1)), [2]);
  assert.deepStrictEqual(there.state.pidsOf(there.state.groups.get(0)), [1]);
});

test("a list of processes after blanks of each kind", () => {
  const there = new Run({
    lines: "fork 1 2\ncat / cgroup.procs", names: ["/"], parents: [0], notes: {}, times: null,
    answers: ["ok", "ok\n2"], answer: [0, 1], steps: [3, 2, 2, 0, 0],
  });
  there.go(2);
  assert.deepStrictEqual([there.listedBy(0), there.listedBy(1)], [NaN, 2]);
  assert.strictEqual(there.answerOf(1), "ok\n| 1\n| 2");
  const long = answered(...["ok\n1234567890", "ok\n", "ok\n| 7", "ok\n7\n8", "refused 7", "ok"].map((answer) => ["cat / cgroup.procs", answer]));
  assert.deepStrictEqual([0, 1, 2, 3, 4, 5].map((command) => long.listedBy(command)), [1234567890, NaN, NaN, NaN, NaN, NaN]);
});

test("a kill of many and its undo take little time at each step", () => {
  const many = 30000, lines = ["mkdir /a"], steps = [[0, 1]];
  for (let pid = 2; pid < many; pid++) lines.push(`fork 1 ${pid}`), steps.push([2, pid, 1]);
  for (let i = 0; i < 20; i++) {
    lines.push("write /a cgroup.kill 1"), steps.push([5, 1]);
    lines.push("undo"), steps.push([6, lines.length - 2]);
  }
  const there = new Run({
    lines: lines.join("\n"), names: ["/", "a"], parents: [0, 0], notes: {}, times: null,
    answers: ["ok"], answer: lines.map(() => 0), steps: steps.flatMap((step) => [step.length, ...step]),
  });
  const began = process.cpuUsage().user;
  for (let moment = lines.length; moment > lines.length - 40; moment--) {
    const state = there.go(moment), is_killed = (moment - many) % 2 === 0;
    assert.strictEqual(state.groups.get(1).numbers[CURRENT], is_killed ? 0 : many - 2, `moment ${moment}`);
  }
  const each = (process.cpuUsage().user - began) / 40000;
  assert.ok(each < 200, `${each} ms of processor time for each step`);
});

test("what the last command changed", () => {
  const there = run();
  there.go(4);
  assert.deepStrictEqual([...there.changed.keys()].sort(), [0, 1]);
  assert.deepStrictEqual([...there.state.fresh], [2]);
  assert.strictEqual(there.changed.get(1)[CURRENT], 0);
  there.go(5);
  assert.deepStrictEqual([...there.changed.keys()], [1]);
  there.go(0);
  assert.strictEqual(there.changed.size, 0);
  there.go(1);
  assert.strictEqual(there.changed.get(1), null);
});

test("a process's life", () => {
  const told = run().life(2).map(({ what, group, moment }) => `${moment} ${what} ${group}`);
  assert.deepStrictEqual(told, ["3 born 0", "4 moved 1", "6 ended 1", "7 born 1", "8 ended 1"]);
  assert.deepStrictEqual(run().life(1), [{ what: "born", group: 0, moment: 0 }]);
  assert.deepStrictEqual(run().life(3), []);
});

test("search by pid, path and word", () => {
  assert.deepStrictEqual(search(run(), "2"), [3, 4, 5, 6, 7, 8]);
  assert.deepStrictEqual(search(run(), "1"), [3], "a value is no pid");
  assert.deepStrictEqual(search(run(), "/a"), [1, 2, 4, 5, 6, 7, 9]);
  assert.deepStrictEqual(search(run(), "Too Many"), [5]);
  assert.deepStrictEqual(search(run(), "refused"), [5]);
  assert.deepStrictEqual(search(run(), " "), []);
});

// A run of commands that change nothing that these questions need: lines with answers.
const answered = (...pairs) => new Run({
  lines: pairs.map(([line]) => line).join("\n"), names: ["/", "a", "b", "bc"], parents: [0, 0, 1, 1], notes: {}, times: null,
  answers: pairs.map(([, answer]) => answer ?? "ok"), answer: pairs.map((_, at) => at),
  steps: pairs.flatMap(([, , ...step]) => [step.length, ...step]),
});

test("a path is found from its start", () => {
  const one = answered(["mkdir /a"], ["mkdir /b"], ["mkdir /a/b"], ["mkdir /a/bc"], ["rmdir /b", "refused haschildren /b"]);
  assert.deepStrictEqual(search(one, "/b"), [2, 5]);
  assert.deepStrictEqual(search(one, "/a/b"), [3, 4]);
});

test("the refusals of a group", () => {
  const there = answered(
    ["mkdir /a", "ok", 0, 1], ["mkdir /a/b", "ok", 0, 2], ["mkdir /a/bc", "ok", 0, 3], ["fork 1 2", "refused pidsmax /a/b"], ["fork 1 2", "refused pidsmax /a/bc"],
    ["rmdir /a", "refused haschildren"], ["mkdir /a/b", "refused exists"], ["mkdir /a/b/c", "refused depth /a"], ["exit 9", "refused noprocess 9"],
    ["cat /a/b pids.max", "ok\n| refused"],
  );
  const of = (path) => refusalsOf(there, path);
  assert.deepStrictEqual([of("/a/b"), of("/a/bc"), of("/a"), of("/")], [[4, 7], [5], [6, 8], []]);
  assert.deepStrictEqual(search(there, " refused   /a/b "), [4, 7]);
  assert.deepStrictEqual(search(there, "refused /a/B"), []);
  assert.deepStrictEqual(search(there, "refused pidsmax"), [4, 5]);
  const full = answered(["mkdir /a", "refused descendants /"], ["mkdir /b"], ["rmdir /", "refused rootfixed"]);
  assert.deepStrictEqual(search(full, "refused /"), [1, 3]);
});

test("the group of a command", () => {
  const group = (moment, there = run()) => (there.go(moment), there.paths[groupOf(there, moment - 1)]);
  assert.deepStrictEqual([0, 1, 2, 3, 4, 5, 6, 7, 8, 9].map((moment) => group(moment)), ["/", "/a", "/a", "/", "/a", "/a", "/a", "/a", "/a", "/"]);
  const there = answered(
    ["mkdir /a", "ok", 0, 1], ["mkdir /a/b", "ok", 0, 2], ["fork 1 2", "ok", 2, 2, 0], ["write /a/b cgroup.procs 2", "ok", 4, 2, 2], ["fork 2 3", "refused pidsmax /a"],
    ["where 2"], ["exit 9", "refused noprocess 9"], ["cat /a/zz pids.max", "refused nogroup /a/zz"], ["fork 2 1", "refused pidinuse 1"], ["exit 2", "ok", 3, 2],
    ["undo", "ok\n| exit 2", 2, 2, 2], ["undo", "ok\n| write /a/b cgroup.procs 2", 4, 2, 0], ["rmdir /a/b", "ok", 1, 2], ["nonsense", "refused syntax"],
  );
  const wanted = ["/", "/a", "/a/b", "/", "/a/b", "/a", "/a/b", "/", "/a", "/a/b", "/a/b", "/a/b", "/a/b", "/a", "/"];
  assert.deepStrictEqual(wanted.map((_, moment) => group(moment, there)), wanted);
  const back = answered(
    ["mkdir /a", "ok", 0, 1], ["mkdir /a/b", "ok", 0, 2], ["fork 1 2", "ok", 2, 2, 0], ["write /a/b cgroup.procs 2", "ok", 4, 2, 2], ["write /a cgroup.procs 2", "ok", 4, 2, 1],
    ["undo", "ok\n| write /a cgroup.procs 2", 4, 2, 2], ["fork 1 2", "refused pidinuse 2"], ["fork 9 2", "refused noprocess 9"], ["exit 2", "ok", 3, 2],
    ["undo", "ok\n| exit 2", 2, 2, 2], ["write /a/b cgroup.kill 1", "ok", 5, 2], ["undo", "ok\n| write /a/b cgroup.kill 1", 6, 10], ["undo", "refused nothing"],
  );
  const told = ["/", "/a", "/a/b", "/", "/a/b", "/a", "/a", "/", "/a/b", "/a/b", "/a/b", "/a/b", "/a/b", "/"];
  assert.deepStrictEqual(told.map((_, moment) => group(moment, back)), told, "an undo is about what the undone command names");
});

test("a refused command is about the group that refused it", () => {
  const there = answered(
    ["mkdir /a", "ok", 0, 1], ["mkdir /a/b", "ok", 0, 2], ["mkdir /a/b/c", "refused depth /a"], ["mkdir /a/b/c", "refused descendants /"],
    ["mkdir /a/b", "refused exists"],
  );
  const wanted = ["/a", "/a/b", "/a", "/", "/a/b"];
  assert.deepStrictEqual(wanted.map((_, at) => (there.go(at + 1), there.paths[groupOf(there, at)])), wanted);
});

test("a path that the run has not stands for the nearest group above it", () => {
  const lines = ["mkdir /a", "rmdir /nobody", "cat /ab pids.max", "cat /a/bcd/e pids.max", "cat /a/b/c/d pids.max", "rmdir /a/b /a/bc", "mkdir /a/bc /a/b"];
  const there = answered(...lines.map((line, at) => (at === 0 ? [line, "ok", 0, 1, 0, 2, 0, 3] : [line, "refused syntax"])));
  const group = (moment) => (there.go(moment), there.paths[groupOf(there, moment - 1)]);
  assert.deepStrictEqual(lines.map((_, at) => group(at + 1)), ["/a/bc", "/", "/", "/a", "/a/b", "/a/b", "/a/bc"].map((path, at) => (at === 0 ? "/a" : path)));
  assert.deepStrictEqual([refusalsOf(there, "/a/b"), refusalsOf(there, "/a/bc"), refusalsOf(there, "/nobody")], [[6], [7], [2]], "of two paths the first");
});

test("a pid is found with each digit, also where a command was refused", () => {
  const lines = ["fork 1 1234567", "fork 1 890", "exit 890", "write /a cgroup.procs 890", "where 1234567", "cat /a pids.max", "write /a pids.max 890", "write / cgroup.procs 1234567"];
  const there = answered(...lines.map((line) => [line, "refused noprocess"]));
  assert.deepStrictEqual(["1234567", "890", "0890", "89", "/a", "/A"].map((query) => search(there, query)), [[1, 5, 8], [2, 3, 4], [], [], [4, 6, 7], [4, 6, 7]]);
});

test("series with marks, and times", () => {
  const [series] = run().series([1]);
  assert.deepStrictEqual(series.refused.map(({ moment }) => moment), [5]);
  assert.deepStrictEqual(series.kills.map(({ moment }) => moment), [6]);
  assert.deepStrictEqual(series.points.map(({ moment, current }) => [moment, current]), [[0, -1], [1, 0], [2, 0], [4, 1], [5, 1], [6, 0], [7, 1], [8, 0], [9, -1]]);
  assert.deepStrictEqual(run().times, [0, 1, 2, 3, 4, 5, 10, 15, 20, 25]);
  assert.deepStrictEqual(run().busiest(2), [1]);
});

test("a thousand groups side by side are folded", () => {
  const names = ["/", ...Array.from({ length: 1000 }, (_, at) => `g${at}`)];
  const wide = new Run({
    lines: names.slice(1).map((name) => `mkdir /${name}`).join("\n"), names, parents: names.map(() => 0), notes: {}, times: null, answers: ["ok"],
    answer: names.slice(1).map(() => 0), steps: names.slice(1).flatMap((_, at) => [2, 0, at + 1]),
  });
  const rows = (...sets) => treeRows(wide.go(1000), ...sets);
  const some = rows(new Set(), new Set(), new Set([777]));
  assert.strictEqual(some.length, 1 + 20 + 1 + 1);
  assert.strictEqual(some.at(-1).rest, 979);
  assert.ok(some.some((row) => row.group && row.group.id === 777));
  assert.strictEqual(rows(new Set(), new Set([0]), new Set()).length, 1002);
  assert.strictEqual(rows(new Set([0]), new Set(), new Set()).length, 1);
  assert.strictEqual(wide.checkpoints.length, 1, "a checkpoint comes after work in proportion to its size");
});

test("shapes of plots", () => {
  const same = (value) => value;
  const points = [{ moment: 0, n: -1 }, { moment: 2, n: 1 }, { moment: 5, n: 3 }, { moment: 8, n: -1 }, { moment: 9, n: 2 }];
  assert.strictEqual(stepPath(points, "n", same, same, 10), "M2 1V1H5H5V3V3H8M9 2V2H10");
  // of the points in one column the first, the least, the greatest and the last are shown, in both directions
  const column = [5, 9, 2, 6].map((n, at) => ({ moment: 1 + at / 100, n })), beside = [{ moment: 0, n: 4 }, ...column, { moment: 3, n: 7 }];
  assert.strictEqual(stepPath(beside, "n", same, same, 4), "M0 4V4H1H1V5V2V9V6H3H3V7V7H4");
  const many = Array.from({ length: 10000 }, (_, at) => ({ moment: at, n: at % 7 }));
  assert.ok(stepPath(many, "n", (at) => at / 100, same, 100).length < 201 * 40, "no more than the columns of the picture");
  assert.strictEqual(stepPath([], "n", same, same, 10), "");
  assert.deepStrictEqual(ticks(10, 5), [0, 2, 4, 6, 8, 10]);
  assert.deepStrictEqual(ticks(0.7, 8), [0, 0.1, 0.2, 0.3, 0.4, 0.5, 0.6, 0.7]);
  assert.deepStrictEqual(ticks(0, 4), [0]);
  assert.strictEqual(scale(0, 10, 100, 200)(5), 150);
  assert.strictEqual(scale(3, 3, 7, 9)(3), 7);
  assert.deepStrictEqual([[-1, 0], [0, 0], [2.5, 2], [9, 3]].map(([value]) => momentAt([0, 1, 2, 3], value)), [0, 0, 2, 3]);
  assert.deepStrictEqual([1, 2, 3].map((value) => momentAt([0, 1, 2, 3], value)), [1, 2, 3]);
  assert.deepStrictEqual(columns([4, 5, 9].map((moment) => ({ moment })), same).map(({ at, count }) => [at, count]), [[4, 2], [8, 1]]);
});

const file = process.env.MAKHLOEUM_RUN;
test("the page's state is the engine's at every moment", { skip: !file && "MAKHLOEUM_RUN names no run" }, () => {
  const { data, moments } = JSON.parse(readFileSync(file, "utf8"));
  const there = new Run(data), order = moments.map((_, at) => (at * 7919) % moments.length);
  assert.ok(there.length + 1 === moments.length && there.checkpoints.length > 2);
  for (const moment of [...order, ...[...order.keys()].reverse()]) {
    const state = there.go(moment), told = {};
    for (const [id, group] of state.groups) {
      told[there.paths[id]] = [id === 0 ? [] : [LIMIT, PEAK, TOTAL, LOCAL, CURRENT].map((field) => group.numbers[field]), state.pidsOf(group)];
    }
    assert.deepStrictEqual(told, moments[moment], `moment ${moment}`);
    if (moment > 0) assert.strictEqual(there.answerOf(moment - 1), data.answers_whole[moment - 1]);
  }
});
