// What a reader asks about a run's commands: those that a query finds, those that a group refused, and the group that a command
// is about. Nothing here touches the document.
import { sorted } from "./state.mjs";

// The moments after the commands that a query finds: a pid, a path from its start, a word anywhere, or `refused` and a group.
export function search(run, query) {
  const text = query.trim(), of = /^refused\s+(\/\S*)$/.exec(text);
  if (text === "") return [];
  if (of) return refusalsOf(run, of[1]);
  if (/^[0-9]+$/.test(text)) return ofPid(run, text);
  return momentsOf(run, (command) => says(run, command, text.toLowerCase()));
}

// The moments after the commands that this group refused, or that were refused because of it: the reply names it. If the reply
// names no group, it is the group of the command.
export function refusalsOf(run, path) {
  return momentsOf(run, (command) => run.isRefused(command) && (pathIn(run.wordsOf(command)) ?? pathIn(run.lines[command])) === path);
}

// The group that a command is about, at the moment after it: the one that its reply or its words name, or that of its process.
// A group that isn't there any more stands for the one above it.
export function groupOf(run, command) {
  if (command < 0) return 0;
  const line = undone(run, command) ?? run.lines[command], named = run.isRefused(command) ? pathIn(run.wordsOf(command)) : undefined;
  const path = named ?? pathIn(line);
  let id = path ? nearest(run, path) : homeIn(run, pidsOf(line)) ?? Math.max(0, ...run.changed.keys());
  while (!run.state.groups.has(id)) id = run.parents[id];
  return id;
}

function momentsOf(run, test) {
  const found = [];
  for (let command = 0; command < run.length; command++) if (test(command)) found.push(command + 1);
  return found;
}

function ofPid(run, pid) {
  const alive = run.life(Number(pid)).map(({ moment }) => moment).filter((moment) => moment > 0);
  return sorted(new Set([...alive, ...momentsOf(run, (command) => pidsOf(run.lines[command]).includes(pid))]));
}

function says(run, command, text) {
  const all = [run.lines[command], run.wordsOf(command), run.notes[command] || ""].join("\n").toLowerCase();
  return text[0] === "/" ? all.split(/\s+/).some((word) => word.startsWith(text)) : all.includes(text);
}

function pathIn(words) {
  return words.split(/\s+/).find((word) => word[0] === "/");
}

// The group with this path, or the one above it that the run has.
function nearest(run, path) {
  while (path !== "" && !run.ids.has(path)) path = path.slice(0, path.lastIndexOf("/"));
  return run.ids.get(path || "/");
}

// The command that an undo took back.
function undone(run, command) {
  return run.lines[command] === "undo" ? run.wordsOf(command).split("\n| ")[1] : undefined;
}

// The group of the first of these processes that is alive.
function homeIn(run, pids) {
  return pids.map((pid) => run.state.home[run.places.get(Number(pid))]).find((home) => home >= 0);
}

function pidsOf(line) {
  const [verb, ...words] = line.split(/\s+/);
  if (verb === "fork" || verb === "exit" || verb === "where") return words;
  return verb === "write" && words[1] === "cgroup.procs" ? words.slice(2) : [];
}
