// The rows of the tree: for each group its name, its numbers and its processes.
import { CURRENT, LIMIT, LOCAL, PEAK, TOTAL, sorted } from "./state.mjs";
import { count, limitText, make } from "./parts.mjs";

const LONG_NAME = 16, NAME_END = 12; // letters

// A row of treeRows. `view` has the group that is chosen, of each group that the command changed its numbers on the command's
// other side, the pids that the command brought, and how many letters the column of processes has.
export function treeRow(run, { group, level, place, beside, rest, children, closed }, view) {
  const row = make("div", { className: "row", ariaLevel: String(level + 1), ariaPosInSet: String(place), ariaSetSize: String(beside) });
  row.style.setProperty("--level", level);
  if (!group) {
    row.append(make("span", { className: "name rest" }, rest > 0 ? `▸ ${count(rest)} more groups` : "▾ fold these groups"));
    return row;
  }
  row.ariaSelected = String(group.id === view.chosen);
  row.ariaLabel = spoken(run.names[group.id], group);
  if (children) row.ariaExpanded = String(!closed);
  row.classList.toggle("changed", view.others.has(group.id));
  row.classList.toggle("chosen", group.id === view.chosen);
  row.append(nameCell(run.names[group.id], run.paths[group.id], children ? (closed ? "▸" : "▾") : ""), ...cells(group, view.others.get(group.id)));
  row.append(make("span", {}, ...processes(run, group, view.fresh, "span", view.room)));
  return row;
}

// How many letters wide the name with its indentation is.
export function nameWidth(run, { group, level }) {
  return group ? level * 2 + 3 + run.names[group.id].length : 0;
}

// A long name loses its middle where it has no room: its end stays.
function nameCell(name, path, twist) {
  const end = name.length > LONG_NAME ? NAME_END : 0, start = make("span", { className: "start" }, name.slice(0, name.length - end));
  const cell = make("span", { className: "name", title: path }, make("span", { className: "twist" }, twist), start);
  if (end > 0) cell.append(make("span", { className: "end" }, name.slice(-end)));
  return cell;
}

function spoken(name, { id, numbers }) {
  if (id === 0) return `${name}: ${numbers[CURRENT]} processes in all`;
  const counts = `pids.current ${numbers[CURRENT]}, pids.max ${limitText(numbers[LIMIT])}, pids.peak ${numbers[PEAK]}`;
  return `${name}: ${counts}, refused here ${numbers[LOCAL]}, in all ${numbers[TOTAL]}`;
}

function cells({ id, numbers }, other) {
  const cell = (text, ...fields) => {
    const differs = other && fields.some((field) => other[field] !== numbers[field]);
    return make("span", { className: differs ? "number-cell was" : "number-cell" }, text);
  };
  if (id === 0) return [make("span"), cell(`${count(numbers[CURRENT])} in all`, CURRENT), make("span"), make("span"), make("span")];
  const refused = cell(`${numbers[LOCAL]} / ${numbers[TOTAL]}`, LOCAL, TOTAL), populated = numbers[CURRENT] > 0;
  refused.classList.toggle("refused", numbers[TOTAL] > 0);
  const current = cell(`${numbers[CURRENT]} / ${limitText(numbers[LIMIT])}`, CURRENT, LIMIT);
  return [bar(numbers), current, cell(String(numbers[PEAK]), PEAK), make("span", { className: populated ? "yes" : "no" }, populated ? "● yes" : "○ no"), refused];
}

// Without a limit the bar ends at the peak.
function bar(numbers) {
  const whole = Math.max(1, numbers[LIMIT] < 0 ? numbers[PEAK] : numbers[LIMIT]);
  const part = (value) => `${Math.min(100, (100 * value) / whole)}%`, box = make("span", { className: "bar" }, make("b"));
  box.classList.toggle("full", numbers[LIMIT] >= 0 && numbers[CURRENT] >= numbers[LIMIT]);
  box.classList.toggle("free", numbers[LIMIT] < 0);
  box.firstChild.style.width = part(numbers[CURRENT]);
  if (numbers[PEAK] > 0) box.append(make("i"));
  if (numbers[PEAK] > 0) box.lastChild.style.left = `calc(${part(numbers[PEAK])} - 2px)`;
  return box;
}

// The processes of a group as elements, those that fit into `room` letters; if it isn't all of them, a text says how many there are.
export function processes(run, group, fresh, tag, room) {
  const pids = fitting(run, group, fresh, room);
  const all = sorted(pids).map((pid) => {
    const one = make(tag, { className: fresh.has(pid) ? "pid fresh" : "pid" }, String(pid));
    one.dataset.pid = one.dataset.key = pid;
    return one;
  });
  return pids.length < group.own ? [...all, others(group.own, pids.length)] : all;
}

function others(own, shown) {
  return shown > 0 ? ` .. ${count(own - shown)} more` : `${count(own)} in all`;
}

// If not all of them have room, those that the last command brought come first.
function fitting(run, group, fresh, room) {
  const size = (pid) => String(pid).length + 1, first = [...fresh].filter((pid) => run.state.home[run.places.get(pid)] === group.id);
  const some = new Set([...first.slice(0, room), ...run.state.pidsOf(group, room)]), pids = [...some];
  if (pids.length === group.own && pids.reduce((sum, pid) => sum + size(pid), 0) <= room) return pids;
  let used = 0, shown = 0;
  while (shown < pids.length && used + size(pids[shown]) + others(group.own, shown + 1).length <= room) used += size(pids[shown++]);
  return pids.slice(0, shown);
}
