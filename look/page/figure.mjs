// One plot as a figure: pids.current of a group with limit and peak, refused forks and kills as marks.
import { columns, momentAt, scale, stepPath, ticks } from "./plot.mjs";
import { make, makeSvg } from "./parts.mjs";

const LEFT = 46, RIGHT = 12, TOP = 12, BOTTOM = 20, HEIGHT = 108, NEAR = 4;
const KEY = { current: "pids.current", limit: "pids.max", peak: "pids.peak", refused: "refused fork", kill: "kill" };

// `go` gets the moment that was clicked, `off` the group whose plot is to go. `mark` moves the line at the shown moment.
export function plotOf(run, series, wide, tip, go, off) {
  const width = Math.max(320, wide), end = width - RIGHT, floor = HEIGHT - BOTTOM, name = run.paths[series.id];
  const place = (moment) => (run.times ? run.times[moment] : moment), last = place(run.length);
  const numbers = series.points.map(({ current, peak }) => Math.max(current, peak));
  const used = numbers.reduce((a, b) => Math.max(a, b), 4);
  // a limit far above all that was used would flatten the rest
  const most = series.points.reduce((a, { limit }) => (limit <= 2 * used ? Math.max(a, limit) : a), used);
  const points = series.points.map((point) => (point.limit > most ? { ...point, limit: -1 } : point));
  const across = scale(0, last, LEFT, end), x = (moment) => across(place(moment)), up = scale(0, most, floor, TOP);
  const y = (value) => Math.round(up(value) * 10) / 10;
  const attributes = { viewBox: `0 0 ${width} ${HEIGHT}`, preserveAspectRatio: "none", role: "img", "aria-label": `pids.current of ${name}` };
  const svg = makeSvg("svg", attributes);
  for (const tick of ticks(most, 4).filter(Number.isInteger)) {
    svg.append(makeSvg("path", { class: "grid", d: `M${LEFT} ${y(tick)}H${end}` }));
    svg.append(makeSvg("text", { x: LEFT - 6, y: y(tick) + 4, "text-anchor": "end" }, tick.toLocaleString("en")));
  }
  for (const tick of ticks(last, 8).filter((one) => run.times || Number.isInteger(one))) {
    const text = run.times ? `${tick} s` : tick.toLocaleString("en");
    svg.append(makeSvg("text", { x: across(tick), y: HEIGHT - 4, "text-anchor": "middle" }, text));
  }
  for (const field of ["peak", "limit", "current"]) svg.append(makeSvg("path", { class: field, d: stepPath(points, field, x, y, end) }));
  for (const { at } of columns(series.kills, x)) svg.append(makeSvg("path", { class: "mark-kill", d: `M${at} ${TOP}V${floor}` }));
  for (const { at } of columns(series.refused, x)) {
    svg.append(makeSvg("path", { class: "mark-refused", d: `M${at - 5} ${TOP - 10}h10l-5 9z` }));
  }
  const cursor = makeSvg("path", { class: "cursor" });
  svg.append(cursor);

  // a mark near the pointer goes before the command under it
  const pointed = (event) => {
    const box = svg.getBoundingClientRect(), from = ((event.clientX - box.left) / box.width) * width;
    const far = ({ moment }) => Math.abs(x(moment) - from);
    const near = [...series.refused, ...series.kills].filter((mark) => far(mark) <= NEAR).sort((a, b) => far(a) - far(b))[0];
    const value = scale(LEFT, end, 0, last)(from);
    return near ? near.moment : run.times ? momentAt(run.times, value) : Math.min(run.length, Math.max(0, Math.round(value)));
  };
  const moments = series.points.map(({ moment }) => moment);
  svg.addEventListener("pointermove", (event) => {
    const moment = pointed(event), { current, limit } = series.points[momentAt(moments, moment)];
    const command = moment > 0 ? `${moment}  ${run.lines[moment - 1]}\n${run.wordsOf(moment - 1).split("\n")[0]}` : "start";
    const numbers = current < 0 ? "no such group" : `pids.current ${current}, pids.max ${limit < 0 ? "max" : limit}`;
    tip.textContent = `${command}\n${numbers}${run.times ? `\nat ${run.times[moment]} s` : ""}`;
    tip.hidden = false;
    tip.style.left = `${Math.min(event.clientX + 14, innerWidth - tip.offsetWidth - 8)}px`;
    tip.style.top = `${Math.max(4, event.clientY - tip.offsetHeight - 10)}px`;
  });
  svg.addEventListener("pointerleave", () => (tip.hidden = true));
  svg.addEventListener("click", (event) => go(pointed(event)));
  const button = make("button", { title: "Remove this plot", ariaLabel: `Remove the plot of ${name}`, onclick: () => off(series.id) }, "✕");
  button.dataset.key = series.id;
  const key = Object.entries(KEY).map(([kind, text]) => make("span", { className: `key key-${kind}` }, text));
  const caption = make("figcaption", {}, make("strong", {}, name), ...key, button);
  const mark = (moment) => cursor.setAttribute("d", `M${x(moment)} ${TOP - 4}V${floor + 4}`);
  return { figure: make("figure", {}, caption, svg), mark };
}
