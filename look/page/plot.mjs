// The shapes of a plot, from a run's series to the paths of an SVG. Nothing here touches the document.

export function scale(from, to, low, high) {
  const size = to - from || 1;
  return (value) => low + ((value - from) / size) * (high - low);
}

// At most `count` round numbers from 0 to `most`.
export function ticks(most, count) {
  const rough = most / count, power = 10 ** Math.floor(Math.log10(rough || 1));
  const step = [1, 2, 5, 10].map((by) => by * power).find((by) => by >= rough) || 1;
  const all = [];
  for (let at = 0; at <= most * (1 + 1e-9); at += step) all.push(Number(at.toPrecision(12)));
  return all;
}

// A line that keeps each value until the next point. A value below 0 is none, and leaves a gap. Of the points in one column of
// the picture it shows the first, the least, the greatest and the last.
export function stepPath(points, field, x, y, end) {
  const parts = [];
  let column = null;
  const flush = (until) => {
    if (!column) return;
    if (column.drawn) {
      parts.push(column.starts ? `M${column.at} ${y(column.first)}` : `H${column.at}V${y(column.first)}`);
      if (column.low < column.high) parts.push(`V${y(column.low)}V${y(column.high)}`);
      if (column.last >= 0) parts.push(`V${y(column.last)}`);
    }
    if (until !== undefined && column.last >= 0) parts.push(`H${until}`);
  };
  for (const point of points) {
    const at = Math.round(x(point.moment) * 2) / 2, value = point[field];
    if (!column || column.at !== at) {
      const starts = !column || column.last < 0;
      flush(starts ? undefined : at);
      column = { at, starts, drawn: false, low: Infinity, high: -Infinity, last: value };
    }
    if (value >= 0) {
      if (!column.drawn) column.first = value;
      column.drawn = true;
      column.low = Math.min(column.low, value);
      column.high = Math.max(column.high, value);
    }
    column.last = value;
  }
  flush(end);
  return parts.join("");
}

// One mark for each column.
export function columns(marks, x) {
  const all = new Map();
  for (const mark of marks) {
    const at = Math.round(x(mark.moment) / 4) * 4;
    all.set(at, { at, moment: mark.moment, count: (all.has(at) ? all.get(at).count : 0) + 1 });
  }
  return [...all.values()];
}

// The last moment whose place is at or before `value`, where `places` ascend.
export function momentAt(places, value) {
  let low = 0, high = places.length - 1;
  while (low < high) {
    const middle = (low + high + 1) >> 1;
    if (places[middle] <= value) low = middle;
    else high = middle - 1;
  }
  return low;
}
