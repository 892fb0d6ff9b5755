// Widths of the tree's columns: how many letters fit into one, and a handle by which the column of names is resized.
import { make } from "./parts.mjs";

const STEP = 24, LEAST = 160, MOST = 1600; // pixels

// The width of a letter in a box with letters of one width.
export function letterWidth(box) {
  const sample = make("span", { className: "sample" }, "0".repeat(100));
  box.append(sample);
  const wide = sample.getBoundingClientRect().width / 100;
  sample.remove();
  return wide || 8;
}

// The handle changes --name of the box: it is dragged or moved by arrow keys. Home is the least width; End, Enter and a double
// click make the column as wide as its longest name, which `longest` returns.
export function resizable(handle, box, longest) {
  const set = (wide) => {
    const now = Math.round(Math.min(MOST, Math.max(LEAST, wide)));
    box.style.setProperty("--name", `${now}px`);
    handle.ariaValueNow = String(now);
  };
  const wide = () => handle.parentElement.offsetWidth, keys = {
    ArrowLeft: () => set(wide() - STEP), ArrowRight: () => set(wide() + STEP), Home: () => set(LEAST), End: () => set(longest()), Enter: () => set(longest()),
  };
  Object.assign(handle, { ariaValueMin: String(LEAST), ariaValueMax: String(MOST) });
  handle.addEventListener("focus", () => (handle.ariaValueNow = String(wide())));
  handle.addEventListener("dblclick", () => set(longest()));
  handle.addEventListener("keydown", (event) => {
    if (!keys[event.key]) return;
    keys[event.key]();
    event.preventDefault();
    event.stopPropagation();
  });
  let from = null;
  handle.addEventListener("pointerdown", (event) => {
    handle.setPointerCapture(event.pointerId);
    from = wide() - event.clientX;
  });
  handle.addEventListener("pointermove", (event) => from !== null && set(from + event.clientX));
  for (const end of ["pointerup", "pointercancel"]) handle.addEventListener(end, () => (from = null));
}
