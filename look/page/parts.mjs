// The parts of the page that know no run: elements, numbers as text, and a list that draws only the rows in sight.

// An element with properties and children. Texts become text, never markup.
export function make(tag, properties = {}, ...children) {
  const element = Object.assign(document.createElement(tag), properties);
  element.append(...children);
  return element;
}

export function makeSvg(tag, attributes, text = "") {
  const element = document.createElementNS("http://www.w3.org/2000/svg", tag);
  for (const [name, value] of Object.entries(attributes)) element.setAttribute(name, value);
  element.textContent = text;
  return element;
}

export const count = (number) => number.toLocaleString("en");
export const limitText = (value) => (value < 0 ? "max" : String(value));

// Fills a box anew. What had the focus there keeps it if it is made again, with the same `data-key`; else the box gets it.
export function refill(box, ...children) {
  const key = box.contains(document.activeElement) ? document.activeElement.dataset.key ?? "" : null;
  box.replaceChildren(...children);
  if (key !== null) ([...box.querySelectorAll("[data-key]")].find((one) => one.dataset.key === key) ?? box).focus({ preventScroll: true });
}

// The height of a row, which letters of another size make higher.
function rowHeight(box) {
  const sample = make("div", { className: "row sample" });
  box.append(sample);
  const tall = sample.getBoundingClientRect().height;
  sample.remove();
  return tall || 22;
}

// `draw` makes the row with a number; all have the same height. Size and place of the box are remembered, since asking for them
// after a change makes the browser lay out the page.
export class Rows {
  constructor(box, role, draw) {
    Object.assign(this, { box, role, draw, count: 0, reached: -1, height: rowHeight(box), space: make("div") });
    Object.assign(this, { top: box.scrollTop, tall: box.clientHeight });
    box.append(this.space);
    box.addEventListener("scroll", () => Math.abs(box.scrollTop - this.top) >= 1 && this.moveTo(box.scrollTop));
    new ResizeObserver(() => this.measure()).observe(box);
  }

  // Letters of another size change the box too.
  measure() {
    this.tall = this.box.clientHeight;
    this.height = rowHeight(this.box);
    this.space.style.height = `${this.count * this.height}px`;
    this.show(this.count, this.reached);
  }

  moveTo(top) {
    this.top = top;
    this.show(this.count);
  }

  // Tells a screen reader which row is the one; none if it is -1.
  point(at) {
    this.reached = at;
    if (at >= 0) this.box.setAttribute("aria-activedescendant", `${this.box.id}-${at}`);
    else this.box.removeAttribute("aria-activedescendant");
  }

  // If `reach` is the number of a row, scrolls so that it is in sight, and points at it.
  show(count, reach = -1) {
    const { box, height, tall } = this, wanted = reach * height;
    if (count !== this.count) this.space.style.height = `${count * height}px`;
    this.count = count;
    if (reach >= 0) this.point(reach);
    if (reach >= 0 && (wanted < this.top + height || wanted > this.top + tall - 2 * height)) {
      this.top = Math.round(Math.max(0, Math.min(wanted - tall / 2, count * height - tall)));
      box.scrollTop = this.top;
    }
    const first = Math.max(0, Math.floor(this.top / height) - 2), end = Math.min(count, first + Math.ceil(tall / height) + 4);
    this.space.replaceChildren(...Array.from({ length: Math.max(0, end - first) }, (_, index) => this.row(first + index)));
  }

  row(at) {
    const row = Object.assign(this.draw(at), { id: `${this.box.id}-${at}`, role: this.role });
    row.style.top = `${at * this.height}px`;
    row.dataset.at = at;
    return row;
  }
}
