// As much of a document as the parts of the page use, so that they can be tested without a browser: elements that keep what they
// were given, without a layout. `dispatch` calls what listens. Importing it puts `document`, `innerWidth` and `ResizeObserver` in
// their place.

class Style {
  setProperty(name, value) {
    this[name] = String(value);
  }
}

export class Element {
  constructor(tag) {
    Object.assign(this, { tag, className: "", nodes: [], attributes: {}, dataset: {}, style: new Style(), listeners: {}, parent: null });
    Object.assign(this, { scrollTop: 0, clientHeight: 0, offsetWidth: 0, offsetHeight: 0, box: { left: 0, top: 0, width: 0, height: 0 } });
  }

  get classList() {
    const words = () => new Set(this.className.split(" ").filter(Boolean));
    const toggle = (word, wanted) => {
      const now = words();
      if (wanted) now.add(word);
      else now.delete(word);
      this.className = [...now].join(" ");
    };
    return { toggle, contains: (word) => words().has(word) };
  }

  get textContent() {
    return this.nodes.map((node) => (typeof node === "string" ? node : node.textContent)).join("");
  }

  set textContent(text) {
    this.replaceChildren(String(text));
  }

  get children() {
    return this.nodes.filter((node) => typeof node !== "string");
  }

  get firstChild() {
    return this.nodes[0];
  }

  get lastElementChild() {
    return this.children.at(-1);
  }

  get lastChild() {
    return this.nodes.at(-1);
  }

  get parentElement() {
    return this.parent;
  }

  append(...nodes) {
    for (const node of nodes) {
      this.nodes.push(node);
      if (typeof node !== "string") node.parent = this;
    }
  }

  replaceChildren(...nodes) {
    this.nodes = [];
    this.append(...nodes);
  }

  remove() {
    this.parent.nodes = this.parent.nodes.filter((node) => node !== this);
    this.parent = null;
  }

  * all() {
    for (const child of this.children) {
      yield child;
      yield* child.all();
    }
  }

  contains(other) {
    return other === this || [...this.all()].includes(other);
  }

  // Of selectors only tags, classes, [data-name] and tag[type=search], with commas between them.
  matches(selectors) {
    return selectors.split(", ").some((selector) => {
      const [, tag, kind, data, type] = /^([a-z0-9]*)(?:\.([a-z-]+))?(?:\[data-([a-z]+)\])?(?:\[type=([a-z]+)\])?$/.exec(selector);
      return (!tag || tag === this.tag) && (!kind || this.classList.contains(kind)) && (!data || data in this.dataset) && (!type || type === this.type);
    });
  }

  querySelectorAll(selectors) {
    return [...this.all()].filter((one) => one.matches(selectors));
  }

  querySelector(selectors) {
    return this.querySelectorAll(selectors)[0] ?? null;
  }

  closest(selectors) {
    for (let one = this; one; one = one.parent) if (one.matches(selectors)) return one;
    return null;
  }

  setAttribute(name, value) {
    this.attributes[name] = String(value);
    if (name === "class") this.className = String(value);
  }

  removeAttribute(name) {
    delete this.attributes[name];
  }

  getAttribute(name) {
    return this.attributes[name] ?? null;
  }

  addEventListener(kind, act) {
    (this.listeners[kind] ??= []).push(act);
  }

  dispatch(kind, event = {}) {
    const all = { prevented: false, stopped: false, ...event };
    Object.assign(all, { preventDefault: () => (all.prevented = true), stopPropagation: () => (all.stopped = true) });
    for (const act of this.listeners[kind] ?? []) act(all);
    return all;
  }

  // As dispatch, and then for what is around it up to the document.
  bubble(kind, event = {}) {
    let told = { target: this, ...event };
    for (let one = this; one && !told.stopped; one = one.parent) told = one.dispatch(kind, told);
    return told.stopped ? told : document.dispatch(kind, told);
  }

  getBoundingClientRect() {
    return this.box;
  }

  setPointerCapture(id) {
    this.captured = id;
  }

  focus(options) {
    document.activeElement = this;
    this.focused = options;
  }
}

export const observed = []; // [element, what is called when its size changes]

globalThis.document = Object.assign(new Element("document"), {
  createElement: (tag) => new Element(tag), createElementNS: (space, tag) => Object.assign(new Element(tag), { space }), activeElement: null,
});
globalThis.innerWidth = 1000;
globalThis.ResizeObserver = class {
  constructor(act) {
    this.act = act;
  }

  observe(element) {
    observed.push([element, this.act]);
  }
};
