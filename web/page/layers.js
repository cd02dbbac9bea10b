// The layers panel: the tree in order, the front-most first. Only the rows that can be seen are in the page, so that it
// is quick with thousands of shapes.

import { isMeant, nameOf } from "./names.js";
import { Reorder } from "./reorder.js";

/** The height of a row, on a narrow screen and else, as style.css has it. */
const NARROW = matchMedia("(max-width: 720px)");
const heightNow = () => (NARROW.matches ? 44 : 27);
const FIRST = 8;
const INDENT = 15;
const ICONS = {
  rect: '<rect x="2" y="4" width="12" height="8"/>',
  ellipse: '<ellipse cx="8" cy="8" rx="6.5" ry="5"/>',
  polygon: '<path d="M8 2l6 5-2.5 7h-7L2 7z"/>',
  frame: '<path d="M4.5 1v14M11.5 1v14M1 4.5h14M1 11.5h14"/>',
  group: '<path d="M2 2h7v7H2zM7 7h7v7H7z"/>',
};
const EYE = '<svg viewBox="0 0 16 16"><path d="M1 8q7-9 14 0q-7 9-14 0z"/><circle cx="8" cy="8" r="2.2"/></svg>';
const SHUT = '<svg viewBox="0 0 16 16"><path d="M1 7q7 7 14 0M4 10.5l-1.5 2M8 11.5V14M12 10.5l1.5 2"/></svg>';

function element(tag, kind, text = "") {
  const found = document.createElement(tag);
  found.className = kind;
  found.textContent = text;
  return found;
}

/**
 * Makes these rows the children of an element. Those that are there stay untouched, so that a click on one is not lost.
 */
function showRows(parent, rows) {
  const kept = new Set(rows);
  [...parent.children].forEach((row) => kept.has(row) || row.remove());
  rows.forEach((row, k) => parent.children[k] === row || parent.insertBefore(row, parent.children[k] ?? null));
}

export class Layers {
  #panel;
  #rows;
  #list = [];
  #tree = null;
  #order;
  #closed = new Set();
  #drawn = new Map();
  #editor;
  #wanted = "";
  #reorder;

  /** How high a row is. */
  height = heightNow();

  /**
   * `show` is called with the id of a shape that is to be looked at, and `rename` for a new name of the selected one.
   */
  constructor(panel, editor, show, rename) {
    this.#panel = panel;
    this.#rows = panel.querySelector("#rows");
    this.#editor = editor;
    this.#reorder = new Reorder(panel, panel.querySelector("#drop"), { first: FIRST, indent: INDENT }, this);
    panel.addEventListener("scroll", () => this.#draw());
    panel.addEventListener("keydown", (event) => this.#key(event, show, rename));
    panel.addEventListener("click", (event) => this.#click(event));
    panel.addEventListener("dblclick", (event) => this.#twice(event, show, rename));
    new ResizeObserver(() => this.#draw()).observe(panel);
    NARROW.addEventListener("change", () => this.#measure());
    editor.state.addEventListener("selected", () => this.#reveal());
  }

  /** Shows a tree, or none; gives how many rows it has. */
  set(tree) {
    const isAsBefore = tree !== null && tree.order === this.#order && this.isOrdered;
    this.#tree = tree;
    if (isAsBefore) this.#draw();
    else this.#listAnew();
    this.#reorder.show();
    return this.#list.length;
  }

  #listAnew() {
    const tree = this.#tree;
    this.#order = tree?.order;
    this.#list = tree ? this.#listed(tree) : [];
    this.#rows.style.height = `${this.#list.length * this.height}px`;
    this.#draw();
  }

  #measure() {
    this.height = heightNow();
    this.#drawn.clear();
    this.#listAnew();
  }

  // All rows that are open, or all shapes that are searched for, whatever they lie in.
  #listed(tree) {
    if (!this.#wanted) return tree.rows(this.#closed);
    const found = tree.rows(new Set()).filter(({ record }) => isMeant(record, this.#wanted));
    return found.map((row, k) => ({ ...row, depth: 1, position: k + 1, among: found.length }));
  }

  /** Shows only what is meant by some words, or all again where there are none; gives how many shapes that are. */
  search(words) {
    this.#wanted = words.trim();
    this.#listAnew();
    if (!this.#wanted) this.#reveal();
    return this.#list.length;
  }

  /** Selects the first row, and takes the keys. */
  enter() {
    if (this.#list.length) this.#editor.select(this.#list[0].record.id);
    this.#panel.focus();
  }

  // -- what Reorder asks for ------------------------------------------------------------------------------------------

  get tree() {
    return this.#tree;
  }

  get rows() {
    return this.#list;
  }

  get isOrdered() {
    return !this.#wanted;
  }

  take(id) {
    const { state } = this.#editor;
    if (!state.selection.includes(id)) state.select([id]);
    return state.selection;
  }

  put(place) {
    if (this.#closed.delete(place.parent)) this.#listAnew();
    this.#editor.putAt(place);
  }

  // -- rows -----------------------------------------------------------------------------------------------------------

  #indexOf(id) {
    return this.#list.findIndex(({ record }) => record.id === id);
  }

  #draw() {
    const first = Math.floor(this.#panel.scrollTop / this.height);
    const count = Math.ceil(this.#panel.clientHeight / this.height) + 1;
    const shown = this.#list.slice(first, first + count);
    const seen = shown.map((row, k) => this.#rowAt(row, this.#tree.record(row.record.id), first + k));
    this.#drawn = new Map(seen.map((drawn) => [drawn.id, drawn]));
    showRows(this.#rows, seen.map((drawn) => drawn.element));
    const active = this.#editor.selected;
    if (this.#drawn.has(active)) this.#panel.setAttribute("aria-activedescendant", `layer-${active}`);
    else this.#panel.removeAttribute("aria-activedescendant");
  }

  // The row as it is drawn already, where nothing of it has changed.
  #rowAt({ depth, dim, position, among }, record, index) {
    const { id, hidden, shape } = record, isClosed = this.#closed.has(id);
    const hasChildren = this.isOrdered && this.#tree.children(id).length > 0;
    const attributes = {
      role: "treeitem", "aria-level": depth, "aria-posinset": position, "aria-setsize": among,
      "aria-selected": this.#editor.state.selection.includes(id),
      ...(hasChildren ? { "aria-expanded": !isClosed } : {}),
    };
    const looks = JSON.stringify([index, dim, hidden, shape.kind, shape.fill, nameOf(record), attributes]);
    const drawn = this.#drawn.get(id);
    if (drawn?.looks === looks) return drawn;
    const row = element("div", dim ? "row dim" : "row");
    row.id = `layer-${id}`;
    row.dataset.id = id;
    row.style.top = `${index * this.height}px`;
    row.style.paddingLeft = `${FIRST + (depth - 1) * INDENT}px`;
    for (const [name, value] of Object.entries(attributes)) row.setAttribute(name, value);
    const twist = element("span", "twist", hasChildren ? (isClosed ? "▸" : "▾") : "");
    twist.setAttribute("aria-hidden", "true");
    row.append(twist, this.#icon(record), this.#name(record), this.#eye(record));
    return { id, looks, element: row };
  }

  #icon({ shape }) {
    const icon = element("span", "");
    icon.innerHTML = `<svg class="kind" viewBox="0 0 16 16" aria-hidden="true">${ICONS[shape.kind]}</svg>`;
    icon.firstChild.style.fill = shape.fill ? `#${shape.fill}` : "none";
    return icon.firstChild;
  }

  #name(record) {
    const name = element("span", "name", nameOf(record));
    if (record.hidden) name.append(" ", element("small", "", "hidden"));
    return name;
  }

  #eye(record) {
    const eye = element("button", "eye");
    eye.innerHTML = record.hidden ? SHUT : EYE;
    eye.tabIndex = -1;
    eye.setAttribute("aria-label", `${record.hidden ? "Show" : "Hide"} ${nameOf(record)}`);
    return eye;
  }

  // Opens what the selected shape lies in, and scrolls to its row.
  #reveal() {
    const id = this.#editor.selected;
    if (this.#tree && id !== null) {
      const closed = this.#tree.line(id).slice(1).filter((record) => this.#closed.delete(record.id));
      if (closed.length) this.#listAnew();
      const top = this.#indexOf(id) * this.height, { scrollTop, clientHeight } = this.#panel;
      const isSeen = top >= scrollTop && top + this.height <= scrollTop + clientHeight;
      if (top >= 0 && !isSeen) this.#panel.scrollTop = top - clientHeight / 2;
    }
    this.#draw();
  }

  #toggle(id, isClosed) {
    if (isClosed) this.#closed.add(id);
    else this.#closed.delete(id);
    this.#listAnew();
  }

  #click(event) {
    const row = event.target.closest(".row");
    if (!row) return;
    const id = Number(row.dataset.id);
    if (event.target.closest(".twist") && this.#tree.children(id).length) this.#toggle(id, !this.#closed.has(id));
    else if (event.target.closest(".eye")) this.#editor.setHidden(id, !this.#tree.record(id).hidden);
    else if (event.shiftKey) this.#extend(id);
    else if (event.ctrlKey || event.metaKey) this.#change(id);
    else this.#editor.select(id);
  }

  // Selects or leaves one more row.
  #change(id) {
    const { state } = this.#editor, others = state.selection.filter((other) => other !== id);
    state.select(others.length < state.selection.length ? others : [...others, id]);
  }

  // Selects all rows from the last selected one to another one.
  #extend(id) {
    const from = this.#indexOf(this.#editor.selected), to = this.#indexOf(id);
    if (from < 0) return this.#editor.select(id);
    const rows = this.#list.slice(Math.min(from, to), Math.max(from, to) + 1).map(({ record }) => record.id);
    return this.#editor.state.select(to < from ? rows.reverse() : rows);
  }

  #twice(event, show, rename) {
    if (this.#editor.selected === null || !event.target.closest(".row")) return;
    if (event.target.closest(".name")) rename();
    else if (!event.target.closest(".eye, .twist")) show(this.#editor.selected);
  }

  #key(event, show, rename) {
    if (event.key === "Escape" && this.#reorder.cancel()) event.stopPropagation();
    else if (event.altKey && !event.ctrlKey && !event.metaKey) this.#carry(event);
    else this.#choose(event, show, rename);
  }

  // With Alt the arrows carry what is selected: to the front and back, out of what it lies in, and into what lies
  // behind it.
  #carry(event) {
    const editor = this.#editor;
    const acts = {
      ArrowUp: () => editor.step(false), ArrowDown: () => editor.step(true),
      ArrowLeft: () => editor.takeOut(), ArrowRight: () => editor.putIn(),
    };
    if (!acts[event.key]) return;
    acts[event.key]();
    event.preventDefault();
  }

  #choose(event, show, rename) {
    const at = this.#indexOf(this.#editor.selected), row = this.#list[at];
    const choose = (index) => {
      const found = this.#list[Math.min(this.#list.length - 1, Math.max(0, index))];
      if (found) this.#editor.select(found.record.id);
    };
    const isIn = () => this.#tree.children(row.record.id).length > 0 && !this.#closed.has(row.record.id);
    const isOpen = row && this.isOrdered && isIn();
    const acts = {
      ArrowDown: () => choose(at + 1),
      ArrowUp: () => choose(at < 0 ? this.#list.length - 1 : at - 1),
      Home: () => choose(0),
      End: () => choose(this.#list.length - 1),
      ArrowRight: () => (isOpen ? choose(at + 1) : row && this.#toggle(row.record.id, false)),
      ArrowLeft: () => {
        if (isOpen) this.#toggle(row.record.id, true);
        else if (row?.record.parent != null) this.#editor.select(row.record.parent);
      },
      Enter: () => row && show(row.record.id),
      F2: () => row && rename(),
    };
    if (event.ctrlKey || event.metaKey || !acts[event.key]) return;
    acts[event.key]();
    event.preventDefault();
    event.stopPropagation();
  }
}
