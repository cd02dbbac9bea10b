// The menu of a right click, or of a finger that rests; and selecting one more shape by a finger that rests on it.

import { all, part } from "./elements.js";
import { DRAWING, SLOP, distance } from "./tools.js";

/** For how many milliseconds a finger rests. */
const REST = 500;
/** For how many nothing is chosen by the click that comes just behind a finger. */
const LIFTED = 100;
/** The rows: what is done, in words, by which key; and lines between them. */
const OF_SHAPES = [
  ["cut", "Cut", "Ctrl+X"], ["copy", "Copy", "Ctrl+C"], ["paste", "Paste", "Ctrl+V"],
  ["duplicate", "Copy beside itself", "Ctrl+D"],
  ["copy-png", "Copy as PNG"], ["copy-svg", "Copy as SVG"], null,
  ["front", "To front", "]"], ["forward", "One step to the front", "Ctrl+]"],
  ["backward", "One step to the back", "Ctrl+["], ["back", "To back", "["], null,
  ["group", "Group", "G"], ["ungroup", "Ungroup", "U"], ["put", "Put in", "I"], ["take", "Take out", "O"], null,
  ["hide", "Hide or show", "H"], ["turn", "Quarter turn", "T"], ["flip", "Flip", "X"], null,
  ["fit-selection", "Zoom to it", "8"], ["delete", "Delete", "Del"],
];
const OF_PAGE = [
  ["paste", "Paste", "Ctrl+V"], ["all", "Select all", "Ctrl+A"],
  ["copy-png", "Copy all as PNG"], ["copy-svg", "Copy all as SVG"], null,
  ["link", "Copy a link for looking only"],
  ["fit", "Show all", "9"], ["nearest", "One to one", "0"], ["grid", "Grid", "#"],
];
const FOR_LOOKING = ["copy", "copy-png", "copy-svg", "fit-selection", "fit", "nearest"];

export class Menu {
  #app;
  #element = part("menu");
  #stage = part("stage");
  #rest = null;
  /** When a finger asked for it. */
  #time = -Infinity;

  constructor(app) {
    this.#app = app;
    this.#stage.addEventListener("contextmenu", (event) => this.#ask(event));
    this.#stage.addEventListener("pointerdown", (event) => this.#down(event), { capture: true });
    this.#stage.addEventListener("pointermove", (event) => this.#moved(event));
    this.#stage.addEventListener("pointerup", (event) => this.#up(event), { capture: true });
    this.#stage.addEventListener("pointercancel", () => { this.#rest = null; });
    this.#stage.addEventListener("wheel", () => this.close());
    document.addEventListener("pointerdown", (event) => this.#leave(event), { capture: true });
    window.addEventListener("blur", () => this.close());
    this.#element.addEventListener("keydown", (event) => this.#key(event));
    this.#element.addEventListener("click", (event) => this.#click(event));
  }

  // -- when it is asked for -------------------------------------------------------------------------------------------

  #spot({ clientX, clientY }) {
    const { left, top } = this.#stage.getBoundingClientRect(), window = [clientX - left, clientY - top];
    return { window, page: this.#app.view.toPage(window) };
  }

  // By the mouse, or by a key. (A finger that rests is seen to below.)
  #ask(event) {
    event.preventDefault();
    const { tool, toolName, past, state } = this.#app, isKey = event.button !== 2;
    if (event.pointerType === "touch" || (DRAWING.has(toolName) && (tool.begin || tool.points?.length))) return;
    if (!isKey && !past.isOn && !this.#app.isReader) this.#select(this.#spot(event));
    const { left, top, width, height } = this.#stage.getBoundingClientRect(), box = isKey && state.box;
    const middle = box && this.#app.view.toWindow([(box.left + box.right) / 2, (box.top + box.bottom) / 2]);
    const [x, y] = middle || [width / 2, height / 2];
    if (isKey) this.open(left + x, top + y);
    else this.open(event.clientX, event.clientY);
  }

  // What a click selects; what is selected with others stays so.
  #select(at) {
    const app = this.#app;
    app.choose("select");
    app.tool.drop();
    if (this.#isSelected(at, app.state.selection)) return;
    app.tool.press(at, {});
    app.tool.release(at, {});
  }

  #isSelected({ page }, selection) {
    const { tree } = this.#app.state, hit = tree?.at(page) ?? null;
    return hit !== null && tree.line(hit).some(({ id }) => selection.includes(id));
  }

  #down(event) {
    const { toolName, state } = this.#app, { clientX, clientY, timeStamp } = event;
    const isAlone = event.pointerType === "touch" && event.isPrimary && !DRAWING.has(toolName);
    this.#rest = isAlone ? { at: [clientX, clientY], time: timeStamp, before: state.selection } : null;
  }

  #moved({ clientX, clientY }) {
    if (this.#rest && distance([clientX, clientY], this.#rest.at) >= SLOP) this.#rest = null;
  }

  #up(event) {
    const rest = this.#rest;
    this.#rest = null;
    if (rest && event.timeStamp - rest.time >= REST) this.#rested(event, rest.before);
  }

  // One more shape is selected with those that were; on one that was already, and beside all, the menu is shown.
  #rested(event, before) {
    const { state, stage, tool } = this.#app, at = this.#spot(event), isSelected = this.#isSelected(at, before);
    if (isSelected) stage.drop();
    else tool.release(at, {});
    if (!isSelected && before.length && state.selection.length) state.select([...before, ...state.selection]);
    else this.open(event.clientX, event.clientY);
    this.#time = event.timeStamp;
  }

  // -- what it shows --------------------------------------------------------------------------------------------------

  /** Shows what can be done with what is selected, or with the page, at a place of the browser's window. */
  open(x, y) {
    const { state, past, isReader } = this.#app, rows = state.records.length ? OF_SHAPES : OF_PAGE;
    const isFit = (row) => row === null || !(past.isOn || isReader) || FOR_LOOKING.includes(row[0]);
    this.#element.replaceChildren(...rows.filter(isFit).map((row) => this.#row(row)));
    this.#element.hidden = false;
    const { width, height } = this.#element.getBoundingClientRect();
    this.#element.style.left = `${Math.max(4, Math.min(x, innerWidth - width - 4))}px`;
    this.#element.style.top = `${Math.max(4, Math.min(y, innerHeight - height - 4))}px`;
    this.#element.focus();
  }

  // An act can be done where its button in the panel may be pressed.
  #row(row) {
    if (row === null) return document.createElement("hr");
    const [act, words, key = ""] = row, button = document.createElement("button"), hint = document.createElement("kbd");
    button.setAttribute("role", "menuitem");
    button.dataset.choice = act;
    button.tabIndex = -1;
    button.disabled = all(`#actions [data-act="${act}"]`)[0]?.disabled ?? false;
    hint.textContent = key;
    button.append(words, ...(key ? [hint] : []));
    return button;
  }

  close() {
    if (this.#element.hidden) return;
    this.#element.hidden = true;
    this.#app.stage.focus();
  }

  #leave({ target }) {
    if (!this.#element.contains(target)) this.close();
  }

  #click({ target, timeStamp }) {
    if (timeStamp - this.#time >= LIFTED) this.#choose(target.closest("button"));
  }

  #choose(button) {
    if (!button || button.disabled) return;
    this.close();
    this.#app.act(button.dataset.choice);
  }

  #key(event) {
    const rows = [...this.#element.querySelectorAll("button:enabled")], at = rows.indexOf(document.activeElement);
    const acts = {
      ArrowDown: () => rows[(at + 1) % rows.length]?.focus(),
      ArrowUp: () => rows.at(at < 0 ? -1 : at - 1)?.focus(),
      Home: () => rows[0]?.focus(),
      End: () => rows.at(-1)?.focus(),
      Enter: () => this.#choose(rows[at]),
      " ": () => this.#choose(rows[at]),
      Escape: () => this.close(),
      Tab: () => this.close(),
    };
    acts[event.key]?.();
    // (no key of the page works while the menu is shown)
    event.stopPropagation();
    if (acts[event.key]) event.preventDefault();
  }
}
