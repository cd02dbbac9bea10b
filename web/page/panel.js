// What the panel and the bar show of the state: what is selected, what can be done with it, and the layers with their
// search.

import { all, button, part } from "./elements.js";
import { count, nameOf } from "./names.js";

export class Panel {
  #app;

  constructor(app) {
    this.#app = app;
    part("search").addEventListener("input", () => this.#search());
    part("search").addEventListener("keydown", (event) => this.#keyOfSearch(event));
  }

  showTree() {
    const { layers, state } = this.#app;
    this.#showCount(layers.set(state.tree));
  }

  showSelected() {
    const { state, editor } = this.#app, { records, record, isPast } = state, several = records.length > 1;
    const none = several ? `${count(records.length, "shape")} are selected` : "Nothing is selected";
    part("shape-head").textContent = record ? nameOf(record) : none;
    const needs = {
      put: Boolean(editor.behind), take: records.some(({ parent }) => parent !== null),
      ungroup: records.some(({ shape }) => shape.kind === "group"),
    };
    for (const it of all("#actions button")) it.disabled = isPast || !(needs[it.dataset.act] ?? records.length > 0);
    for (const it of all("#arrange button")) it.disabled = isPast || records.length < Number(it.dataset.least);
    part("arrange").hidden = !several;
    button("hide").textContent = records.length && records.every(({ hidden }) => hidden) ? "Show" : "Hide";
  }

  showHistory() {
    const { undoName, redoName } = this.#app.state.history;
    const acts = [["undo", undoName, "Take back", "Ctrl+Z"], ["redo", redoName, "Make again", "Ctrl+Y"]];
    for (const [name, step, verb, keys] of acts) {
      button(name).disabled = step === undefined;
      button(name).title = `${verb}${step ? `: ${step}` : ""} (${keys})`;
    }
  }

  showGrid() {
    button("grid").setAttribute("aria-pressed", this.#app.grid.isOn);
  }

  // -- the search in the layers ---------------------------------------------------------------------------------------

  #search() {
    this.#showCount(this.#app.layers.search(part("search").value));
  }

  #showCount(found) {
    const { layers, state } = this.#app, all = state.tree?.records.size ?? 0;
    part("count").textContent = layers.isOrdered ? `${all}` : `${found} of ${all}`;
  }

  // Enter and the arrow go on to what was found; Esc shows all again.
  #keyOfSearch(event) {
    const { layers, stage, state } = this.#app;
    const acts = {
      ArrowDown: () => layers.enter(),
      Enter: () => { layers.enter(); this.#app.centre(state.selection); },
      Escape: () => { part("search").value = ""; this.#search(); stage.focus(); },
    };
    if (!acts[event.key]) return;
    acts[event.key]();
    event.preventDefault();
    event.stopPropagation();
  }
}
