// The dialog for a picture: which part of the page, and at which scale.

import { part } from "./elements.js";
import { give } from "./give.js";
import { isFit, snapshot, viewOf } from "./snapshot.js";
import { FURTHEST, NEAREST, View } from "./view.js";

export class Print {
  #app;
  #dialog = part("print");
  #level = part("print-level");

  constructor(app) {
    this.#app = app;
    for (let level = NEAREST; level <= FURTHEST; level++) {
      const view = new View();
      view.level = level;
      this.#level.add(new Option(view.words, String(level)));
    }
    this.#dialog.addEventListener("change", () => this.#show());
    this.#dialog.addEventListener("close", () => this.#dialog.returnValue === "download" && this.#download());
  }

  /** Asks which part, at which scale. */
  open() {
    const { view, state } = this.#app, hasBox = state.box !== null;
    this.#level.value = String(Math.round(view.level));
    this.#input("selection").disabled = !hasBox;
    this.#input("view").checked = true;
    this.#show();
    this.#dialog.returnValue = "";
    this.#dialog.showModal();
  }

  #input(value) {
    return this.#dialog.querySelector(`input[value="${value}"]`);
  }

  // The view that was chosen, or null where nothing is drawn there.
  get #view() {
    const { view, state } = this.#app, level = Number(this.#level.value);
    const which = this.#dialog.querySelector("input:checked").value;
    const box = { view: view.box, selection: state.box, all: state.tree?.boxOf(null) ?? null }[which];
    return box && viewOf(box, level);
  }

  #show() {
    const view = this.#view, isGood = view !== null && isFit(view);
    const size = view && `${view.width.toLocaleString("en")} by ${view.height.toLocaleString("en")} pixels`;
    const why = view ? `${size} are too many: choose another scale, or a part.` : "Nothing is drawn there.";
    part("print-size").textContent = isGood ? size : why;
    part("print-download").disabled = !isGood;
  }

  async #download() {
    const { picture, notes } = this.#app, view = this.#view;
    notes.say("The picture is being made.");
    const found = await snapshot(picture, view);
    if (!found) return notes.tell("The server did not give this picture.");
    notes.hide();
    return give(found.blob, `canvas-version-${found.version}.png`);
  }
}
