// The fields: x, y, w and h of the box of what is selected, in pixels of the page, and the name of the one shape.

import { part } from "./elements.js";
import { giveName, givenName, plainName } from "./names.js";
import { members } from "./resize.js";

const NAMES = ["x", "y", "w", "h"];
const MOST = 65_536;

export class Fields {
  #app;
  #inputs = NAMES.map((name) => part(`field-${name}`));
  #name = part("field-name");
  #from = null;

  constructor(app) {
    this.#app = app;
    this.#inputs.forEach((input, k) => {
      input.addEventListener("change", () => this.#take(k));
      input.addEventListener("keydown", (event) => event.key === "Escape" && this.#leave(input));
      input.addEventListener("blur", () => this.show());
    });
    this.#name.addEventListener("change", () => this.#rename());
    this.#name.addEventListener("blur", () => this.show());
    this.#name.addEventListener("keydown", (event) => this.#keyOfName(event));
  }

  /** Goes to the field of the name; Enter and Esc go back to where the focus was. */
  name() {
    this.#from = document.activeElement;
    document.body.classList.add("has-panel");
    this.#name.focus();
    this.#name.select();
  }

  #keyOfName(event) {
    if (event.key !== "Enter" && event.key !== "Escape") return;
    if (event.key === "Escape") this.show(true);
    (this.#from ?? part("stage")).focus({ preventScroll: true });
    this.#from = null;
  }

  #rename() {
    const { record } = this.#app.state;
    if (record) giveName(record, this.#name.value);
    this.#app.showNames();
  }

  /** Shows what is so, but in a field that is being filled in, unless all are to be shown. */
  show(isAll = false) {
    const { tree, selection, box, record } = this.#app.state;
    this.#name.disabled = !record || this.#app.isReader;
    this.#name.placeholder = record ? plainName(record) : "";
    if (isAll || document.activeElement !== this.#name) this.#name.value = record ? givenName(record) : "";
    const values = this.#values();
    const hasSize = box && members(tree, selection).length > 0;
    this.#inputs.forEach((input, k) => {
      input.disabled = !box || this.#app.isReader || (k > 1 && !hasSize);
      if (document.activeElement !== input) input.value = values[k] ?? "";
    });
  }

  #leave(input) {
    input.blur();
    this.#app.stage.focus();
  }

  // What is typed is rounded, and shown so; what was refused gives way to what is so.
  async #take(k) {
    const input = this.#inputs[k], value = Math.round(input.valueAsNumber), { box } = this.#app.state;
    if (Number.isFinite(value)) input.value = value;
    else this.#app.notes.tell("A place and a size are whole numbers of pixels.");
    const done = box && Number.isFinite(value) ? await this.#set(box, k, value) : null;
    if (!done || done.refusal) input.value = this.#values()[k] ?? "";
  }

  #values() {
    const { box } = this.#app.state;
    return box ? [box.left, box.top, box.right - box.left, box.bottom - box.top] : [];
  }

  #set(box, k, value) {
    const { editor, notes } = this.#app;
    if (k === 0) return editor.moveBy([value - box.left, 0]);
    if (k === 1) return editor.moveBy([0, value - box.top]);
    const sized = k === 2 ? { ...box, right: box.left + value } : { ...box, bottom: box.top + value };
    if (value >= 1 && value <= MOST) return editor.fitTo(sized);
    notes.tell("A side has to be 1 to 65,536 pixels long.");
    return null;
  }
}
