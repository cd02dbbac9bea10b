// The colours: swatches, any other one, and none for a frame.

import { part } from "./elements.js";

const SWATCHES = {
  "14202f": "ink", "5b6b80": "slate", "c3ccd8": "mist", "ffffff": "white",
  "f4ead5": "paper", "8a5a3b": "earth", "d9412f": "red", "ef7d2d": "orange",
  "f6c13c": "yellow", "7cb342": "leaf", "1e8a5a": "green", "19a5a0": "teal",
  "2f6fde": "blue", "1b2a49": "night", "7a4fc9": "violet", "e05297": "pink",
};

/** The six digits of a colour in any way that the browser reads, or null where it is none. */
function digitsOf(text) {
  const bare = /^([0-9a-f]{3}|[0-9a-f]{6})$/i.test(text) ? `#${text}` : text;
  if (!CSS.supports("color", bare)) return null;
  const context = new OffscreenCanvas(1, 1).getContext("2d");
  context.fillStyle = bare;
  return /^#([0-9a-f]{6})$/.exec(String(context.fillStyle))?.[1] ?? null;
}

export class Colours {
  #swatches = part("swatches");
  #input = part("colour");
  #text = part("colour-text");
  #none = part("no-fill");
  #editor;
  #tell;

  /** `tell` is called with a text, where what was typed is no colour. */
  constructor(editor, tell) {
    this.#editor = editor;
    this.#tell = tell;
    for (const [fill, name] of Object.entries(SWATCHES)) this.#swatches.append(this.#swatch(fill, name));
    this.#input.addEventListener("change", () => editor.setFill(this.#input.value.slice(1)));
    this.#text.addEventListener("change", () => this.#read());
    this.#text.addEventListener("click", () => {
      if (this.#text.selectionStart === this.#text.selectionEnd) this.#text.select();
    });
    this.#text.addEventListener("keydown", ({ key }) => key === "Enter" && this.#leave());
    this.#none.addEventListener("click", () => editor.setFill(null));
    this.show();
  }

  #swatch(fill, name) {
    const button = document.createElement("button");
    button.dataset.fill = fill;
    button.style.background = `#${fill}`;
    button.title = name;
    button.setAttribute("aria-label", name);
    button.addEventListener("click", () => this.#editor.setFill(fill));
    return button;
  }

  #read() {
    const typed = this.#text.value.trim(), found = digitsOf(typed);
    if (found) this.#editor.setFill(found);
    else if (typed === "none") this.#editor.setFill(null);
    else this.#tell(`“${typed}” is no colour. A colour is six digits from 0 to f, as d9412f, or a name, as red.`);
    this.#text.value = "";
    this.show();
  }

  // (what was typed is read then)
  #leave() {
    part("stage").focus({ preventScroll: true });
  }

  /** Shows the colour of the selected shapes, where they have one, or that of new ones. */
  show() {
    const { records, fill, isDrawing } = this.#editor.state;
    const filled = isDrawing ? [] : records.filter(({ shape }) => shape.kind !== "group");
    const own = filled.length ? filled[0].shape.fill : fill;
    const isOne = filled.every(({ shape }) => shape.fill === own);
    for (const button of this.#swatches.children) {
      button.setAttribute("aria-pressed", String(isOne && button.dataset.fill === own));
    }
    this.#input.value = `#${own ?? fill}`;
    const words = own ? `#${own}` : "none";
    if (document.activeElement !== this.#text || !this.#text.value) this.#text.value = isOne ? words : "several";
    this.#none.disabled = !filled.some(({ shape }) => shape.kind === "frame" && shape.fill);
  }
}
