// Copying and pasting shapes, by the clipboard of the system; and copying them as pictures.

import { boxOfCopies, copiesIn, inOrder, textOf } from "./clip.js";
import { listenToClipboard } from "./keys.js";
import { textOf as addressOf } from "./place.js";
import { isFit, snapshot, viewOf } from "./snapshot.js";
import { svgOf } from "./svg.js";
import { FURTHEST } from "./view.js";

const ASIDE = 16;

export class Clipboard {
  #app;
  #pasted = null;
  #text = null;
  #isCut = false;

  constructor(app) {
    this.#app = app;
    listenToClipboard((isCut) => this.#text ?? this.#copy(isCut || this.#isCut), (text) => this.#paste(text));
  }

  // -- by the menu ----------------------------------------------------------------------------------------------------

  copy(isCut) {
    this.#isCut = isCut;
    document.execCommand("copy");
    this.#isCut = false;
  }

  /** Pastes what the browser lets a page read, and else what was copied here last. */
  async paste() {
    const text = await navigator.clipboard?.readText().catch(() => null) ?? this.#pasted?.text;
    if (text) this.#paste(text);
    else this.#app.notes.say("The browser lets no page read what was copied elsewhere: press Ctrl+V.");
  }

  /** Copies what is selected, or all, as the text of an SVG picture. */
  copySvg() {
    const { state, notes } = this.#app, text = svgOf(state.tree, inOrder(state.tree, state.selection));
    if (!text) return notes.tell("There is nothing to be seen in it.");
    if (this.#give(text)) return notes.say("The SVG is copied, as text.");
    return notes.tell("The browser did not let the page copy it: download it.");
  }

  /** Copies the address at which this view can be looked at, and nothing changed. */
  copyLink() {
    const { notes, view } = this.#app, address = `${location.origin}${location.pathname}look/${addressOf(view)}`;
    if (this.#give(address)) notes.say(`Copied: ${address}. Who has this link can look, and change nothing by it.`);
    else notes.say(address);
  }

  #give(text) {
    this.#text = text;
    const isDone = document.execCommand("copy");
    this.#text = null;
    return isDone;
  }

  /** Copies what is selected, or all, as a PNG picture, one to one or as near as it goes. */
  async copyPng() {
    const { state, picture, notes } = this.#app, box = state.box ?? state.tree?.boxOf(null);
    if (!box) return notes.tell("There is nothing to be seen in it.");
    if (!globalThis.ClipboardItem) {
      return notes.tell("Browsers let a page copy pictures only over https, or from localhost: download it.");
    }
    let level = 0;
    while (level < FURTHEST && !isFit(viewOf(box, level))) level++;
    const made = snapshot(picture, viewOf(box, level));
    const found = made.then((it) => it?.blob ?? Promise.reject(new Error("no picture")));
    try {
      await navigator.clipboard.write([new ClipboardItem({ "image/png": found })]);
      return notes.say(level ? `The PNG is copied, at 1:${2 ** level}.` : "The PNG is copied.");
    } catch {
      return notes.tell("The PNG could not be copied: download it.");
    }
  }

  // -- shapes ---------------------------------------------------------------------------------------------------------

  #copy(isCut) {
    const { editor } = this.#app, copies = editor.copies();
    if (!copies.length) return null;
    this.#pasted = { text: textOf(copies), times: isCut ? 0 : 1 };
    if (isCut) editor.delete();
    return this.#pasted.text;
  }

  // Each paste of one copy lies a little aside of the last one; and where its middle would not be seen, in the middle
  // of the view.
  #paste(text) {
    const copies = copiesIn(text);
    if (!copies) return this.#app.notes.say("What was copied holds no shapes.");
    if (this.#pasted?.text !== text) this.#pasted = { text, times: 0 };
    const by = ASIDE * this.#pasted.times++, box = boxOfCopies(copies), aside = this.#intoView(box, by);
    if (!aside) return this.#app.editor.paste(copies, [by, by]);
    const { editor, grid } = this.#app, parent = editor.parentAt([box.left + aside[0], box.top + aside[1]]);
    return editor.paste(copies.map((copy) => ({ ...copy, parent })), grid.moved(box, aside));
  }

  // The way by which a box comes to the middle of the view, and so much aside; null where its own middle is seen
  // already.
  #intoView(box, by) {
    const { view } = this.#app, seen = view.box;
    if (!box) return null;
    const [x, y] = view.pointAt([view.width / 2, view.height / 2]).map(Math.round);
    const across = Math.round((box.left + box.right) / 2), down = Math.round((box.top + box.bottom) / 2);
    const isAcross = across + by >= seen.left && across + by < seen.right;
    const isDown = down + by >= seen.top && down + by < seen.bottom;
    return isAcross && isDown ? null : [x - across + by, y - down + by];
  }
}
