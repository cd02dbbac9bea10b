// What the page tells: refusals of edits, and notes.

import { part } from "./elements.js";
import { wordsOf } from "./words.js";

const STAYS = 8000;
const NOTE_STAYS = 6000;

/** A text that stands for some seconds. */
class Box {
  #element;
  #stays;
  #timer = 0;

  constructor(id, stays) {
    this.#element = part(id);
    this.#stays = stays;
  }

  show(...content) {
    this.#element.replaceChildren(...content);
    this.#element.hidden = false;
    clearTimeout(this.#timer);
    const hasButton = this.#element.querySelector("button") !== null;
    if (!hasButton) this.#timer = setTimeout(() => this.hide(), this.#stays);
  }

  hide() {
    this.#element.hidden = true;
  }
}

export class Notes {
  #refusal = new Box("refusal", STAYS);
  #note = new Box("note", NOTE_STAYS);

  /** Tells a refusal's reply, or a text, of an edit that was not made; takes the last one away where all was done. */
  tell(refusal) {
    if (refusal === null) {
      this.#refusal.hide();
      return;
    }
    const head = document.createElement("b"), code = document.createElement("small");
    const isReply = typeof refusal !== "string";
    head.textContent = "Not done.";
    code.textContent = isReply ? `${refusal.code} ${refusal.name}` : "";
    this.#note.hide();
    this.#refusal.show(head, isReply ? wordsOf(refusal.name) : refusal, code);
  }

  /** Says something that is no fault; the last refusal is over then. */
  say(text) {
    this.#refusal.hide();
    this.add(text);
  }

  /** The same beside a refusal; with an offer, a button that does it. */
  add(text, offer = null) {
    const button = document.createElement("button");
    button.textContent = offer?.words ?? "";
    button.addEventListener("click", () => offer.act());
    this.#note.show(text, ...(offer ? [button] : []));
  }

  hide() {
    this.#refusal.hide();
    this.#note.hide();
  }

  // -- whether the server is there ------------------------------------------------------------------------------------

  away({ head, why }, canWait = false) {
    document.body.classList.add("is-away");
    part("away-head").textContent = why === "NoSeats" ? "The server is full." : `${head}.`;
    const waits = canWait ? " What you do now is done when it is back." : "";
    part("away-why").textContent = `${why ? `${wordsOfWhy(why)} ` : ""}Trying again…${waits}`;
    part("away").hidden = false;
    part("version").textContent = "away";
  }

  here() {
    document.body.classList.remove("is-away");
    part("away").hidden = true;
    this.#refusal.hide();
  }
}

/** Why the gateway could not reach the server: its own words, or the name of a refusal. */
function wordsOfWhy(why) {
  return why.includes(" ") ? `${why[0].toUpperCase()}${why.slice(1)}.` : wordsOf(why);
}
