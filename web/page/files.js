// Saving and opening: the document as a file, or as a picture, and in words what is kept, and what is not saved.

import { copiesIn, inOrder } from "./clip.js";
import { part } from "./elements.js";
import { give } from "./give.js";
import { count } from "./names.js";
import { Print } from "./print.js";
import { svgOf } from "./svg.js";
import { Tree } from "./tree.js";

export class Files {
  #app;
  #saved = null;
  #input = part("file");
  #dialog = part("open");
  #print;

  constructor(app) {
    this.#app = app;
    this.#print = new Print(app);
    this.#input.addEventListener("change", () => this.#read(this.#input.files));
    document.addEventListener("dragover", (event) => event.preventDefault());
    document.addEventListener("drop", (event) => this.#drop(event));
  }

  /** Begins anew with another server: what was downloaded is of another history. */
  begin() {
    this.#saved = null;
  }

  /**
   * The reply with the document as the server has it now, or as it was in the past that is shown; null where there is
   * none, which is told.
   */
  async #export() {
    const { link, past, notes } = this.#app;
    const [reply] = await (past.isOn ? past : link).ask([{ verb: "export" }]).catch(() => []);
    if (reply?.ok) return reply;
    notes.tell(reply ?? "The server is away.");
    return null;
  }

  /** Downloads the document as the server exports it. */
  async download() {
    const reply = await this.#export();
    if (!reply) return;
    if (!this.#app.past.isOn) this.#saved = reply.version;
    this.give(reply.document, reply.version);
    this.show();
  }

  /** Downloads the selected shapes, or the whole document, as an SVG picture. */
  async svg() {
    const { selection } = this.#app.state, reply = await this.#export();
    if (!reply) return;
    const tree = new Tree(reply.document, reply.version), records = inOrder(tree, selection);
    const text = svgOf(tree, records), what = records.length ? "selection" : "version";
    if (!text) this.#app.notes.tell("There is nothing to be seen in it.");
    else give(new Blob([text], { type: "image/svg+xml" }), `canvas-${what}-${reply.version}.svg`);
  }

  give(saved, version) {
    give(new Blob([JSON.stringify(saved)], { type: "application/json" }), `canvas-version-${version}.json`);
  }

  /** Downloads a part of the page as a picture. */
  picture() {
    this.#print.open();
  }

  /** Asks for a file. */
  choose() {
    this.#input.value = "";
    this.#input.click();
  }

  // What is dropped from elsewhere is opened as if it was chosen.
  #drop(event) {
    event.preventDefault();
    const { past, notes } = this.#app;
    if (past.isOn) notes.say("This is the past, where nothing can be changed. Esc goes back to now.");
    else if (event.dataTransfer.files.length > 1) notes.tell("One file at a time.");
    else this.#read(event.dataTransfer.files);
  }

  async #read([file]) {
    const { notes, state } = this.#app;
    if (!file) return;
    const copies = copiesIn(await file.text());
    if (!copies) notes.tell(`“${file.name}” is no saved document.`);
    else if (!copies.length) notes.say(`“${file.name}” has no shapes.`);
    else if (state.tree?.records.size) this.#ask(file.name, copies);
    else this.#draw(file.name, copies, false);
  }

  // Where there are shapes already: do those of the file come beside them, or in their place?
  #ask(name, copies) {
    const ways = "can be drawn into this document, or take its place. Either can be taken back.";
    part("open-words").textContent = `“${name}” ${ways}`;
    this.#dialog.returnValue = "";
    this.#dialog.onclose = () => {
      const { returnValue } = this.#dialog;
      if (returnValue) this.#draw(name, copies, returnValue === "place");
    };
    this.#dialog.showModal();
  }

  async #draw(name, copies, isInPlace) {
    const { editor, notes } = this.#app, done = await editor.open(copies, isInPlace);
    if (!done || done.refusal) return;
    notes.say(isInPlace ? `“${name}” is this document now.` : `“${name}” is drawn into this document.`);
    if (isInPlace) this.#app.act("fit");
  }

  /** Says what is kept, and what is not saved. */
  show() {
    const { words, short, isSafe } = this.#app.journal.isLive ? this.#kept() : this.#unsaved();
    part("saved-words").textContent = words;
    part("saved").textContent = short;
    part("saved").classList.toggle("is-saved", isSafe);
  }

  // With a feed, all that is told of is kept, and each edit is kept before it is answered.
  #kept() {
    const { journal, editor, link, waiting } = this.#app;
    const waits = "What you did since the server went away is not kept yet. Leave this page open.";
    if (waiting.isOn) return { words: waits, short: "not kept yet", isSafe: false };
    const seen = `kept to version ${journal.end}, when last seen`;
    if (!link.isHere) return { words: "The server is away.", short: seen, isSafe: false };
    const words = "The server keeps each edit in its folder before it answers. There is nothing to save.";
    const { isMaking } = editor;
    return { words, short: isMaking ? "keeping…" : `all kept, to version ${journal.end}`, isSafe: !isMaking };
  }

  #unsaved() {
    const version = this.#app.picture.tree?.version ?? 0, since = version - this.#saved;
    const isSafe = this.#saved !== null && since <= 0;
    let words = "The server keeps this document only while it runs. Download it to keep it.";
    if (isSafe) words = "All of it is in the file that you downloaded.";
    else if (this.#saved !== null) {
      words = `${count(since, "edit")} since your download ${since === 1 ? "is" : "are"} in no file.`;
    }
    return { words, short: isSafe ? "downloaded" : "not saved", isSafe };
  }
}
