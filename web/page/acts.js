// What keys and buttons do, by the names of acts; the names of edges align what is selected.

import { part } from "./elements.js";
import { wordsOfKey } from "./told.js";
import { DRAWING } from "./tools.js";

export class Acts {
  #app;
  #acts;

  constructor(app) {
    const { editor, view, files, past } = app;
    this.#app = app;
    this.#acts = {
      undo: () => this.#back(false),
      redo: () => this.#back(true),
      all: () => editor.selectAll(),
      duplicate: () => editor.duplicate(),
      forward: () => editor.step(false),
      backward: () => editor.step(true),
      front: () => editor.toFront(),
      back: () => editor.toBack(),
      hide: () => editor.hide(),
      turn: () => editor.turn(),
      flip: () => editor.flip(),
      delete: () => (app.tool.back?.() ? null : editor.delete()),
      put: () => this.#putIn(),
      take: () => editor.takeOut(),
      group: () => editor.group(),
      ungroup: () => editor.ungroup(),
      respace: () => editor.respace(),
      across: () => editor.distribute(false),
      down: () => editor.distribute(true),
      nearer: () => app.zoom(view.levelBeside(-1)),
      further: () => app.zoom(view.levelBeside(1)),
      nearest: () => app.zoom(0),
      fit: () => app.fit(),
      "fit-selection": () => app.fit(app.state.box ?? undefined),
      grid: () => this.#toggleGrid(),
      centre: () => app.centre(app.state.selection),
      cancel: () => this.#cancel(),
      help: () => part("help").showModal(),
      download: () => files.download(),
      picture: () => files.picture(),
      svg: () => files.svg(),
      open: () => files.choose(),
      cut: () => app.clipboard.copy(true),
      copy: () => app.clipboard.copy(false),
      paste: () => app.clipboard.paste(),
      "copy-png": () => app.clipboard.copyPng(),
      "copy-svg": () => app.clipboard.copySvg(),
      link: () => app.clipboard.copyLink(),
      search: () => this.#search(),
      past: () => past.toggle(),
      play: () => past.play(),
      earlier: () => past.step(-1),
      later: () => past.step(1),
      panel: () => document.body.classList.toggle("has-panel"),
    };
  }

  /** Does what a name says; gives what was done, where that is an edit. */
  do(name) {
    const done = this.#acts[name] ? this.#acts[name]() : this.#app.editor.align(name);
    this.#app.stage.draw();
    return done;
  }

  /** Does what a key says, and tells which edit that was. */
  async doByKey(name) {
    const { state, editor, notes } = this.#app;
    const words = wordsOfKey(name, state, editor.behind), done = await this.do(name);
    if (words && (done?.ok || done?.changes?.length)) notes.say(words);
  }

  #putIn() {
    const { editor, state, notes } = this.#app;
    if (!state.records.length || editor.behind) return editor.putIn();
    return notes.say("There is no frame or group behind what is selected, and beside it.");
  }

  async #back(isRedo) {
    const { stage, editor, notes } = this.#app;
    stage.drop();
    const found = await editor.back(isRedo);
    if (!found) notes.say(isRedo ? "There is nothing to make again." : "There is nothing to take back.");
    else if (found.passed.length) notes.say(`Passed over: ${[...new Set(found.passed)].slice(0, 3).join(" ")}`);
  }

  #toggleGrid() {
    const { grid, panel, notes } = this.#app;
    grid.toggle();
    panel.showGrid();
    const words = "What you draw, move or resize lies on a grid of 8 pixels; Alt lets it go. "
      + "From 2:1 on its lines are shown.";
    notes.say(grid.isOn ? words : "The grid is off.");
  }

  #search() {
    document.body.classList.add("has-panel");
    part("search").focus();
    part("search").select();
  }

  // Gives up one thing: what is drawn or dragged, the past, the tool, what was entered, or the selection.
  #cancel() {
    const app = this.#app, { state } = app;
    app.notes.hide();
    document.body.classList.remove("has-panel");
    if (app.stage.drop() || app.company.leave()) return;
    if (app.past.isOn) app.past.leave();
    else if (DRAWING.has(app.toolName)) app.choose("select");
    else if (state.entered !== null) this.#goOut(state.entered);
    else state.select([]);
  }

  #goOut(entered) {
    const { state } = this.#app;
    state.enter(state.tree?.record(entered)?.parent ?? null);
    state.select([entered]);
  }
}
