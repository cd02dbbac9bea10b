// Puts the page together: the link to the gateway, the picture, the state, the stage with its tools, and the panels.

import { Acts } from "./acts.js";
import { Clipboard } from "./clipboard.js";
import { Colours } from "./colours.js";
import { Company } from "./company.js";
import { Editor } from "./editor.js";
import { all, part } from "./elements.js";
import { Fields } from "./fields.js";
import { Files } from "./files.js";
import { Frames } from "./frames.js";
import { Grid } from "./grid.js";
import { Journal } from "./journal.js";
import { fillTable, listen } from "./keys.js";
import { Layers } from "./layers.js";
import { Link } from "./link.js";
import { lossBetween, wordsOfLoss } from "./loss.js";
import { Lost } from "./lost.js";
import { Menu } from "./menu.js";
import { Move } from "./move.js";
import { Naming } from "./naming.js";
import { Notes } from "./notes.js";
import { Panel } from "./panel.js";
import { Past } from "./past.js";
import { People } from "./people.js";
import { Picture } from "./picture.js";
import { Place } from "./place.js";
import { apply } from "./plane.js";
import { Returns } from "./returns.js";
import { Select } from "./select.js";
import { Stage } from "./stage.js";
import { State } from "./state.js";
import { TabMemory } from "./tab_memory.js";
import { Box, DRAWING, Polygon } from "./tools.js";
import { Waiting } from "./waiting.js";

/** How many selected shapes are so many that the panel does not follow each of their edits. */
const MANY = 500;
const LOST = "The connection was lost. What you did before can't be taken back any more.";
const NEXT = "The document counts its edits anew from here on, as it does after very many. "
  + "What you did can still be taken back.";

class App {
  #looked = "";
  #hasView = false;
  #lastSeen = null;
  #isLate = false;

  /** Whether this page is for looking: the gateway hands on no edit of it. */
  isReader = location.pathname.endsWith("/look/");

  /** What is dragged, or was so last and is not shown in its place yet; or null. */
  ghost = null;

  constructor() {
    this.journal = new Journal();
    this.state = new State();
    this.memory = new TabMemory(this.state, this.journal);
    this.link = new Link(this.journal, this.memory.known);
    this.returns = new Returns(this.state);
    this.grid = new Grid();
    this.live = new Picture(this.link, this.journal);
    this.notes = new Notes();
    this.editor = new Editor(this.link, this.live, this.state, (refusal) => this.notes.tell(refusal), this.journal);
    this.past = new Past(this);
    this.tools = {
      select: new Select(this), move: new Move(this),
      rect: new Box(this, "rect", "a rectangle"), ellipse: new Box(this, "ellipse", "an ellipse"),
      polygon: new Polygon(this), frame: new Box(this, "frame", "a frame"),
    };
    this.toolName = "select";
    this.place = new Place(this);
    this.company = new Company(this);
    this.people = new People(this);
    this.frames = new Frames(this);
    this.lost = new Lost(this);
    this.stage = new Stage(this);
    this.colours = new Colours(this.editor, (text) => this.notes.tell(text));
    this.fields = new Fields(this);
    this.files = new Files(this);
    this.waiting = new Waiting(this);
    this.naming = new Naming(this);
    this.layers = new Layers(part("layers"), this.editor, (id) => this.centre([id]), () => this.fields.name());
    this.panel = new Panel(this);
    this.acts = new Acts(this);
    this.clipboard = new Clipboard(this);
    this.menu = new Menu(this);
    this.#wire();
    this.choose("select");
    this.panel.showGrid();
    this.#showSelected();
    this.panel.showHistory();
    this.link.open();
  }

  get view() {
    return this.state.view;
  }

  get tool() {
    return this.past.isOn || this.isReader ? this.past.tool : this.tools[this.toolName];
  }

  /** What is shown: the document as it is now, or as it was. */
  get picture() {
    return this.past.isOn ? this.past.picture : this.live;
  }

  /** Whether the selected shapes are on their way, so that the marks of their ghost stand for theirs. */
  get isMoving() {
    return this.ghost !== null && !this.ghost.isOver;
  }

  #wire() {
    this.link.addEventListener("here", (/** @type {any} */ { detail }) => this.#arrive(detail));
    this.link.addEventListener("version", (/** @type {any} */ { detail }) => this.#see(detail.version));
    this.link.addEventListener("away", (/** @type {any} */ { detail }) => this.#leave(detail));
    for (const picture of [this.live, this.past.picture]) picture.addEventListener("shown", () => this.#shown(picture));
    this.state.addEventListener("tree", () => this.#showTree());
    this.state.addEventListener("selected", () => this.#showSelected());
    this.state.addEventListener("making", () => {
      this.files.show();
      this.stage.draw();
      if (this.#isLate && !this.editor.isMaking) this.#showTree();
    });
    this.state.addEventListener("history", () => this.panel.showHistory());
    for (const it of all("[data-tool]")) it.addEventListener("click", () => this.choose(it.dataset.tool, true));
    for (const it of all("[data-act]")) it.addEventListener("click", () => this.act(it.dataset.act));
    listen((name) => this.choose(name, true), (name) => this.acts.doByKey(name));
    fillTable(part("keys"));
  }

  // -- the server -----------------------------------------------------------------------------------------------------

  #leave(detail) {
    this.notes.away(detail, this.journal.isLive);
    this.files.show();
  }

  // Where the history goes on, so does all else. Where it is known, the steps do.
  #arrive({ version, goesOn, isSame, isNext }) {
    this.notes.here();
    if (goesOn) {
      this.#shown(this.picture);
      this.live.see(version);
      this.past.picture.see(0);
      this.files.show();
      return;
    }
    this.past.leave();
    this.ghost = null;
    const before = this.state.tree, isKnown = isSame || isNext;
    this.#lastSeen = before && !isKnown && version < before.version ? before : null;
    if (before && !isKnown && this.state.history.length) this.notes.say(LOST);
    if (before && isNext) this.notes.say(NEXT);
    this.state.begin(isKnown);
    this.memory.take(isKnown);
    this.returns.begin();
    this.files.begin();
    this.live.begin(version);
  }

  #see(version) {
    this.returns.follow(this.journal);
    this.live.see(version);
    if (this.past.isOn) this.past.show();
    this.files.show();
  }

  #shown(picture) {
    const { tree, versions } = picture, { isOn } = this.past;
    if (picture === this.live && tree) this.state.show(tree);
    if (picture !== this.picture) return;
    const now = `version ${versions[0] ?? tree?.version ?? 0}`;
    const words = isOn ? `the past: ${now}` : now;
    part("version").textContent = versions.length > 1 ? `versions ${versions.join(", ")} mixed` : words;
    part("version").classList.toggle("mixed", versions.length > 1);
    if (isOn && tree) this.state.showPast(tree);
    if (isOn) this.place.note();
    if (tree) this.#tellLoss(tree);
    if (!this.#hasView && tree) {
      this.#hasView = true;
      if (!this.place.go()) this.fit(undefined, 0);
    }
    this.files.show();
    this.stage.draw();
  }

  /** Shows the past from now on, or what is there now. */
  changeTime() {
    const { isOn } = this.past;
    this.stage.drop();
    (isOn ? this.live : this.past.picture).look([]);
    this.#looked = "";
    this.look();
    if (!isOn) this.state.showPast(null);
    for (const it of all("[data-tool]")) it.disabled = isOn;
    part("hint").textContent = this.tool.hint;
    this.#showSelected();
    this.#shown(this.picture);
  }

  // After a restart of the server, what the page showed before and is not there any more.
  #tellLoss(tree) {
    if (!this.#lastSeen) return;
    const before = this.#lastSeen, loss = lossBetween(before, tree);
    const offer = { words: "Download what was there", act: () => this.files.give(before.document, before.version) };
    this.notes.add(wordsOfLoss(loss), loss.gone || loss.changed || loss.back ? offer : null);
    this.#lastSeen = null;
  }

  // -- what is shown --------------------------------------------------------------------------------------------------

  say(text) {
    this.notes.say(text);
  }

  showPlace([x, y]) {
    part("place").textContent = `${x}, ${y}`;
    this.people.point([x, y]);
  }

  // While a step of many shapes is being made, the panel waits.
  #showTree() {
    this.#isLate = this.editor.isMaking && this.state.selection.length > MANY;
    if (this.#isLate) return;
    this.panel.showTree();
    if (this.tool.lost?.()) this.notes.tell("Others have deleted the shape that you were dragging.");
    this.#showSelected();
  }

  #showSelected() {
    this.panel.showSelected();
    this.#showEmpty();
    this.colours.show();
    this.fields.show();
    this.stage.draw();
  }

  #showEmpty() {
    part("empty").hidden = this.state.tree?.records.size !== 0 || this.state.isDrawing;
  }

  /** Shows shapes by their names as they are now. */
  showNames() {
    this.layers.set(this.state.tree);
    this.#showSelected();
  }

  // -- the view -------------------------------------------------------------------------------------------------------

  /** Asks for what the view shows, where that has changed, and draws it. */
  look() {
    const tiles = this.view.tiles(), looked = tiles.map(({ level, col, row }) => `${level}/${col}/${row}`).join();
    if (looked !== this.#looked) {
      this.#looked = looked;
      this.picture.look(tiles);
    }
    part("level").textContent = this.view.words;
    if (this.#hasView) this.place.note();
    this.lost.look();
    this.company.moved();
    this.stage?.draw();
  }

  pan(across, down) {
    this.view.panBy(across, down);
    this.look();
  }

  /** Zooms to a level; a point of the window keeps its point of the page, or gets another one. */
  zoom(level, [i, j] = [this.view.width / 2, this.view.height / 2], point = undefined) {
    this.view.zoomTo(level, i, j, point);
    this.look();
  }

  /** Puts the middle of shapes into the middle of the window. */
  centre(ids) {
    const { tree } = this.state, box = tree?.boxAround(ids.filter((id) => tree.record(id)));
    if (box) this.view.centre((box.left + box.right) / 2, (box.top + box.bottom) / 2);
    this.look();
  }

  /** Shows a box of the page, or else the whole document, no nearer than a level. */
  fit(box = this.state.tree?.boxOf(null), nearest = undefined) {
    if (box) this.view.fit(box, nearest);
    this.look();
  }

  /** The points of a shape's outline on the page, or null where it has none. */
  outlineOf(id) {
    const { tree } = this.state, record = tree?.record(id);
    const points = record && tree.outline(record);
    if (!points) return null;
    const pose = tree.poseOf(id);
    return points.map((point) => apply(pose, point));
  }

  // -- tools and acts -------------------------------------------------------------------------------------------------

  choose(name, isFocus = false) {
    document.body.classList.toggle("is-reader", this.isReader);
    part("hint").textContent = this.tool.hint;
    if (this.past.isOn || this.isReader) return;
    if (name !== this.toolName) this.stage.drop();
    this.toolName = name;
    this.stage.setTool(name);
    for (const it of all("[data-tool]")) it.setAttribute("aria-pressed", String(it.dataset.tool === name));
    part("hint").textContent = this.tool.hint;
    if (isFocus) this.stage.focus();
    this.state.isDrawing = DRAWING.has(name);
    this.#showEmpty();
    this.colours.show();
    this.stage.draw();
  }

  act(name) {
    this.acts.do(name);
  }
}

/** For the console, and for the test. */
window.app = new App();
