// The past: the document as it was after any number of edits, shown by a slider, by single steps, or played. Nothing
// can be changed there.

import { button, part } from "./elements.js";
import { Journal } from "./journal.js";
import { Unanswered } from "./link.js";
import { Picture } from "./picture.js";
import { SLOP, Tool, distance } from "./tools.js";

/** How many edits a second are played at least, and how many seconds all of them take at most. */
const SLOWEST = 10;
const LONGEST = 20;
/** Over how many edits at most the page goes by making them. Over more it asks for all anew. */
const MOST_EDITS = 2000;

const grouped = (number) => number.toLocaleString("en");

/** Looks: a drag pans, and a click selects what lies outermost. */
class Look extends Tool {
  get hint() {
    const looking = "This page is for looking: nothing can be changed by it. Drag to pan, click to select.";
    if (!this.app.past?.isOn) return looking;
    return "This is the past, where nothing can be changed. Drag to pan, click to select; , and . go from edit to "
      + "edit, Esc goes back to now.";
  }

  press(at) {
    this.begin = this.last = at.window;
    this.isMoved = false;
  }

  drag(at) {
    if (!this.begin) return;
    this.isMoved ||= distance(at.window, this.begin) >= SLOP;
    if (!this.isMoved) return;
    this.app.pan(this.last[0] - at.window[0], this.last[1] - at.window[1]);
    this.last = at.window;
  }

  release(at) {
    if (this.begin && !this.isMoved) {
      const { tree } = this.state, hit = tree?.at(at.page) ?? null;
      this.state.select(hit === null ? [] : [tree.line(hit).at(-1).id]);
    }
    this.begin = null;
  }

  cursor() {
    return "grab";
  }
}

export class Past {
  #app;
  #journal = new Journal();
  #slider = part("past-slider");
  #isGoing = false;
  #goal = 0;
  #played = null;
  #waits = () => {};

  /** Whether the past is shown. */
  isOn = false;

  constructor(app) {
    this.#app = app;
    this.tool = new Look(app);
    this.picture = new Picture(this.#source, this.#journal);
    this.picture.addEventListener("shown", () => this.#shown());
    this.#slider.addEventListener("input", () => this.#slide(Number(this.#slider.value)));
  }

  /** The version that is shown, or on its way; null where the past is not shown. */
  get version() {
    return this.isOn ? this.#goal : null;
  }

  /** The newest version that there is. */
  get newest() {
    return this.#app.journal.end;
  }

  // -- what the picture asks -----------------------------------------------------------------------------------------

  get #source() {
    const { link } = this.#app, isHere = () => this.isOn && link.isHere;
    const ask = (requests) => this.ask(requests), picture = (name) => link.picture(name);
    return { get isHere() { return isHere(); }, ask, picture };
  }

  async ask(requests) {
    return (await this.#look(requests)).replies;
  }

  // Where the past can't be shown that is said, and the page goes back to now.
  async #look(requests, at = this.#journal.end, since = undefined) {
    try {
      return await this.#app.link.lookBack(requests, at, since);
    } catch (fault) {
      if (fault instanceof Unanswered && fault.why && this.isOn) {
        this.leave();
        this.#app.notes.tell(`The past can't be shown: ${fault.why}.`);
      }
      throw fault;
    }
  }

  // -- going through it ----------------------------------------------------------------------------------------------

  /** Goes into the past, at first to the version that is shown. */
  enter(version = this.newest) {
    const app = this.#app;
    if (!app.journal.isLive) {
      app.notes.tell("The past can be seen where canvasd keeps the document, and the gateway was told of its feed.");
      return;
    }
    app.stage.drop();
    app.choose("select");
    this.isOn = true;
    this.#journal.begin(-1, "past");
    app.changeTime();
    this.go(version);
    this.#slider.focus({ preventScroll: true });
  }

  /** Goes back to now. */
  leave() {
    if (!this.isOn) return;
    this.#stop();
    this.isOn = false;
    this.#waits();
    this.picture.begin(0);
    this.#app.link.tell({ past: "left" });
    this.#app.changeTime();
    this.show();
    this.#app.stage.focus();
  }

  toggle() {
    if (this.isOn) this.leave();
    else this.enter();
  }

  /** Shows another version. */
  go(version) {
    this.#goal = Math.min(this.newest, Math.max(0, version));
    this.show();
    this.#go();
  }

  #slide(version) {
    this.#stop();
    this.go(version);
  }

  /** Goes so many edits on, or back. */
  step(by) {
    this.#stop();
    if (this.isOn) this.go(this.#goal + by);
    else if (by < 0) this.enter(this.newest + by);
  }

  // One way at a time; the next one begins where it ends.
  async #go() {
    if (this.#isGoing) return;
    this.#isGoing = true;
    try {
      while (this.isOn && this.#journal.end !== this.#goal) await this.#goTo(this.#goal);
    } catch (fault) {
      if (!(fault instanceof Unanswered)) throw fault;
    } finally {
      this.#isGoing = false;
    }
  }

  // A few edits on are made here as the server made them; all else is asked for anew.
  async #goTo(version) {
    const { end } = this.#journal;
    if (end < 0 || version < end || version > end + MOST_EDITS) {
      this.#journal.begin(version, "past");
      this.picture.goTo(version);
    } else {
      const { edits } = await this.#look([], version, end);
      if (!this.isOn || this.#journal.end !== end) return;
      this.#journal.add(edits);
      this.picture.see(version);
    }
    await this.#settled(version);
  }

  // Waits until a version is shown, or this is over.
  #settled(version) {
    if (!this.isOn || this.picture.versions[0] === version) return null;
    return new Promise((done) => {
      this.#waits = () => { if (!this.isOn || this.picture.versions[0] === version) done(); };
    });
  }

  // -- playing it ----------------------------------------------------------------------------------------------------

  /** Plays the edits, from the first one where all have been shown; or stops. */
  play() {
    if (this.#played) {
      this.#stop();
      return;
    }
    if (!this.isOn) this.enter(0);
    if (!this.isOn) return;
    const from = this.#goal >= this.newest ? 0 : this.#goal;
    this.#played = { from, to: this.newest, begin: performance.now(), rate: Math.max(SLOWEST, this.newest / LONGEST) };
    this.go(from);
    this.#playOn();
  }

  #stop() {
    this.#played = null;
    this.show();
  }

  #playOn() {
    if (!this.#played) return;
    const { from, to, begin, rate } = this.#played;
    if (!this.#isGoing) this.go(Math.min(to, from + Math.floor((performance.now() - begin) / 1000 * rate)));
    if (this.#goal >= to) this.#stop();
    else requestAnimationFrame(() => this.#playOn());
  }

  #shown() {
    this.#waits();
    if (this.isOn) this.show();
  }

  // -- the bar -------------------------------------------------------------------------------------------------------

  /** Shows where in the history the page is. */
  show() {
    const { isOn, newest } = this, goal = this.#goal;
    part("past").hidden = !isOn;
    document.body.classList.toggle("is-past", isOn);
    button("past").setAttribute("aria-pressed", isOn);
    this.#slider.max = newest;
    this.#slider.value = goal;
    this.#slider.setAttribute("aria-valuetext", `version ${goal} of ${newest}`);
    part("past-version").textContent = `${grouped(goal)} of ${grouped(newest)}`;
    button("play").setAttribute("aria-label", this.#played ? "Stop" : "Play");
    button("play").classList.toggle("is-playing", this.#played !== null);
    button("earlier").disabled = goal <= 0;
    button("later").disabled = goal >= newest;
  }
}
