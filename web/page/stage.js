// The stage: the canvas with the picture, the marks above it, and the pointers, wheel and keys that the tools are told
// of.

import { part } from "./elements.js";
import { Edge } from "./edge.js";
import { cross, outline, showMarks } from "./overlay.js";
import { corners } from "./plane.js";
import { DRAWING } from "./tools.js";

const STEP = 8;
/**
 * How many pixels of a pinch on a touch pad make a level; and for how many a mouse wheel turns by a notch, which is a
 * step of 1.2.
 */
const LEVEL = 100;
const NOTCH = 100;
const NOTCH_LEVEL = Math.log2(1.2);
const LINE = 33;
const MOST_OUTLINES = 200;
const ARROWS = { ArrowLeft: [-1, 0], ArrowRight: [1, 0], ArrowUp: [0, -1], ArrowDown: [0, 1] };

const keysOf = (event) => ({ isShift: event.shiftKey, isAlt: event.altKey, isDeep: event.ctrlKey || event.metaKey });

export class Stage {
  #element = part("stage");
  #canvas = part("picture");
  #grid = part("grid");
  #overlay = part("overlay");
  #context = this.#canvas.getContext("2d");
  #isAsked = false;
  #panFrom = null;
  #isSpace = false;
  #cross = null;
  #fingers = new Map();
  #pinch = null;
  #wheel = null;
  #edge;
  #last = null;

  /** How many frames were drawn. */
  frames = 0;
  /** Whether the last pointer was a finger. */
  isTouched = false;

  constructor(app) {
    this.app = app;
    this.#edge = new Edge(app, () => this.#dragOn());
    const element = this.#element;
    element.addEventListener("pointerdown", (event) => this.#down(event));
    element.addEventListener("pointermove", (event) => this.#moved(event));
    element.addEventListener("pointerup", (event) => this.#up(event));
    element.addEventListener("pointercancel", (event) => this.#cancelled(event));
    element.addEventListener("pointerleave", () => this.app.people.point(null));
    element.addEventListener("dblclick", (event) => this.#twice(event));
    element.addEventListener("wheel", (event) => this.#turnWheel(event), { passive: false });
    document.addEventListener("keydown", (event) => this.#key(event));
    document.addEventListener("keyup", (event) => this.#keyUp(event));
    window.addEventListener("blur", () => { this.#isSpace = false; });
    new ResizeObserver(() => this.#resize()).observe(element);
    this.#resize();
  }

  focus() {
    this.#element.focus({ preventScroll: true });
  }

  /** Shows which tool is chosen. */
  setTool(name) {
    this.#element.dataset.tool = name;
    this.#element.style.cursor = "";
    if (!DRAWING.has(name)) this.#cross = null;
  }

  /** Draws all anew with the next frame. */
  draw() {
    if (this.#isAsked) return;
    this.#isAsked = true;
    requestAnimationFrame(() => {
      this.#isAsked = false;
      this.frames++;
      const { picture, past, state, view } = this.app;
      picture.draw(this.#context, view);
      if (!past.isOn) state.drafts.draw(this.#context, view, picture.versions[0] ?? -1);
      this.app.grid.show(this.#grid, view);
      this.app.frames.draw();
      showMarks(this.#overlay, this.#marks());
      this.app.people.show();
    });
  }

  #resize() {
    const { width, height } = this.#element.getBoundingClientRect();
    this.app.view.resize(width, height);
    // A pixel of the canvas is a pixel of the picture.
    this.#canvas.width = this.app.view.width;
    this.#canvas.height = this.app.view.height;
    this.app.look();
  }

  #marks() {
    const { app } = this, marks = [];
    const shown = (id) => app.outlineOf(id)?.map((point) => app.view.toWindow(point));
    const { entered, selection } = app.state, outer = entered === null ? null : shown(entered);
    if (outer) marks.push(outline("entered", outer));
    marks.push(...app.company.marks());
    const still = app.isMoving ? [] : selection.slice(0, MOST_OUTLINES);
    for (const points of still.map(shown).filter(Boolean)) marks.push(outline("halo", points), outline("mark", points));
    if (still.length > 1 && app.state.box) {
      marks.push(outline("around", corners(app.state.box).map((point) => app.view.toWindow(point))));
    }
    if (app.ghost?.isOver && app.ghost.isShown) app.ghost = null;
    marks.push(...(app.ghost?.marks() ?? []), ...app.tool.marks());
    if (this.#cross) marks.push(cross(this.#cross));
    return marks;
  }

  // -- the pointers ---------------------------------------------------------------------------------------------------

  #at(window) {
    return { window, page: this.app.view.toPage(window) };
  }

  #spot(event) {
    const { left, top } = this.#element.getBoundingClientRect();
    return this.#at([event.clientX - left, event.clientY - top]);
  }

  #down(event) {
    if (event.button > 1) return;
    this.isTouched = event.pointerType === "touch";
    this.#element.classList.add("by-pointer");
    this.focus();
    this.#element.setPointerCapture(event.pointerId);
    this.#cross = null;
    const at = this.#spot(event);
    this.#fingers.set(event.pointerId, at.window);
    if (this.#fingers.size === 2) {
      this.#beginPinch();
    } else if (event.button === 1 || this.#isSpace) {
      this.#panFrom = at.window;
      this.#element.classList.add("panning");
    } else if (!this.#pinch) {
      this.app.tool.press(at, keysOf(event));
    }
    event.preventDefault();
    this.draw();
  }

  #moved(event) {
    const at = this.#spot(event);
    if (this.#fingers.has(event.pointerId)) this.#fingers.set(event.pointerId, at.window);
    this.app.showPlace(at.page);
    if (this.#pinch) {
      this.#goOnPinching();
    } else if (this.#panFrom) {
      this.app.pan(this.#panFrom[0] - at.window[0], this.#panFrom[1] - at.window[1]);
      this.#panFrom = at.window;
    } else {
      this.app.tool.hover?.(at, keysOf(event));
      if (event.buttons & 1) this.#drag(at, keysOf(event));
      else this.#element.style.cursor = this.app.tool.cursor?.(at) ?? "";
      this.draw();
    }
  }

  #drag(at, keys) {
    this.#last = { window: at.window, keys };
    this.app.tool.drag(at, keys);
    if (this.app.tool.begin && !this.app.past.isOn) this.#edge.at(at.window);
  }

  // The view was moved under what is dragged.
  #dragOn() {
    this.app.tool.drag(this.#at(this.#last.window), this.#last.keys);
    this.draw();
  }

  #up(event) {
    this.#edge.stop();
    this.#fingers.delete(event.pointerId);
    if (this.#pinch) {
      if (this.#fingers.size === 0) this.#pinch = null;
    } else if (this.#panFrom) {
      this.#panFrom = null;
      this.#element.classList.remove("panning");
    } else {
      this.app.tool.release(this.#spot(event), keysOf(event));
    }
    this.draw();
  }

  #cancelled(event) {
    this.#fingers.delete(event.pointerId);
    if (this.#fingers.size === 0) this.#pinch = null;
    this.drop();
  }

  #twice(event) {
    this.app.tool.enter?.(this.#spot(event));
    this.draw();
  }

  // -- two fingers ----------------------------------------------------------------------------------------------------

  #two() {
    const [[x1, y1], [x2, y2]] = [...this.#fingers.values()];
    return { middle: [(x1 + x2) / 2, (y1 + y2) / 2], apart: Math.max(1, Math.hypot(x2 - x1, y2 - y1)) };
  }

  // What one finger had begun is given up.
  #beginPinch() {
    this.app.tool.drop();
    this.#edge.stop();
    this.#panFrom = null;
    const { middle, apart } = this.#two();
    this.#pinch = { point: this.app.view.pointAt(middle), level: this.app.view.level, apart };
  }

  // The point of the page that was between the fingers stays between them.
  #goOnPinching() {
    if (this.#fingers.size !== 2) return;
    const { middle, apart } = this.#two(), { point, level, apart: before } = this.#pinch;
    this.app.zoom(level - Math.log2(apart / before), middle, point);
  }

  // -- the wheel ------------------------------------------------------------------------------------------------------

  // It pans; with Ctrl, as a pinch on a touch pad has it, it zooms about the pointer.
  #turnWheel(event) {
    event.preventDefault();
    const unit = event.deltaMode === 1 ? LINE : 1, across = event.deltaX * unit, down = event.deltaY * unit;
    if (event.ctrlKey || event.metaKey) this.#zoomBy(down, this.#spot(event).window);
    else if (event.shiftKey && !across) this.app.pan(down, 0);
    else this.app.pan(across, down);
  }

  // The point under the pointer stays there, over all turns that follow each other.
  #zoomBy(down, window) {
    const { view } = this.app, at = () => [...window, view.level, view.left, view.top].join();
    const point = this.#wheel?.at === at() ? this.#wheel.point : view.pointAt(window);
    const notches = Math.sign(down) * Math.max(1, Math.round(Math.abs(down) / NOTCH));
    this.app.zoom(view.level + (Math.abs(down) < NOTCH / 2 ? down / LEVEL : notches * NOTCH_LEVEL), window, point);
    this.#wheel = { at: at(), point };
  }

  // -- the keys -------------------------------------------------------------------------------------------------------

  // Keys that go to nothing else on the page are for the stage too.
  #key(event) {
    this.#element.classList.remove("by-pointer");
    const isHere = event.target === this.#element || event.target === document.body;
    if (!isHere || event.ctrlKey || event.altKey || event.metaKey) return;
    if (ARROWS[event.key]) this.#arrow(ARROWS[event.key], event.shiftKey);
    else if (event.key === "Enter") this.#enter();
    else if (event.key === " ") this.#isSpace = true;
    else return;
    event.preventDefault();
    this.draw();
  }

  #keyUp(event) {
    if (event.key === " ") this.#isSpace = false;
  }

  #arrow(way, isShift) {
    const { app } = this, by = (step) => way.map((part) => part * step);
    if (DRAWING.has(app.toolName)) {
      this.#moveCross(way, isShift);
    } else if (app.state.selection.length) {
      const step = Math.max(app.grid.stepFor(), Math.round(app.view.scale));
      app.editor.nudgeBy(by(step * (isShift ? 10 : 1)), (box, sum) => app.grid.moved(box, sum));
    } else {
      app.pan(...by(isShift ? 256 : 64));
    }
  }

  // The cross goes from line to line of the grid, where that is on; with Shift by single pixels.
  #moveCross([across, down], isShift) {
    const { view, grid, tool } = this.app, keys = { isAlt: isShift };
    const step = isShift ? 1 : Math.max(STEP, grid.stepFor() / view.scale);
    const [x, y] = this.#cross ?? [Math.round(view.width / 2), Math.round(view.height / 2)];
    const within = (value, most) => Math.min(most, Math.max(0, value));
    const page = view.toPage([within(x + across * step, view.width), within(y + down * step, view.height)]);
    this.#cross = [within(x + across * step, view.width), within(y + down * step, view.height)];
    if (grid.stepFor(keys) > 1) this.#cross = view.toWindow(grid.snap(page));
    const at = this.#at(this.#cross);
    tool.hover?.(at, keys);
    tool.drag(at, keys);
    this.app.showPlace(at.page);
  }

  #enter() {
    const { app } = this;
    if (!DRAWING.has(app.toolName)) {
      app.tool.editPoints?.();
      return;
    }
    // (points that were set by the pointer are closed; the cross goes on from where it is)
    if (!this.#cross && app.tool.close?.()) return;
    this.#cross ??= [Math.round(app.view.width / 2), Math.round(app.view.height / 2)];
    const at = this.#at(this.#cross);
    if (app.tool.begin) app.tool.release(at);
    else app.tool.press(at);
  }

  /** Gives up what is being drawn or dragged; tells whether anything was. */
  drop() {
    this.#edge.stop();
    this.#panFrom = null;
    this.#cross = null;
    this.#element.classList.remove("panning");
    this.draw();
    return this.app.tool.drop();
  }
}
