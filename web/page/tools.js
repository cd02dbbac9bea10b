// The tools that draw. Each tool is told where the pointer, or the cross of the keyboard, is pressed, dragged and
// released, as {page, window}: a pixel of the page, and where it lies in the window; and which keys are held. `marks`
// gives what a tool shows above the picture.

import { boxOf, corners } from "./plane.js";
import { dot, draft, outline, small } from "./overlay.js";

export const SLOP = 4;
export const JOIN = 8;
export const FEWEST = 3;
const CLICKED = 96;

/** @type {(one: number[], other: number[]) => number} */
export const distance = ([x1, y1], [x2, y2]) => Math.max(Math.abs(x2 - x1), Math.abs(y2 - y1));

export class Tool {
  begin = null;
  /** Where the next press would be, on the grid. */
  next = null;

  constructor(app) {
    this.app = app;
  }

  get state() {
    return this.app.state;
  }

  get grid() {
    return this.app.grid;
  }

  /**
   * What the pointer does, with the keys that are held.
   * @param {...any} _
   */
  press(..._) {}
  /** @param {...any} _ */
  drag(..._) {}
  /** @param {...any} _ */
  release(..._) {}

  /** Gives up what was begun; tells whether anything was. */
  drop() {
    const had = Boolean(this.begin);
    this.begin = null;
    return had;
  }

  marks() {
    return [];
  }

  toWindow(points) {
    return points.map((point) => this.state.view.toWindow(point));
  }

  /** The outline of the frame or group that a new shape goes into, where it begins at a point. */
  into(point) {
    return this.intoMark(this.app.editor.parentAt(point));
  }

  /** The outline of a frame or group that something goes into; none where that is null. */
  intoMark(parent) {
    const points = parent !== null && this.app.outlineOf(parent);
    return points ? [outline("into", this.toWindow(points))] : [];
  }

  /** The point of the grid at which a press would be. */
  spot() {
    return this.next && this.grid.isOn ? this.toWindow([this.next]).map(small) : [];
  }
}

/** Draws a rectangle, an ellipse or a frame from one corner to the other; a click draws one of a usual size. */
export class Box extends Tool {
  constructor(app, kind, name) {
    super(app);
    this.kind = kind;
    this.hint = `Drag from corner to corner to draw ${name}; Shift makes the sides equal. `
      + "Or arrow keys and Enter for each corner.";
  }

  hover(at, keys) {
    this.next = this.grid.snap(at.page, keys);
  }

  press(at, keys) {
    this.begin = this.end = this.grid.snap(at.page, keys);
    this.window = at.window;
  }

  drag(at, keys = {}) {
    if (!this.begin) return;
    const [x, y] = this.begin, [x2, y2] = this.grid.snap(at.page, keys), step = this.grid.stepFor(keys);
    const long = (by, way) => by || step * (Math.sign(way) || 1);
    let [across, down] = [long(x2 - x, at.page[0] - x), long(y2 - y, at.page[1] - y)];
    if (keys.isShift) {
      const side = Math.max(Math.abs(across), Math.abs(down));
      [across, down] = [side * Math.sign(across), side * Math.sign(down)];
    }
    this.end = [x + across, y + down];
  }

  release(at) {
    if (!this.begin) return;
    const { begin } = this, side = Math.max(1, Math.round(CLICKED * this.state.view.scale));
    const isClick = distance(at.window, this.window) < SLOP;
    const end = isClick ? [begin[0] + side, begin[1] + side] : this.end;
    this.begin = null;
    if (begin[0] === end[0] && begin[1] === end[1]) return;
    this.app.editor.createBox(this.kind, boxOf([begin, end]), begin);
    this.app.choose("select");
  }

  marks() {
    if (!this.begin) return this.spot();
    const shape = draft(this.kind, this.toWindow(corners(boxOf([this.begin, this.end]))), `#${this.state.fill}`);
    return [...this.into(this.begin), shape];
  }
}

/** Draws a polygon from point to point. */
export class Polygon extends Tool {
  hint = "Click each point of the polygon; click the first one, or press Enter, to close it. "
    + "Backspace takes back a point.";
  points = [];

  press(at, keys) {
    const { points } = this, point = this.grid.snap(at.page, keys);
    const isAt = (other) => distance(this.state.view.toWindow(other), at.window) < JOIN || distance(other, point) === 0;
    const ends = points.length >= FEWEST && (isAt(points[0]) || isAt(points.at(-1)));
    if (ends) this.close();
    else if (!points.length || !isAt(points.at(-1))) points.push(point);
  }

  hover(at, keys) {
    this.next = this.grid.snap(at.page, keys);
  }

  drag(at, keys) {
    this.hover(at, keys);
  }

  /** Ends the polygon, where it has points enough; tells whether it has. */
  close() {
    const { points } = this;
    if (points.length < FEWEST) return false;
    this.points = [];
    this.app.editor.createPolygon(points);
    this.app.choose("select");
    return true;
  }

  back() {
    return this.points.pop() !== undefined;
  }

  drop() {
    return this.points.splice(0).length > 0;
  }

  marks() {
    if (!this.points.length) return this.spot();
    const points = this.toWindow(this.points);
    const next = this.next ? [this.state.view.toWindow(this.next)] : [];
    const shape = draft("polygon", [...points, ...next], `#${this.state.fill}`);
    return [...this.into(this.points[0]), shape, ...points.map(dot)];
  }
}

/** The tools that draw, for which arrow keys move a cross. */
export const DRAWING = new Set(["rect", "ellipse", "polygon", "frame"]);
