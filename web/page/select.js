// The tool that selects, moves and resizes.

import { Drag } from "./drag.js";
import { frameAt, reachedFrame } from "./frames.js";
import { Ghost } from "./ghost.js";
import { dot, handle, outline, small } from "./overlay.js";
import { boxOf, corners } from "./plane.js";
import { HANDLES, dragged, handlesOf, isExact, members } from "./resize.js";
import { Stretch } from "./stretch.js";
import { FEWEST, JOIN, SLOP, Tool, distance } from "./tools.js";

const ROOM = 28;
const ASIDE = 6;

/** The pointer over a handle that moves these edges. */
function cursorOf([across, down]) {
  if (across && down) return across === down ? "nwse-resize" : "nesw-resize";
  return across ? "ew-resize" : "ns-resize";
}

/** Selects, moves and resizes shapes. What a press begins is one of the modes below. */
export class Select extends Tool {
  hint = "Click or drag a shape; drag beside them, or in a frame, to select several; double click to go into a group "
    + "or frame. Space or two fingers pan, Ctrl and the wheel zoom.";
  mode = null;
  /** The polygon of which the points are edited, or null. */
  edited = null;
  /** The box from which it is dragged, by which handle, and what is selected beside what a marquee takes. */
  from = null;
  handle = null;
  kept = [];
  /** What was selected when it began. */
  touched = [];
  /** What a marquee takes shapes of, and what lies under its begin; and what a drag of a handle makes. */
  within = null;
  ground = null;
  /** @type {Stretch | null} */
  stretch = null;
  #point = null;
  #move = null;

  /**
   * @param {any} at
   * @param {any} keys
   */
  press(at, keys = {}) {
    this.begin = at;
    this.isMoved = false;
    this.by = [0, 0];
    if (this.#pressPoint(at, keys)) return;
    const found = this.#handleAt(at.window);
    if (found) this.#begin("resize", { handle: found, from: this.state.box, stretch: null });
    else this.#pressShape(at, keys);
  }

  #begin(mode, values = {}) {
    Object.assign(this, { mode, touched: this.state.selection, ...values });
  }

  #pressShape(at, keys) {
    const { tree, selection, entered } = this.state, under = tree?.at(at.page) ?? null;
    const grip = this.#gripAt(at, under), hit = grip ?? under;
    if (hit === null) {
      this.#pressGround(at, hit, keys);
      return;
    }
    const held = tree.line(hit).find(({ id }) => selection.includes(id))?.id;
    const id = keys.isDeep || grip !== null ? hit : held ?? this.#reach(hit);
    const isFrame = id === hit && held === undefined && !keys.isDeep && tree.record(id).shape.kind === "frame";
    if (grip === null && (hit === entered || isFrame)) this.#pressGround(at, hit, keys);
    else this.#pressOne(id, held === id && !keys.isDeep, keys);
  }

  // A press on no shape, or on the ground of a frame: a click selects the frame, and a drag what lies there.
  #pressGround(at, hit, { isShift }) {
    const { state } = this, { selection, entered } = state;
    if (!isShift) this.#leave(at.page);
    const within = reachedFrame(state.tree, at.page, state.entered);
    this.#begin("marquee", { kept: isShift ? selection : [], within, ground: hit === entered ? null : hit });
  }

  #pressOne(id, isHeld, { isShift, isAlt }) {
    const { state } = this, { tree, selection } = state;
    this.again = isHeld ? { id, isShift } : null;
    if (!isHeld) {
      const { parent } = tree.record(id), isElsewhere = parent !== state.entered;
      const isInFrame = isElsewhere && tree.record(parent)?.shape.kind === "frame";
      state.select(isShift ? [...selection, id] : [id]);
      if (isInFrame && !isShift) state.enter(parent);
    }
    this.#move = isAlt ? null : new Drag(this.app.editor, state.selection);
    this.app.ghost = null;
    this.#begin("move", { from: state.box, home: undefined });
  }

  // The frame that is taken by its name, or by its edge where no other shape than a frame is hit there; or null.
  #gripAt({ window }, hit) {
    const { tree } = this.state, grip = this.app.frames.at(window, this.app.stage.isTouched);
    const isFree = grip && (grip.isName || hit === null || tree.record(hit).shape.kind === "frame");
    return isFree && tree.record(grip.id) ? grip.id : null;
  }

  // What lies at a press beside all shapes: the selection goes, and so does what was entered, unless the press was in
  // its box.
  #leave([x, y]) {
    const { state } = this, box = state.entered !== null && state.tree?.boxOf(state.entered);
    state.select([]);
    if (!(box && x >= box.left && x < box.right && y >= box.top && y < box.bottom)) state.enter(null);
  }

  /** What a click on a shape selects: the outermost one that lies in what is entered, or in frames there. */
  #reach(hit) {
    const { tree, entered } = this.state, line = tree.line(hit), at = line.findIndex(({ id }) => id === entered);
    const within = (at < 0 ? line : line.slice(0, at)).reverse();
    return (within.find(({ shape }) => shape.kind !== "frame") ?? line[0]).id;
  }

  /** Goes into a group or frame, to what lies there; or to the points of a polygon, or the name of a frame. */
  enter(at) {
    const { state } = this, { tree, selected } = state, grip = this.app.frames.at(at.window, this.app.stage.isTouched);
    if (grip?.isName && grip.id === selected) {
      this.app.fields.name();
      return;
    }
    const hit = tree?.at(at.page) ?? frameAt(tree, at.page);
    if (hit === null) return;
    const line = tree.line(hit), k = line.findIndex(({ id }) => id === selected);
    if (k > 0) {
      state.enter(selected);
      state.select([line[k - 1].id]);
    } else if (line[0].shape.kind === "frame" && (k === 0 || selected === null)) {
      state.select([]);
      state.enter(hit);
    } else if (k === 0) {
      this.editPoints();
    }
  }

  drag(at, keys = {}) {
    if (!this.begin) return;
    this.isMoved ||= distance(at.window, this.begin.window) >= SLOP;
    if (!this.isMoved) return;
    this.by = [at.page[0] - this.begin.page[0], at.page[1] - this.begin.page[1]];
    this.now = at;
    if (this.mode === "resize") this.#resize(keys);
    else if (this.mode === "move") this.#goOn(keys);
    else if (this.mode === "marquee") this.#mark();
    else if (this.mode === "point") this.points[this.#point] = this.grid.snap(at.page, keys);
  }

  // It is drawn and sent at once. With Alt the middle stays.
  #resize(keys) {
    const { from, handle, by } = this;
    const how = { isEven: keys.isShift, isMiddle: keys.isAlt };
    this.goal = dragged(from, handle, this.grid.pulled(from, handle, by, keys), how);
    this.stretch ??= new Stretch(this.app, this.touched);
    this.app.ghost = this.stretch;
    this.stretch.to(this.goal);
  }

  // What is dragged with Alt from its begin is a copy, which is made at the end; all else is moved at once.
  #goOn(keys) {
    const [across, down] = this.by, isLevel = Math.abs(across) > Math.abs(down);
    const way = !keys.isShift ? this.by : isLevel ? [across, 0] : [0, down];
    this.by = this.grid.moved(this.from, way, this.#move ? keys : {});
    this.app.ghost ??= new Ghost(this.app, this.state.selection, this.#move);
    this.app.ghost.go(this.by);
    this.#move?.to(this.by);
    this.home = this.app.editor.homeAt(this.now.page, this.state.selection);
    this.app.ghost.isLeaving = this.home !== undefined;
  }

  #mark() {
    const { state } = this, box = boxOf([this.begin.page, this.now.page]);
    const found = state.tree?.within(this.within, box) ?? [];
    state.select([...this.kept, ...found.filter((id) => !this.kept.includes(id)).reverse()]);
    if (!this.kept.length) state.enter(this.within);
  }

  release(at, keys = {}) {
    if (!this.begin) return;
    this.drag(at, keys);
    const { mode, isMoved, by } = this;
    this.begin = this.mode = null;
    if (mode === "point") this.#setPoints();
    else if (!isMoved && this.again && mode === "move") this.#clickAgain();
    else if (!isMoved && mode === "marquee" && this.ground !== null) this.#takeGround();
    else if (isMoved && mode === "resize") this.#fit(this.goal.box);
    else if (isMoved && mode === "move") this.#endMove(by);
  }

  // A click on the ground of a frame.
  #takeGround() {
    const { state } = this;
    if (state.tree?.record(this.ground)) state.select([...this.kept, this.ground]);
  }

  #fit(to) {
    const { tree, selection } = this.state;
    if (!isExact(tree, selection, to)) {
      this.app.say("Not all of these edges fall on whole pixels at this size: each was put on the nearest one.");
    }
    this.stretch.end();
  }

  #endMove(by) {
    const { editor } = this.app, ids = this.state.selection, point = this.now.page;
    const carried = (tree) => editor.carriedHome(tree, ids, point);
    const made = this.#move ? this.#move.end(by, carried) : editor.duplicate(by, point);
    this.app.ghost?.end(made);
    this.#move = null;
    made?.then(() => this.#goAfter());
  }

  // Goes into the frame where what was dragged lies now, or out of the one where it lies no more.
  #goAfter() {
    const { state } = this, { tree, entered, selected } = state, line = tree?.line(selected) ?? [];
    if (entered === null || !line.length || line.some(({ id }) => id === entered)) return;
    state.enter(line[1]?.shape.kind === "frame" ? line[1].id : null);
    this.app.stage.draw();
  }

  /** Gives up a move: what is moved already goes back by all of the way, or stays where it is. */
  #leaveMove(by = [0, 0]) {
    if (this.mode === "move" && this.isMoved) this.#move?.end(by);
    if (this.mode === "resize") this.stretch?.drop();
    this.#move = this.app.ghost = null;
  }

  // A click on what is selected: with Shift it is left, and else it alone is selected.
  #clickAgain() {
    const { id, isShift } = this.again, { state } = this;
    this.again = null;
    if (isShift) state.select(state.selection.filter((other) => other !== id));
    else if (state.selection.length > 1) state.select([id]);
  }

  drop() {
    const had = Boolean(this.begin) || this.edited !== null;
    if (this.begin) this.#leaveMove();
    this.begin = this.mode = this.edited = this.#point = null;
    return had;
  }

  /** Gives up a drag of what others deleted meanwhile; tells whether it was one. */
  lost() {
    const isLost = this.begin && this.mode !== "marquee" && this.touched.some((id) => !this.state.tree?.record(id));
    if (this.edited !== null && !this.state.tree?.record(this.edited)) this.edited = null;
    if (isLost) this.#leaveMove(this.#move?.made);
    if (isLost) this.begin = this.mode = null;
    return Boolean(isLost);
  }

  // -- the box and its handles ----------------------------------------------------------------------------------------

  #handles() {
    const { tree, selection, box } = this.state;
    const isBusy = this.app.isMoving || this.mode === "marquee" || this.edited !== null;
    if (!box || isBusy || !members(tree, selection).length) return [];
    const places = this.toWindow(handlesOf(box)), [[left, top], , , , [right, bottom]] = places;
    const has = ([across, down]) => (across !== 0 || right - left > ROOM) && (down !== 0 || bottom - top > ROOM);
    const away = this.#isSmall ? ASIDE : 0;
    const placed = (edges, [x, y]) => ({ edges, place: [x + edges[0] * away, y + edges[1] * away] });
    return HANDLES.map((edges, k) => placed(edges, places[k])).filter(({ edges }) => has(edges));
  }

  // Whether there is no room between the handles: then they lie beside the box, and a press in it is no press of
  // theirs.
  get #isSmall() {
    const { box, view } = this.state, room = this.app.stage.isTouched ? 2 * ROOM : ROOM;
    return Math.min(box.right - box.left, box.bottom - box.top) < room * view.scale;
  }

  #handleAt(window) {
    const reach = this.app.stage.isTouched ? 22 : JOIN;
    const found = this.#handles().find(({ place }) => distance(place, window) <= reach);
    if (!found) return null;
    const [[left, top], , [right, bottom]] = this.toWindow(corners(this.state.box)), [x, y] = window;
    const isInside = x >= left && x < right && y >= top && y < bottom;
    return isInside && this.#isSmall ? null : found.edges;
  }

  cursor(at) {
    if (this.edited !== null) return this.#pointAt(at.window) === null ? "default" : "crosshair";
    const found = this.#handleAt(at.window);
    if (found) return cursorOf(found);
    const { tree, entered, selection } = this.state, under = tree?.at(at.page) ?? null;
    const hit = this.#gripAt(at, under) ?? under;
    return hit === null || (hit === entered && !selection.includes(hit)) ? "default" : "move";
  }

  // -- the points of a polygon ----------------------------------------------------------------------------------------

  editPoints() {
    const { record } = this.state;
    if (record?.shape.kind !== "polygon") return;
    this.edited = record.id;
    this.#point = null;
    this.app.say("Drag a point, or the middle of an edge to add one; Alt and a click, or Del, takes one out. "
      + "Esc ends this.");
  }

  get #edges() {
    return this.points.map(([x, y], k) => {
      const [x2, y2] = this.points[(k + 1) % this.points.length];
      return [Math.round((x + x2) / 2), Math.round((y + y2) / 2)];
    });
  }

  #pointAt(window) {
    const near = (list) => list.findIndex((point) => distance(this.state.view.toWindow(point), window) <= JOIN);
    const points = this.app.outlineOf(this.edited);
    if (!this.begin) this.points = points;
    const corner = near(this.points), edge = corner < 0 ? near(this.#edges) : -1;
    if (corner >= 0) return { corner };
    return edge >= 0 ? { edge } : null;
  }

  #pressPoint(at, keys) {
    if (this.edited === null) return false;
    if (this.state.selected !== this.edited || !this.app.outlineOf(this.edited)) {
      this.edited = null;
      return false;
    }
    this.points = this.app.outlineOf(this.edited);
    const found = this.#pointAt(at.window);
    if (!found) {
      this.edited = null;
      return false;
    }
    if (found.edge !== undefined) {
      this.points.splice(found.edge + 1, 0, this.grid.snap(at.page, keys));
      this.isMoved = true;
    }
    this.#point = found.corner ?? found.edge + 1;
    this.#begin("point");
    if (keys.isAlt && found.corner !== undefined) this.#takeOut();
    return true;
  }

  #setPoints() {
    if (this.isMoved) this.app.editor.setPoints(this.edited, this.points);
  }

  #takeOut() {
    this.begin = this.mode = null;
    if (this.points.length <= FEWEST) this.app.say("A polygon has three points at least.");
    else this.app.editor.setPoints(this.edited, this.points.filter((_, k) => k !== this.#point));
    this.#point = null;
  }

  /** Takes out the chosen point; tells whether points are edited. */
  back() {
    if (this.edited === null) return false;
    this.points = this.app.outlineOf(this.edited);
    if (this.#point !== null && this.points) this.#takeOut();
    return true;
  }

  // -- marks ----------------------------------------------------------------------------------------------------------

  marks() {
    if (this.edited !== null) return this.#pointMarks();
    if (this.mode === "marquee" && this.isMoved) {
      return [outline("marquee", this.toWindow(corners(boxOf([this.begin.page, this.now.page]))))];
    }
    if (this.mode === "move" && this.isMoved) return this.intoMark(this.home ?? null);
    return this.#handles().map(({ place }) => handle(place));
  }

  #pointMarks() {
    if (!this.begin) this.points = this.app.outlineOf(this.edited);
    if (!this.points) return [];
    const shown = this.toWindow(this.points);
    const edges = this.begin ? [] : this.toWindow(this.#edges).map(small);
    return [outline("mark", shown), ...edges, ...shown.map((point, k) => dot(point, k === this.#point))];
  }
}
