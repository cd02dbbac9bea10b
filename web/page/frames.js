// Frames, as people know them from other tools: which one lies under a point, what a dragged shape goes into, and the
// edge and the name by which one is taken.

import { part } from "./elements.js";
import { nameOf } from "./names.js";
import { apply, boxOf, inverse } from "./plane.js";

const FONT = "12px system-ui, sans-serif";
const LINE = 16;
const GAP = 3;
/** How near to an edge, in pixels of the window, a press takes the frame; and a finger. */
const REACH = 4;
const REACH_OF_FINGER = 12;
/** From which width on, in pixels of the window, a frame has its name, and from which on its edge. */
const NAMED = 40;
const EDGED = 6;
const INK = { plain: "#5b6b80", chosen: "#1f5fd0" };

const isFrame = (record) => record?.shape.kind === "frame";

/**
 * Whether a frame's own box holds a point of its own coordinates.
 * @type {(shape: any, point: any[]) => boolean}
 */
const holds = ({ w, h }, [x, y]) => x >= 0 && y >= 0 && x <= w && y <= h;

/**
 * The innermost frame that shows at a pixel of the page, or null; but for shapes that are left out, with all in them.
 */
export function frameAt(tree, [x, y], without = []) {
  if (!tree?.frames.length) return null;
  const left = new Set(without);
  const under = (parent, point) => {
    for (const { id, hidden, pose, shape } of tree.children(parent)) {
      if (hidden || (shape.kind !== "frame" && shape.kind !== "group") || left.has(id)) continue;
      const inner = apply(inverse(pose), point);
      if (shape.kind === "group" || holds(shape, inner)) {
        const found = under(id, inner) ?? (shape.kind === "frame" ? id : null);
        if (found !== null) return found;
      }
    }
    return null;
  };
  return under(null, [x + 0.5, y + 0.5]);
}

/**
 * The innermost frame at a pixel that is reached from what is entered through frames alone; or else what is entered.
 */
export function reachedFrame(tree, point, entered) {
  const id = frameAt(tree, point), line = id === null ? [] : tree.line(id);
  const at = line.findIndex((record) => record.id === entered);
  if (id === null || (entered !== null && at < 0)) return entered;
  const inner = (at < 0 ? line : line.slice(0, at)).reverse(), stop = inner.findIndex((record) => !isFrame(record));
  return (stop < 0 ? inner : inner.slice(0, stop)).at(-1)?.id ?? entered;
}

/**
 * What shapes lie in when they are let go with the pointer at a pixel: the innermost frame there, or else what is next
 * outside the frames that each was dragged out of. What lies in a group stays in it.
 */
export function homesOf(tree, records, point, moving) {
  const frame = records.length ? frameAt(tree, point, moving) : null;
  return records.map(({ parent }) => {
    let home = tree.record(parent);
    if (frame !== null && (!home || isFrame(home))) return frame;
    while (isFrame(home)) home = tree.record(home.parent);
    return home?.id ?? null;
  });
}

/** Whether two boxes have a point in common, and the part that they share. */
const meet = (a, b) => ({
  left: Math.max(a.left, b.left), top: Math.max(a.top, b.top),
  right: Math.min(a.right, b.right), bottom: Math.min(a.bottom, b.bottom),
});
const isBox = ({ left, top, right, bottom }) => left < right && top < bottom;

/** The part of a frame that is not cut off by those that it lies in, on the page; null where nothing of it is shown. */
function shownBox(tree, id) {
  const line = tree.line(id);
  if (line.some(({ hidden }) => hidden)) return null;
  const boxes = line.filter(isFrame).map((frame) => tree.boxOf(frame.id)), shown = boxes.reduce(meet);
  return isBox(shown) ? shown : null;
}

/** Shows the edges and names of frames, and finds the frame that is taken by them. */
export class Frames {
  #app;
  #canvas = part("frames");
  #context = this.#canvas.getContext("2d");
  #shown = [];
  #widths = new Map();

  constructor(app) {
    this.#app = app;
  }

  // How wide a text is.
  #widthOf(text) {
    if (!this.#widths.has(text)) {
      if (this.#widths.size > 2000) this.#widths.clear();
      this.#context.font = FONT;
      this.#widths.set(text, this.#context.measureText(text).width);
    }
    return this.#widths.get(text);
  }

  // The frames that are in the view, from back to front: each with its box in the window, and its name where there is
  // room for one.
  #list() {
    const { state, view } = this.#app, { tree } = state, found = [];
    for (const id of tree?.frames ?? []) {
      const box = shownBox(tree, id);
      if (!box) continue;
      const [left, top] = view.toWindow([box.left, box.top]), [right, bottom] = view.toWindow([box.right, box.bottom]);
      const isNear = left < view.width && right > 0 && top < view.height + LINE && bottom > -LINE;
      const name = right - left >= NAMED ? nameOf(tree.record(id)) : "";
      if (isNear && right - left >= EDGED) found.push({ id, box: { left, top, right, bottom }, name });
    }
    return found;
  }

  // The box of a name, above the frame's upper left corner.
  #nameBox({ box: { left, top, right }, name }) {
    const width = Math.min(right - left, this.#widthOf(name));
    return { left, top: top - LINE - GAP, right: left + width, bottom: top - GAP };
  }

  /** Draws them over the view as it is now. */
  draw() {
    const { width, height } = this.#app.view, ratio = devicePixelRatio, context = this.#context, canvas = this.#canvas;
    this.#shown = this.#list();
    canvas.hidden = !this.#shown.length;
    if (canvas.hidden) return;
    const size = [Math.round(width * ratio), Math.round(height * ratio)];
    if (canvas.width !== size[0] || canvas.height !== size[1]) [canvas.width, canvas.height] = size;
    context.setTransform(ratio, 0, 0, ratio, 0, 0);
    context.clearRect(0, 0, width, height);
    context.lineWidth = 1;
    context.font = FONT;
    context.textBaseline = "bottom";
    context.lineJoin = "round";
    for (const frame of this.#shown) this.#drawOne(frame);
  }

  #drawOne(frame) {
    const context = this.#context, isChosen = this.#app.state.selection.includes(frame.id);
    const [left, top, right, bottom] = ["left", "top", "right", "bottom"].map((name) => Math.round(frame.box[name]));
    context.strokeStyle = context.fillStyle = isChosen ? INK.chosen : INK.plain;
    context.globalAlpha = isChosen ? 1 : 0.65;
    context.strokeRect(left - 0.5, top - 0.5, right - left + 1, bottom - top + 1);
    context.globalAlpha = 1;
    if (!frame.name) return;
    context.save();
    const place = this.#nameBox(frame);
    context.beginPath();
    context.rect(place.left - 1, place.top - 1, place.right - place.left + 2, LINE + 2);
    context.clip();
    context.lineWidth = 3;
    context.strokeStyle = "#ffffffd0";
    context.strokeText(frame.name, place.left, place.bottom);
    context.fillText(frame.name, place.left, place.bottom);
    context.restore();
  }

  /** The frame that a press at a place of the window takes by its name or its edge, as {id, isName}; or null. */
  at([x, y], isFinger = false) {
    const reach = isFinger ? REACH_OF_FINGER : REACH, fronts = this.#shown.slice().reverse();
    const within = ({ left, top, right, bottom }, by) => (
      x >= left - by && x < right + by && y >= top - by && y < bottom + by
    );
    const named = fronts.find((frame) => frame.name && within(this.#nameBox(frame), isFinger ? GAP : 1));
    if (named) return { id: named.id, isName: true };
    const edged = fronts.find(({ box }) => within(box, reach) && !within(box, -reach));
    return edged ? { id: edged.id, isName: false } : null;
  }
}
