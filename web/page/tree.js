// The document as a tree, read from what `export` answers: format 1, where a record has `parent` and `index`, and
// format 2, where they stand in its `place`. Edits are made in it as the server makes them, so that it stays the
// document of a later version.

import { freshKeys, keyBetween } from "./index_keys.js";
import { STILL, apply, around, boxOf, compose, inverse, polygonHolds } from "./plane.js";
import { SharedMap } from "./shared_map.js";

let orders = 0;

const REORDERS = new Set(["create", "move", "delete", "show"]);
const CONTAINERS = new Set(["group", "frame"]);

function readRecord(saved) {
  const place = saved.place ?? saved;
  const { id, hidden, pose, shape } = saved;
  return { id, parent: place.parent, index: place.index, hidden, pose, shape };
}

function newRecord({ parent = null, hidden = false, pose, shape }, id) {
  return { id, parent, index: undefined, hidden, pose: { ...STILL, ...pose }, shape };
}

/**
 * Where a spot lies among siblings, from front to back, and the index key that the server gives a shape there.
 * @param {any[]} list
 * @param {any} spot
 */
function placeIn(list, spot = "front") {
  if (Object.hasOwn(spot, "at")) {
    const before = list.findIndex(({ index }) => index < spot.at);
    return { before: before < 0 ? list.length : before, index: spot.at };
  }
  const over = () => Math.max(0, list.findIndex(({ id }) => id === spot.over));
  const before = spot === "back" ? list.length : spot === "front" ? 0 : over();
  return { before, index: keyBetween(list[before]?.index ?? null, list[before - 1]?.index ?? null) };
}

/**
 * At which place of a list of siblings a record lies: they go by their index keys, but for while those are given anew.
 */
function rankOf(list, record) {
  let low = 0;
  for (let high = list.length - 1; low < high;) {
    const middle = (low + high) >> 1;
    if (list[middle].index > record.index) low = middle + 1;
    else high = middle;
  }
  return list[low] === record ? low : list.indexOf(record);
}

/** Whether a leaf or a frame holds a point of its own coordinates. */
function holds(shape, point) {
  if (shape.kind === "polygon") return polygonHolds(shape.points, point);
  const [x, y] = point;
  if (x < 0 || y < 0 || x > shape.w || y > shape.h) return false;
  return shape.kind !== "ellipse" || (2 * x / shape.w - 1) ** 2 + (2 * y / shape.h - 1) ** 2 <= 1;
}

export class Tree {
  #frames = null;
  /** The parents of which the lists of children are this tree's alone. */
  #own = new Set();

  constructor(document, version) {
    this.version = version;
    /** The id of the next new shape. */
    this.next = document.next;
    /**
     * Another number for each other list of rows that there has been: which shapes there are, in which order, and which
     * of them are hidden.
     */
    this.order = ++orders;
    const records = document.shapes.map(readRecord), below = new Map([[null, []]]);
    for (const record of records) {
      if (!below.has(record.parent)) below.set(record.parent, []);
      below.get(record.parent).push(record);
    }
    // Index keys are ASCII, so that they compare as texts; the greater key is in front.
    for (const list of below.values()) list.sort((a, b) => (a.index < b.index ? 1 : -1));
    this.records = new SharedMap(records.map((record) => [record.id, record]));
    this.below = new SharedMap(below);
  }

  /** A tree of its own, that can be changed by `make`. What stays the same is shared by both. */
  copy() {
    const found = new Tree({ shapes: [], next: this.next }, this.version);
    found.records = this.records.copy();
    found.below = this.below.copy();
    this.#own.clear();
    found.order = this.order;
    found.#frames = this.#frames;
    return found;
  }

  // The list of a parent's children, which this tree may change.
  #listOf(parent) {
    if (!this.#own.has(parent)) {
      this.#own.add(parent);
      this.below.set(parent, [...this.children(parent)]);
    }
    return this.below.get(parent);
  }

  /** The ids of all frames. */
  get frames() {
    if (this.#frames?.order !== this.order) {
      const ids = [...this.records.values()].filter(({ shape }) => shape.kind === "frame").map(({ id }) => id);
      this.#frames = { order: this.order, ids };
    }
    return this.#frames.ids;
  }

  /** The document as `export` saves it, in format 2. */
  get document() {
    const saved = ({ id, parent, index, hidden, pose, shape }) => (
      { hidden, id, place: { index, parent }, pose, shape }
    );
    const shapes = [...this.records.values()].map(saved);
    return { format: 2, next: this.next, shapes: shapes.sort((a, b) => a.id - b.id) };
  }

  /** Makes an accepted edit here too; tells whether that could be, as all that it names is there. */
  make(request, { id = undefined } = {}) {
    const { verb, parent = null } = request, isPlaced = verb === "create" || verb === "move" || verb === "respace";
    const record = verb === "create" ? newRecord(request, id) : this.record(request.id);
    if ((isPlaced && parent !== null && !this.record(parent)) || (!record && verb !== "respace")) return false;
    if (verb === "create") this.#insert(record, request.spot);
    else if (verb === "move") this.#move(record, request);
    else if (verb === "delete") this.#remove(record);
    else if (verb === "pose") this.#replace({ ...record, pose: { ...STILL, ...request.pose } });
    else if (verb === "reshape") this.#replace({ ...record, shape: request.shape });
    else if (verb === "show") this.#replace({ ...record, hidden: request.hidden });
    else if (verb === "respace") this.#respace(parent);
    if (REORDERS.has(verb) || (verb === "reshape" && record.shape.kind !== request.shape.kind)) this.order = ++orders;
    return true;
  }

  #replace(record) {
    const list = this.#listOf(record.parent);
    list[rankOf(list, this.record(record.id))] = record;
    this.records.set(record.id, record);
  }

  #insert(record, spot) {
    const list = this.#listOf(record.parent), { before, index } = placeIn(list, spot), found = { ...record, index };
    list.splice(before, 0, found);
    this.records.set(record.id, found);
    this.next = Math.max(this.next, record.id + 1);
  }

  #takeOut(record) {
    const list = this.#listOf(record.parent);
    list.splice(rankOf(list, record), 1);
  }

  #move(record, { parent, spot }) {
    this.#takeOut(record);
    this.#insert({ ...record, parent }, spot);
  }

  #respace(parent) {
    const list = this.children(parent), keys = freshKeys(list.length).reverse();
    list.slice().forEach((record, k) => this.#replace({ ...record, index: keys[k] }));
  }

  #remove(record) {
    this.#takeOut(record);
    for (const { id } of this.subtree(record.id)) {
      this.records.delete(id);
      this.below.delete(id);
      this.#own.delete(id);
    }
  }

  /** A shape and all that is below it, a parent before its children, and children from back to front. */
  subtree(id) {
    const found = [this.record(id)];
    for (let k = 0; k < found.length; k++) found.push(...this.children(found[k].id).slice().reverse());
    return found;
  }

  /** Of these shapes those that are there and lie in no other of them. */
  tops(ids) {
    const all = new Set(ids);
    return [...all].filter((id) => this.record(id) && !this.line(id).slice(1).some((outer) => all.has(outer.id)));
  }

  /** The children of a parent, from front to back. */
  children(parent) {
    return this.below.get(parent) ?? [];
  }

  record(id) {
    return this.records.get(id);
  }

  isContainer(id) {
    return CONTAINERS.has(this.record(id)?.shape.kind);
  }

  /** A shape and all that it lies in, from inside out. */
  line(id) {
    const found = [];
    for (let record = this.record(id); record; record = this.record(record.parent)) found.push(record);
    return found;
  }

  /** The pose that carries a shape's own coordinates to the page. */
  poseOf(id) {
    return this.line(id).reduce((inner, record) => compose(record.pose, inner), STILL);
  }

  /** The points of a shape's outline in its own coordinates; null for a group that shows nothing. */
  outline(record) {
    const { kind, w, h, points } = record.shape;
    if (kind === "polygon") return points;
    if (kind !== "group") return [[0, 0], [w, 0], [w, h], [0, h]];
    const box = this.children(record.id).reduce((all, child) => around(all, this.boxIn(child)), null);
    return box && [[box.left, box.top], [box.right, box.top], [box.right, box.bottom], [box.left, box.bottom]];
  }

  /** The box of a shape in its parent's coordinates. */
  boxIn(record) {
    const points = this.outline(record);
    return points && boxOf(points.map((point) => apply(record.pose, point)));
  }

  /** The least box round shapes on the page, or null where they show nothing. */
  boxAround(ids) {
    return ids.reduce((all, id) => around(all, this.boxOf(id)), null);
  }

  /** The box of a shape on the page, or of the whole document where the id is null; null where nothing is there. */
  boxOf(id) {
    if (id === null) return this.children(null).reduce((all, child) => around(all, this.boxIn(child)), null);
    const points = this.outline(this.record(id)), pose = this.poseOf(id);
    return points && boxOf(points.map((point) => apply(pose, point)));
  }

  /** The front-most shape that shows at a pixel of the page, or null. */
  at([x, y]) {
    return this.#under(null, [x + 0.5, y + 0.5]);
  }

  #under(parent, point) {
    for (const record of this.children(parent)) {
      if (record.hidden) continue;
      const { kind, fill } = record.shape;
      const inner = apply(inverse(record.pose), point);
      if (kind === "group") {
        const found = this.#under(record.id, inner);
        if (found !== null) return found;
      } else if (holds(record.shape, inner)) {
        const found = kind === "frame" ? this.#under(record.id, inner) : null;
        if (found !== null) return found;
        if (fill) return record.id;
      }
    }
    return null;
  }

  /** The shapes of a parent that show something within a box of the page. */
  within(parent, box) {
    return this.children(parent).filter((record) => {
      const own = !record.hidden && this.boxOf(record.id);
      return own && own.left < box.right && own.right > box.left && own.top < box.bottom && own.bottom > box.top;
    }).map(({ id }) => id);
  }

  /** The rows of the layers panel, from front to back: each record with its depth; nothing below a closed one. */
  rows(closed) {
    const rows = [];
    const walk = (parent, depth, dim) => {
      const children = this.children(parent);
      children.forEach((record, k) => {
        const is = dim || record.hidden;
        rows.push({ record, depth, dim: is, position: k + 1, among: children.length });
        if (!closed.has(record.id)) walk(record.id, depth + 1, is);
      });
    };
    walk(null, 1, false);
    return rows;
  }
}
