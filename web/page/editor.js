// The edits that people make of the document and of the selected shapes. A refusal is told in words.

import { copiesOf, inOrder, requestsFor } from "./clip.js";
import { frameAt, homesOf } from "./frames.js";
import { isThere, stepFrom } from "./order.js";
import { STILL, apply, boxOf, compose, corners, inverse } from "./plane.js";
import { aligned, distributed, fitted, shifted } from "./resize.js";
import { Steps } from "./steps.js";
import { flipped, turned } from "./turn.js";

const ASIDE = 16;

/** The page pose of a shape's parent, undone. */
const intoOf = (tree, parent) => inverse(tree.poseOf(parent));

export class Editor extends Steps {
  #nudge = null;

  /** The id of the selected shape, or of the last one of several; null where there is none. */
  get selected() {
    return this.state.selected;
  }

  get record() {
    return this.state.record;
  }

  get fill() {
    return this.state.fill;
  }

  set fill(fill) {
    this.state.pick(fill);
  }

  /** Selects one shape, or none where the id is null. */
  select(id) {
    this.state.select(id === null ? [] : [id]);
  }

  // A step for each selected shape that is there when its turn comes, from back to front.
  #each(name, requestsOf, kind) {
    const ids = this.state.selection;
    const plan = (tree) => inOrder(tree, ids).flatMap((record) => requestsOf(record, tree));
    return ids.length ? this.perform(name, plan, kind) : null;
  }

  // -- new shapes -----------------------------------------------------------------------------------------------------

  /**
   * What a shape that begins at a point goes into: the innermost container there that is selected or entered, or else
   * the innermost frame, or null for the page.
   */
  parentAt([x, y]) {
    const { tree, selected, entered } = this.state, from = selected ?? entered;
    const has = ({ id }) => {
      const box = tree.isContainer(id) && tree.boxOf(id);
      return box && x >= box.left && x < box.right && y >= box.top && y < box.bottom;
    };
    const outer = from === null || !tree ? undefined : tree.line(from).find(has);
    return outer?.id ?? frameAt(tree, [x, y]);
  }

  async #create(name, parent, pagePoints, shapeOf) {
    const done = await this.perform(`draw ${name}`, (tree) => {
      const into = intoOf(tree, parent), points = pagePoints.map((point) => apply(into, point)), box = boxOf(points);
      return [{ verb: "create", shape: shapeOf(points, box), pose: { dx: box.left, dy: box.top }, parent }];
    });
    const [reply] = done?.replies ?? [];
    if (!reply) return null;
    this.state.enter(parent);
    this.select(reply.id);
    return reply;
  }

  /** Makes a rectangle, an ellipse or a frame that fills a box of the page. */
  createBox(kind, pageBox, begin) {
    const { fill } = this.state;
    return this.#create(kind === "rect" ? "rectangle" : kind, this.parentAt(begin), corners(pageBox),
      (_, { left, top, right, bottom }) => ({ kind, w: right - left, h: bottom - top, fill }));
  }

  /** Makes a polygon of points of the page. */
  createPolygon(pagePoints) {
    const { fill } = this.state;
    return this.#create("polygon", this.parentAt(pagePoints[0]), pagePoints,
      (points, { left, top }) => ({ kind: "polygon", points: points.map(([x, y]) => [x - left, y - top]), fill }));
  }

  // -- where shapes lie -----------------------------------------------------------------------------------------------

  /** Moves the selected shapes by so much of the page. */
  moveBy([across, down]) {
    if (across === 0 && down === 0) return null;
    return this.#each("move", (record, tree) => [shifted(tree, record, [across, down])]);
  }

  /**
   * Moves the selected shapes a step by a key. Steps that come while one is on its way are made together; `fit` may
   * change their sum.
   */
  nudgeBy([across, down], fit = (box, sum) => sum) {
    if (this.#nudge) {
      this.#nudge = [this.#nudge[0] + across, this.#nudge[1] + down];
      return null;
    }
    this.#nudge = [across, down];
    const ids = this.state.selection;
    return this.perform("move", (tree) => {
      const records = inOrder(tree, ids), by = fit(tree.boxAround(records.map(({ id }) => id)), this.#nudge);
      this.#nudge = null;
      return records.map((record) => shifted(tree, record, by));
    }, `nudge ${ids}`);
  }

  turn() {
    return this.#about("turn", turned);
  }

  flip() {
    return this.#about("flip", flipped);
  }

  // Gives the selected shapes other poses about the middle of them all.
  #about(name, posesOf) {
    const ids = this.state.selection;
    return ids.length ? this.perform(name, (tree) => posesOf(tree, ids)) : null;
  }

  toFront() {
    return this.#each("bring to front", ({ id, parent }) => [{ verb: "move", id, parent, spot: "front" }]);
  }

  toBack() {
    const ids = this.state.selection, request = ({ id, parent }) => ({ verb: "move", id, parent, spot: "back" });
    return ids.length ? this.perform("send to back", (tree) => inOrder(tree, ids).reverse().map(request)) : null;
  }

  /** Gives the selected shapes another box on the page. */
  fitTo(box) {
    const ids = this.state.selection;
    return this.perform("resize", (tree) => (ids.every((id) => tree.record(id)) ? fitted(tree, ids, box) : null));
  }

  /** Moves the selected shapes to one edge or middle line of them all. */
  align(edge) {
    return this.#arrange("align", (boxes) => aligned(boxes, edge), 2);
  }

  /** Moves the selected shapes so that the gaps between them are even. */
  distribute(isDown) {
    return this.#arrange("distribute", (boxes) => distributed(boxes, isDown), 3);
  }

  #arrange(name, waysOf, least) {
    const ids = this.state.selection;
    return this.perform(name, (tree) => {
      const records = ids.map((id) => tree.record(id)).filter((record) => record && tree.boxOf(record.id));
      if (records.length < least) return null;
      const ways = waysOf(records.map(({ id }) => tree.boxOf(id)));
      return records.flatMap((record, k) => (ways[k][0] || ways[k][1] ? [shifted(tree, record, ways[k])] : []));
    });
  }

  // -- what shapes lie in ---------------------------------------------------------------------------------------------

  /** The frame or group next behind all selected shapes, beside them. */
  get behind() {
    const { records, tree } = this.state, parent = records[0]?.parent;
    if (!records.length || records.some((record) => record.parent !== parent)) return undefined;
    const beside = tree.children(parent), all = new Set(records);
    const last = beside.findLastIndex((record) => all.has(record));
    return beside.slice(last + 1).find(({ id }) => tree.isContainer(id));
  }

  // The requests that give a shape another parent, and a pose in it by which it stays where it is on the page.
  #carry(tree, record, parent, spot, outer = tree.poseOf(parent)) {
    const pose = compose(inverse(outer), compose(tree.poseOf(record.parent), record.pose));
    const isSame = JSON.stringify(pose) === JSON.stringify({ ...STILL, ...record.pose });
    return [{ verb: "move", id: record.id, parent, spot }, ...(isSame ? [] : [{ verb: "pose", id: record.id, pose }])];
  }

  /**
   * Puts the selected shapes at a place, as order.js has it. They keep their order, and stay where they are on the
   * page.
   */
  putAt({ parent, over }) {
    const ids = this.state.selection;
    return this.perform("reorder", (tree) => {
      const records = inOrder(tree, ids).reverse();
      if (isThere(tree, records.map(({ id }) => id), { parent, over })) return null;
      return records.flatMap((record) => this.#carry(tree, record, parent, over === null ? "back" : { over }));
    });
  }

  /** Moves the selected shapes one step to the front, or to the back, among those beside them. */
  step(isBack) {
    const { tree, selection } = this.state, place = tree && stepFrom(tree, selection, isBack);
    return place && this.putAt(place);
  }

  /**
   * What shapes would go into, if they were let go at a point: a frame, or null for the page; undefined where all would
   * stay in what they lie in.
   */
  homeAt(point, ids) {
    const { tree } = this.state, moved = ids.map((id) => tree?.record(id)).filter(Boolean);
    const homes = homesOf(tree, moved, point, ids), k = moved.findIndex(({ parent }, at) => homes[at] !== parent);
    return k < 0 ? undefined : homes[k];
  }

  /**
   * The requests that put shapes, which are let go at a point, into the frame there, or out of the one that they were
   * dragged out of.
   */
  carriedHome(tree, ids, point) {
    const records = inOrder(tree, ids), homes = homesOf(tree, records, point, ids);
    const carried = (record, home) => (home === record.parent ? [] : this.#carry(tree, record, home, "front"));
    return records.flatMap((record, k) => carried(record, homes[k]));
  }

  /** Puts the selected shapes into the frame or group next behind them. */
  putIn() {
    const outer = this.behind;
    const plan = (record, tree) => (tree.record(outer.id) ? this.#carry(tree, record, outer.id, "front") : []);
    return outer ? this.#each("put in", plan) : null;
  }

  /** Takes the selected shapes out of what they lie in, and puts them just in front of that. */
  takeOut() {
    return this.#each("take out", (record, tree) => {
      const outer = tree.record(record.parent);
      return outer ? this.#carry(tree, record, outer.parent, { over: outer.id }) : [];
    });
  }

  /** Puts the selected shapes into a new group in their place. */
  async group() {
    const ids = this.state.selection;
    if (!ids.length) return null;
    const done = await this.perform("group", (tree) => {
      const records = inOrder(tree, ids), front = records.at(-1);
      if (!front) return null;
      const into = tree.poseOf(front.parent);
      const made = { verb: "create", shape: { kind: "group" }, parent: front.parent, spot: { over: front.id }, as: -1 };
      return [made, ...records.flatMap((record) => this.#carry(tree, record, -1, "front", into))];
    });
    if (done?.made.has(-1)) this.select(done.made.get(-1));
    return done;
  }

  /** Takes all shapes out of the selected groups, which go. */
  async ungroup() {
    const ids = this.state.records.filter(({ shape }) => shape.kind === "group").map(({ id }) => id);
    const inner = ids.flatMap((id) => this.state.tree.children(id).map((child) => child.id));
    if (!ids.length) return null;
    const done = await this.perform("ungroup", (tree) => inOrder(tree, ids).flatMap((record) => [
      ...tree.children(record.id).flatMap((child) => this.#carry(tree, child, record.parent, { over: record.id })),
      { verb: "delete", id: record.id },
    ]));
    this.state.select(inner);
    return done;
  }

  /** Gives the shapes beside the selected one new index keys, so that there is room between them. */
  respace() {
    return this.send({ verb: "respace", parent: this.state.records.at(-1)?.parent ?? null });
  }

  // -- how shapes look ------------------------------------------------------------------------------------------------

  hide() {
    const { records } = this.state, hidden = !records.every((record) => record.hidden);
    return this.#each(hidden ? "hide" : "show", ({ id }) => [{ verb: "show", id, hidden }]);
  }

  setHidden(id, hidden) {
    return this.perform(hidden ? "hide" : "show", () => [{ verb: "show", id, hidden }]);
  }

  /**
   * Gives the selected shapes this colour, null for none, and new shapes too. While one draws it is for new shapes
   * alone.
   */
  setFill(fill) {
    if (fill !== null) this.state.pick(fill);
    if (fill !== null && this.state.isDrawing) return null;
    const may = (kind) => kind === "frame" || kind !== "group" && fill !== null;
    const takes = ({ shape }) => shape.fill !== fill && may(shape.kind);
    const request = ({ id, shape }) => ({ verb: "reshape", id, shape: { ...shape, fill } });
    return this.#each("colour", (record) => (takes(record) ? [request(record)] : []));
  }

  /** Gives a polygon other points, of the page. */
  setPoints(id, pagePoints) {
    return this.perform("change points", (tree) => {
      const record = tree.record(id), into = record && inverse(tree.poseOf(id));
      const points = pagePoints.map((point) => apply(into, point));
      return record ? [{ verb: "reshape", id, shape: { ...record.shape, points } }] : null;
    });
  }

  // -- copies ---------------------------------------------------------------------------------------------------------

  delete() {
    return this.#each("delete", ({ id }) => [{ verb: "delete", id }]);
  }

  copies() {
    const { tree, selection } = this.state;
    return tree ? copiesOf(tree, selection) : [];
  }

  /**
   * Makes copies anew, moved by so much, in their own parents where those are there, and selects them.
   * @param {any[] | null} copies
   * @param {number[]} by
   * @param {string} name
   * @param {(tree: any) => object[]} first what is done before
   * @param {((tree: any) => number | null) | null} home what they go into, where that is another parent
   */
  async paste(copies, by, name = "paste", first = () => [], home = null) {
    if (!copies?.length) return null;
    const done = await this.perform(name, (tree) => {
      const parents = [...new Set(copies.map(({ parent }) => parent ?? null))];
      const parent = home ? home(tree) : parents.length === 1 && tree.isContainer(parents[0]) ? parents[0] : null;
      return [...first(tree), ...requestsFor(copies, parent, intoOf(tree, parent), by)];
    });
    if (done) this.state.select(copies.map((_, k) => done.made.get(-1 - k)).filter((id) => id !== undefined));
    return done;
  }

  duplicate(by = [ASIDE, ASIDE], point = null) {
    const ids = this.state.selection, first = this.state.records[0];
    const home = point && first ? (tree) => homesOf(tree, [first], point, ids)[0] : null;
    return this.paste(this.copies(), by, "duplicate", undefined, home);
  }

  /** Draws the copies that a file holds into this document, or in the place of all that is there. */
  open(copies, isInPlace) {
    const first = (tree) => (isInPlace ? tree.children(null).map(({ id }) => ({ verb: "delete", id })) : []);
    return this.paste(copies, [0, 0], "open", first);
  }

  selectAll() {
    const { tree, entered } = this.state;
    if (tree) this.state.select(tree.children(entered).filter(({ hidden }) => !hidden).map(({ id }) => id));
  }
}
