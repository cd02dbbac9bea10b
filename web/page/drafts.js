// What this tab's own edits look like, painted by the page from the moment that they are begun until the picture shows
// them. The picture is of one version; each box that an edit may have changed is painted anew over it, from the tree
// with the edits that are on their way.

import { paintAll } from "./paint.js";
import { around } from "./plane.js";

const EDGE = 2 ** 21;
/** From how many boxes on they are painted as one. */
const MOST_BOXES = 24;
/** Of how many shapes at most a tree is painted. */
const MOST_SHAPES = 20_000;
/**
 * Of more requests at once nothing is painted before the picture shows them: to try them would take longer than that.
 */
const MOST_REQUESTS = 2000;

/** The boxes on the page of the shapes that requests name. */
function boxesOf(tree, requests) {
  const named = requests.filter(({ verb, id }) => verb !== "respace" && tree.record(id));
  return named.map(({ id }) => tree.boxOf(id)).filter(Boolean);
}

export class Drafts {
  #state;
  #list = [];
  #fresh = 0;
  #tree = null;
  #isOld = true;

  constructor(state) {
    this.#state = state;
  }

  /** Begins to show requests; gives the draft, which `answer` and `end` go on with. */
  begin(requests) {
    const named = requests.length > MOST_REQUESTS ? [] : requests.map((request) => this.#named(request));
    const before = boxesOf(this.tree, named), draft = { left: named, made: new Map(), boxes: [], version: Infinity };
    this.#list.push(draft);
    this.#isOld = true;
    draft.boxes = [...before, ...boxesOf(this.tree, named)];
    return draft;
  }

  // A request with an id for what it makes.
  #named(request) {
    return request.verb === "create" ? { ...request, id: request.as ?? -(2 ** 40) - this.#fresh++ } : request;
  }

  /** Shows other requests in the place of a draft's. */
  change(draft, requests) {
    draft.left = requests;
    this.#isOld = true;
    const boxes = [...draft.boxes, ...boxesOf(this.tree, requests)];
    draft.boxes = boxes.length ? [boxes.reduce(around)] : [];
  }

  /** Some of the requests were answered; `made` has the ids of what was made. */
  answer(draft, count, made) {
    draft.left = draft.left.slice(count);
    draft.made = made;
    this.#isOld = true;
  }

  /** All was answered, and made by a version; or nothing was made, where that is 0. */
  end(draft, version) {
    draft.left = [];
    draft.version = version;
    this.#isOld = true;
  }

  /** Forgets all. */
  clear() {
    this.#list = [];
    this.#isOld = true;
  }

  /** The tree has changed. */
  renew() {
    this.#isOld = true;
  }

  /** The tree with what is on its way. */
  get tree() {
    if (this.#isOld) this.#tree = this.#expected();
    this.#isOld = false;
    return this.#tree;
  }

  #expected() {
    const left = this.#list.filter((draft) => draft.left.length), { tree } = this.#state;
    if (!left.length) return tree;
    const found = tree.copy();
    for (const draft of left) {
      const now = (id) => draft.made.get(id) ?? id;
      for (const { spot, ...request } of draft.left) {
        const id = now(request.id), parent = now(request.parent);
        const isCycle = request.verb === "move" && found.line(parent).some((record) => record.id === id);
        const place = spot?.over === undefined ? spot : { over: now(spot.over) };
        const inParent = parent === undefined ? {} : { parent };
        if (!isCycle) found.make({ ...request, id, ...inParent, spot: place }, { id });
      }
    }
    return found;
  }

  /** Paints those that a picture of a version does not show yet. */
  draw(context, view, version) {
    this.#list = this.#list.filter((draft) => draft.version > version);
    if (!this.#list.length || !this.tree || this.tree.records.size > MOST_SHAPES) return;
    const boxes = this.#list.flatMap((draft) => draft.boxes);
    for (const box of boxes.length > MOST_BOXES ? [boxes.reduce(around)] : boxes) this.#paint(context, view, box);
  }

  #paint(context, view, box) {
    const places = [[box.left, box.top], [box.right, box.bottom]].map((point) => view.toWindow(point));
    const ends = [[-EDGE, -EDGE], [EDGE, EDGE]].map((point) => view.toWindow(point));
    const [left, top] = [0, 1].map((k) => Math.max(0, Math.floor(places[0][k]), ends[0][k]));
    const sides = [view.width, view.height];
    const [right, bottom] = [0, 1].map((k) => Math.min(sides[k], Math.ceil(places[1][k]), ends[1][k]));
    if (left >= right || top >= bottom) return;
    context.save();
    context.beginPath();
    context.rect(left, top, right - left, bottom - top);
    context.clip();
    context.fillStyle = "#ffffff";
    context.fillRect(left, top, right - left, bottom - top);
    context.setTransform(1 / view.scale, 0, 0, 1 / view.scale, -view.left, -view.top);
    const [x, y] = view.pointAt([left, top]), [x2, y2] = view.pointAt([right, bottom]);
    paintAll(context, this.tree, null, { left: x, top: y, right: x2, bottom: y2 });
    context.restore();
  }
}
