// The page's state: the view, the tree, the selection, what is entered, the colour of new shapes, and the history.
//
// The tree is the one that is shown, with those own edits that were accepted since, so that nothing has to wait for the
// picture.
//
// Events: `tree` (the tree has changed), `selected` (the selection, or the colour, has changed), `history` (there is
// another step to take back), `making` (edits go on their way, or are answered).

import { Drafts } from "./drafts.js";
import { History } from "./history.js";
import { View } from "./view.js";

export class State extends EventTarget {
  #base = null;
  #ahead = [];
  #box = null;

  view = new View();
  history = new History();
  /** What own edits look like until they are shown. */
  drafts = new Drafts(this);
  tree = null;
  /** The ids of the selected shapes; none lies in another one. */
  selection = [];
  /** The group or frame in which a click selects, or null for the page. */
  entered = null;
  /** The colour of new shapes. */
  fill = "2f6fde";
  /** Whether a tool that draws is chosen. */
  isDrawing = false;
  /** Whether an earlier version is shown, in which nothing can be changed. */
  isPast = false;

  /** The tree of the document as it is shown, without own edits that came since; or null. */
  get base() {
    return this.#base;
  }

  /** The selected shape, or the last one of several; null where there is none. */
  get selected() {
    return this.selection.at(-1) ?? null;
  }

  /** The record of the one selected shape; undefined where none or several are selected. */
  get record() {
    return this.selection.length === 1 ? this.tree?.record(this.selected) : undefined;
  }

  /** The records of the selected shapes. */
  get records() {
    return this.selection.map((id) => this.tree?.record(id)).filter(Boolean);
  }

  /** The box on the page round what is selected, or null. */
  get box() {
    this.#box ??= this.tree?.boxAround(this.records.map(({ id }) => id)) ?? null;
    return this.#box;
  }

  /** Selects shapes; those that lie in others of them are selected with those. */
  select(ids) {
    this.selection = this.tree && ids.length > 1 ? this.tree.tops(ids) : ids;
    this.#box = undefined;
    if (this.entered !== null && !this.#isWithin(this.entered)) this.entered = null;
    this.dispatchEvent(new Event("selected"));
  }

  #isWithin(outer) {
    return this.selection.every((id) => this.tree?.line(id).some((record) => record.id === outer));
  }

  /** Enters a group or a frame: a click selects what lies in it. */
  enter(id) {
    this.entered = id;
  }

  pick(fill) {
    this.fill = fill;
    this.dispatchEvent(new Event("selected"));
  }

  /**
   * Forgets what was selected and done, since another server, or another session with it, is there; but not what was
   * done, where that `isKnown` there.
   */
  begin(isKnown = false) {
    this.#base = null;
    this.#ahead = [];
    this.tree = null;
    this.entered = null;
    this.drafts.clear();
    if (!isKnown) this.history.clear();
    this.select([]);
    this.dispatchEvent(new Event("history"));
  }

  /** Takes the tree that is shown. */
  show(tree) {
    this.#base = tree;
    if (!this.isPast) this.#build();
  }

  /** Takes the tree of an earlier version, which stands in for the one that is shown; or none, when that is over. */
  showPast(tree) {
    this.isPast = tree !== null;
    if (tree) this.#take(tree, []);
    else if (this.#base) this.#build();
  }

  /** Takes own edits that were accepted: each with its reply. */
  add(edits) {
    const base = this.#base, own = base ? edits.filter(([, reply]) => reply.version > base.version) : [];
    this.#ahead.push(...own);
    if (own.length && !this.isPast) this.#take(this.tree.copy(), own);
  }

  #build() {
    const base = this.#base;
    this.#ahead = this.#ahead.filter(([, reply]) => reply.version > base.version);
    this.#take(this.#ahead.length ? base.copy() : base, this.#ahead);
  }

  #take(tree, edits) {
    for (const [request, reply] of edits) tree.make(request, reply);
    this.tree = tree;
    this.drafts.renew();
    this.#box = undefined;
    if (this.entered !== null && !this.tree.record(this.entered)) this.entered = null;
    const before = this.selection;
    this.selection = before.filter((id) => tree.record(id));
    this.dispatchEvent(new Event("tree"));
    if (this.selection.length < before.length) this.select(this.selection);
  }
}
