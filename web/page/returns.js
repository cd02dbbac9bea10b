// Shapes that others deleted and made anew, as by taking back what they did: the steps of this tab still find them.

const MOST = 4000;

/**
 * How a shape looks, as a text that is the same for the same looks.
 * @param {any} edit
 */
function looksOf({ shape, pose, hidden = false }) {
  const sorted = (value) => Object.entries(value).sort(([a], [b]) => (a < b ? -1 : 1));
  return JSON.stringify([sorted(shape), sorted({ dx: 0, dy: 0, quarter: 0, flip: false, ...pose }), hidden]);
}

export class Returns {
  #state;
  #tree = null;
  #gone = new Map();

  constructor(state) {
    this.#state = state;
  }

  /** Begins anew, with another history. */
  begin() {
    this.#gone.clear();
    this.#tree = null;
  }

  /** Takes note of the edits that a journal has behind those that are known. */
  follow(journal) {
    const { base } = this.#state;
    if (!this.#tree || !journal.at(this.#tree.version + 1)) this.#tree = base?.copy() ?? null;
    for (let tree = this.#tree; tree && tree.version < journal.end; tree = journal.bring(tree, tree.version + 1)) {
      const kept = journal.at(tree.version + 1);
      if (!kept) break;
      const { verb, id, parent = null } = kept.edit;
      if (verb === "delete") this.#leave(tree, id);
      else if (verb === "create") this.#come(kept.edit, kept.id);
      else if (verb === "respace") this.#forget(parent);
    }
  }

  // What lies in a parent has other keys now.
  #forget(parent) {
    const { history } = this.#state;
    history.forgetKeys(({ to }) => history.resolve(to.parent) === parent);
  }

  #leave(tree, id) {
    for (const record of tree.record(id) ? tree.subtree(id) : []) {
      this.#gone.set(record.id, { parent: record.parent, index: record.index, looks: looksOf(record) });
    }
    for (const first of this.#gone.keys()) {
      if (this.#gone.size <= MOST) break;
      this.#gone.delete(first);
    }
  }

  // (what is made anew gets the key that it had; or a place beside another shape, where that is taken)
  #come({ parent = null, spot, ...edit }, id) {
    if (!this.#gone.size || edit.hidden === undefined || typeof spot !== "object") return;
    const { history } = this.#state, looks = looksOf(edit);
    const isThere = (kept) => (spot.at ?? kept.index) === kept.index && history.resolve(kept.parent) === parent;
    const isIt = (kept) => kept.looks === looks && isThere(kept);
    const found = [...this.#gone].find(([, kept]) => isIt(kept))?.[0];
    if (found === undefined) return;
    this.#gone.delete(found);
    if (spot.at === undefined) history.forgetKeys((change) => history.resolve(change.id) === found);
    if (history.resolve(found) !== id) history.rename(history.resolve(found), id);
  }
}
