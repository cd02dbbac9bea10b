// The edits of a drag, which are sent while it goes: the changes of one step; and what others do to the same shapes
// meanwhile. Each edit gives a shape a whole pose or look, and may put back what its sender does not know of yet.

import { joined } from "./changes.js";
import { changedParts, partOf, same, withPartsOf } from "./parts.js";

/** What an edit of each kind gives a shape. */
const VALUES = { pose: "pose", reshape: "shape" };
/** Parts that change what the others mean. */
const WHOLE = ["turn", "kind"];

const keyOf = ({ verb, id }) => `${verb} ${id}`;

export class Way {
  #journal;
  #tree;
  #own = new Set();
  #version = 0;
  #earlier = [];
  #last = new Map();
  #theirs = new Map();

  /** `tree` is the document as it was before. `journal` has the edits behind that; without it nothing is given back. */
  constructor(journal = null, tree = null) {
    this.#journal = journal;
    this.#tree = tree?.copy() ?? null;
  }

  /** Takes what was done on the way. The changes of one shape are one, as far as they go on from each other. */
  note({ changes, replies }) {
    this.own(replies);
    for (const change of changes) {
      const last = this.#last.get(keyOf(change)), both = last && joined(last, change);
      if (last && !both) this.#earlier.push(last);
      this.#last.set(keyOf(change), both ?? change);
    }
  }

  /** Takes replies to edits that are no changes of the step. */
  own(replies) {
    for (const { version } of replies) {
      this.#own.add(version);
      this.#version = Math.max(this.#version, version);
    }
  }

  get changes() {
    return [...this.#earlier, ...this.#last.values()];
  }

  /** The version of the last edit on the way. */
  get version() {
    return this.#version;
  }

  /**
   * The requests by which each shape is as it was brought here, and in all else as others have made it meanwhile. None
   * where not all edits are known.
   */
  mends() {
    this.#read();
    if (!this.#tree || this.#tree.version < this.version) return [];
    return [...this.#last.values()].flatMap((change) => this.#mendOf(change));
  }

  // Takes note of what others have made of the shapes. Own edits tell nothing of that.
  #read() {
    for (let tree = this.#tree; tree && this.#journal?.at(tree.version + 1); tree = this.#tree) {
      const { edit } = this.#journal.at(tree.version + 1), name = keyOf(edit), value = VALUES[edit.verb];
      const before = value && tree.record(edit.id)?.[value];
      this.#tree = this.#journal.bring(tree, tree.version + 1);
      if (!before || !this.#last.has(name) || this.#own.has(this.#tree?.version)) continue;
      const after = this.#tree.record(edit.id)[value], parts = changedParts(before, after);
      const theirs = this.#theirs.get(name) ?? { parts: new Set(), value: after };
      for (const part of parts) theirs.parts.add(part);
      this.#theirs.set(name, { ...theirs, value: withPartsOf(theirs.value, parts, after) });
    }
  }

  #mendOf({ verb, id, parent, own, from, to, trail = {} }) {
    const record = this.#tree.record(id), theirs = this.#theirs.get(keyOf({ verb, id }));
    if (!record || !theirs || (parent !== undefined && record.parent !== parent)) return [];
    if (WHOLE.some((part) => own.includes(part) || theirs.parts.has(part))) return [];
    const now = record[VALUES[verb]], passed = (part) => [partOf(from, part), ...(trail[part] ?? [])];
    // (what others have put back so far was one of the values on the way)
    const lost = own.filter((part) => passed(part).some((it) => same(it, partOf(now, part))));
    const left = [...theirs.parts].filter((part) => !own.includes(part));
    const wanted = withPartsOf(withPartsOf(now, lost, to), left, theirs.value);
    return changedParts(now, wanted).length ? [{ verb, id, [VALUES[verb]]: wanted }] : [];
  }
}
