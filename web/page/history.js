// The steps that this tab made and took back. A step has a name and the changes of its edits, in order. What of it
// can't be taken back now, since others have changed it, stays for later; such a step is passed over until then.

import { isStill, joined, parentsIn } from "./changes.js";

const MOST = 500;
const SOON = 1000;

export class History {
  #done = [];
  #undone = [];
  #anew = new Map();

  /** The name of the step that is taken back next, or made again next; undefined where there is none. */
  get undoName() {
    return this.#done.at(-1)?.name;
  }

  get redoName() {
    return this.#undone.at(-1)?.name;
  }

  get length() {
    return this.#done.length;
  }

  /**
   * Notes a new step. Steps of one kind that follow each other soon become one, where they only move the same shapes.
   */
  note({ changes, ...step }, time = Date.now()) {
    this.#note({ ...step, changes: changes.filter((change) => !isStill(change)) }, time);
  }

  #note(step, time) {
    if (!step.changes.length) return;
    this.#undone = [];
    const last = this.#done.at(-1), isLike = step.kind !== undefined && last?.kind === step.kind;
    const isSoon = isLike && time - last.time < SOON;
    const together = isSoon ? join(last.changes, step.changes) : null;
    if (together) this.#done[this.#done.length - 1] = { ...step, changes: together, time };
    else this.#push({ ...step, time });
  }

  #push(step) {
    this.#done.push(step);
    if (this.#done.length > MOST) this.#done.shift();
  }

  /** The steps that are to be taken back, or made again, the next one first. */
  steps(isRedo) {
    return (isRedo ? this.#undone : this.#done).slice().reverse();
  }

  /** Takes a step out, but for those of its changes that stay; gives what puts it back. */
  take(step, kept, isRedo) {
    const list = isRedo ? this.#undone : this.#done, at = list.indexOf(step);
    const left = kept.length ? { ...step, changes: kept, isPassed: true } : null;
    if (at >= 0) list.splice(at, 1, ...(left ? [left] : []));
    return () => list.splice(left ? list.indexOf(left) : at, left ? 1 : 0, step);
  }

  /** The ids of what other steps need that were passed over. */
  wantedBeside(step) {
    const passed = [...this.#done, ...this.#undone].filter((other) => other.isPassed && other !== step);
    return passed.flatMap(({ changes }) => parentsIn(changes));
  }

  /** Notes that a step was passed over: the next time the one before it is taken. */
  pass(step) {
    step.isPassed = true;
  }

  /** Notes what taking back a step changed, so that it can be made again; or the other way round. */
  noteBack({ name, changes }, isRedo) {
    const step = { name, changes: changes.filter((change) => !isStill(change)) };
    if (!step.changes.length) return;
    if (isRedo) this.#push(step);
    else this.#undone.push(step);
  }

  /** Notes that a shape was made anew. */
  rename(id, next) {
    this.#anew.set(id, next);
  }

  /**
   * Forgets at which keys moves have put shapes, of which some are elsewhere now: their neighbours tell where that was.
   */
  forgetKeys(isElsewhere) {
    const forgot = (change) => {
      const isForgotten = change.verb === "move" && isElsewhere(change);
      return isForgotten ? { ...change, to: { ...change.to, index: undefined } } : change;
    };
    for (const step of [...this.#done, ...this.#undone]) step.changes = step.changes.map(forgot);
  }

  /** The id that a shape has now. */
  resolve(id) {
    let found = id;
    while (this.#anew.has(found)) found = this.#anew.get(found);
    return found;
  }

  /** What keeps it, as plain data: the last steps, so many of each kind. */
  saved(most = MOST) {
    return { done: this.#done.slice(-most), undone: this.#undone.slice(-most), anew: [...this.#anew] };
  }

  /** Goes on with what was kept. */
  load({ done, undone, anew }) {
    this.#done = done;
    this.#undone = undone;
    this.#anew = new Map(anew);
  }

  clear() {
    this.#done = [];
    this.#undone = [];
    this.#anew.clear();
  }
}

/** The changes of two steps as one, where each of the second continues one of the first; else null. */
function join(first, second) {
  if (first.length !== second.length) return null;
  const found = first.map((change, k) => joined(change, second[k]));
  return found.every(Boolean) ? found : null;
}
