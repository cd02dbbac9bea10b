// The edits that the gateway told of, each once and in order, which the picture does not show yet. Where there is no
// feed it tells of none.

const MOST = 50_000;

/** A short mark of an edit, as the gateway makes it of its line. */
function markOf(edit) {
  const found = [2_166_136_261, 40_389];
  for (const byte of new TextEncoder().encode(JSON.stringify(edit))) {
    for (const k of found.keys()) found[k] = Math.imul(found[k] ^ byte, 16_777_619) >>> 0;
  }
  return found.map((it) => it.toString(16).padStart(8, "0")).join("");
}

export class Journal {
  #edits = [];
  #begin = 0;
  #waiting = [];
  #forks = new Set();
  #most;
  #last = null;
  #mark = "";

  /** It has at most so many edits, the last ones. */
  constructor(most = MOST) {
    this.#most = most;
  }

  /** The name of the history that is followed; null where there is none. */
  history = null;

  /** The version of the last edit that is known. */
  get end() {
    return this.#begin + this.#edits.length;
  }

  get isLive() {
    return this.history !== null;
  }

  /** The mark of the last edit; "" where it is not known. */
  get mark() {
    return this.#last ? markOf(this.#last) : this.#mark;
  }

  /** Begins behind a version of a history, or of none; `mark` is that of the edit that made it, where that is known. */
  begin(version, history = null, mark = "") {
    this.#last = null;
    this.#mark = mark;
    this.#edits = [];
    this.#begin = version;
    this.history = history;
    this.#forks.forEach((fork) => fork.begin(version, history));
    this.#tell();
  }

  /** A journal of its own that is told of the same edits, until it is left, and has at most so many. */
  fork(most = MOST) {
    const found = new Journal(most);
    found.begin(this.#begin, this.history);
    found.add(this.#edits);
    this.#forks.add(found);
    return found;
  }

  leave(fork) {
    this.#forks.delete(fork);
  }

  /** Whether a history goes on where this one ends, which may be it under another name: then it has that. */
  isFollowedBy(version, history, isSame = history === this.history) {
    const isIt = history !== null && this.isLive && isSame && version === this.end;
    if (isIt) [this, ...this.#forks].forEach((journal) => { journal.history = history; });
    return isIt;
  }

  /** Takes edits as the feed tells them. Where some are left out, those before are not known any more. */
  add(edits) {
    for (const edit of edits) {
      if (edit.version <= this.end) continue;
      if (edit.version > this.end + 1) this.begin(edit.version - 1, this.history);
      this.#edits.push(edit);
      this.#last = edit;
    }
    if (this.#edits.length > this.#most) this.drop(this.end - this.#most);
    this.#forks.forEach((fork) => fork.add(edits));
    this.#tell();
  }

  /** The edit that made a version, or undefined where it is not known. */
  at(version) {
    return this.#edits[version - this.#begin - 1];
  }

  /** A tree after the edits up to a version, as far as they are known; null where they don't fit. */
  bring(tree, version) {
    while (tree && tree.version < version) {
      const kept = this.at(tree.version + 1);
      if (!kept) break;
      if (!tree.make(kept.edit, kept)) return null;
      tree.version++;
    }
    return tree;
  }

  /** Forgets the edits up to a version. */
  drop(version) {
    const count = Math.min(this.#edits.length, version - this.#begin);
    if (count <= 0) return;
    this.#edits.splice(0, count);
    this.#begin += count;
  }

  /** Waits until a version is known, at most for so long. */
  reach(version, time) {
    if (!this.isLive || this.end >= version) return Promise.resolve();
    return new Promise((done) => {
      const timer = setTimeout(done, time);
      this.#waiting.push(() => {
        if (this.isLive && this.end < version) return false;
        clearTimeout(timer);
        done();
        return true;
      });
    });
  }

  #tell() {
    this.#waiting = this.#waiting.filter((isOver) => !isOver());
  }
}
