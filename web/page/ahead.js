// Batches that are sent before those in front of them are answered: so a step of thousands of edits takes no round trip
// for each of its batches.

/** How many batches are on their way at most. The gateway reads no further while it works at them. */
const MOST = 4;

/** Whether a request names something that is yet to be made. */
const isWaiting = ({ id, parent, spot }) => [id, parent, spot?.over].some((name) => name < 0);

export class Ahead {
  #batches;
  #send;
  #next = 0;
  #sent = new Map();

  /** `send` sends a batch, and gives a promise of its replies. */
  constructor(batches, send) {
    this.#batches = batches;
    this.#send = send;
  }

  /** The replies to a batch. Those behind it are sent too, up to one that has to wait for what is made before it. */
  answered(batch) {
    const at = this.#batches.indexOf(batch);
    while (this.#next <= at || this.#mayGo(at)) this.#go();
    return this.#sent.get(batch);
  }

  // Whether the next batch may be sent while the one at this place is waited for.
  #mayGo(at) {
    const next = this.#batches[this.#next];
    return next !== undefined && this.#next < at + MOST && !next.some(isWaiting);
  }

  #go() {
    const batch = this.#batches[this.#next++], replies = this.#send(batch);
    // (one that fails is told where it is waited for)
    replies.catch(() => {});
    this.#sent.set(batch, replies);
  }
}
