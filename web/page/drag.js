// A drag of shapes, sent while it goes: at most 30 poses a second, and the last one always. All of it is one step.

import { inOrder } from "./clip.js";
import { shifted } from "./resize.js";

export const PAUSE = 1000 / 30;
/** How many shapes are sent on the way at most; of more only where they end. */
const MOST_ON_WAY = 100;
const WAYS = ["dx", "dy"];

/** @type {(one: number[], other: number[]) => boolean} */
const same = ([x, y], [x2, y2]) => x === x2 && y === y2;

export const CLOCK = { now: () => performance.now(), wait: (time) => new Promise((done) => setTimeout(done, time)) };

export class Drag {
  #steps;
  #ids;
  #clock;
  #wanted = [0, 0];
  #way = null;
  #begins = new Map();
  #sent = -Infinity;
  #isFollowing = false;
  #isOver = false;

  /** How much of the way the shapes have been moved so far, and by which version. */
  made = [0, 0];
  version = 0;

  constructor(steps, ids, clock = CLOCK) {
    this.#steps = steps;
    this.#ids = ids;
    this.#clock = clock;
  }

  /** Goes on to a place, so far from the first one. */
  to(by) {
    this.#wanted = by;
    if (!this.#isFollowing && !this.#isOver && this.#ids.length <= MOST_ON_WAY) this.#follow();
  }

  /**
   * Ends at a place. What was moved is one step then, with what `more` gives of the tree to be done there; none, where
   * it ends where it began.
   */
  end(by, more = () => []) {
    this.#isOver = true;
    return this.#steps.inTurn(async () => {
      const pause = this.#sent + PAUSE - this.#clock.now();
      if (pause > 0 && !same(by, this.made)) await this.#clock.wait(pause);
      await this.#make(by);
      if (this.#way) this.version = Math.max(this.version, await this.#steps.giveBack(this.#way));
      this.#steps.note("move", [...this.#way?.changes ?? [], ...await this.#makeMore(more)]);
    });
  }

  async #makeMore(more) {
    const { tree } = this.#steps.state, requests = tree ? more(tree) : [];
    if (!requests.length) return [];
    const done = await this.#steps.make(requests);
    this.version = Math.max(this.version, ...done.replies.map(({ version }) => version));
    return done.changes;
  }

  // One pose at a time, of the newest place. Of several shapes each takes its turn of the thirty.
  async #follow() {
    this.#isFollowing = true;
    while (!this.#isOver && !same(this.#wanted, this.made)) {
      const pause = this.#sent + PAUSE * this.#ids.length - this.#clock.now();
      if (pause > 0) await this.#clock.wait(pause);
      if (!this.#isOver) await this.#steps.inTurn(() => this.#make(this.#wanted));
    }
    this.#isFollowing = false;
  }

  async #make(by) {
    const { tree } = this.#steps.state, records = tree && !same(by, this.made) ? inOrder(tree, this.#ids) : [];
    if (!records.length) return;
    this.#sent = this.#clock.now();
    this.#way ??= this.#steps.begin();
    const poses = records.map((record) => this.#posed(tree, record, by));
    const done = await this.#steps.make(poses, { isOnWay: true });
    if (done.replies.length < records.length) this.#isOver = true;
    this.#way.note(done);
    this.made = by;
    this.version = Math.max(this.version, ...done.replies.map(({ version }) => version));
  }

  // A shape goes to where the pointer has it, but only across or only down where it was dragged no other way: so two
  // can drag one shape.
  #posed(tree, record, by) {
    if (!this.#begins.has(record.id)) this.#begins.set(record.id, { ...record, ways: new Set() });
    const begin = this.#begins.get(record.id), { quarter, flip } = begin.pose;
    const isTurned = quarter !== record.pose.quarter || flip !== record.pose.flip;
    if (isTurned || begin.parent !== record.parent) {
      return shifted(tree, record, [by[0] - this.made[0], by[1] - this.made[1]]);
    }
    const { pose } = shifted(tree, begin, by);
    for (const name of WAYS) if (pose[name] !== begin.pose[name]) begin.ways.add(name);
    const gone = Object.fromEntries([...begin.ways].map((name) => [name, pose[name]]));
    return { verb: "pose", id: record.id, pose: { ...record.pose, ...gone } };
  }
}
