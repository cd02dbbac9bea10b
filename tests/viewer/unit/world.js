// Two people who draw on one document at once: a plain model of the server, and users of whom each has the page's own modules. What is on the way to each of
// them comes when the dice say.

import { Editor } from "../../../web/page/editor.js";
import { Journal } from "../../../web/page/journal.js";
import { Returns } from "../../../web/page/returns.js";
import { State } from "../../../web/page/state.js";
import { Tree } from "../../../web/page/tree.js";

const STILL = { dx: 0, dy: 0, quarter: 0, flip: false };
export const COLOURS = ["d9412f", "1e8a5a", "2f6fde", "f6c13c"];
export const CLOCK = { now: () => 0, wait: () => new Promise(setImmediate) };

/** A source of numbers below others, the same for each seed. */
export function dice(seed) {
  let state = seed;
  return (below) => {
    state = (state * 1103515245 + 12345) % 2147483648;
    return Math.floor((state / 2147483648) * below);
  };
}

const saved = (id, parent, index, kind, [dx, dy]) => ({
  id, hidden: false, place: { parent, index }, pose: { ...STILL, dx, dy }, shape: kind === "group" ? { kind } : { kind, w: 40, h: 30, fill: "c3ccd8" },
});

/** Shapes on the page, in a group and in a frame. */
const document = () => ({ format: 2, next: 10, shapes: [
  saved(1, null, "a0", "rect", [0, 0]), saved(2, null, "a1", "ellipse", [50, 20]), saved(3, null, "a2", "group", [100, 0]), saved(4, 3, "a0", "rect", [0, 0]),
  saved(5, 3, "a1", "rect", [50, 0]), saved(6, null, "a3", "frame", [0, 100]), saved(7, 6, "a0", "rect", [5, 5]), saved(8, 6, "a1", "ellipse", [20, 5]),
  saved(9, null, "a4", "rect", [200, 100]),
] });

// -- a plain model of the server ---------------------------------------------------------------------------------------------

const refusal = (name) => ({ ok: false, code: 1, name });

/** Why a request is refused, or null. */
function faultOf(tree, { verb, id, parent = null, spot = "front" }) {
  const isPlaced = verb === "create" || verb === "move", lists = isPlaced ? tree.children(parent).filter((record) => record.id !== id) : [];
  if (verb !== "create" && !tree.record(id)) return "NoSuchShape";
  if (isPlaced && parent !== null && !tree.record(parent)) return "NoSuchParent";
  if (isPlaced && parent !== null && !tree.isContainer(parent)) return "NotAContainer";
  if (verb === "move" && tree.line(parent).some((record) => record.id === id)) return "Cycle";
  if (isPlaced && spot.over !== undefined && !lists.some((record) => record.id === spot.over)) return "SpotNotSibling";
  return isPlaced && lists.some(({ index }) => index === spot.at) ? "IndexTaken" : null;
}

/** The server, and the two users with what is on the way to each of them: requests, replies and edits come when the dice say, each kind in its order. */
export class World {
  version = 0;

  constructor(random) {
    this.random = random;
    this.tree = new Tree(document(), 0);
    this.users = [new User(this, "Ann"), new User(this, "Ben")];
  }

  answer(request) {
    const name = faultOf(this.tree, request);
    if (name) return refusal(name);
    const id = request.verb === "create" ? this.tree.next : null;
    this.tree.make(request, { id });
    this.version++;
    for (const user of this.users) user.told.push({ version: this.version, damage: [0, 0, 0, 0], edit: structuredClone(request), id });
    return { ok: true, version: this.version, ...(id === null ? {} : { id }) };
  }

  /** What is on the way, as functions that bring it. */
  get onWay() {
    return this.users.flatMap((user) => [
      ...(user.asked.length ? [() => user.serve()] : []), ...(user.answered.length ? [() => user.answered.shift()()] : []),
      ...(user.told.length ? [() => user.hear(1 + this.random(3))] : []),
    ]);
  }

  /** Brings so much of what is on the way, in any order. */
  async go(count = Infinity) {
    for (let k = 0; k < count; k++) {
      await new Promise(setImmediate);
      const { onWay } = this;
      if (!onWay.length) break;
      onWay[this.random(onWay.length)]();
    }
  }

  /** Brings all, until nothing more is begun. */
  async settle() {
    for (let quiet = 0; quiet < 3; quiet++) {
      if (this.onWay.length) quiet = 0;
      await this.go();
    }
  }
}

class User {
  asked = [];
  answered = [];
  told = [];

  constructor(world, name) {
    this.world = world;
    this.name = name;
    this.state = new State();
    this.journal = new Journal();
    this.returns = new Returns(this.state);
    this.tree = new Tree(document(), 0);
    this.journal.begin(0, "one");
    this.state.show(this.tree);
    const link = { ask: (requests) => new Promise((done) => this.asked.push({ requests, done })) };
    this.editor = new Editor(link, { see() {} }, this.state, () => {}, this.journal);
  }

  serve() {
    const { requests, done } = this.asked.shift(), replies = requests.map((request) => this.world.answer(request));
    this.answered.push(() => done(replies));
  }

  /** Hears of some edits, and may show them. */
  hear(count) {
    this.journal.add(this.told.splice(0, count));
    this.returns.follow(this.journal);
    if (this.world.random(3)) this.show();
  }

  show() {
    const tree = this.tree.copy();
    for (let kept = this.journal.at(tree.version + 1); kept; kept = this.journal.at(tree.version + 1)) {
      tree.make(kept.edit, kept);
      tree.version++;
    }
    this.tree = tree;
    this.state.show(tree);
    this.journal.drop(tree.version);
  }
}

/** Both take back, in turns that the dice give, until neither can take back anything more. */
export async function takeBackAll(world, random) {
  for (let idle = 0, turn = 0; idle < 2 && turn < 1000; turn++) {
    await shown(world);
    const first = random(2), users = [world.users[first], world.users[1 - first]].slice(0, random(3) ? 1 : 2), found = [];
    for (const user of users) {
      const step = user.editor.back(false);
      await shown(world);
      found.push(await step);
    }
    if (users.length === 2) idle = found.every((step) => step === null) ? 2 : 0;
  }
}

/** Waits until all has come and is shown to both. */
export async function shown(world) {
  await world.settle();
  world.users.forEach((user) => user.show());
}
