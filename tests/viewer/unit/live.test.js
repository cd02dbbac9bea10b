// What a tab makes of the edits that it is told of: which tiles they touch, and what is shown together.

import assert from "node:assert/strict";
import { test } from "node:test";

import { keyBetween } from "../../../web/page/index_keys.js";
import { Journal } from "../../../web/page/journal.js";
import { Picture } from "../../../web/page/picture.js";
import { age, commonVersion, put, requestOf, touches } from "../../../web/page/tiles.js";
import { Tree } from "../../../web/page/tree.js";
import { View } from "../../../web/page/view.js";

const TILE = { level: 0, col: 0, row: 0 };
const edit = (version, damage = [0, 0, 0, 0], request = { verb: "respace", parent: null }, id = null) => ({ version, damage, edit: request, id });

function journalOf(begin, ...edits) {
  const found = new Journal();
  found.begin(begin, "one");
  found.add(edits);
  return found;
}

// -- the journal --------------------------------------------------------------------------------------------------------

test("edits are known by their versions, until they are dropped", () => {
  const journal = journalOf(4, edit(5), edit(6));
  assert.deepEqual([journal.end, journal.at(4), journal.at(5).version, journal.at(6).version, journal.at(7)], [6, undefined, 5, 6, undefined]);
  journal.drop(5);
  assert.deepEqual([journal.end, journal.at(5), journal.at(6).version], [6, undefined, 6]);
  journal.drop(9);
  journal.add([edit(7)]);
  assert.equal(journal.end, 7);
});

test("an edit that is told twice counts once, and after a gap those before are not known", () => {
  const journal = journalOf(0, edit(1), edit(1), edit(2));
  assert.equal(journal.end, 2);
  journal.add([edit(5)]);
  assert.deepEqual([journal.end, journal.at(2), journal.at(5).version], [5, undefined, 5]);
});

test("a history goes on where it is the same, and nothing is left out", () => {
  const journal = journalOf(3, edit(4));
  assert.ok(journal.isFollowedBy(4, "one"));
  assert.ok(!journal.isFollowedBy(3, "one") && !journal.isFollowedBy(4, "two") && !journal.isFollowedBy(4, null));
  journal.begin(0, null);
  assert.ok(!journal.isLive && !journal.isFollowedBy(0, null));
});

test("the mark of the last edit is what the gateway makes of its line", () => {
  const journal = new Journal();
  journal.begin(3, "one");
  assert.equal(journal.mark, "");
  journal.add([{ damage: [0, 0, 5, 1], edit: { hidden: true, id: 7, verb: "show" }, id: null, version: 4 }]);
  journal.drop(4);
  assert.equal(journal.mark, "b618d308fadcd308");
});

test("a history goes on under another name, and so it does in its forks", () => {
  const journal = journalOf(3, edit(4)), fork = journal.fork();
  assert.ok(!journal.isFollowedBy(3, "two", true) && !journal.isFollowedBy(4, "two"));
  assert.ok(journal.isFollowedBy(4, "two", true));
  assert.deepEqual([journal.history, fork.history, journal.end], ["two", "two", 4]);
});

test("a version is waited for, and no longer than so long", async () => {
  const journal = journalOf(0);
  let reached = false;
  const waiting = journal.reach(2, 5000).then(() => { reached = true; });
  journal.add([edit(1)]);
  await new Promise(setImmediate);
  assert.ok(!reached);
  journal.add([edit(2)]);
  await waiting;
  await journal.reach(9, 10);
});

// -- tiles --------------------------------------------------------------------------------------------------------------

test("an edit touches a tile where it may have changed one of the pixels that are shown", () => {
  assert.ok(touches([255, 255, 256, 256], TILE));
  assert.ok(!touches([256, 0, 300, 9], TILE) && !touches([-5, 0, 0, 9], TILE) && !touches([0, 0, 0, 0], TILE));
  const far = { level: 3, col: -1, row: 0 };
  assert.ok(touches([-9, 7, -7, 9], far));
  assert.ok(!touches([-7, 8, 0, 9], far) && !touches([-8, 1, -7, 8], far));
});

test("a tile holds over the edits that do not touch it", () => {
  const tile = { ...TILE }, near = [0, 0, 9, 9], far = [900, 0, 909, 9];
  put(tile, { ok: true, version: 2, picture: "a" }, 9);
  const journal = journalOf(0, edit(1, near), edit(2, far), edit(3, far), edit(4, near), edit(5, far));
  age(tile, journal);
  assert.deepEqual([tile.since, tile.until], [2, 3]);
  assert.equal(commonVersion([tile], { version: 0 }, 0, journal), 3);
  assert.equal(tile.since, 1);
  const other = { ...TILE, col: 3 };
  put(other, { ok: true, version: 5 }, 9);
  assert.equal(commonVersion([tile, other], { version: 0 }, 0, journal), null);
  assert.equal(commonVersion([tile], { version: 4 }, 0, journal), null);
});

test("without a feed only what is of one version is shown together", () => {
  const tiles = [3, 3].map((version, col) => ({ ...TILE, col, since: version, until: version })), none = new Journal();
  none.begin(3);
  assert.equal(commonVersion(tiles, { version: 3 }, 0, none), 3);
  assert.equal(commonVersion(tiles, { version: 4 }, 0, none), null);
  assert.equal(commonVersion([tiles[0], { ...tiles[1], since: 4, until: 4 }], { version: 3 }, 0, none), null);
});

// -- the tree -----------------------------------------------------------------------------------------------------------

test("a tree has the index keys that the server makes", () => {
  const tree = new Tree({ format: 2, next: 1, shapes: [] }, 0), group = { kind: "group" };
  const create = (id, spot) => tree.make({ verb: "create", shape: group, spot }, { id });
  create(1);
  create(2);
  create(3, "back");
  create(4, { over: 1 });
  create(5, { at: "a5" });
  create(6, { at: "a0l" });
  assert.deepEqual(tree.children(null).map(({ id, index }) => [id, index]), [[5, "a5"], [2, "a1"], [6, "a0l"], [4, "a0V"], [1, "a0"], [3, "Zz"]]);
  assert.equal(tree.document.next, 7);
  assert.ok(tree.make({ verb: "respace", parent: null }));
  assert.deepEqual(tree.children(null).map(({ index }) => index), ["a5", "a4", "a3", "a2", "a1", "a0"]);
  assert.ok(!tree.make({ verb: "create", shape: group, parent: 9 }, { id: 8 }));
  assert.ok(!tree.make({ verb: "pose", id: 9, pose: {} }));
});

test("keys at the ends of the digits", () => {
  const rows = [[null, null, "a0"], ["az", null, "b00"], [null, "a0", "Zz"], ["a0", "a1", "a0V"], ["Zz", null, "a0"], [null, "Z0", "Yzz"], ["a0", "a2", "a1"],
    ["a0", "a0V", "a0G"], [null, `A${"0".repeat(25)}1`, `A${"0".repeat(26)}V`], [`z${"z".repeat(26)}`, null, `z${"z".repeat(26)}V`]];
  for (const [low, high, wanted] of rows) assert.equal(keyBetween(low, high), wanted, `${low} ${high}`);
});

// -- the picture, beside a server whose edits come at any time ----------------------------------------------------------

/** A source of numbers below others, the same for each seed. */
function dice(seed) {
  let state = seed;
  return (below) => {
    state = (state * 1103515245 + 12345) % 2147483648;
    return Math.floor((state / 2147483648) * below);
  };
}

const SIDE = 256;

/** A server of shapes that lie in some tiles. It answers late, and its feed tells late. */
class Server {
  isHere = true;
  asked = 0;
  exports = 0;

  constructor(random, journal) {
    this.random = random;
    this.journal = journal;
    this.edits = [];
  }

  get version() {
    return this.edits.length;
  }

  // (the n-th edit makes the shape n)
  make() {
    const version = this.version + 1, x = SIDE * this.random(4), request = { verb: "create", shape: { kind: "rect", w: 9, h: 9, fill: "ff0000" }, pose: { dx: x } };
    this.edits.push(edit(version, [x, 0, x + 9, 9], request, version));
  }

  /** How a tile looks at a version. */
  look(tile, version) {
    return `${tile.col}: ${this.edits.filter((kept) => kept.version <= version && kept.damage[0] === SIDE * tile.col).map((kept) => kept.version)}`;
  }

  later(most) {
    return new Promise((done) => setTimeout(done, this.random(most)));
  }

  async ask(requests) {
    await this.later(4);
    const replies = [];
    for (const request of requests) {
      this.asked++;
      const { version } = this;
      if (request.verb === "export") this.exports++;
      if (request.verb === "export") replies.push({ ok: true, version, document: this.documentAt(version) });
      else replies.push({ ok: true, version, picture: this.look({ level: 0, ...request }, version) });
      if (this.random(3) === 0) await this.later(3);
    }
    await this.later(4);
    return replies;
  }

  async picture(name) {
    await this.later(2);
    return name;
  }

  documentAt(version) {
    const tree = new Tree({ format: 2, next: 1, shapes: [] }, 0);
    for (const kept of this.edits.slice(0, version)) tree.make(kept.edit, kept);
    return tree.document;
  }

  /** Tells of edits for so long, in order and late. */
  async tell(picture, isOver) {
    while (!isOver() || this.journal.end < this.version) {
      await this.later(6);
      const end = this.journal.end, count = Math.min(this.version - end, 1 + this.random(3));
      this.journal.add(this.edits.slice(end, end + count));
      picture.see(this.journal.end);
    }
  }
}

globalThis.createImageBitmap = async (name) => ({ name, close() {} });

async function storm(seed, isLive) {
  const random = dice(seed), journal = new Journal(), server = new Server(random, journal), picture = new Picture(server, journal), view = new View();
  view.resize(3 * SIDE, SIDE);
  view.left = view.top = 0;
  journal.begin(0, isLive ? "one" : null);
  const shown = [];
  picture.addEventListener("shown", () => {
    const { versions, tree } = picture, drawn = [];
    picture.draw({ clearRect() {}, drawImage: ({ name }, x) => drawn.push([Math.round(x / SIDE), name]) }, view);
    shown.push(versions.at(-1));
    if (versions.length > 1) return;
    for (const [col, name] of drawn) assert.equal(name, server.look({ ...TILE, col }, versions[0]));
    if (drawn.length) assert.equal(drawn.length, 3);
    assert.equal(tree.version, versions[0]);
    assert.deepEqual(tree.document, server.documentAt(versions[0]));
  });
  picture.begin(0);
  picture.look(view.tiles());
  let isOver = false;
  const telling = isLive ? server.tell(picture, () => isOver) : null;
  for (let number = 0; number < 60; number++) {
    await server.later(12);
    server.make();
    if (!isLive && random(2)) picture.see(server.version);
  }
  isOver = true;
  await telling;
  picture.see(server.version);
  for (let number = 0; number < 6000 && !picture.isSettled; number++) await new Promise((done) => setTimeout(done, 10));
  assert.ok(picture.isSettled);
  assert.equal(picture.versions.join(), "60");
  assert.deepEqual(shown, shown.slice().sort((a, b) => a - b));
  return { server, count: new Set(shown).size };
}

test("all that is shown is of one version, and versions rise, whatever comes when", async () => {
  for (const seed of [1, 2, 3, 4, 5]) {
    const { server, count } = await storm(seed, true);
    assert.ok(count > 10, `${count} versions`);
    assert.ok(server.exports <= 3, `${server.exports} exports`);
    assert.ok(server.asked < 200, `${server.asked} requests for 60 edits`);
    await storm(seed, false);
  }
});

test("what is asked for is named as the protocol has it", () => {
  assert.deepEqual([requestOf(TILE), requestOf({ level: 2, col: 1, row: -1 })], [{ verb: "tile", col: 0, row: 0 }, { verb: "tile", col: 1, row: -1, level: 2 }]);
});
