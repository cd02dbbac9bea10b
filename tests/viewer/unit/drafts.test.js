// What own edits look like until they are shown, maps that share what they have in common, and shapes that others made anew.

import assert from "node:assert/strict";
import { test } from "node:test";

import { Journal } from "../../../web/page/journal.js";
import { Returns } from "../../../web/page/returns.js";
import { SharedMap } from "../../../web/page/shared_map.js";
import { State } from "../../../web/page/state.js";
import { Tree } from "../../../web/page/tree.js";
import { View } from "../../../web/page/view.js";

const STILL = { dx: 0, dy: 0, quarter: 0, flip: false };
const rect = (fill, w = 10, h = 10) => ({ kind: "rect", w, h, fill });
const saved = (id, index, dx) => ({ id, hidden: false, place: { parent: null, index }, pose: { ...STILL, dx }, shape: rect("ff0000") });
const tree = () => new Tree({ next: 3, shapes: [saved(1, "a0", 0), saved(2, "a1", 100)] }, 5);

/** A context that notes what is filled: the colour, and the way by which it was moved. */
function painted(drafts, version) {
  const found = [], view = new View();
  let way = [0, 0];
  const ways = [], context = {
    save: () => ways.push([...way]), restore: () => { way = ways.pop(); }, setTransform: () => { way = [0, 0]; },
    transform: (a, b, c, d, x, y) => { way = [way[0] + x, way[1] + y]; },
    beginPath() {}, clip() {}, rect() {}, fillRect: (...box) => found.push(box), fill: () => found.push([context.fillStyle, ...way]),
  };
  view.resize(800, 600);
  view.left = view.top = 0;
  drafts.draw(context, view, version);
  return found;
}

test("an edit is painted from when it is begun until a version that has it is shown", () => {
  const state = new State(), { drafts } = state;
  state.show(tree());
  assert.deepEqual(painted(drafts, 5), []);
  const draft = drafts.begin([{ verb: "create", shape: rect("00ff00"), pose: { dx: 50 } }, { verb: "pose", id: 2, pose: { dx: 200 } }]);
  assert.equal(state.tree.records.size, 2);
  assert.equal(drafts.tree.records.size, 3);
  const first = painted(drafts, 5);
  assert.deepEqual(first, [[100, 0, 10, 10], [50, 0, 10, 10], ["#00ff00", 50, 0], [200, 0, 10, 10], ["#ff0000", 200, 0]]);
  state.add([[{ verb: "create", shape: rect("00ff00"), pose: { dx: 50 } }, { id: 3, version: 6 }], [{ verb: "pose", id: 2, pose: { dx: 200 } }, { version: 7 }]]);
  drafts.answer(draft, 2, new Map());
  drafts.end(draft, 7);
  assert.equal(drafts.tree, state.tree);
  assert.deepEqual(painted(drafts, 6), first);
  assert.deepEqual(painted(drafts, 7), []);
});

test("what is refused is painted no longer, and what names a shape that is yet to be made finds it", () => {
  const state = new State(), { drafts } = state;
  state.show(tree());
  const draft = drafts.begin([{ verb: "create", shape: { kind: "group" }, as: -1 }, { verb: "move", id: 1, parent: -1, spot: "front" }, { verb: "move", id: 1, parent: 1 }]);
  assert.deepEqual(drafts.tree.line(1).map(({ id }) => id), [1, -1]);
  state.add([[{ verb: "create", shape: { kind: "group" } }, { id: 9, version: 6 }]]);
  drafts.answer(draft, 1, new Map([[-1, 9]]));
  assert.deepEqual(drafts.tree.line(1).map(({ id }) => id), [1, 9]);
  drafts.end(draft, 0);
  assert.deepEqual(drafts.tree.line(1).map(({ id }) => id), [1]);
  assert.deepEqual(painted(drafts, 5), []);
});

test("a shared map is as a map, and its copies go their own ways", () => {
  let state = 7;
  const random = (below) => { state = (state * 1103515245 + 12345) % 2147483648; return state % below; };
  let pairs = [[new SharedMap([[1, "a"]]), new Map([[1, "a"]])]];
  for (let k = 0; k < 4000; k++) {
    const [shared, plain] = pairs[random(pairs.length)], key = random(400);
    if (random(3)) shared.set(key, k), plain.set(key, k);
    else shared.delete(key), plain.delete(key);
    if (random(20) === 0) pairs = [...pairs.slice(-5), [shared.copy(), new Map(plain)]];
    assert.deepEqual([shared.size, shared.get(key), shared.has(key + 1)], [plain.size, plain.get(key), plain.has(key + 1)]);
  }
  for (const [shared, plain] of pairs) assert.deepEqual([...shared].sort(), [...plain].sort());
});

test("a shape that others deleted and made anew is known again, and no other one", () => {
  const state = new State(), journal = new Journal(), returns = new Returns(state);
  state.show(tree());
  journal.begin(5, "one");
  const tell = (version, edit, id = null) => {
    journal.add([{ version, damage: [0, 0, 0, 0], edit, id }]);
    returns.follow(journal);
  };
  const anew = (dx, spot) => ({ verb: "create", shape: { w: 10, fill: "ff0000", kind: "rect", h: 10 }, pose: { flip: false, quarter: 0, dy: 0, dx }, hidden: false, parent: null, spot });
  tell(6, { verb: "pose", id: 2, pose: { dx: 120 } });
  tell(7, { verb: "delete", id: 2 });
  tell(8, anew(100, { at: "a1" }), 3);
  tell(9, { verb: "create", shape: rect("ff0000"), pose: { dx: 120 } }, 4);
  tell(10, anew(120, "front"), 5);
  assert.equal(state.history.resolve(2), 2);
  tell(11, anew(120, { at: "a1" }), 6);
  assert.equal(state.history.resolve(2), 6);
});
