// Which frame lies under a point, and what a dragged shape goes into.

import assert from "node:assert/strict";
import { test } from "node:test";

import { frameAt, homesOf, reachedFrame } from "../../../web/page/frames.js";
import { Tree } from "../../../web/page/tree.js";

const saved = (id, parent, index, kind, [dx, dy], [w, h] = [100, 100], more = {}) => ({
  id, hidden: false, place: { parent, index }, pose: { dx, dy, quarter: 0, flip: false }, shape: kind === "group" ? { kind } : { kind, w, h, fill: null }, ...more,
});

/** The frame 1 with the frame 2 and the shape 3 in it; the group 4 with the frame 5 and the shape 6; the hidden frame 7; the shape 8. */
const tree = () => new Tree({ next: 9, shapes: [
  saved(1, null, "a0", "frame", [0, 0], [200, 200]), saved(2, 1, "a0", "frame", [150, 150]), saved(3, 1, "a1", "rect", [10, 10]),
  saved(4, null, "a1", "group", [500, 0]), saved(5, 4, "a0", "frame", [0, 0]), saved(6, 4, "a1", "rect", [200, 0]),
  saved(7, null, "a2", "frame", [0, 0], [50, 50], { hidden: true }), saved(8, null, "a3", "rect", [900, 900]),
] }, 1);

test("the innermost frame that shows at a point, in front of others, and not where it is cut off", () => {
  const found = tree();
  const at = (point, without) => frameAt(found, point, without);
  assert.deepEqual([[5, 5], [160, 160], [205, 205], [510, 5], [710, 5], [-1, 5]].map((point) => at(point)), [1, 2, null, 5, null, null]);
  assert.deepEqual([at([160, 160], [2]), at([160, 160], [1]), at([5, 5], [1])], [1, null, null]);
  assert.equal(frameAt(new Tree({ next: 1, shapes: [] }, 0), [0, 0]), null);
});

test("what a drag selects in: frames are gone through, groups are not", () => {
  const found = tree();
  assert.deepEqual([[5, 5], [160, 160], [510, 5], [900, 5]].map((point) => reachedFrame(found, point, null)), [1, 2, null, null]);
  assert.deepEqual([reachedFrame(found, [160, 160], 1), reachedFrame(found, [510, 5], 4), reachedFrame(found, [5, 5], 4)], [2, 5, 4]);
});

test("what is dragged goes into the frame under the pointer, out of one that it is dragged out of, and stays in its group", () => {
  const found = tree(), home = (id, point) => homesOf(found, [found.record(id)], point, [id])[0];
  assert.deepEqual([home(8, [5, 5]), home(8, [160, 160]), home(8, [950, 950]), home(8, [510, 5])], [1, 2, null, 5]);
  assert.deepEqual([home(3, [5, 5]), home(3, [160, 160]), home(3, [300, 300])], [1, 2, null]);
  assert.deepEqual([home(2, [160, 160]), home(2, [300, 5]), home(1, [160, 160])], [1, null, null]);
  assert.deepEqual([home(6, [5, 5]), home(6, [900, 900]), home(5, [900, 900])], [4, 4, 4]);
});

test("frames are known again after each change of what there is", () => {
  const found = tree();
  assert.deepEqual(found.frames, [1, 2, 5, 7]);
  found.make({ verb: "delete", id: 1 });
  assert.deepEqual(found.frames, [5, 7]);
  const other = found.copy();
  other.make({ verb: "reshape", id: 8, shape: { kind: "frame", w: 5, h: 5, fill: null } });
  assert.deepEqual([found.frames, other.frames], [[5, 7], [5, 7, 8]]);
});
