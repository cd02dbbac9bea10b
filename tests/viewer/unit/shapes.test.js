// Boxes, copies, losses, the view and its address.

import assert from "node:assert/strict";
import { test } from "node:test";

import { copiesIn, copiesOf, inOrder, requestsFor, textOf } from "../../../web/page/clip.js";
import { lossBetween, wordsOfLoss } from "../../../web/page/loss.js";
import { textOf as addressOf, placeIn } from "../../../web/page/place.js";
import { STILL, apply, boxOf, compose, inverse } from "../../../web/page/plane.js";
import { aligned, distributed, dragged, fitted, isExact, resized, shifted, stretched } from "../../../web/page/resize.js";
import { Tree } from "../../../web/page/tree.js";
import { View } from "../../../web/page/view.js";

const saved = (id, parent, shape, pose = {}) => ({ id, hidden: false, place: { parent, index: `a${id}` }, pose: { ...STILL, ...pose }, shape });
const rect = (w, h) => ({ kind: "rect", w, h, fill: "ff0000" });
const treeOf = (...shapes) => new Tree({ format: 2, next: 99, shapes }, 1);
const box = (left, top, right, bottom) => ({ left, top, right, bottom });

function make(tree, requests) {
  requests.forEach((request) => tree.make(request, { id: 500 - (request.as ?? 0) }));
  return tree;
}

test("a handle moves its edges, and mirrors what it goes over", () => {
  const begin = box(0, 0, 40, 20), still = [false, false];
  const even = { isEven: true }, middle = { isMiddle: true };
  assert.deepEqual(dragged(begin, [1, 1], [5, -3]), { box: box(0, 0, 45, 17), isMirrored: still });
  assert.deepEqual(dragged(begin, [-1, 0], [40, 9]), { box: box(39, 0, 40, 20), isMirrored: still });
  assert.deepEqual(dragged(begin, [-1, 0], [100, 9]), { box: box(40, 0, 100, 20), isMirrored: [true, false] });
  assert.deepEqual(dragged(begin, [1, 1], [-70, -50]), { box: box(-30, -30, 0, 0), isMirrored: [true, true] });
  assert.deepEqual(dragged(begin, [1, 1], [40, 1], even), { box: box(0, 0, 80, 40), isMirrored: still });
  assert.deepEqual(dragged(begin, [-1, -1], [20, 10], even), { box: box(20, 10, 40, 20), isMirrored: still });
  assert.deepEqual(dragged(begin, [1, 0], [40, 0], even), { box: box(0, -10, 80, 30), isMirrored: still });
  assert.deepEqual(dragged(begin, [1, 1], [-80, 0], even), { box: box(-40, 0, 0, 20), isMirrored: [true, false] });
  assert.deepEqual(dragged(begin, [1, 1], [5, 3], middle), { box: box(-5, -3, 45, 23), isMirrored: still });
  assert.deepEqual(dragged(begin, [-1, 0], [30, 0], middle), { box: box(10, 0, 30, 20), isMirrored: [true, false] });
  assert.deepEqual(dragged(begin, [1, 1], [20, 0], { ...even, ...middle }), { box: box(-20, -10, 60, 30), isMirrored: still });
});

test("what is mirrored lies in the same box, the other way round", () => {
  const triangle = { kind: "polygon", points: [[0, 0], [40, 0], [0, 20]], fill: "00ff00" };
  const outline = (tree, id) => tree.outline(tree.record(id)).map((point) => apply(tree.poseOf(id), point).map((part) => part + 0));
  for (let k = 0; k < 8; k++) {
    const outer = { dx: 7, dy: -9, quarter: k % 4, flip: k > 3 };
    const tree = treeOf(saved(1, null, { kind: "group" }, outer), saved(2, 1, triangle, { ...inverse(outer) }));
    const [across, down, both] = [[true, false], [false, true], [true, true]]
      .map((isMirrored) => outline(make(tree.copy(), stretched(tree, [2], box(0, 0, 80, 20), isMirrored)), 2));
    assert.deepEqual(across, [[80, 0], [0, 0], [80, 20]]);
    assert.deepEqual(down, [[0, 20], [80, 20], [0, 0]]);
    assert.deepEqual(both, [[80, 20], [0, 20], [80, 0]]);
    const group = make(tree.copy(), stretched(tree, [1], box(-40, 0, 0, 20), [true, false]));
    assert.deepEqual(outline(group, 2), [[0, 0], [-40, 0], [0, 20]]);
  }
  const pair = treeOf(saved(1, null, { kind: "group" }), saved(2, 1, rect(10, 10)), saved(3, 1, rect(20, 10), { dx: 30 }));
  const found = make(pair.copy(), stretched(pair, [1], box(0, 0, 100, 10), [true, false]));
  assert.deepEqual([found.boxOf(2), found.boxOf(3)], [box(80, 0, 100, 10), box(0, 0, 40, 10)]);
  const frame = treeOf(saved(1, null, { kind: "frame", w: 50, h: 50, fill: null }), saved(2, 1, rect(10, 10), { dx: 5, dy: 5 }));
  assert.deepEqual(make(frame.copy(), stretched(frame, [1], box(-30, 0, 0, 50), [true, false])).boxOf(2), frame.boxOf(2));
});

test("a shape in any pose gets the box that is asked for", () => {
  for (let k = 0; k < 64; k++) {
    const outer = { dx: 7, dy: -9, quarter: k % 4, flip: (k & 4) > 0 }, inner = { dx: 3, dy: 5, quarter: (k >> 3) % 4, flip: (k & 32) > 0 };
    const polygon = { kind: "polygon", points: [[-4, 2], [20, 2], [8, 40]], fill: "00ff00" };
    const tree = treeOf(saved(1, null, { kind: "group" }, outer), saved(2, 1, rect(30, 10), inner), saved(3, 1, polygon, inner));
    for (const id of [2, 3]) {
      const wanted = box(-50, 11, -10, 91);
      assert.deepEqual(make(tree.copy(), resized(tree, id, wanted)).boxOf(id), wanted);
    }
  }
});

test("a frame's children stay, and those of a group go with it", () => {
  const frame = { kind: "frame", w: 100, h: 50, fill: null };
  for (let k = 0; k < 8; k++) {
    const tree = treeOf(saved(1, null, frame, { dx: 9, quarter: k % 4, flip: k > 3 }), saved(2, 1, rect(10, 20), { dx: 30, dy: 4, quarter: 1 }));
    const before = tree.boxOf(2), found = make(tree.copy(), resized(tree, 1, box(-300, -200, 100, 300)));
    assert.deepEqual([found.boxOf(1), found.boxOf(2)], [box(-300, -200, 100, 300), before]);
  }
  const tree = treeOf(saved(1, null, { kind: "group" }), saved(2, 1, rect(10, 10)), saved(3, 1, rect(10, 10), { dx: 30, dy: 10 }));
  const found = make(tree.copy(), fitted(tree, [1], box(0, 0, 80, 10)));
  assert.deepEqual([found.boxOf(2), found.boxOf(3)], [box(0, 0, 20, 5), box(60, 5, 80, 10)]);
  assert.deepEqual(fitted(tree, [2], tree.boxOf(2)), []);
  assert.deepEqual([box(0, 0, 80, 10), box(0, 0, 80, 11), box(1, 1, 42, 21)].map((to) => isExact(tree, [1], to)), [true, false, false]);
  assert.equal(isExact(tree, [2], box(0, 0, 7, 3)), true);
});

test("a shape is moved on the page, whatever it lies in", () => {
  const tree = treeOf(saved(1, null, { kind: "group" }, { quarter: 1, flip: true }), saved(2, 1, rect(4, 6), { quarter: 3 }));
  const before = tree.boxOf(2), after = make(tree.copy(), [shifted(tree, tree.record(2), [5, -8])]).boxOf(2);
  assert.deepEqual(after, box(before.left + 5, before.top - 8, before.right + 5, before.bottom - 8));
});

test("boxes are aligned and distributed", () => {
  const boxes = [box(0, 0, 10, 10), box(50, 30, 60, 40), box(20, 5, 40, 6)];
  assert.deepEqual(aligned(boxes, "left"), [[0, 0], [-50, 0], [-20, 0]]);
  assert.deepEqual(aligned(boxes, "bottom"), [[0, 30], [0, 0], [0, 34]]);
  assert.deepEqual(aligned(boxes, "middle"), [[25, 0], [-25, 0], [0, 0]]);
  assert.deepEqual(distributed(boxes, false), [[0, 0], [0, 0], [0, 0]]);
  assert.deepEqual(distributed([box(0, 0, 10, 1), box(90, 0, 100, 1), box(12, 0, 22, 1)], false), [[0, 0], [0, 0], [33, 0]]);
});

test("copies are made anew as they are, where they were", () => {
  const tree = treeOf(saved(1, null, { kind: "group" }, { dx: 100, quarter: 1 }), saved(2, 1, rect(4, 6), { dx: 7 }), saved(3, 1, rect(5, 5)), saved(4, null, rect(9, 9)));
  assert.deepEqual(inOrder(tree, [4, 1]).map(({ id }) => id), [1, 4]);
  const copies = copiesIn(textOf(copiesOf(tree, [4, 1])));
  const requests = requestsFor(copies, null, STILL, [10, 20]);
  assert.deepEqual(requests.map(({ as, parent }) => [as, parent]), [[-1, null], [-2, null], [-3, -1], [-4, -1]]);
  const moved = ({ left, top, right, bottom }) => box(left + 10, top + 20, right + 10, bottom + 20);
  const made = new Tree({ shapes: [] }, 1);
  requests.forEach((request) => made.make(request, { id: request.as }));
  assert.deepEqual(made.boxOf(-1), moved(tree.boxOf(1)));
  assert.deepEqual(made.boxOf(-2), moved(tree.boxOf(4)));
  assert.deepEqual(made.children(-1).map(({ shape }) => shape.w), [5, 4]);
});

test("a saved document of either format is read as copies; what is none is not", () => {
  const two = { format: 2, next: 4, shapes: [saved(2, 1, rect(1, 1)), saved(1, null, { kind: "group" }), saved(3, 1, rect(2, 2))] };
  const one = { ...two, format: 1, shapes: two.shapes.map(({ place, ...rest }) => ({ ...rest, ...place })) };
  for (const document of [one, two]) {
    const [copy, ...others] = copiesIn(JSON.stringify(document));
    assert.equal(others.length, 0);
    assert.deepEqual(copy.children.map(({ shape }) => shape.w), [1, 2]);
  }
  const wrong = ["", "no document", "null", "[]", "{}", '{"format":3,"shapes":[]}', '{"format":2,"shapes":[null]}', '{"copied":"canvas","shapes":[{}]}', '{"format":2,"shapes":{}}'];
  for (const text of wrong) assert.equal(copiesIn(text), null, text);
});

test("what is lost is told in words", () => {
  const before = treeOf(saved(1, null, rect(1, 1)), saved(2, null, rect(2, 2)), saved(3, null, rect(3, 3)));
  const after = treeOf(saved(1, null, rect(1, 1)), saved(2, null, rect(2, 9)), saved(4, null, rect(4, 4)));
  assert.deepEqual(lossBetween(before, after), { gone: 1, changed: 1, back: 1 });
  assert.match(wordsOfLoss(lossBetween(before, after)), /1 shape is gone, 1 shape is as before, 1 deleted shape is there again\.$/);
  assert.match(wordsOfLoss(lossBetween(before, before)), /Nothing is lost/);
});

test("a view keeps the point that it zooms about, and its address names it", () => {
  const view = new View();
  view.resize(1000, 600);
  view.centre(300, 200);
  for (const level of [1, 2.5, 6, -3, -1.25, 0]) {
    const before = view.pointAt([700, 100]);
    view.zoomTo(level, 700, 100);
    view.pointAt([700, 100]).forEach((part, k) => assert.ok(Math.abs(part - before[k]) <= view.scale / 2 + 1e-9));
  }
  view.zoomTo(9);
  assert.equal(view.level, 6);
  assert.equal(view.words, "1:64");
  view.zoomTo(-9);
  assert.equal(view.words, "8:1");
  view.zoomTo(2.5);
  const { middle, level } = placeIn(addressOf(view));
  assert.equal(level, 2.5);
  view.pointAt([500, 300]).forEach((part, k) => assert.ok(Math.abs(part - middle[k]) <= 0.5));
  for (const text of ["", "#", "#1,2", "#a,b,c", "#1,2,3,4"]) assert.equal(placeIn(text), null);
});

test("tiles cover the window at every level", () => {
  const view = new View();
  view.resize(1000, 600);
  for (let level = -3; level <= 6; level += 0.3) {
    view.zoomTo(level);
    view.centre(-77, 1234);
    const tiles = view.tiles(), side = view.tileSide;
    const covers = boxOf(tiles.flatMap(({ col, row }) => [[col, row], [col + 1, row + 1]]).map(([x, y]) => [x * side - view.left, y * side - view.top]));
    assert.ok(covers.left <= 0 && covers.top <= 0 && covers.right >= 1000 && covers.bottom >= 600);
    assert.ok(tiles.length < 60 && tiles.every((tile) => tile.level === view.tileLevel));
  }
});

test("poses of poses", () => {
  const pose = (k) => ({ dx: k, dy: 3 * k, quarter: k % 4, flip: k > 3 });
  for (let k = 0; k < 64; k++) {
    const outer = pose(k % 8), inner = pose(k >> 3);
    assert.deepEqual(apply(compose(outer, inner), [5, 8]), apply(outer, apply(inner, [5, 8])));
  }
});
