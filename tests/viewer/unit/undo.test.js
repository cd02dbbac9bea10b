// What edits change, and how it is taken back.

import assert from "node:assert/strict";
import { test } from "node:test";

import { batches, makeNoted, planBack } from "../../../web/page/changes.js";
import { History } from "../../../web/page/history.js";
import { partsBack } from "../../../web/page/parts.js";
import { Tree } from "../../../web/page/tree.js";

const STILL = { dx: 0, dy: 0, quarter: 0, flip: false };
const saved = (id, parent, index, kind = "rect") => ({
  id, hidden: false, place: { parent, index }, pose: { ...STILL, dx: 10 * id },
  shape: kind === "group" ? { kind } : { kind, w: 5, h: 5, fill: "ff0000" },
});
const tree = () => new Tree({ shapes: [saved(1, null, "a0", "group"), saved(2, 1, "a0"), saved(3, 1, "a1"), saved(4, null, "a1"), saved(5, null, "a2")] }, 7);
const same = (id) => id;

/** Makes requests in a tree, and gives their changes. */
const make = (found, requests) => makeNoted(found, requests.map((request, k) => [request, { id: request.as ?? 100 + k }]));

const bare = (found) => [...found.records.values()].map(({ id, parent, hidden, pose, shape }) => [id, parent, hidden, pose, shape]).sort((a, b) => a[0] - b[0]);
const order = (found, parent) => found.children(parent).map(({ id }) => id);

test("edits of all kinds are taken back", () => {
  const found = tree(), before = bare(found), beside = order(found, null);
  const changes = make(found, [
    { verb: "pose", id: 4, pose: { dx: 3, quarter: 1 } }, { verb: "reshape", id: 5, shape: { kind: "rect", w: 9, h: 5, fill: "00ff00" } },
    { verb: "show", id: 2, hidden: true }, { verb: "move", id: 4, parent: 1, spot: "front" }, { verb: "create", shape: { kind: "group" }, parent: 1 },
  ]);
  const { requests, passed } = planBack(found, changes, same);
  assert.deepEqual(passed, []);
  make(found, requests);
  assert.deepEqual(bare(found), before);
  assert.deepEqual(order(found, null), beside);
});

test("a deletion is taken back with all that was in it, and earlier steps still find it", () => {
  const found = tree(), history = new History();
  const [moved] = make(found, [{ verb: "pose", id: 3, pose: { dx: 77 } }]);
  const [deleted] = make(found, [{ verb: "delete", id: 1 }]);
  assert.equal(found.records.size, 2);
  const { requests } = planBack(found, [deleted], (id) => history.resolve(id));
  assert.deepEqual(requests.map(({ as }) => as), [-1, -2, -3]);
  for (const request of requests) {
    const id = 50 - request.as;
    found.make({ ...request, parent: history.resolve(request.instead === 1 ? null : 1) }, { id });
    history.rename(request.instead, id);
  }
  assert.deepEqual(order(found, null), [5, 4, 51]);
  assert.deepEqual(order(found, 51), [53, 52]);
  const plan = planBack(found, [moved], (id) => history.resolve(id));
  assert.deepEqual(plan.requests, [{ verb: "pose", id: 53, pose: { ...STILL, dx: 30 } }]);
});

test("shapes that lay in front of each other are made anew in one batch", () => {
  const found = tree(), ids = [6, 7, 8];
  make(found, ids.map((as) => ({ verb: "create", shape: { kind: "group" }, as })));
  const before = order(found, null), changes = make(found, ids.slice().reverse().map((id) => ({ verb: "delete", id })));
  const { requests } = planBack(found, changes, same);
  assert.equal(batches(requests, 256).length, 1);
  make(found, requests);
  assert.deepEqual(order(found, null).map((id) => Math.abs(id)), before);
});

test("a step that deletes what it made itself is one plan", () => {
  const found = tree(), before = bare(found);
  const changes = make(found, [{ verb: "delete", id: 2 }, { verb: "move", id: 3, parent: null, spot: "back" }, { verb: "delete", id: 1 }]);
  const { requests, passed } = planBack(found, changes, same);
  assert.deepEqual(passed, []);
  make(found, requests);
  assert.equal(bare(found).length, before.length);
  assert.deepEqual(order(found, -1), [3, -2]);
});

test("what is gone, moved by others or holds what others made is passed over", () => {
  const found = tree();
  const changes = make(found, [
    { verb: "pose", id: 5, pose: { dx: 1 } }, { verb: "move", id: 4, parent: 1, spot: "front" },
    { verb: "create", shape: { kind: "group" }, parent: null, as: 60 }, { verb: "show", id: 2, hidden: true },
  ]);
  make(found, [
    { verb: "delete", id: 5 }, { verb: "move", id: 4, parent: null, spot: "front" },
    { verb: "create", shape: { kind: "group" }, parent: 60, as: 61 }, { verb: "show", id: 2, hidden: false },
  ]);
  const { requests, passed } = planBack(found, changes, same);
  assert.deepEqual(requests, []);
  assert.deepEqual(passed, [
    "Rectangle 2 was changed by others since.", "Group 60 holds what others made.", "Rectangle 4 was changed by others since.",
    "Rectangle 5 is not there any more.",
  ]);
});

test("what others did to a pose or a shape stays", () => {
  const from = { ...STILL, dx: 5 }, to = { ...STILL, dx: 105 }, turned = { ...STILL, dx: 105, dy: 7, quarter: 1 };
  assert.deepEqual(partsBack(to, { from, to }), { value: from, stays: [] });
  assert.deepEqual(partsBack({ ...to, dy: 120 }, { from, to }), { value: { ...from, dy: 120 }, stays: [] });
  assert.deepEqual(partsBack({ ...to, dx: 70 }, { from, to }), { value: { ...to, dx: 70 }, stays: ["dx"] });
  assert.deepEqual(partsBack(turned, { from, to }), { value: turned, stays: ["dx"] });
  assert.deepEqual(partsBack(turned, { from, to: turned }), { value: from, stays: [] });
  for (const now of [{ ...turned, quarter: 2 }, { ...turned, dx: 3 }]) assert.deepEqual(partsBack(now, { from, to: turned }), { value: now, stays: ["turn", "dx", "dy"] });
  const shape = (w, fill) => ({ kind: "rect", w, h: 1, fill });
  assert.deepEqual(partsBack(shape(7, "bb"), { from: shape(1, "aa"), to: shape(1, "bb") }), { value: shape(7, "aa"), stays: [] });
  assert.deepEqual(partsBack(shape(1, "cc"), { from: shape(1, "aa"), to: shape(1, "bb") }), { value: shape(1, "cc"), stays: ["fill"] });
});

test("what others changed since stays, and is taken back when they have taken back theirs", () => {
  const found = tree(), [change] = make(found, [{ verb: "pose", id: 5, pose: { ...STILL, dx: 77, dy: 8 } }]);
  make(found, [{ verb: "pose", id: 5, pose: { ...STILL, dx: 99, dy: 8 } }]);
  const plan = planBack(found, [change], same);
  assert.deepEqual(plan.requests, [{ verb: "pose", id: 5, pose: { ...STILL, dx: 99 } }]);
  assert.deepEqual([plan.passed, plan.kept.map(({ own }) => own)], [["Rectangle 5 was changed by others since."], [["dx"]]]);
  make(found, plan.requests);
  assert.deepEqual(planBack(found, plan.kept, same).requests, []);
  make(found, [{ verb: "pose", id: 5, pose: { ...STILL, dx: 77 } }]);
  assert.deepEqual(planBack(found, plan.kept, same).requests, [{ verb: "pose", id: 5, pose: { ...STILL, dx: 50 } }]);
});

test("a shape goes back to its key, or beside what others have put there", () => {
  const found = tree(), [change] = make(found, [{ verb: "move", id: 4, parent: null, spot: "front" }]);
  assert.deepEqual(planBack(found, [change], same).requests, [{ verb: "move", id: 4, parent: null, spot: { at: "a1" } }]);
  make(found, [{ verb: "move", id: 1, parent: null, spot: { at: "a1" } }]);
  const plan = planBack(found, [change], same);
  assert.deepEqual(plan.requests, [{ verb: "move", id: 4, parent: null, spot: { over: 1 } }]);
  make(found, [...plan.requests, { verb: "move", id: 1, parent: null, spot: { at: "a0" } }]);
  make(found, planBack(found, plan.kept, same).requests);
  assert.deepEqual(found.children(null).map(({ id, index }) => [id, index]), [[5, "a2"], [4, "a1"], [1, "a0"]]);
});

test("a pose is taken back only in the parent that it was given in", () => {
  const found = tree(), changes = make(found, [{ verb: "move", id: 4, parent: 1, spot: "front" }, { verb: "pose", id: 4, pose: { ...STILL, dx: 30 } }]);
  const [other] = make(found, [{ verb: "move", id: 4, parent: null, spot: "back" }]), plan = planBack(found, changes, same);
  assert.deepEqual([plan.requests, plan.kept.length], [[], 2]);
  make(found, planBack(found, [other], same).requests);
  make(found, planBack(found, changes, same).requests);
  assert.deepEqual([bare(found), order(found, null)], [bare(tree()), order(tree(), null)]);
});

test("all turns and flips are taken back", () => {
  for (let k = 0; k < 64; k++) {
    const pose = (bits) => ({ dx: bits, dy: 0 - bits, quarter: bits % 4, flip: bits > 3 });
    const from = pose(k % 8), to = pose(k >> 3);
    assert.deepEqual(partsBack(to, { from, to }), { value: from, stays: [] });
  }
});

test("batches name nothing that they make themselves", () => {
  const create = (as, parent) => ({ verb: "create", as, parent });
  const found = batches([create(-1, null), create(-2, null), create(-3, -1), create(-4, -1), { verb: "move", id: -3, parent: -4 }], 256);
  assert.deepEqual(found.map((batch) => batch.length), [2, 2, 1]);
  assert.deepEqual(batches([1, 2, 3, 4, 5].map((id) => ({ verb: "delete", id })), 2).map((batch) => batch.length), [2, 2, 1]);
});

test("the history: steps, what was taken back, and what follows soon", () => {
  const history = new History(), at = (dx) => ({ ...STILL, dx }), pose = (from, to) => ({ verb: "pose", id: 1, from: at(from), to: at(to) });
  const take = (isRedo) => {
    const [step] = history.steps(isRedo);
    history.take(step, [], isRedo);
    return step;
  };
  history.note({ name: "move", kind: "nudge 1", changes: [pose(1, 2)] }, 0);
  history.note({ name: "move", kind: "nudge 1", changes: [pose(2, 3)] }, 500);
  assert.equal(history.length, 1);
  history.note({ name: "move", kind: "nudge 1", changes: [pose(3, 4)] }, 5000);
  assert.equal(history.length, 2);
  history.noteBack(take(false), false);
  assert.deepEqual([history.undoName, history.redoName], ["move", "move"]);
  history.note({ name: "draw", changes: [{ verb: "create", id: 2 }] });
  assert.deepEqual([history.undoName, history.redoName], ["draw", undefined]);
  assert.deepEqual(take(false).changes[0].verb, "create");
  assert.deepEqual(take(false).changes.map(({ from, to, trail }) => [from.dx, to.dx, trail.dx]), [[1, 3, [2]]]);
});

test("at least 200 steps are kept", () => {
  const history = new History();
  for (let id = 1; id <= 1000; id++) history.note({ name: "draw", changes: [{ verb: "create", id }] });
  assert.ok(history.length >= 200);
});
