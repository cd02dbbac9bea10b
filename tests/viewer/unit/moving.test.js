// The grid, drags that are sent while they go, and the order of the layers.

import assert from "node:assert/strict";
import { test } from "node:test";

import { Drag } from "../../../web/page/drag.js";
import { Grid } from "../../../web/page/grid.js";
import { carryName, giveName, givenName, isMeant, nameOf } from "../../../web/page/names.js";
import { dropAt, isThere, stepFrom } from "../../../web/page/order.js";
import { STILL } from "../../../web/page/plane.js";
import { State } from "../../../web/page/state.js";
import { Steps } from "../../../web/page/steps.js";
import { Tree } from "../../../web/page/tree.js";
import { View } from "../../../web/page/view.js";

const saved = (id, parent, index, kind = "rect") => ({
  id, hidden: false, place: { parent, index }, pose: { ...STILL }, shape: kind === "group" ? { kind } : { kind, w: 10, h: 10, fill: "ff0000" },
});
const box = (left, top, right, bottom) => ({ left, top, right, bottom });

// -- the grid --------------------------------------------------------------------------------------------------------------

function gridOn() {
  const grid = new Grid();
  grid.isOn = true;
  return grid;
}

test("points go to the grid, but not while Alt is held or where it is off", () => {
  const grid = gridOn();
  assert.deepEqual(grid.snap([3, -3]), [0, 0]);
  assert.deepEqual(grid.snap([4, 11]), [8, 8]);
  assert.deepEqual(grid.snap([-13, 1_000_005]), [-16, 1_000_008]);
  assert.deepEqual(grid.snap([3, 5], { isAlt: true }), [3, 5]);
  assert.deepEqual(new Grid().snap([3, 5]), [3, 5]);
});

test("a box that is moved lies on the grid by its left and upper edge; what is not moved stays", () => {
  const grid = gridOn();
  assert.deepEqual(grid.moved(box(3, 5, 50, 60), [10, 0]), [13, 0]);
  assert.deepEqual(grid.moved(box(3, 5, 50, 60), [-1, 9]), [-3, 11]);
  assert.deepEqual(grid.moved(box(3, 5, 50, 60), [-1, 9], { isAlt: true }), [-1, 9]);
});

test("edges that are pulled lie on the grid", () => {
  const grid = gridOn();
  assert.deepEqual(grid.pulled(box(3, 5, 50, 60), [1, -1], [4, 4]), [6, 3]);
  assert.deepEqual(grid.pulled(box(3, 5, 50, 60), [-1, 1], [4, 0]), [5, 0]);
});

test("the lines of the grid are shown from 2:1 on, where they are", () => {
  const grid = gridOn(), view = new View();
  view.resize(400, 300);
  for (const [level, side] of [[-1, 16], [-2, 32], [-3, 64]]) {
    view.zoomTo(level);
    view.centre(1001, -77);
    const found = grid.lines(view), [x, y] = view.pointAt([found.left, found.top]);
    assert.equal(found.side, side);
    assert.deepEqual([x % 8, y % 8].map(Math.abs), [0, 0]);
    assert.ok(found.left >= 0 && found.left < side && found.top >= 0 && found.top < side);
  }
  view.zoomTo(0);
  assert.equal(grid.lines(view), null);
  view.zoomTo(-2);
  assert.equal(new Grid().lines(view), null);
});

// -- drags -----------------------------------------------------------------------------------------------------------------

/** Steps beside a server that answers after some time, and a clock that goes only by waiting. */
function room(took = 1, answer = () => true) {
  const clock = { time: 0, now: () => clock.time, wait: (time) => { clock.time += time; return new Promise((done) => setImmediate(done)); } };
  const state = new State(), sent = [], told = [];
  let version = 1;
  state.show(new Tree({ shapes: [saved(1, null, "a0"), saved(2, null, "a1")] }, version));
  const link = {
    async ask(requests) {
      sent.push(...requests.map((request) => ({ ...request, at: clock.time })));
      await clock.wait(took);
      return requests.map((request) => (answer(request) ? { ok: true, version: ++version } : { ok: false, code: 2, name: "NoSuchShape" }));
    },
  };
  const steps = new Steps(link, { see() {} }, state, (it) => told.push(it));
  return { clock, state, sent, told, steps, idle: async () => { for (let k = 0; k < 400; k++) await new Promise((done) => setImmediate(done)); } };
}

test("a drag sends at most 30 poses a second, the last one always, and is one step", async () => {
  const { clock, state, sent, steps, idle } = room(), drag = new Drag(steps, [1], clock);
  for (let k = 1; k <= 500; k++) {
    drag.to([k, -k]);
    clock.time += 2;
    if (k % 5 === 0) await new Promise((done) => setImmediate(done));
  }
  await idle();
  await drag.end([501, -501]);
  assert.ok(sent.length > 15, `${sent.length} poses`);
  sent.forEach(({ at }, k) => assert.ok(k === 0 || at - sent[k - 1].at >= 1000 / 30 - 1e-6, `${at} after ${sent[k - 1]?.at}`));
  assert.deepEqual([sent.at(-1).pose.dx, sent.at(-1).pose.dy], [501, -501]);
  assert.deepEqual(state.tree.record(1).pose, { ...STILL, dx: 501, dy: -501 });
  assert.equal(state.history.length, 1);
  await steps.back(false);
  assert.deepEqual(state.tree.record(1).pose, STILL);
  await steps.back(true);
  assert.deepEqual(state.tree.record(1).pose, { ...STILL, dx: 501, dy: -501 });
});

test("several shapes share the thirty", async () => {
  const { clock, sent, steps, idle } = room(), drag = new Drag(steps, [1, 2], clock);
  for (let k = 1; k <= 200; k++) {
    drag.to([k, 0]);
    clock.time += 5;
    if (k % 3 === 0) await new Promise((done) => setImmediate(done));
  }
  await idle();
  const begun = sent.filter(({ at }) => at < 1000).length;
  assert.ok(begun > 10 && begun <= 32, `${begun} poses`);
  await drag.end([200, 0]);
  assert.deepEqual(sent.slice(-2).map(({ id, pose }) => [id, pose.dx]), [[1, 200], [2, 200]]);
});

test("what is given up goes back, and is no step", async () => {
  const { clock, state, sent, steps, idle } = room(), drag = new Drag(steps, [1], clock);
  drag.to([40, 0]);
  await idle();
  assert.equal(state.tree.record(1).pose.dx, 40);
  await drag.end([0, 0]);
  assert.equal(state.tree.record(1).pose.dx, 0);
  assert.equal(state.history.length, 0);
  drag.to([90, 0]);
  await idle();
  assert.equal(sent.length, 2);
});

test("what others do to a shape meanwhile stays", async () => {
  const { clock, state, steps, idle } = room(), drag = new Drag(steps, [1], clock);
  drag.to([40, 0]);
  await idle();
  const other = state.tree.copy();
  other.version = 2;
  other.make({ verb: "pose", id: 1, pose: { dx: 40, dy: 120 } }, {});
  state.show(other);
  await drag.end([100, 0]);
  assert.deepEqual(state.tree.record(1).pose, { ...STILL, dx: 100, dy: 120 });
});

test("a drag of what is gone ends, and what came before is a step", async () => {
  let isThere = true;
  const { clock, state, sent, told, steps, idle } = room(1, () => isThere), drag = new Drag(steps, [1], clock);
  drag.to([40, 0]);
  await idle();
  isThere = false;
  drag.to([50, 0]);
  await idle();
  drag.to([60, 0]);
  await idle();
  assert.equal(sent.length, 2);
  assert.equal(told.at(-1).name, "NoSuchShape");
  await drag.end(drag.made);
  assert.equal(state.history.length, 1);
});

test("a step taken back right after a drag is the drag", async () => {
  const { clock, state, steps } = room(), drag = new Drag(steps, [1], clock);
  drag.to([40, 0]);
  drag.end([70, 0]);
  await steps.back(false);
  assert.equal(state.tree.record(1).pose.dx, 0);
  assert.equal(state.history.redoName, "move");
});

// -- the order of the layers -----------------------------------------------------------------------------------------------

/** 5; 4; the group 3 with 32 and 31; 2; 1: from front to back. */
const layers = () => new Tree({ shapes: [
  saved(1, null, "a0"), saved(2, null, "a1"), saved(3, null, "a2", "group"), saved(4, null, "a3"), saved(5, null, "a4"), saved(31, 3, "a0"), saved(32, 3, "a1"),
] }, 1);

test("a drop goes in front of a row, behind it, or into it", () => {
  const tree = layers(), rows = tree.rows(new Set());
  const drop = (at, ids = [1], depth = 9) => {
    const found = dropAt(tree, rows, at, depth, ids);
    return found && [found.parent, found.over, found.into ?? null, found.line ?? null];
  };
  assert.deepEqual(rows.map(({ record }) => record.id), [5, 4, 3, 32, 31, 2, 1]);
  assert.deepEqual(drop(0.2), [null, 5, null, 0]);
  assert.deepEqual(drop(0.8), [null, 4, null, 1]);
  assert.deepEqual(drop(2.1), [null, 3, null, 2]);
  assert.deepEqual(drop(2.5), [3, 32, 2, null]);
  assert.deepEqual(drop(2.9), [3, 32, null, 3]);
  assert.deepEqual(drop(3.7), [3, 31, null, 4]);
  assert.deepEqual(drop(4.7), [3, null, null, 5]);
  assert.deepEqual(drop(4.7, [1], 1), [null, 2, null, 5]);
  assert.deepEqual(drop(6.9, [5]), [null, null, null, 7]);
  assert.deepEqual(drop(99, [5]), [null, null, null, 7]);
  assert.deepEqual(drop(-3, [1]), [null, 5, null, 0]);
  assert.deepEqual(drop(0.8, [4]), [null, 3, null, 1]);
});

test("nothing goes into itself", () => {
  const tree = layers(), rows = tree.rows(new Set());
  assert.equal(dropAt(tree, rows, 2.5, 1, [3]), null);
  assert.equal(dropAt(tree, rows, 3.2, 9, [3]), null);
  assert.equal(dropAt(tree, [], 0, 1, [3]), null);
});

test("a closed group takes what is dropped on it, and lets it lie behind", () => {
  const tree = layers(), rows = tree.rows(new Set([3]));
  const find = (at) => (({ parent, over, into }) => [parent, over, into])(dropAt(tree, rows, at, 1, [5]));
  assert.deepEqual(find(2.5), [3, 32, 2]);
  assert.deepEqual(find(2.9), [null, 2, undefined]);
});

test("a step to the front or back, of one and of several", () => {
  const tree = layers(), step = (ids, isBack) => stepFrom(tree, ids, isBack);
  assert.deepEqual(step([4], false), { parent: null, over: 5 });
  assert.equal(step([5], false), null);
  assert.deepEqual(step([4], true), { parent: null, over: 2 });
  assert.deepEqual(step([2], true), { parent: null, over: null });
  assert.equal(step([1], true), null);
  assert.deepEqual(step([4, 3], true), { parent: null, over: 1 });
  assert.deepEqual(step([4, 2], false), { parent: null, over: 5 });
  assert.equal(step([4, 31], false), null);
  assert.equal(step([99], false), null);
});

test("what lies at its place already is known", () => {
  const tree = layers();
  assert.ok(isThere(tree, [4], { parent: null, over: 3 }));
  assert.ok(isThere(tree, [5, 4], { parent: null, over: 3 }));
  assert.ok(isThere(tree, [2, 1], { parent: null, over: null }));
  assert.ok(!isThere(tree, [4, 5], { parent: null, over: 3 }));
  assert.ok(!isThere(tree, [31], { parent: null, over: 3 }));
  assert.ok(!isThere(tree, [5], { parent: 3, over: null }));
});

// -- names -----------------------------------------------------------------------------------------------------------------

test("a name is the shape's while it is of the same kind, and goes with what is made anew", () => {
  const [one, two] = [saved(7, null, "a0"), saved(7, null, "a0", "group")];
  assert.equal(nameOf(one), "Rectangle 7");
  giveName(one, "  the moon ");
  assert.deepEqual([nameOf(one), nameOf(two), givenName(two)], ["the moon", "Group 7", ""]);
  carryName(7, 70);
  carryName(8, 80);
  assert.equal(nameOf({ ...one, id: 70 }), "the moon");
  giveName(one, "");
  assert.equal(nameOf(one), "Rectangle 7");
});

test("a search finds names, kinds, numbers and colours", () => {
  const record = saved(12, null, "a0");
  giveName(record, "Far Moon");
  for (const typed of ["moon", "MOON far", "rect", "12", "#ff00", "rect 12"]) assert.ok(isMeant(record, typed), typed);
  for (const typed of ["sun", "moon sun", "#00ff", "hidden"]) assert.ok(!isMeant(record, typed), typed);
  giveName(record, "");
});
