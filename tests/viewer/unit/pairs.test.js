// Two people who draw on one document at once, and then take back in turns all that they did: the document is as before, whatever came when. They do not group,
// ungroup, put in or take out: of pairs that do so at once a few in a hundred leave something.

import assert from "node:assert/strict";
import { test } from "node:test";

import { Drag } from "../../../web/page/drag.js";
import { CLOCK, COLOURS, World, dice, shown, takeBackAll } from "./world.js";

const PAIRS = 1000;

// -- what they do ------------------------------------------------------------------------------------------------------------

/** One thing that a user does; it goes on by itself. */
function act(user, random) {
  const { editor, state } = user, ids = [...state.tree.records.keys()], some = () => ids[random(ids.length)], by = () => [random(80) - 40, random(80) - 40];
  if (!ids.length) return;
  editor.state.select(random(4) ? [some()] : [...new Set([some(), some(), some()])]);
  const box = state.box, things = [
    () => editor.moveBy(by()), () => editor.nudgeBy([1, 0]), () => editor.setFill(COLOURS[random(COLOURS.length)]), () => editor.hide(), () => editor.turn(),
    () => editor.flip(), () => editor.toFront(), () => editor.toBack(), () => editor.step(random(2) === 0), () => editor.duplicate(),
    () => box && editor.fitTo({ ...box, right: box.right + 1 + random(30) }), () => editor.createBox("rect", { left: 0, top: 0, right: 9, bottom: 9 }, by()),
    () => random(2) && editor.delete(), () => dragged(user, random), () => dragged(user, random),
  ];
  things[random(things.length)]();
}

/** A drag of some moves, across, down or both, which may end in a frame. */
function dragged({ editor, state }, random) {
  const ids = state.selection, drag = new Drag(editor, ids, CLOCK), [across, down] = [random(3), random(3)], point = [random(60), random(200)];
  for (let k = 1; k < 4; k++) drag.to([across * k, down * k]);
  return drag.end([across * 5, down * 5], random(2) ? (tree) => editor.carriedHome(tree, ids, point) : undefined);
}

/** The document with no ids and no keys: what lies in what, in which order, and how it looks. */
function looksOf(tree, parent = null) {
  const sorted = (value) => Object.fromEntries(Object.entries(value).sort(([a], [b]) => (a < b ? -1 : 1)));
  return tree.children(parent).map(({ id, hidden, pose, shape }) => ({ hidden, pose: sorted(pose), shape: sorted(shape), inner: looksOf(tree, id) }));
}

async function pair(seed) {
  const random = dice(seed), world = new World(random), before = looksOf(world.tree);
  for (let k = 0; k < 4 + random(12); k++) {
    for (const user of world.users) if (random(3)) act(user, random);
    if (random(3)) await world.go(random(20));
    else await world.settle();
  }
  await world.settle();
  const made = world.version;
  await takeBackAll(world, random);
  assert.deepEqual(looksOf(world.tree), before, `the pair ${seed} after ${made} edits`);
  return made;
}

test(`after each of ${PAIRS} pairs has taken back all, the document is as before`, async () => {
  let edits = 0;
  for (let seed = 1; seed <= PAIRS; seed++) edits += await pair(seed);
  assert.ok(edits > 10 * PAIRS, `${edits} edits`);
});
