// Two people who do different things to one shape at the same time: both stay, whatever came when.

import assert from "node:assert/strict";
import { test } from "node:test";

import { Drag } from "../../../web/page/drag.js";
import { CLOCK, COLOURS, World, dice, shown, takeBackAll } from "./world.js";

const PAIRS = 300;

/** Both drag one shape, Ann across and Ben down, by so many moves; gives how far it went, and how far it was dragged. */
async function bothDrag(seed) {
  const random = dice(seed), world = new World(random), ways = [[10, 0], [0, 12]], steps = 1 + random(6);
  const drags = world.users.map(({ editor }) => new Drag(editor, [9], CLOCK));
  for (let k = 1; k <= steps; k++) {
    drags.forEach((drag, at) => drag.to(ways[at].map((way) => way * k)));
    await world.go(random(12));
  }
  drags.forEach((drag, at) => { drag.end(ways[at].map((way) => way * steps)); });
  await shown(world);
  const { dx, dy } = world.tree.record(9).pose;
  await takeBackAll(world, random);
  const { pose } = world.tree.record(9);
  return [[dx - 200, dy - 100, pose.dx, pose.dy], [10 * steps, 12 * steps, 200, 100]];
}

test("a shape that one drags across and another one down goes both ways, and back", async () => {
  for (let seed = 1; seed <= PAIRS; seed++) {
    const [found, wanted] = await bothDrag(seed);
    assert.deepEqual(found, wanted, `the pair ${seed}`);
  }
});

/** Ann makes a shape wider on and on, and Ben gives it a colour meanwhile; gives how it looks. */
async function widened(seed) {
  const random = dice(seed), world = new World(random), [{ editor, state }, ben] = world.users, way = editor.begin(), steps = 1 + random(5);
  const wider = (k) => ({ verb: "reshape", id: 9, shape: { ...state.tree.record(9).shape, w: 40 + 10 * k } });
  const at = random(steps + 1);
  for (let k = 1; k <= steps; k++) {
    editor.inTurn(async () => way.note(await editor.make([wider(k)], { isOnWay: true })));
    if (k === at) ben.editor.select(9);
    if (k === at) ben.editor.setFill(COLOURS[0]);
    await world.go(random(9));
  }
  editor.inTurn(() => editor.giveBack(way));
  await shown(world);
  const { w, fill } = world.tree.record(9).shape;
  return [[w, fill], [40 + 10 * steps, at ? COLOURS[0] : "c3ccd8"]];
}

test("a shape that one makes wider, and to which another one gives a colour, has both", async () => {
  for (let seed = 1; seed <= PAIRS; seed++) {
    const [found, wanted] = await widened(seed);
    assert.deepEqual(found, wanted, `the pair ${seed}`);
  }
});
