// Steps of many shapes: sent ahead of their answers, in order.

import assert from "node:assert/strict";
import { test } from "node:test";

import { Drag } from "../../../web/page/drag.js";
import { STILL } from "../../../web/page/plane.js";
import { State } from "../../../web/page/state.js";
import { Steps } from "../../../web/page/steps.js";
import { Tree } from "../../../web/page/tree.js";
import { mayGoOn } from "../../../web/page/waiting.js";

const COUNT = 4000;
const key = (k) => `a${String.fromCharCode(48 + (k >> 9 & 7))}${String.fromCharCode(48 + (k >> 6 & 7))}${String.fromCharCode(48 + (k >> 3 & 7))}${String.fromCharCode(49 + (k & 7))}`;
const saved = (k) => ({ id: k + 1, hidden: false, place: { parent: null, index: key(k) }, pose: { ...STILL }, shape: { kind: "rect", w: 9, h: 9, fill: "ff0000" } });
const idle = () => new Promise((done) => setTimeout(done));

/** Steps beside a server that answers a batch when it is told to. */
function room() {
  const state = new State(), asked = [];
  let version = 1;
  state.show(new Tree({ next: COUNT + 1, shapes: Array.from({ length: COUNT }, (_, k) => saved(k)) }, version));
  const answerTo = ({ verb }) => ({ ok: true, version: ++version, ...(verb === "create" ? { id: 5000 + version } : {}) });
  const link = { ask: (requests) => new Promise((done) => asked.push({ requests, answer: () => done(requests.map(answerTo)) })) };
  return { state, asked, steps: new Steps(link, { see() {} }, state, () => {}) };
}

test("a step of thousands is on its way before the first of it is answered, and is one step", async () => {
  const { state, asked, steps } = room();
  const made = steps.perform("move", (tree) => [...tree.records.keys()].map((id) => ({ verb: "pose", id, pose: { ...STILL, dx: id } })));
  await idle();
  assert.ok(asked.length > 1, `${asked.length} batches`);
  assert.ok(asked.reduce((sum, { requests }) => sum + requests.length, 0) <= 2048);
  for (let k = 0; k < asked.length; k++, await idle()) asked[k].answer();
  const { changes, replies } = await made;
  assert.deepEqual(asked.flatMap(({ requests }) => requests.map(({ id }) => id)), Array.from({ length: COUNT }, (_, k) => k + 1));
  assert.deepEqual([changes.length, replies.length, state.history.length, state.tree.record(COUNT).pose.dx], [COUNT, COUNT, 1, COUNT]);
});

test("what names a shape that is yet to be made waits until it is", async () => {
  const { asked, steps } = room();
  const made = steps.perform("group", () => [{ verb: "create", shape: { kind: "group" }, as: -1 }, { verb: "move", id: 7, parent: -1, spot: "front" }]);
  await idle();
  assert.equal(asked.length, 1);
  asked[0].answer();
  await idle();
  assert.deepEqual(asked[1].requests, [{ verb: "move", id: 7, parent: 5002, spot: "front" }]);
  asked[1].answer();
  assert.equal((await made).replies.length, 2);
});

test("a batch that is not answered ends the step, and no other one is missed", async () => {
  const { state, steps } = room(), told = [];
  const failing = new Steps({ ask: () => Promise.reject(Object.assign(new Error("x"), { wasSent: true })) }, { see() {} }, state, (it) => told.push(it));
  await assert.rejects(failing.make([...state.tree.records.keys()].map((id) => ({ verb: "pose", id, pose: STILL }))));
  await idle();
  assert.equal(steps.isMaking, false);
});

test("a drag of very many shapes is sent where it ends", async () => {
  const { asked, steps } = room(), drag = new Drag(steps, Array.from({ length: 200 }, (_, k) => k + 1), { now: () => 0, wait: () => idle() });
  drag.to([5, 5]);
  await idle();
  assert.equal(asked.length, 0);
  const over = drag.end([9, 9]);
  await idle();
  assert.equal(asked[0].requests.length, 200);
  asked[0].answer();
  await over;
});

test("edits wait only for a history that may be the same one", () => {
  const before = { history: "7-aa", end: 20 };
  assert.equal(mayGoOn(before, { live: "7-bb", version: 20 }), true);
  assert.equal(mayGoOn(before, { live: "7-bb", version: 19 }), false);
  assert.equal(mayGoOn(before, { live: "8-bb", version: 30 }), false);
  assert.equal(mayGoOn(before, { live: null, version: 30 }), false);
});
