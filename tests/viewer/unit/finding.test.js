// What a key means on keyboards of any script, and the way back to the drawing.

import assert from "node:assert/strict";
import { test } from "node:test";

import { signOf } from "../../../web/page/keys.js";
import { wayBack } from "../../../web/page/lost.js";
import { Tree } from "../../../web/page/tree.js";

test("a key is its letter, or that of its place where the keyboard has another script", () => {
  const keys = [
    ["h", "KeyH", false, "h"], ["H", "KeyH", true, "h"], ["a", "KeyQ", false, "a"], ["р", "KeyH", false, "h"], ["Р", "KeyH", true, "h"],
    ["х", "BracketLeft", false, "["], ["ъ", "BracketRight", false, "]"], ["ק", "KeyE", false, "e"], ["٣", "Digit3", false, "3"], ["№", "Digit3", true, "#"],
    ["à", "Digit0", false, "0"], ["é", "KeyH", false, ""], ["Escape", "Escape", false, "escape"], [" ", "Space", false, " "], ["?", "Minus", true, "?"],
  ];
  for (const [key, code, shiftKey, wanted] of keys) assert.equal(signOf({ key, code, shiftKey }), wanted, `${key} at ${code}`);
});

const rect = (id, [dx, dy], hidden = false) => ({
  id, hidden, place: { parent: null, index: `a${id}` }, pose: { dx, dy, quarter: 0, flip: false }, shape: { kind: "rect", w: 10, h: 10, fill: "102030" },
});

test("the way back leads to the nearest shape that shows anything", () => {
  const seen = { left: 0, top: 0, right: 100, bottom: 100 }, way = (...shapes) => wayBack(new Tree({ next: 9, shapes }, 1), seen);
  assert.deepEqual(way(rect(1, [1045, 45]), rect(2, [-9000, 45])), [1000, 0]);
  assert.deepEqual(way(rect(1, [1045, 45], true), rect(2, [45, -955])), [0, -1000]);
  assert.deepEqual([way(), way(rect(1, [95, 95]), rect(2, [900, 0]))], [null, null]);
});
