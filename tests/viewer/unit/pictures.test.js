// The document as an SVG picture.

import assert from "node:assert/strict";
import { test } from "node:test";

import { STILL, apply, compose } from "../../../web/page/plane.js";
import { markupOf, svgOf } from "../../../web/page/svg.js";
import { Tree } from "../../../web/page/tree.js";

const saved = (id, parent, shape, pose = {}, hidden = false) => ({ id, hidden, place: { parent, index: `a${id}` }, pose: { ...STILL, ...pose }, shape });
const rect = (w, h, fill = "ff0000") => ({ kind: "rect", w, h, fill });
const treeOf = (...shapes) => new Tree({ format: 2, next: 99, shapes }, 1);
const lines = (text) => text.trim().split("\n").map((line) => line.trim());

test("each shape is what it is, from back to front", () => {
  const found = lines(svgOf(treeOf(
    saved(1, null, rect(4, 6), { dx: 10, dy: 20 }), saved(2, null, { kind: "ellipse", w: 5, h: 4, fill: "00ff00" }),
    saved(3, null, { kind: "polygon", points: [[0, 0], [9, 0], [-3, 7]], fill: "0000ff" }, { dx: 1 }),
  )));
  assert.deepEqual(found, [
    '<svg xmlns="http://www.w3.org/2000/svg" width="16" height="26" viewBox="-2 0 16 26">',
    '<rect width="4" height="6" fill="#ff0000" transform="translate(10 20)"/>',
    '<ellipse cx="2.5" cy="2" rx="2.5" ry="2" fill="#00ff00"/>',
    '<polygon fill-rule="evenodd" points="0,0 9,0 -3,7" fill="#0000ff" transform="translate(1 0)"/>',
    "</svg>",
  ]);
});

test("a frame clips, a group does not, and what is hidden is left out", () => {
  const found = lines(svgOf(treeOf(
    saved(1, null, { kind: "frame", w: 10, h: 8, fill: "eeeeee" }), saved(2, 1, rect(20, 20)), saved(3, 1, rect(9, 9), {}, true),
    saved(4, null, { kind: "frame", w: 3, h: 3, fill: null }), saved(5, null, { kind: "group" }, { dx: 2 }), saved(6, 5, rect(1, 1)),
    saved(7, null, rect(500, 500), {}, true),
  )));
  assert.deepEqual(found, [
    '<svg xmlns="http://www.w3.org/2000/svg" width="10" height="8" viewBox="0 0 10 8">',
    "<g>", '<rect width="10" height="8" fill="#eeeeee"/>', '<clipPath id="frame-1"><rect width="10" height="8"/></clipPath>',
    '<g clip-path="url(#frame-1)">', '<rect width="20" height="20" fill="#ff0000"/>', "</g>", "</g>",
    "<g>", '<clipPath id="frame-4"><rect width="3" height="3"/></clipPath>', '<g clip-path="url(#frame-4)">', "</g>", "</g>",
    '<g transform="translate(2 0)">', '<rect width="1" height="1" fill="#ff0000"/>', "</g>", "</svg>",
  ]);
});

test("a pose is its matrix", () => {
  for (let k = 0; k < 8; k++) {
    const pose = { dx: 3, dy: -4, quarter: k % 4, flip: k > 3 }, text = svgOf(treeOf(saved(1, null, rect(30, 10), pose)));
    const [, found] = /(?:matrix|translate)\(([^)]*)\)/.exec(text), parts = found.split(" ").map(Number);
    const [a, b, c, d, e, f] = parts.length === 2 ? [1, 0, 0, 1, ...parts] : parts;
    for (const [x, y] of [[0, 0], [30, 10], [7, 2]]) assert.deepEqual([a * x + c * y + e, b * x + d * y + f], apply(pose, [x, y]));
    assert.ok(!found.includes("-0"));
  }
});

test("what is selected is shown where it lies on the page, by itself", () => {
  const outer = { dx: 100, dy: 50, quarter: 1 }, inner = { dx: 7, dy: 0, flip: true };
  const tree = treeOf(saved(1, null, { kind: "frame", w: 5, h: 5, fill: "eeeeee" }, outer), saved(2, 1, rect(30, 10), inner));
  const text = svgOf(tree, [tree.record(2)]), pose = compose({ ...STILL, ...outer }, { ...STILL, ...inner });
  assert.ok(text.includes(` ${pose.dx} ${pose.dy})"`), text);
  const { left, top } = tree.boxOf(2);
  assert.ok(text.includes(`width="10" height="30" viewBox="${left} ${top} 10 30"`), text);
  assert.ok(!text.includes("clip"));
});

test("what shows nothing is no picture", () => {
  assert.equal(svgOf(treeOf()), null);
  assert.equal(svgOf(treeOf(saved(1, null, { kind: "group" }), saved(2, null, rect(3, 3), {}, true))), null);
});

test("what is dragged is drawn where it lies on the page, unless it is too much", () => {
  const outer = { dx: 100, dy: 50, quarter: 1 };
  const tree = treeOf(saved(1, null, { kind: "frame", w: 5, h: 5, fill: "eeeeee" }, outer), saved(2, 1, rect(3, 1)), saved(3, null, rect(2, 2), { dx: 9 }));
  const text = markupOf(tree, [3, 1], 3);
  assert.ok(text.startsWith('<g transform="matrix(0 1 -1 0 100 50)">') && text.endsWith('<rect width="2" height="2" fill="#ff0000" transform="translate(9 0)"/>'), text);
  assert.equal(markupOf(tree, [2], 3), '<rect width="3" height="1" fill="#ff0000" transform="matrix(0 1 -1 0 100 50)"/>');
  assert.equal(markupOf(tree, [3, 1], 2), "");
  assert.equal(markupOf(tree, [], 2), "");
});
