// Giving shapes other boxes on the page.

import { STILL, apply, boxOf, compose, corners, inverse } from "./plane.js";

/** The eight handles: which edges of a box each one moves, left or top as -1, right or bottom as 1. */
export const HANDLES = [[-1, -1], [0, -1], [1, -1], [1, 0], [1, 1], [0, 1], [-1, 1], [-1, 0]];

/** Where the handles of a box lie. */
export function handlesOf({ left, top, right, bottom }) {
  const x = { "-1": left, 0: (left + right) / 2, 1: right }, y = { "-1": top, 0: (top + bottom) / 2, 1: bottom };
  return HANDLES.map(([across, down]) => [x[across], y[down]]);
}

/** How long a side gets of which an edge is moved by so much: negative where it goes over to the other side. */
/** @type {(side: any[], edge: number, by: number, isMiddle: boolean) => number} */
const lengthOf = ([from, to], edge, by, isMiddle) => to - from + edge * by * (isMiddle ? 2 : 1);

/**
 * A side that gets another length, at least one pixel, and keeps the edge that is not moved, or its middle: its begin,
 * its end, and whether it is mirrored.
 * @type {(side: any[], edge: number, length: number, isMiddle: boolean) => any[]}
 */
function side([from, to], edge, length, isMiddle) {
  const is = Math.max(1, Math.abs(length)), isMirrored = length < 0;
  if (!edge || isMiddle) {
    const begin = from - Math.floor((is - (to - from)) / 2);
    return [begin, begin + is, isMirrored];
  }
  const isOnward = edge > 0 !== isMirrored, still = edge > 0 ? from : to;
  return isOnward ? [still, still + is, isMirrored] : [still - is, still, isMirrored];
}

/**
 * A box of which a handle is dragged by so much, and which of its sides are mirrored, as the handle went over to the
 * other side. `isEven` keeps the ratio of its sides, `isMiddle` its middle.
 */
export function dragged(box, edges, by, { isEven = false, isMiddle = false } = {}) {
  const sides = [[box.left, box.right], [box.top, box.bottom]], long = sides.map(([from, to]) => to - from);
  let lengths = sides.map((it, k) => lengthOf(it, edges[k], by[k], isMiddle));
  if (isEven) {
    const factor = Math.max(...[0, 1].filter((k) => edges[k]).map((k) => Math.abs(lengths[k]) / Math.max(1, long[k])));
    lengths = long.map((it, k) => Math.round(it * factor) * (lengths[k] < 0 ? -1 : 1));
  }
  const found = sides.map((it, k) => side(it, edges[k], lengths[k], isMiddle));
  const [[left, right, isAcross], [top, bottom, isDown]] = found;
  return { box: { left, top, right, bottom }, isMirrored: [isAcross, isDown] };
}

/** A shape with a box of these sides in its own coordinates. */
function shapeWith(shape, w, h) {
  if (shape.kind !== "polygon") return { ...shape, w, h };
  const { left, top, right, bottom } = boxOf(shape.points);
  const scaled = (value, from, was, is) => from + (was ? Math.round(((value - from) * is) / was) : 0);
  const points = shape.points.map(([x, y]) => [scaled(x, left, right - left, w), scaled(y, top, bottom - top, h)]);
  return { ...shape, points };
}

const cornersOf = ({ w, h }) => corners({ left: 0, top: 0, right: w, bottom: h });
const pointsOf = (shape) => (shape.kind === "polygon" ? shape.points : cornersOf(shape));

const sameBox = (a, b) => a.left === b.left && a.top === b.top && a.right === b.right && a.bottom === b.bottom;

/**
 * The requests that give a leaf or a frame another box on the page. `stays` keeps a frame's children where they are.
 */
export function resized(tree, id, box, stays = true) {
  const record = tree.record(id), outer = tree.poseOf(record.parent), pose = compose(outer, record.pose);
  if (sameBox(box, tree.boxOf(id))) return [];
  const isTurned = pose.quarter % 2 === 1, wide = box.right - box.left, high = box.bottom - box.top;
  const shape = shapeWith(record.shape, isTurned ? high : wide, isTurned ? wide : high);
  const turn = { ...pose, dx: 0, dy: 0 }, { left, top } = boxOf(pointsOf(shape).map((point) => apply(turn, point)));
  const next = { ...turn, dx: box.left - left, dy: box.top - top };
  /** @type {object[]} */
  const found = [{ verb: "reshape", id, shape }];
  if (next.dx === pose.dx && next.dy === pose.dy) return found;
  found.push({ verb: "pose", id, pose: compose(inverse(outer), next) });
  const shift = compose(inverse(next), pose);
  if (record.shape.kind === "frame" && stays) {
    found.push(...tree.children(id).map((child) => ({ verb: "pose", id: child.id, pose: compose(shift, child.pose) })));
  }
  return found;
}

/** A box that lies in another one as before, when that one gets another size and place; as near as whole pixels go. */
function mapped(box, from, to) {
  const place = (value, low, was, first, is) => first + (was ? Math.round(((value - low) * is) / was) : 0);
  const across = (x) => place(x, from.left, from.right - from.left, to.left, to.right - to.left);
  const down = (y) => place(y, from.top, from.bottom - from.top, to.top, to.bottom - to.top);
  const left = across(box.left), top = down(box.top);
  return { left, top, right: Math.max(left + 1, across(box.right)), bottom: Math.max(top + 1, down(box.bottom)) };
}

/** The leaves and frames by which shapes are resized: a group is resized by what lies in it. */
export function members(tree, ids) {
  const inside = (id) => members(tree, tree.children(id).map((child) => child.id));
  return ids.flatMap((id) => (tree.record(id).shape.kind === "group" ? inside(id) : [id]));
}

/** The requests that give shapes another box on the page, all together. */
export function fitted(tree, ids, to) {
  if (ids.length === 1 && tree.record(ids[0]).shape.kind !== "group") return resized(tree, ids[0], to);
  const from = tree.boxAround(ids);
  return members(tree, ids).flatMap((id) => resized(tree, id, mapped(tree.boxOf(id), from, to), false));
}

/** A pose that mirrors a box in itself. */
function mirror({ left, top, right, bottom }, [isAcross, isDown]) {
  const dx = isAcross ? left + right : 0, dy = isDown ? top + bottom : 0;
  return { dx, dy, flip: isAcross !== isDown, quarter: isDown ? 2 : 0 };
}

/**
 * The requests that give shapes another box on the page, and mirror them in it. What looks the same from both sides is
 * not turned, nor is a frame alone.
 */
export function stretched(tree, ids, to, isMirrored) {
  if (!isMirrored.some(Boolean)) return fitted(tree, ids, to);
  const from = tree.boxAround(ids), turn = mirror(to, isMirrored);
  const isAlone = ids.length === 1 && tree.record(ids[0]).shape.kind !== "group";
  return members(tree, ids).flatMap((id) => {
    const { left, top, right, bottom } = isAlone ? to : mapped(tree.boxOf(id), from, to);
    const box = boxOf([[left, top], [right, bottom]].map((point) => apply(turn, point)));
    const found = resized(tree, id, box, isAlone), { kind } = tree.record(id).shape;
    const isTurned = kind === "polygon" || (kind === "frame" && !isAlone);
    return isTurned ? turnedIn(tree, id, found, mirror(box, isMirrored)) : found;
  });
}

// The same requests, after which a shape is carried by one more pose of the page.
function turnedIn(tree, id, requests, turn) {
  const record = tree.record(id), outer = tree.poseOf(record.parent);
  const isPose = (request) => request.verb === "pose" && request.id === id;
  const last = requests.find(isPose)?.pose ?? record.pose;
  const pose = compose(inverse(outer), compose(turn, compose(outer, last)));
  return [...requests.filter((request) => !isPose(request)), { verb: "pose", id, pose }];
}

/** Whether several shapes get another box on the page with no edge rounded to a whole pixel. */
export function isExact(tree, ids, to) {
  const from = tree.boxAround(ids), found = members(tree, ids);
  const divides = (value, low, was, is) => ((value - low) * is) % was === 0;
  const across = (x) => divides(x, from.left, from.right - from.left, to.right - to.left);
  const down = (y) => divides(y, from.top, from.bottom - from.top, to.bottom - to.top);
  const isWhole = ({ left, top, right, bottom }) => across(left) && across(right) && down(top) && down(bottom);
  return found.length < 2 || found.map((id) => tree.boxOf(id)).every(isWhole);
}

/** The request that moves a shape by so much of the page. */
export function shifted(tree, record, by) {
  const [across, down] = by;
  const into = { ...inverse(tree.poseOf(record.parent)), dx: 0, dy: 0 };
  const [dx, dy] = apply(into, [across, down]);
  const { id, pose } = record;
  return { verb: "pose", id, pose: { ...STILL, ...pose, dx: pose.dx + dx, dy: pose.dy + dy } };
}

/**
 * By how much each box is to be moved so that all lie at one edge or on one middle line: `edge` is left, middle, right,
 * top, centre-line or bottom.
 */
export function aligned(boxes, edge) {
  const all = boxOf(boxes.flatMap(({ left, top, right, bottom }) => [[left, top], [right, bottom]]));
  const middle = (from, to) => Math.round((from + to) / 2);
  const by = {
    left: (box) => [all.left - box.left, 0],
    middle: (box) => [middle(all.left, all.right) - middle(box.left, box.right), 0],
    right: (box) => [all.right - box.right, 0],
    top: (box) => [0, all.top - box.top],
    "centre-line": (box) => [0, middle(all.top, all.bottom) - middle(box.top, box.bottom)],
    bottom: (box) => [0, all.bottom - box.bottom],
  };
  return boxes.map(by[edge]);
}

/** By how much each box is to be moved so that the gaps between them are even, across or down. */
export function distributed(boxes, isDown) {
  const [from, to] = isDown ? ["top", "bottom"] : ["left", "right"];
  const order = boxes.map((box, k) => ({ box, k })).sort((a, b) => a.box[from] + a.box[to] - b.box[from] - b.box[to]);
  const sum = boxes.reduce((all, box) => all + box[to] - box[from], 0);
  const first = order[0].box[from], gap = (Math.max(...boxes.map((box) => box[to])) - first - sum) / (boxes.length - 1);
  const found = [];
  let at = first;
  for (const { box, k } of order) {
    const by = Math.round(at) - box[from];
    found[k] = isDown ? [0, by] : [by, 0];
    at += box[to] - box[from] + gap;
  }
  return found;
}
