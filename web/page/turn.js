// Turning and flipping shapes about the middle of them all.

import { inOrder } from "./clip.js";
import { STILL, apply, boxOf, compose, inverse } from "./plane.js";

const half = (sum) => Math.floor(sum / 2);

/** A pose by which the middle of a shape's box stays where it is, as near as whole pixels go. */
function aboutMiddle(tree, record, next) {
  const points = tree.outline(record) ?? [[0, 0]];
  const middle = (pose) => {
    const box = boxOf(points.map((point) => apply(pose, point)));
    return [Math.floor((box.left + box.right) / 2), Math.floor((box.top + box.bottom) / 2)];
  };
  const [x, y] = middle(record.pose), [x2, y2] = middle(next);
  return { verb: "pose", id: record.id, pose: { ...next, dx: next.dx + x - x2, dy: next.dy + y - y2 } };
}

/**
 * The requests by which shapes get other poses: one by `next` of its own pose, several by `around` the box of them all.
 */
function posed(tree, ids, next, around) {
  const records = inOrder(tree, ids);
  if (!records.length) return null;
  if (records.length === 1) return [aboutMiddle(tree, records[0], next(records[0].pose))];
  const change = around(tree.boxAround(records.map(({ id }) => id)));
  return records.map((record) => {
    const outer = tree.poseOf(record.parent);
    return { verb: "pose", id: record.id, pose: compose(inverse(outer), compose(change, compose(outer, record.pose))) };
  });
}

/** A quarter turn. */
export function turned(tree, ids) {
  return posed(tree, ids, (pose) => ({ ...pose, quarter: (pose.quarter + 1) % 4 }), ({ left, top, right, bottom }) =>
    ({ ...STILL, quarter: 1, dx: half(left + right + top + bottom), dy: half(top + bottom - left - right) }));
}

/** Left and right change places: (x, y) of the parent becomes (-x, y). */
export function flipped(tree, ids) {
  return posed(tree, ids, (pose) => ({ ...pose, flip: !pose.flip, quarter: (4 - pose.quarter) % 4, dx: -pose.dx }),
    ({ left, right }) => ({ ...STILL, flip: true, dx: left + right }));
}
