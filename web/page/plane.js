// Points, poses and boxes, as docs/PROTOCOL.md has them: a pose flips first ((x, y) becomes (-x, y)), then makes
// quarter turns ((x, y) becomes (-y, x)), then moves. A point is [x, y]; a box has left, top, right and bottom.

export const STILL = Object.freeze({ dx: 0, dy: 0, quarter: 0, flip: false });

/** Where the flip and the turns of a pose carry a point. */
function turned(pose, [x, y]) {
  if (pose.flip) x = -x;
  return [[x, y], [-y, x], [-x, -y], [y, -x]][pose.quarter];
}

/** Where a pose carries a point. */
export function apply(pose, point) {
  const [x, y] = turned(pose, point);
  return [x + pose.dx, y + pose.dy];
}

/** The pose that does `inner` first and then `outer`. */
export function compose(outer, inner) {
  const [dx, dy] = apply(outer, [inner.dx, inner.dy]);
  const turns = outer.flip ? -inner.quarter : inner.quarter;
  return { dx, dy, quarter: (outer.quarter + turns + 4) % 4, flip: outer.flip !== inner.flip };
}

/** The pose that undoes a pose. */
export function inverse(pose) {
  const back = { dx: 0, dy: 0, quarter: pose.flip ? pose.quarter : (4 - pose.quarter) % 4, flip: pose.flip };
  const [dx, dy] = turned(back, [-pose.dx, -pose.dy]);
  return { ...back, dx: dx + 0, dy: dy + 0 };
}

/** The least box of some points. */
export function boxOf(points) {
  const across = points.map(([x]) => x), down = points.map(([, y]) => y);
  return { left: Math.min(...across), top: Math.min(...down), right: Math.max(...across), bottom: Math.max(...down) };
}

export const corners = ({ left, top, right, bottom }) => [[left, top], [right, top], [right, bottom], [left, bottom]];

/** The least box round two boxes, of which one may be null. */
export function around(a, b) {
  if (!a || !b) return a || b;
  return boxOf([[a.left, a.top], [a.right, a.bottom], [b.left, b.top], [b.right, b.bottom]]);
}

/** Whether a polygon holds a point: a line to the right crosses an odd number of its edges. */
export function polygonHolds(points, [x, y]) {
  let is = false;
  for (let k = 0; k < points.length; k++) {
    const [x1, y1] = points.at(k - 1), [x2, y2] = points[k];
    if ((y1 <= y) !== (y2 <= y) && x < x1 + ((y - y1) * (x2 - x1)) / (y2 - y1)) is = !is;
  }
  return is;
}
