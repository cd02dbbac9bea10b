// Paints a tree, or the part of it that lies in a box of the page, into a canvas.

import { apply, boxOf, inverse } from "./plane.js";

/** Puts the outline of a leaf or a frame, in its own coordinates, into the path of a context. */
const OUTLINES = {
  rect: (context, { w, h }) => context.rect(0, 0, w, h),
  frame: (context, { w, h }) => context.rect(0, 0, w, h),
  ellipse: (context, { w, h }) => context.ellipse(w / 2, h / 2, w / 2, h / 2, 0, 0, 2 * Math.PI),
  polygon: (context, { points }) => {
    points.forEach(([x, y], k) => (k ? context.lineTo(x, y) : context.moveTo(x, y)));
    context.closePath();
  },
};

const corners = ({ left, top, right, bottom }) => [[left, top], [right, top], [right, bottom], [left, bottom]];

/** Whether a leaf's or a frame's own box and a box have something in common. */
function meets(shape, { left, top, right, bottom }) {
  const own = shape.kind === "polygon" ? boxOf(shape.points) : { left: 0, top: 0, right: shape.w, bottom: shape.h };
  return own.left < right && own.right > left && own.top < bottom && own.bottom > top;
}

function transform(context, pose) {
  const turn = { ...pose, dx: 0, dy: 0 }, [a, b] = apply(turn, [1, 0]), [c, d] = apply(turn, [0, 1]);
  context.transform(a, b, c, d, pose.dx, pose.dy);
}

function paintOne(context, tree, { id, pose, shape }, box) {
  const inner = boxOf(corners(box).map((point) => apply(inverse(pose), point))), isGroup = shape.kind === "group";
  if (!isGroup && !meets(shape, inner)) return;
  context.save();
  transform(context, pose);
  if (!isGroup) {
    context.beginPath();
    OUTLINES[shape.kind](context, shape);
    context.fillStyle = `#${shape.fill}`;
    if (shape.fill) context.fill("evenodd");
  }
  if (shape.kind === "frame") context.clip();
  if (isGroup || shape.kind === "frame") paintAll(context, tree, id, inner);
  context.restore();
}

/** Paints what lies in a parent, from back to front, as far as it meets a box of the parent's coordinates. */
export function paintAll(context, tree, parent, box) {
  const list = tree.children(parent);
  for (let k = list.length - 1; k >= 0; k--) {
    if (!list[k].hidden) paintOne(context, tree, list[k], box);
  }
}
