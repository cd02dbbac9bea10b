// A tree, or shapes of it, as an SVG picture: exact outlines in pixels of the page, which is transparent where nothing
// lies.

import { inOrder } from "./clip.js";
import { givenName } from "./names.js";
import { STILL, apply, around, boxOf, compose } from "./plane.js";

/** The `transform` of a pose, or nothing where it does not move. */
function transformOf(pose) {
  const turn = { ...pose, dx: 0, dy: 0 };
  const unit = [...apply(turn, [1, 0]), ...apply(turn, [0, 1])].map((part) => part + 0);
  const isTurned = unit.join() !== "1,0,0,1";
  if (isTurned) return ` transform="matrix(${[...unit, pose.dx, pose.dy].join(" ")})"`;
  return pose.dx || pose.dy ? ` transform="translate(${pose.dx} ${pose.dy})"` : "";
}

const LEAVES = {
  rect: ({ w, h }) => `rect width="${w}" height="${h}"`,
  ellipse: ({ w, h }) => `ellipse cx="${w / 2}" cy="${h / 2}" rx="${w / 2}" ry="${h / 2}"`,
  polygon: ({ points }) => `polygon fill-rule="evenodd" points="${points.join(" ")}"`,
};

const ENTITIES = { "&": "&amp;", "<": "&lt;", ">": "&gt;" };

/** The `title` of a shape that was given a name. */
function titleOf(record) {
  const name = givenName(record);
  return name ? `<title>${name.replace(/[&<>]/g, (sign) => ENTITIES[sign])}</title>` : "";
}

function leafOf(record, transform) {
  const { shape } = record, title = titleOf(record);
  const begin = `<${LEAVES[shape.kind](shape)} fill="#${shape.fill}"${transform}`;
  return title ? `${begin}>${title}</${shape.kind}>` : `${begin}/>`;
}

/** The lines of a shape and of what lies in it; none of what is hidden. */
function linesOf(tree, record, pose, indent) {
  const { id, shape, hidden } = record, transform = transformOf(pose);
  if (hidden) return [];
  if (!tree.isContainer(id)) return [indent + leafOf(record, transform)];
  const inner = tree.children(id).slice().reverse(), isFrame = shape.kind === "frame";
  const within = (deeper) => inner.flatMap((child) => linesOf(tree, child, child.pose, indent + deeper));
  const begin = `${indent}<g${transform}>${titleOf(record)}`;
  if (!isFrame) return [begin, ...within("  "), `${indent}</g>`];
  const box = `<rect width="${shape.w}" height="${shape.h}"`;
  return [
    begin,
    ...(shape.fill ? [`${indent}  ${box} fill="#${shape.fill}"/>`] : []),
    `${indent}  <clipPath id="frame-${id}">${box}/></clipPath>`,
    `${indent}  <g clip-path="url(#frame-${id})">`, ...within("    "), `${indent}  </g>`,
    `${indent}</g>`,
  ];
}

/** The box on the page of what a shape shows, or null where it shows nothing. */
function shownBox(tree, record, outer) {
  if (record.hidden) return null;
  const pose = compose(outer, record.pose), { kind } = record.shape;
  if (kind === "group") {
    return tree.children(record.id).reduce((all, child) => around(all, shownBox(tree, child, pose)), null);
  }
  return boxOf(tree.outline(record).map((point) => apply(pose, point)));
}

/** Shapes with what lies in them, where they lie on the page, as SVG; "" where they are more than so many. */
export function markupOf(tree, ids, most) {
  let count = 0;
  const isFew = (id) => ++count <= most && tree.children(id).every((child) => isFew(child.id));
  const shown = inOrder(tree, ids);
  if (!shown.every(({ id }) => isFew(id))) return "";
  return shown.flatMap((record) => linesOf(tree, record, tree.poseOf(record.id), "")).join("");
}

/** The SVG of these shapes, or of the whole document where there are none; null where they show nothing. */
export function svgOf(tree, records = []) {
  const chosen = records.length ? records : tree.children(null).slice().reverse();
  const shown = chosen.map((record) => [record, tree.poseOf(record.parent)]);
  const box = shown.reduce((all, [record, outer]) => around(all, shownBox(tree, record, outer)), null);
  if (!box) return null;
  const w = box.right - box.left, h = box.bottom - box.top;
  const poseIn = (record, outer) => compose(outer, { ...STILL, ...record.pose });
  const lines = shown.flatMap(([record, outer]) => linesOf(tree, record, poseIn(record, outer), "  "));
  const size = `width="${w}" height="${h}" viewBox="${box.left} ${box.top} ${w} ${h}"`;
  const head = `<svg xmlns="http://www.w3.org/2000/svg" ${size}>`;
  return `${[head, ...lines, "</svg>"].join("\n")}\n`;
}
