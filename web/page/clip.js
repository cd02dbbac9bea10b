// Copies of shapes, as a text that can be pasted here or into another document.

import { givenName } from "./names.js";
import { STILL, apply, around, boxOf, compose, corners } from "./plane.js";

/** Copies of shapes, each with all that is below it, where they lie on the page; from back to front. */
export function copiesOf(tree, ids) {
  const named = (name) => (name ? { name } : {});
  const copy = (record) => {
    const { id, pose, hidden, shape } = record;
    const children = tree.children(id).slice().reverse().map(copy);
    return { shape, pose, hidden, ...named(givenName(record)), children };
  };
  const outer = ({ parent, pose }) => compose(tree.poseOf(parent), pose);
  return inOrder(tree, ids).map((record) => ({ ...copy(record), parent: record.parent, pose: outer(record) }));
}

/** The records of shapes from back to front, as they are painted. */
export function inOrder(tree, ids) {
  if (ids.length < 2) return ids.map((id) => tree.record(id)).filter(Boolean);
  const wanted = new Set(ids), found = [];
  const walk = (parent) => {
    for (const record of tree.children(parent).slice().reverse()) {
      if (wanted.has(record.id)) found.push(record);
      else walk(record.id);
    }
  };
  walk(null);
  return found;
}

export const textOf = (copies) => JSON.stringify({ copied: "canvas", shapes: copies });

/**
 * The copies that a text holds: of copied shapes, or of a saved document of either format; null where it is neither.
 */
export function copiesIn(text) {
  let found;
  try {
    found = JSON.parse(text);
  } catch {
    return null;
  }
  if (found?.copied === "canvas" && Array.isArray(found.shapes)) {
    return found.shapes.every(isCopy) ? found.shapes : null;
  }
  return Array.isArray(found?.shapes) && [1, 2].includes(found.format) ? saved(found.shapes) : null;
}

function isCopy(copy) {
  const isOne = Boolean(copy?.shape?.kind && copy.pose) && typeof (copy.name ?? "") === "string";
  return isOne && (copy.children ?? []).every(isCopy);
}

function saved(records) {
  const places = records.map((record) => record?.place ?? record), below = new Map();
  if (!records.every(isCopy)) return null;
  const order = records.map((_, k) => k).sort((a, b) => (places[a].index < places[b].index ? -1 : 1));
  for (const k of order) below.set(places[k].parent, [...(below.get(places[k].parent) ?? []), records[k]]);
  const copy = ({ id, shape, pose, hidden }) => ({ shape, pose, hidden, children: (below.get(id) ?? []).map(copy) });
  return (below.get(null) ?? []).map(copy);
}

/**
 * The box on the page of copies, or null where they show nothing.
 * @param {any[]} copies
 * @param {any} outer
 */
export function boxOfCopies(copies, outer = STILL) {
  return copies.reduce((all, { shape, pose, children = [] }) => {
    const own = compose(outer, { ...STILL, ...pose }), { kind, w, h, points } = shape;
    if (kind === "group") return around(all, boxOfCopies(children, own));
    const outline = points ?? corners({ left: 0, top: 0, right: w, bottom: h });
    return around(all, boxOf(outline.map((point) => apply(own, point))));
  }, null);
}

/**
 * The requests that make copies anew in a parent, whose pose is undone by `into`, moved by so much of the page. What
 * lies deeper follows level by level. The first are the copies themselves, in order.
 */
export function requestsFor(copies, parent, into, by) {
  const [dx, dy] = by;
  const found = [];
  let number = 0, level = copies.map((copy) => {
    const pose = compose(into, { ...copy.pose, dx: copy.pose.dx + dx, dy: copy.pose.dy + dy });
    return { copy: { ...copy, pose }, parent };
  });
  while (level.length) {
    level = level.flatMap(({ copy: { shape, pose, hidden = false, name, children = [] }, parent: outer }) => {
      const as = --number;
      found.push({ verb: "create", shape, pose, hidden, parent: outer, spot: "front", as, ...(name ? { name } : {}) });
      return children.map((child) => ({ copy: child, parent: as }));
    });
  }
  return found;
}
