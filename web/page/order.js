// Where shapes come to lie among others, when they are dragged in the layers or moved by a key. A place is {parent,
// over}: just in front of the shape `over`, or behind all where that is null.

/** The place in front of or behind a shape, beside shapes that are moved away from there. */
function beside(tree, record, isBehind, ids) {
  const list = tree.children(record.parent), at = list.findIndex(({ id }) => id === record.id) + (isBehind ? 1 : 0);
  return { parent: record.parent, over: list.slice(at).find(({ id }) => !ids.includes(id))?.id ?? null };
}

/** The place in front of all that lies in a container. */
const inside = (tree, parent, ids) => {
  const first = tree.children(parent).find(({ id }) => !ids.includes(id));
  return { parent, over: first?.id ?? null };
};

/**
 * Where shapes go that are dropped among rows of the layers, or null where they can't lie there. `at` is the height in
 * rows, `depth` that to which the pointer is indented. The place comes with `line`, the row at whose upper edge a line
 * is drawn, and its `depth`; or with `into`, the row of the container that they are dropped on.
 */
export function dropAt(tree, rows, at, depth, ids) {
  const found = placeAt(tree, rows, at, depth, ids);
  return found && !tree.line(found.parent).some(({ id }) => ids.includes(id)) ? found : null;
}

function placeAt(tree, rows, at, depth, ids) {
  if (!rows.length) return null;
  const k = Math.min(rows.length - 1, Math.max(0, Math.floor(at))), part = at - k, { record, depth: own } = rows[k];
  const isContainer = tree.isContainer(record.id), rim = isContainer ? 0.3 : 0.5;
  if (part < rim) return { ...beside(tree, record, false, ids), line: k, depth: own };
  const isOpen = rows[k + 1]?.record.parent === record.id;
  if (isContainer && (isOpen || part < 1 - rim)) {
    return { ...inside(tree, record.id, ids), ...(part < 1 - rim ? { into: k } : { line: k + 1, depth: own + 1 }) };
  }
  const outer = outwards(tree, record, own, depth);
  return { ...beside(tree, outer.record, true, ids), line: k + 1, depth: outer.depth };
}

// Below the last one of a container the pointer tells by its indentation whether it is behind that one, or behind the
// container.
function outwards(tree, record, own, depth) {
  const isLast = tree.children(record.parent).at(-1).id === record.id;
  if (own > depth && own > 1 && isLast) return outwards(tree, tree.record(record.parent), own - 1, depth);
  return { record, depth: own };
}

/** The place one step to the front or to the back of shapes that lie beside each other, or null where there is none. */
export function stepFrom(tree, ids, isBack) {
  const records = ids.map((id) => tree.record(id)).filter(Boolean), parent = records[0]?.parent;
  if (!records.length || records.some((record) => record.parent !== parent)) return null;
  const list = tree.children(parent), places = records.map((record) => list.indexOf(record));
  const isFree = ({ id }) => !ids.includes(id);
  const behind = list.slice(Math.max(...places)), before = list.slice(0, Math.min(...places));
  const next = isBack ? behind.find(isFree) : before.findLast(isFree);
  return next ? beside(tree, next, isBack, ids) : null;
}

/** Whether shapes, from front to back, lie at a place already. */
export function isThere(tree, ids, { parent, over }) {
  const list = tree.children(parent).map(({ id }) => id), end = over === null ? list.length : list.indexOf(over);
  return ids.every((id, k) => list[end - ids.length + k] === id);
}
