// Tiles: what is asked for one, at which versions it looks as it does, and which of them can be shown together.

import { TILE } from "./view.js";

export const keyOf = ({ level, col, row }) => `${level}/${col}/${row}`;

export function requestOf({ level, col, row }) {
  return level === 0 ? { verb: "tile", col, row } : { verb: "tile", col, row, level };
}

/**
 * Whether an edit may have changed a pixel that a tile shows: one in each 2^level of each 2^level-th row of the page.
 */
export function touches([left, top, right, bottom], { level, col, row }) {
  const scale = 2 ** level, side = TILE * scale;
  const meets = (from, to, begin) => Math.ceil(Math.max(from, begin) / scale) * scale < Math.min(to, begin + side);
  return meets(left, right, col * side) && meets(top, bottom, row * side);
}

/**
 * Puts a reply into a tile. A refused one counts as of the newest version, so that it is not asked for again and again.
 */
export function put(tile, reply, newest) {
  tile.refused = reply.ok ? null : reply.name;
  tile.version = tile.since = tile.until = reply.ok ? reply.version : newest;
  tile.name = reply.picture ?? null;
}

const isUntouched = (tile, kept) => Boolean(kept) && !touches(kept.damage, tile);

/** Goes on with a tile over the edits behind it that don't touch it. */
export function age(tile, journal) {
  while (isUntouched(tile, journal.at(tile.until + 1))) tile.until++;
}

/** The same over those before it, no further back than a version. */
function goBack(tile, journal, version) {
  while (tile.since > version && isUntouched(tile, journal.at(tile.since))) tile.since--;
}

/** The version to which a tree can be brought by the edits that are known. */
export function reachOf(tree, journal) {
  return journal.at(tree.version + 1) ? journal.end : tree.version;
}

/**
 * The newest version that all tiles show as they are, and the tree can be brought to; null where there is none at or
 * above the one that is shown.
 */
export function commonVersion(tiles, tree, shown, journal) {
  let from = Math.max(shown, tree.version), to = reachOf(tree, journal);
  for (const tile of tiles) {
    goBack(tile, journal, shown);
    from = Math.max(from, tile.since);
    to = Math.min(to, tile.until);
  }
  return from <= to ? to : null;
}
