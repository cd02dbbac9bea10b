// What is lost when a server is started anew from an older document.

import { count } from "./names.js";

const looks = ({ parent, hidden, pose: { dx, dy, quarter, flip }, shape }) => (
  JSON.stringify([parent, hidden, dx, dy, quarter, flip, Object.entries(shape).sort()])
);

/** How many shapes of a tree are not in a later one, and how many are there otherwise. */
export function lossBetween(before, after) {
  let gone = 0, changed = 0, back = 0;
  for (const record of before.records.values()) {
    const now = after.record(record.id);
    if (!now) gone++;
    else if (looks(now) !== looks(record)) changed++;
  }
  for (const id of after.records.keys()) back += before.record(id) ? 0 : 1;
  return { gone, changed, back };
}

/** The same in words. */
export function wordsOfLoss({ gone, changed, back }) {
  const lost = [
    gone && `${count(gone, "shape")} ${gone === 1 ? "is" : "are"} gone`,
    changed && `${count(changed, "shape")} ${changed === 1 ? "is" : "are"} as before`,
    back && `${count(back, "deleted shape")} ${back === 1 ? "is" : "are"} there again`,
  ].filter(Boolean);
  if (!lost.length) return "The server was started anew. Nothing is lost: all shapes are as you saw them.";
  return `The server was started anew, from an older document: ${lost.join(", ")}.`;
}
