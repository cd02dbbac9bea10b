// What is said of an edit that a key made: a letter that is typed by mistake changes nothing without a word.

import { count, nameOf } from "./names.js";

const KEYS = {
  hide: "H", turn: "T", flip: "X", put: "I", take: "O", group: "G", ungroup: "U", respace: "S",
  front: "]", back: "[", delete: "Del",
};

/** The words for each act: `what` are its shapes, and `is` the verb for them. */
const WORDS = {
  hide: (what, is, { isHidden }) => {
    const hidden = `${what} ${is} hidden; the same key shows ${is === "is" ? "it" : "them"}`;
    return isHidden ? `${what} ${is} shown again` : hidden;
  },
  turn: (what, is) => `${what} ${is} turned`,
  flip: (what, is) => `${what} ${is} flipped`,
  put: (what, is, { behind }) => `${what} ${is} put into ${behind}`,
  take: (what, is) => `${what} ${is} taken out of what ${is === "is" ? "it lies" : "they lie"} in`,
  group: (what, is) => `${what} ${is} a group now`,
  ungroup: (what) => `${what}: all is taken out of it`,
  front: (what, is) => `${what} ${is} in front`,
  back: (what, is) => `${what} ${is} at the back`,
  delete: (what, is) => `${what} ${is} deleted`,
};

const RESPACED = "The shapes beside it have new places in the order that they had (S). Nothing looks different.";

/** What is said when a key has done an act to the shapes that are selected now; "" where nothing is. */
export function wordsOfKey(act, { records }, behind) {
  if (!KEYS[act] || !records.length) return "";
  if (act === "respace") return RESPACED;
  const [first] = records, isOne = records.length === 1, what = isOne ? nameOf(first) : count(records.length, "shape");
  const more = { isHidden: records.every(({ hidden }) => hidden), behind: behind ? nameOf(behind) : "" };
  return `${WORDS[act](what, isOne ? "is" : "are", more)} (${KEYS[act]}). Ctrl+Z takes that back.`;
}
