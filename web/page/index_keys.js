// Index keys as the server makes them, which order siblings: those of rocicorp's fractional-indexing
// (generateKeyBetween), with 62 digits.

const DIGITS = "0123456789ABCDEFGHIJKLMNOPQRSTUVWXYZabcdefghijklmnopqrstuvwxyz";
const FIRST = DIGITS[0], LAST = DIGITS.at(-1);
const LEAST = `A${FIRST.repeat(26)}`;

/** The letter so many places behind another one. */
const letter = (head, by) => String.fromCharCode(head.charCodeAt(0) + by);

/** How long the integer part of a key is, by its head. */
const lengthOf = (head) => (head >= "a" ? head.charCodeAt(0) - 97 : 90 - head.charCodeAt(0)) + 2;

const partOf = (key) => key.slice(0, lengthOf(key[0]));

/** A fraction between two; `high` is null where there is none. */
function midpoint(low, high) {
  let common = 0;
  while (high !== null && common < high.length && (low[common] ?? FIRST) === high[common]) common++;
  if (common > 0) return high.slice(0, common) + midpoint(low.slice(common), high.slice(common));
  const from = low ? DIGITS.indexOf(low[0]) : 0, to = high === null ? DIGITS.length : DIGITS.indexOf(high[0]);
  if (to - from > 1) return DIGITS[Math.floor((from + to + 1) / 2)];
  if (high !== null && high.length > 1) return high[0];
  return DIGITS[from] + midpoint(low.slice(1), null);
}

/** An integer part with its digits one step further, up or down; and whether it went over the end of them. */
function stepped(part, by) {
  const digits = [...part.slice(1)], [over, next] = by > 0 ? [LAST, FIRST] : [FIRST, LAST];
  let k = digits.length - 1;
  for (; k >= 0 && digits[k] === over; k--) digits[k] = next;
  if (k >= 0) digits[k] = DIGITS[DIGITS.indexOf(digits[k]) + by];
  return { text: digits.join(""), isOver: k < 0 };
}

/** The integer part after another one, or null. */
function after(part) {
  const head = part[0], { text, isOver } = stepped(part, 1);
  if (!isOver) return head + text;
  if (head === "Z") return `a${FIRST}`;
  if (head === "z") return null;
  const above = letter(head, 1);
  return above + (above > "a" ? text + FIRST : text.slice(1));
}

/** The integer part before another one; the least one has none before it. */
function before(part) {
  const head = part[0], { text, isOver } = stepped(part, -1);
  if (!isOver) return head + text;
  if (head === "a") return `Z${LAST}`;
  const below = letter(head, -1);
  return below + (below < "Z" ? text + LAST : text.slice(1));
}

function made(low, high) {
  if (low === null && high === null) return `a${FIRST}`;
  if (low === null) {
    const part = partOf(high);
    if (part === LEAST) return part + midpoint("", high.slice(part.length));
    return part < high ? part : before(part);
  }
  const part = partOf(low), rest = low.slice(part.length);
  if (high !== null && partOf(high) === part) return part + midpoint(rest, high.slice(part.length));
  const next = after(part);
  return next !== null && (high === null || next < high) ? next : part + midpoint(rest, null);
}

/** The key that the server makes between two, of which each may be null. */
export function keyBetween(low, high) {
  const found = made(low, high);
  return found === LEAST ? `${found}V` : found;
}

/** The keys that the server gives so many siblings anew, rising. */
export function freshKeys(count) {
  const found = [];
  for (let key = null; found.length < count; found.push(key)) key = keyBetween(key, null);
  return found;
}
