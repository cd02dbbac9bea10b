// The parts of a pose and of a shape that people change each on its own: how far across, how far down, and the turn
// with the flip; and each member of a shape. Taking back a change gives those parts back that are still as it left
// them.

const TURN = "turn";
const POSE = [TURN, "dx", "dy"];
/** How many of the last values of a part are known that one drag gave it. */
const MOST = 64;

/** Whether two values of a part are the same. */
export const same = (a, b) => JSON.stringify(a) === JSON.stringify(b);
const turnOf = ({ quarter, flip }) => ({ quarter, flip });

const isPose = (value) => Object.hasOwn(value, "quarter");
/** A part of a value. */
export const partOf = (value, name) => (name === TURN ? turnOf(value) : value[name]);

function withPart(value, name, from) {
  if (name === TURN) return { ...value, ...turnOf(from) };
  return { ...value, [name]: from[name] };
}

/** A value with some of its parts as another one has them. */
export const withPartsOf = (value, names, from) => names.reduce((found, name) => withPart(found, name, from), value);

/** The names of the parts that two values have otherwise. */
export function changedParts(from, to) {
  const names = isPose(to) ? POSE : [...new Set([...Object.keys(from), ...Object.keys(to)])];
  return names.filter((name) => !same(partOf(from, name), partOf(to, name)));
}

/**
 * Whether a part is as a change left it, or as it was on the way there: then another edit, made before its sender knew
 * of the change, put it back so far.
 */
function isAsLeft(now, { to, trail = {} }, name) {
  const value = partOf(now, name);
  return same(value, partOf(to, name)) || (trail[name] ?? []).some((it) => same(it, value));
}

/**
 * A value of which a change is taken back, and the names of those parts that stay, since others have changed them. A
 * turn is taken back only where nobody has moved the shape since, and a way only where nobody has turned it.
 */
export function partsBack(now, change) {
  const { from, to, own = changedParts(from, to) } = change, isTurned = isPose(to) && own.includes(TURN);
  const isAsSeen = (name) => (
    !own.includes(name) && change.seen !== undefined && same(partOf(now, name), partOf(change.seen, name))
  );
  const isOther = isPose(to) ? !same(turnOf(now), turnOf(to)) : now.kind !== to.kind;
  const isMoved = isTurned && !POSE.every((name) => isAsLeft(now, change, name) || isAsSeen(name));
  const back = isOther || isMoved ? [] : own.filter((name) => isAsLeft(now, change, name));
  return { value: withPartsOf(now, back, from), stays: own.filter((name) => !back.includes(name)) };
}

/** One change for two of one value, one after the other. */
export function joinedParts(first, second) {
  const ownOf = ({ own, from, to }) => own ?? changedParts(from, to);
  const own = ownOf(first), more = ownOf(second).filter((name) => !own.includes(name));
  const from = withPartsOf(first.from, more, second.from), all = [...own, ...more];
  const trail = Object.fromEntries(all.map((name) => {
    const values = [...(first.trail?.[name] ?? []), partOf(first.to, name), ...(second.trail?.[name] ?? [])];
    return [name, own.includes(name) ? values.slice(-MOST) : []];
  }));
  return { ...first, from, to: second.to, own: all, trail };
}
