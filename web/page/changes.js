// What an edit changes, noted before it is made, and the requests that take it back later and keep what others did
// since.
//
// A request may name a shape that is yet to be made by a negative number: the `as` of the `create` that makes it.

import { nameOf } from "./names.js";
import { changedParts, joinedParts, partOf, partsBack, same, withPartsOf } from "./parts.js";
import { STILL } from "./plane.js";

const NEAR = 16;

/**
 * Where a shape lies: its parent and its index key there, and who lies just behind it and just in front of it, the
 * nearest first.
 */
function placeOf(tree, record) {
  const { parent, index } = record, list = tree.children(parent), at = list.indexOf(record);
  const ids = (part) => part.map(({ id }) => id);
  const before = ids(list.slice(Math.max(0, at - NEAR), at).reverse());
  return { parent, index, behind: ids(list.slice(at + 1, at + 1 + NEAR)), before };
}

/**
 * What a request will change in a tree: `from` is what is there before it, `to` what is there after it. Null where it
 * can't be taken back. Where a `move` leads is noted when it is made.
 */
function changeOf(tree, request, reply) {
  const { verb, id } = request;
  if (verb === "create") return { verb, id: reply.id };
  const record = tree.record(id);
  if (!record) return null;
  const name = nameOf(record), { parent, pose } = record;
  if (verb === "pose") return withParts({ verb, id, name, parent, from: pose, to: { ...STILL, ...request.pose } });
  if (verb === "reshape") return withParts({ verb, id, name, from: record.shape, to: request.shape });
  if (verb === "show") return { verb, id, name, from: record.hidden, to: request.hidden };
  if (verb === "move") return { verb, id, name, from: placeOf(tree, record), pose };
  return { verb, id, name, from: placeOf(tree, record), records: tree.subtree(id) };
}

// (whoever asks for an edit means those parts that it changes in what they see)
const withParts = (change) => ({ ...change, own: changedParts(change.from, change.to) });

/** Makes requests in a tree, each with its reply, and gives their changes. */
export function makeNoted(tree, pairs) {
  return pairs.map(([request, reply]) => {
    const change = changeOf(tree, request, reply);
    tree.make(request, reply);
    const record = change && tree.record(change.id);
    return change?.verb === "move" && record ? { ...change, to: placeOf(tree, record) } : change;
  });
}

/**
 * One change for two of one shape's pose, or of its look, one after the other; null where they are others, or where
 * others have turned the shape, or made it one of another kind, between them.
 */
export function joined(first, second) {
  const isOne = ["verb", "id", "parent"].every((name) => first[name] === second[name]);
  if (!isOne || !["pose", "reshape"].includes(first.verb)) return null;
  const others = changedParts(first.to, second.from);
  return others.includes("turn") || others.includes("kind") ? null : joinedParts(first, second);
}

/**
 * The changes of edits, each with its reply, as the journal tells them: from what truly was there just before each, and
 * not only from what their sender saw, which is `seen`. `tree` is the document of an earlier version. Null where the
 * journal does not have all edits since.
 */
export function truly(tree, edits, changes, journal) {
  return edits.map(([request, reply], k) => {
    if (!changes[k] || journal.bring(tree, reply.version - 1)?.version !== reply.version - 1) return changes[k];
    const [found] = makeNoted(tree, [[request, reply]]), { own, from, records, parent } = changes[k];
    tree.version++;
    const isAstray = found?.parent !== parent, hadMore = found?.records?.length > records?.length;
    return found && { ...found, ...(own ? { own } : {}), seen: from, isAstray, hadMore };
  });
}

/** Whether a change left all as it was. */
export function isStill({ verb, from, to, own }) {
  if (verb === "show") return from === to;
  if (verb !== "pose" && verb !== "reshape") return false;
  return !changedParts(from, to).some((name) => !own || own.includes(name));
}

/** Whether a shape lies elsewhere among those beside it. */
const liesElsewhere = (one, other) => one.parent !== other.parent || one.index !== other.index;

/**
 * The request that gives back what an edit has put back unmeant, since its sender did not know of an edit just before
 * it; or null. Where it was to take back a change, all that is otherwise than its sender saw it is unmeant: `isBack`.
 * @returns {any}
 */
export function harmOf({ verb, id, seen, from, to, own, meant, isAstray }, isBack) {
  if (isAstray) return { verb, id, pose: from };
  const isNews = isBack && seen !== undefined;
  if (verb === "show") return isNews && seen !== from && from !== to ? { verb, id, hidden: from } : null;
  if (verb === "move") {
    return isNews && liesElsewhere(seen, from) ? { verb, id, parent: from.parent, spot: { at: from.index } } : null;
  }
  if (!own || (verb === "reshape" && from.kind !== to.kind)) return null;
  const news = isNews ? changedParts(seen, from) : [];
  const isMeant = (name) => meant?.own.includes(name) && same(partOf(from, name), partOf(meant.from, name));
  const isLost = (name) => (!own.includes(name) || news.includes(name)) && !isMeant(name);
  const lost = changedParts(from, to).filter(isLost);
  // (a way that belongs to another turn goes on from where that has put the shape)
  if (verb === "pose" && seen !== undefined && lost.includes("turn")) {
    const onward = { ...from, dx: from.dx + to.dx - seen.dx, dy: from.dy + to.dy - seen.dy };
    return { verb, id, pose: isBack ? from : onward };
  }
  return lost.length ? { verb, id, [verb === "pose" ? "pose" : "shape"]: withPartsOf(to, lost, from) } : null;
}

/** A change with what was given back of it. */
export const mended = (change, { pose, shape, hidden }) => ({ ...change, to: pose ?? shape ?? hidden ?? change.to });

/** Whether a request turns a shape otherwise than a change did. */
export function isTurnedFrom({ verb, to }, { pose }) {
  return verb === "pose" && pose !== undefined && changedParts(to, pose).includes("turn");
}

/** A change of which a turn that was put back unmeant can't be given back any more: all of it is meant then. */
export function unmended(change) {
  const all = change.verb === "pose" ? changedParts(change.from, change.to) : [];
  return all.includes("turn") ? { ...change, own: all } : change;
}

/**
 * The change of an edit that mends another change, as its sender saw it: with what that had left. What the other change
 * was meant to do (`isMeant`) is not mended where others, who did not know of it, have put it back.
 */
export function mending(change, mended, isMeant) {
  const { verb, own, from, to } = mended, isOfParts = verb === "pose" || verb === "reshape";
  const meant = mended.meant ?? (isMeant && isOfParts ? { own: own ?? [], from } : undefined);
  return { ...change, ...(isOfParts ? { own: changedParts(to, change.to) } : {}), meant, seen: to, isAstray: false };
}

/** Whether a journal tells of an edit of the same kind and shape behind a version. */
export function isAfter(journal, version, { verb, id }) {
  for (let after = version + 1; journal?.at(after); after++) {
    const { edit } = journal.at(after);
    if (edit.verb === verb && edit.id === id) return true;
  }
  return false;
}

// -- taking back -----------------------------------------------------------------------------------------------------

/** Who lies just behind and just in front of a place among these siblings, of those that did before. */
function between(list, { behind, before }, resolve) {
  const found = (ids) => ids.map(resolve).find((id) => list.includes(id));
  return { under: found(behind), above: found(before) };
}

/**
 * The spot for a shape that is to lie as it lay before: at its key, where that is free, or else beside its neighbours.
 * In front of one that is yet to be made, and lies in front of all, it needs no name.
 */
function spotFor(tree, parent, place, resolve) {
  const siblings = tree.children(parent), list = siblings.map(({ id }) => id);
  const { under, above } = between(list, place, resolve);
  if (place.index !== undefined && !siblings.some(({ index }) => index === place.index)) return { at: place.index };
  if (under !== undefined) return under < 0 && under === list[0] ? "front" : { over: under };
  if (above === undefined) return place.behind.length ? "front" : "back";
  const next = list[list.indexOf(above) + 1];
  return next === undefined ? "back" : { over: next };
}

/**
 * Whether a shape lies where a move has put it: at its key; or between the same neighbours, where the key is not known.
 */
function liesAt(tree, record, place, resolve) {
  if (record.parent !== resolve(place.parent)) return false;
  if (place.index !== undefined) return record.index === place.index;
  const list = tree.children(record.parent).map(({ id }) => id), at = list.indexOf(record.id);
  const { under, above } = between(list, place, resolve);
  return (under === undefined || list.indexOf(under) > at) && (above === undefined || list.indexOf(above) < at);
}

const GONE = "is not there any more";
const CHANGED = "was changed by others since";
const HOMELESS = "lay in what is not there any more";

/** A part of a change that stays for later, and why. */
const keep = (change, why, requests = []) => ({ requests, kept: change, why });

/** How to take back each kind of change: the requests for it, and what of it has to stay. */
const BACK = {
  pose(tree, record, change, resolve) {
    if (change.parent !== undefined && record.parent !== resolve(change.parent)) return keep(change, CHANGED);
    return parts(record.pose, change, (pose) => ({ verb: "pose", id: record.id, pose }));
  },
  reshape(tree, record, change) {
    return parts(record.shape, change, (shape) => ({ verb: "reshape", id: record.id, shape }));
  },
  show(tree, record, change) {
    if (record.hidden !== change.to) return keep(change, CHANGED);
    return { requests: [{ verb: "show", id: record.id, hidden: change.from }] };
  },
  move(tree, record, change, resolve) {
    const { from, to } = change, parent = resolve(from.parent);
    if (!(change.isBeside ? record.parent === parent : liesAt(tree, record, to, resolve))) return keep(change, CHANGED);
    if (parent !== null && !tree.record(parent)) return keep(change, HOMELESS);
    if (tree.line(parent).some(({ id }) => id === record.id)) return keep(change, CHANGED);
    return moveBack(tree, record, change, parent, resolve);
  },
  create(tree, record, change) {
    if (tree.children(record.id).length) return keep(change, "holds what others made");
    return { requests: [{ verb: "delete", id: record.id }] };
  },
};

// Where others have put another shape into its place, it goes beside that, and the rest stays for when the place is
// free again.
function moveBack(tree, record, change, parent, resolve) {
  const beside = tree.copy(), request = (spot) => ({ verb: "move", id: record.id, parent, spot });
  beside.make({ verb: "delete", id: record.id });
  const spot = spotFor(beside, parent, change.from, resolve), isThere = change.isBeside && record.parent === parent;
  if (change.from.index === undefined || spot.at !== undefined) return { requests: [request(spot)] };
  return { requests: isThere ? [] : [request(spot)], kept: { ...change, isBeside: true } };
}

/** Takes back those parts of a pose or a shape that are as they were left. */
function parts(now, change, requestOf) {
  const { value, stays } = partsBack(now, change), requests = changedParts(now, value).length ? [requestOf(value)] : [];
  return stays.length ? keep({ ...change, own: stays }, CHANGED, requests) : { requests };
}

/** Makes anew what was deleted: a request for each of its shapes. */
function makeAnew(tree, change, resolve) {
  const { from, records } = change, parent = resolve(from.parent);
  if (parent !== null && !tree.record(parent)) return keep(change, HOMELESS);
  return { requests: records.map(({ id, parent: outer, index, hidden, pose, shape }, k) => ({
    verb: "create", shape, pose, hidden, as: -id, instead: id,
    parent: k === 0 ? parent : -outer,
    spot: k === 0 ? spotFor(tree, parent, from, resolve) : { at: index },
  })) };
}

/** What the changes of shapes that are there need to be there too, for when they can be taken back. */
export function parentsIn(changes) {
  const there = changes.filter(({ isGone }) => !isGone);
  const found = there.flatMap(({ parent, from, to, isBeside }) => [parent, from?.parent, isBeside ? null : to?.parent]);
  return found.filter((id) => id !== undefined && id !== null);
}

/**
 * The shapes that got another parent, and that others have moved since: all of that stays, since a pose is one in its
 * parent.
 */
function stuckIn(tree, changes, resolve) {
  const isStuck = ({ verb, id, from, to, pose, isBeside }) => {
    const record = tree.record(resolve(id));
    if (verb !== "move" || from.parent === to.parent || isBeside || !record) return false;
    const last = changes.findLast((change) => change.verb === "pose" && change.id === id)?.to ?? pose;
    return !liesAt(tree, record, to, resolve) || (last && changedParts(last, record.pose).length > 0);
  };
  return new Set(changes.filter(isStuck).map(({ id }) => id));
}

/**
 * The requests that take back the changes of a step, the last change first; in words what of it is passed over; and the
 * changes that stay for later, when others have taken back what they did since. `resolve` gives the id that a shape has
 * now, if it was deleted and made anew; `wanted` are the ids of what is to stay.
 */
export function planBack(tree, changes, resolve, wanted = []) {
  const after = tree.copy(), made = new Map(), requests = [], passed = [], kept = [];
  const stuck = stuckIn(tree, changes, resolve), needed = new Set(wanted.map(resolve));
  const now = (id) => {
    const found = id === null ? null : resolve(id);
    return made.get(found) ?? found;
  };
  const back = (change, record) => {
    if (change.verb === "delete") return makeAnew(after, change, now);
    if (!record) return keep({ ...change, isGone: true }, GONE);
    const isHeld = (change.verb === "create" && needed.has(record.id)) || stuck.has(change.id);
    return isHeld ? keep(change, CHANGED) : BACK[change.verb](after, record, change, now);
  };
  for (const change of changes.slice().reverse()) {
    const record = after.record(now(change.id)), found = back(change, record);
    if (found.kept) kept.unshift(record ? { ...found.kept, isGone: false } : found.kept);
    if (found.kept) for (const id of parentsIn([found.kept])) needed.add(now(id));
    if (found.why) passed.push(`${change.name ?? (record ? nameOf(record) : "A shape")} ${found.why}.`);
    for (const request of found.requests) {
      if (request.instead !== undefined) made.set(request.instead, request.as);
      after.make(request, { id: request.as });
    }
    requests.push(...found.requests);
  }
  return { requests, passed, kept };
}

/** Cuts requests into batches of at most so many, of which none names a shape that it makes itself. */
export function batches(requests, most) {
  const found = [];
  let batch = [], making = new Set();
  for (const request of requests) {
    const needs = [request.id, request.parent, request.spot?.over].some((id) => making.has(id));
    if (batch.length && (needs || batch.length >= most)) {
      found.push(batch);
      batch = [];
      making = new Set();
    }
    batch.push(request);
    if (request.as !== undefined) making.add(request.as);
  }
  return batch.length ? [...found, batch] : found;
}
