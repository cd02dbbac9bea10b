// What shapes are called: by the name that was given to them, or else by their kind and number. The document has no
// names. Given ones are told to the other tabs, and kept in this browser for each page, by the number of the shape; one
// that is of another kind by then, as in another document, does not get it.

import { keep, kept } from "./settings.js";

const KINDS = { rect: "Rectangle", ellipse: "Ellipse", polygon: "Polygon", frame: "Frame", group: "Group" };
const MOST = 2000;
const LONGEST = 80;

/** What was kept, but for what is no list of names. */
const isNamed = (it) => Array.isArray(it) && Array.isArray(it[1]);
const readNames = (found) => (Array.isArray(found) ? found.filter(isNamed) : []);

/** Each document of a gateway has a page, and its own names. */
const PLACE = globalThis.location?.pathname ?? "/", NAMES = PLACE === "/" ? "names" : `names.${PLACE}`;
const given = new Map(readNames(kept(NAMES, [])));

/** The name that was given to a shape, or "". */
export function givenName({ id, shape }) {
  const [kind, name] = given.get(id) ?? [];
  return kind === shape.kind ? name : "";
}

/** What a shape is called where it has been given no name. */
export const plainName = ({ id, shape }) => `${KINDS[shape.kind]} ${id}`;

/** What a shape is called. */
export const nameOf = (record) => givenName(record) || plainName(record);

/** Tells of names that are given here, by a `names` event with the ids, kinds and names. */
export const naming = new EventTarget();

function tell(names) {
  naming.dispatchEvent(new CustomEvent("names", { detail: names }));
}

/** Gives a shape a name; "" takes it away. */
export function giveName({ id, shape }, name) {
  const found = name.trim().slice(0, LONGEST);
  takeNames([[id, shape.kind, found]]);
  tell([[id, shape.kind, found]]);
}

/** Takes names that were given elsewhere. */
export function takeNames(names) {
  for (const [id, kind, name] of names) {
    given.delete(id);
    if (name) given.set(id, [kind, name]);
  }
  keep(NAMES, [...given].slice(-MOST));
}

/** The names that are kept here of shapes of a tree, but for those of some ids. */
export function keptNames(tree, but) {
  const isOf = ([id, [kind]]) => !but.has(id) && tree.record(id)?.shape.kind === kind;
  return [...given].filter(isOf).map(([id, [kind, name]]) => [id, kind, name]);
}

/** Gives a shape that was made anew the name that it had. */
export function carryName(id, next) {
  if (!given.has(id)) return;
  const [kind, name] = given.get(id);
  takeNames([[next, kind, name]]);
  tell([[next, kind, name]]);
}

/** Whether a shape is meant by what was typed: each word of it is in its name, its kind and number, or its colour. */
export function isMeant(record, typed) {
  const state = `#${record.shape.fill ?? ""}${record.hidden ? " hidden" : ""}`;
  const text = `${nameOf(record)} ${plainName(record)} ${state}`.toLowerCase();
  return typed.toLowerCase().split(/\s+/).every((word) => text.includes(word));
}

/** A number of things, in words: `1 shape`, `3 shapes`. */
export const count = (number, what) => `${number.toLocaleString("en")} ${what}${number === 1 ? "" : "s"}`;
