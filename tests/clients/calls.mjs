// Makes the calls of calls.json one after another, with a server at ADDRESS or, without one, with a program of its own, and prints what each gives
// as a line of JSON. test_clients.py makes the same calls in Python and compares.
//
// usage: node calls.mjs [ADDRESS]
//        node calls.mjs feeds ADDRESS     follows the feeds of feeds.json, one after another, at a feed door
//        node calls.mjs names             prints the names of all calls, of sessions and of feeds
//        node calls.mjs driven            makes each call that a line of standard input names: the number of a session or a feed, a name and words. With
//                                         null as number it connects one, and prints its number

import { createHash } from "node:crypto";
import { readFileSync } from "node:fs";
import { createInterface } from "node:readline";

import { Canvas, Feed, FeedRefused, Refused } from "../../web/client.mjs";

const read = (name) => JSON.parse(readFileSync(new URL(name, import.meta.url), "utf8"));
const inCamelCase = (name) => name.replace(/_(.)/g, (_, letter) => letter.toUpperCase());

/** What a call gives, with bytes as their number and their hash. */
function told(value) {
  if (Buffer.isBuffer(value)) return { bytes: value.length, sha256: createHash("sha256").update(value).digest("hex") };
  if (Array.isArray(value)) return value.map(told);
  if (typeof value !== "object" || value === null) return value ?? null;
  return Object.fromEntries(Object.keys(value).sort().map((name) => [name, told(value[name])]));
}

/** What something gives, or how it fails. */
async function outcome(run) {
  try {
    return told(await run());
  } catch (fault) {
    if (fault instanceof Refused) return { refused: [fault.code, fault.name, fault.message, fault.reply] };
    if (fault instanceof FeedRefused) return { refused: fault.message };
    return { fault: fault.code ?? fault.constructor.name, message: fault.message };
  }
}

function answerOf(thing, [name, given, more]) {
  const words = name === "send_line" ? given.map((text) => Buffer.from(text)) : given;
  return outcome(() => thing[inCamelCase(name)](...words, ...(more === undefined || more === null ? [] : [more])));
}

const things = [];

/** What a call gives of the thing of a number, or the number of a new one. */
async function driven(number, name, given, more) {
  if (number === null) {
    const words = Object.keys(more).length ? [more] : [];
    const connect = async () => things.push(await { Canvas, Feed }[name].connect(...given, ...words)) - 1;
    return outcome(connect);
  }
  const thing = things[number];
  if (["version", "generation", "opening"].includes(name)) return thing[name];
  if (name === "next") return outcome(async () => (await thing.next()).value);
  if (name === "all") return outcome(() => all(thing));
  return answerOf(thing, [name, given, more]);
}

/** All edits that a feed gives until it ends. */
async function all(feed) {
  const edits = [];
  for await (const kept of feed) edits.push(kept);
  return edits;
}

/** What a feed gives first, and so many edits of it. */
async function feedAnswer(address, [wanted, count]) {
  try {
    const feed = await Feed.connect(address, wanted);
    const edits = [];
    while (edits.length < count) edits.push(told((await feed.next()).value));
    await feed.close();
    return { generation: feed.generation, opening: feed.opening, edits, version: feed.version };
  } catch (fault) {
    if (fault instanceof FeedRefused) return { refused: fault.message };
    throw fault;
  }
}

const [first, second] = process.argv.slice(2);
if (first === "names") {
  for (const kind of [Canvas, Feed]) {
    const names = [...Object.getOwnPropertyNames(kind.prototype), ...Object.getOwnPropertyNames(kind)];
    console.log(JSON.stringify(names.filter((name) => !["constructor", "prototype", "length", "name"].includes(name)).sort()));
  }
} else if (first === "driven") {
  for await (const line of createInterface({ input: process.stdin })) console.log(JSON.stringify(await driven(...JSON.parse(line))));
} else if (first === "feeds") {
  for (const feed of read("feeds.json")) console.log(JSON.stringify(await feedAnswer(second, feed)));
} else {
  const canvas = first === undefined ? new Canvas() : await Canvas.connect(first);
  for (const call of read("calls.json")) console.log(JSON.stringify(await answerOf(canvas, call)));
}
