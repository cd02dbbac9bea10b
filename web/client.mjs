/**
 * A client of canvas: sends requests, reads replies and their bodies, and follows a feed. It starts the program, or
 * connects to one that serves. It needs Node 18 or newer, and no package.
 *
 *     const canvas = new Canvas();                                    // starts `canvas script`
 *     const made = await canvas.create({ kind: "rect", w: 2, h: 1, fill: "ff0000" });
 *     const tile = await canvas.tile(0, 0);                           // its width, height, version and pixels
 *     const far = await canvas.tile(0, 0, 3);                         // from farther away: each eighth pixel and row
 *     await canvas.close();
 *
 *     const canvas = await Canvas.connect("127.0.0.1:7878");          // a session with `canvas serve`
 *     const [reply, image] = await canvas.ask({ verb: "tile", col: 0, row: 0 });
 *
 *     const feed = await Feed.connect("127.0.0.1:7879", { since: 12 }); // a feed door of canvasd
 *     for await (const { version, edit, damage } of feed) {           // each edit behind the twelfth, when it is kept
 *       console.log(version, edit, damage);
 *     }
 *
 * A reply is the object of its line; a body is a Buffer. Nothing is pushed: each request has one reply, in order. A
 * reply that refuses is thrown as `Refused`, with its code and name, and the session goes on. After any other fault the
 * session is over. A feed is read only. Calls need not wait for each other: those that are made together are sent
 * together.
 *
 * canvas/client.py has the same calls in Python.
 */

import { spawn } from "node:child_process";
import { existsSync } from "node:fs";
import { connect } from "node:net";
import { constants } from "node:os";
import { fileURLToPath } from "node:url";

/** @typedef {{ body: number, ok: true, version: number, id?: number, colour?: string }} Reply A reply's line. */
/** @typedef {{ body: number, ok: false, code: number, name: string }} Refusal The line of a reply that refuses. */
/** @typedef {[reply: Reply, body: Buffer]} Answer A reply and its body, which is empty where it has none. */
/** @typedef {{ verb: string, [member: string]: unknown }} Request */
/** @typedef {{ dx?: number, dy?: number, quarter?: number, flip?: boolean }} Pose */
/** @typedef {"front" | "back" | { over: number } | { at: string }} Spot */
/**
 * @typedef {{ kind: "group" } | { kind: "frame", w: number, h: number, fill?: string | null }
 *   | { kind: "rect" | "ellipse", w: number, h: number, fill: string }
 *   | { kind: "polygon", points: [number, number][], fill: string }} Shape
 */
/**
 * @typedef {{ width: number, height: number, version: number, pixels: Buffer }} Picture A picture of so many pixels
 *   each way, of a version: three bytes a pixel, red, green and blue, row by row from the top left.
 */
/** @typedef {{ version: number, text: string }} Saved The document of a version as a saved text. */
/**
 * @typedef {{ version: number, id: number | null, damage: number[], edit: Request, text: string }} KeptEdit An edit of
 *   a feed: the version that it made, the id of the shape that it made, or null, the box of the page outside of which
 *   it changed no pixel (left, top, right and bottom, the last two outside), the edit as a request, and the text of
 *   that, as the journal has it.
 */
/**
 * @typedef {{ since?: number, opening?: boolean, generation?: number | null, seconds?: number | null }} Wanted What is
 *   asked of a feed.
 */

const BESIDE = fileURLToPath(new URL("../bin/canvas", import.meta.url));

/** The program: what the environment's CANVAS names, or bin/canvas beside this folder, or else `canvas` on the path. */
export const PROGRAM = process.env.CANVAS || (existsSync(BESIDE) ? BESIDE : "canvas");

/** No line of a reply, and no edit's line of a feed, is longer. */
const MOST_LINE = 65_536;
/** No line of a feed that has a saved document is longer. */
const MOST_OPENING = 134_217_728 + 100;
const OPENING_LINE = /^\{"generation":(\d{1,10}),"opening":(\{.*\})\}$/;
const DAMAGE = String.raw`\[((?:-?\d{1,10},){3}-?\d{1,10})\]`;
const MEMBERS = String.raw`"damage":${DAMAGE},"edit":(\{.*\}),"id":(null|\d{1,10}),"version":(\d{1,10})`;
const EDIT_LINE = new RegExp(String.raw`^\{${MEMBERS}\}$`);
/** After how many milliseconds of silence a follower asks whether the server's machine is there. */
const KEEP_ALIVE = 60_000;
/** While so many bytes wait for `read`, no more are taken from the other side. */
const MOST_WAITING = 1 << 22;
const MOST_MILLISECONDS = 2 ** 31 - 1;
const LF = 10;
const ENDED = "the session has ended";

/** A reply that refuses: its code, its name, and the whole reply. */
export class Refused extends Error {
  /** @param {Refusal} reply */
  constructor(reply) {
    super(`${reply.code} ${reply.name}`);
    this.code = reply.code;
    this.name = reply.name;
    this.reply = reply;
  }
}

/** A feed that was refused, in the server's words. */
export class FeedRefused extends Error {
  name = "FeedRefused";
}

/** The session is over: the other side ended it, or it was closed. */
export class Ended extends Error {
  name = "Ended";
}

/** Nothing came for so long that the session or the feed was given up. */
export class TimedOut extends Error {
  name = "TimedOut";
}

/** What came is no reply of canvas, or no line of a feed. */
export class BadReply extends Error {
  name = "BadReply";
}

/**
 * The line of a request, as bytes.
 * @param {Request} request
 */
export function lineOf(request) {
  return Buffer.from(`${JSON.stringify(request)}\n`);
}

/**
 * Whether a value has the members of a reply that a client goes by.
 * @param {any} value
 * @returns {value is Reply | Refusal}
 */
function isReply(value) {
  if (typeof value !== "object" || value === null || !Number.isSafeInteger(value.body) || value.body < 0) return false;
  return value.ok === true || (value.ok === false && "code" in value && "name" in value);
}

/** @param {Buffer} line */
function badLine(line) {
  return new BadReply(`this is no reply of canvas: ${JSON.stringify(line.toString("latin1", 0, 100))}`);
}

/**
 * The reply of a line.
 * @param {Buffer} line
 */
function replyOf(line) {
  let reply = null;
  try {
    reply = JSON.parse(line.toString());
  } catch {
    throw badLine(line);
  }
  if (!isReply(reply)) throw badLine(line);
  return reply;
}

/** Puts replies and their bodies together from pieces of bytes, wherever these are cut. */
class Assembly {
  /** @type {Buffer[]} of the line or the body that is not whole yet */
  #pieces = [];
  #count = 0;
  /** @type {Reply | Refusal | null} whose body is not whole yet */
  #reply = null;

  /**
   * The replies that are whole with these bytes.
   * @param {Buffer} bytes
   * @returns {Generator<Found>}
   */
  *add(bytes) {
    let rest = bytes;
    for (;;) {
      if (this.#reply === null) {
        const end = rest.indexOf(LF);
        this.#keep(end < 0 ? rest : rest.subarray(0, end));
        if (this.#count > MOST_LINE) throw badLine(this.#whole());
        if (end < 0) return;
        this.#reply = replyOf(this.#whole());
        rest = rest.subarray(end + 1);
      }
      const missing = this.#reply.body - this.#count;
      this.#keep(rest.subarray(0, missing));
      if (rest.length < missing) return;
      rest = rest.subarray(missing);
      const reply = this.#reply;
      this.#reply = null;
      yield [reply, this.#whole()];
    }
  }

  /** Throws where the bytes end inside a reply. */
  end() {
    const count = this.#count, rest = this.#whole().toString("latin1");
    if (this.#reply !== null) throw new Ended(`the body of ${JSON.stringify(this.#reply)} ends after ${count} bytes`);
    if (count > 0) throw new Ended(`the replies end inside the line ${JSON.stringify(rest)}`);
  }

  /** @param {Buffer} piece */
  #keep(piece) {
    if (piece.length > 0) this.#pieces.push(piece);
    this.#count += piece.length;
  }

  #whole() {
    const whole = Buffer.concat(this.#pieces, this.#count);
    this.#pieces = [];
    this.#count = 0;
    return whole;
  }
}

/**
 * The replies of a stream of bytes, each an object and its body.
 * @param {AsyncIterable<Buffer>} stream
 */
export async function* replies(stream) {
  const assembly = new Assembly();
  for await (const bytes of stream) yield* assembly.add(bytes);
  assembly.end();
}

/**
 * The picture that a reply and its P6 file are.
 * @param {Reply} reply
 * @param {Buffer} body
 * @returns {Picture}
 */
export function pictureOf(reply, body) {
  const head = /^P6\n(\d+) (\d+)\n255\n/.exec(body.toString("latin1", 0, 40));
  const [width, height] = head === null ? [0, 0] : [Number(head[1]), Number(head[2])];
  const begin = head === null ? 0 : head[0].length;
  if (head === null || body.length !== begin + 3 * width * height) {
    throw new BadReply(`this is no picture of canvas: ${JSON.stringify(body.toString("latin1", 0, 20))}`);
  }
  return { width, height, version: reply.version, pixels: body.subarray(begin) };
}

/**
 * The host and the port of `host:port`, or the path of `unix:path`.
 * @param {string} address
 */
function placeOf(address) {
  if (address.startsWith("unix:")) return { path: address.slice("unix:".length) };
  const found = /^(.+):(\d{1,5})$/.exec(address);
  const port = Number(found?.[2]);
  if (found === null || port > 65_535) {
    throw new TypeError(`${JSON.stringify(address)} is neither HOST:PORT nor unix:PATH`);
  }
  return { host: found[1].replace(/^\[/, "").replace(/\]$/, ""), port };
}

/**
 * A socket that is connected within so many seconds (null: however long it takes).
 * @param {string} address
 * @param {number | null} seconds
 * @returns {Promise<import("node:net").Socket>}
 */
async function connected(address, seconds) {
  if (seconds !== null && !(seconds > 0)) throw new RangeError(`${seconds} seconds are no time to wait`);
  const socket = connect({ ...placeOf(address), noDelay: true });
  await new Promise((resolve, reject) => {
    const late = () => socket.destroy(new TimedOut(`no connection to ${address}`));
    const timer = seconds === null ? undefined : setTimeout(late, milliseconds(seconds));
    socket.on("error", reject);
    socket.on("connect", resolve);
    socket.on("close", () => clearTimeout(timer));
    socket.on("connect", () => clearTimeout(timer));
  });
  return socket;
}

/** @typedef {[reply: Reply | Refusal, body: Buffer]} Found */
/** @typedef {{ resolve: (answer: Answer) => void, reject: (fault: Error) => void }} Reader Who waits for a reply. */

/** What a session is sent by and read from: two streams, which are one where it is a socket. */
class Session {
  #input;
  #output;
  #seconds;
  #exit;
  #assembly = new Assembly();
  /** @type {Found[]} that nobody has asked for yet */
  #waiting = [];
  #waitingBytes = 0;
  /** @type {Reader[]} */
  #readers = [];
  /** @type {Error | null} why no more replies come */
  #fault = null;
  /** @type {NodeJS.Timeout | undefined} */
  #timer;
  #isCorked = false;
  /** Whether the session was closed, or somebody was told why no more replies come. */
  #isOver = false;
  /** How many requests were sent whose reply nobody has asked for. */
  #unread = 0;

  /**
   * @param {import("node:stream").Writable} input
   * @param {import("node:stream").Readable} output the same socket, or what a program of its own writes
   * @param {number | null} seconds how long a call may wait while nothing comes
   * @param {Promise<number | null>} exit the exit status of a program of its own, when it has ended
   */
  constructor(input, output, seconds, exit) {
    this.#input = input;
    this.#output = output;
    this.#seconds = seconds;
    this.#exit = exit;
    output.on("data", (bytes) => this.#came(bytes));
    output.on("end", () => this.#ended());
    output.on("error", (cause) => this.#stop(new Ended(ENDED, { cause })));
    output.on("close", () => this.#stop(new Ended(ENDED)));
    // Where the other side takes no more, a reply that is still to be read may say why.
    if (!Object.is(input, output)) input.on("error", () => {});
  }

  /** @param {readonly string[]} words */
  static started(words) {
    const child = spawn(PROGRAM, words, { stdio: ["pipe", "pipe", "inherit"] });
    const exit = new Promise((resolve) => {
      child.on("exit", (code, signal) => resolve(signal === null ? code : -constants.signals[signal]));
      child.on("error", () => resolve(null));
    });
    const session = new Session(child.stdin, child.stdout, null, exit);
    child.on("error", (fault) => session.#stop(fault));
    return session;
  }

  /**
   * @param {string} address
   * @param {number | null} seconds
   * @returns {Promise<Session>}
   */
  static async connected(address, seconds) {
    const socket = await connected(address, seconds);
    return new Session(socket, socket, seconds, Promise.resolve(null));
  }

  /** Throws where the next reply would not be that of the next request. */
  checkAllRead() {
    if (this.#unread > 0 && !this.#isOver) throw new Error(`${this.#unread} replies are to be read before`);
  }

  /** @param {Uint8Array} bytes */
  put(bytes) {
    if (this.#isOver) throw new Ended(ENDED);
    for (const byte of bytes) this.#unread += byte === LF ? 1 : 0;
    if (this.#fault !== null || !this.#input.writable) return;
    if (!this.#isCorked) {
      this.#isCorked = true;
      this.#input.cork();
      process.nextTick(() => {
        this.#isCorked = false;
        this.#input.uncork();
      });
    }
    this.#input.write(bytes);
  }

  /** @returns {Promise<Answer>} */
  take() {
    this.#unread -= 1;
    return new Promise((resolve, reject) => {
      const found = this.#waiting.shift();
      if (found !== undefined) {
        this.#waitingBytes -= found[1].length;
        hand({ resolve, reject }, found);
      } else if (this.#fault !== null) {
        reject(this.#isOver ? new Ended(ENDED) : this.#fault);
        this.#isOver = true;
      } else {
        this.#readers.push({ resolve, reject });
        if (this.#readers.length === 1) this.#watch();
      }
      if (this.#waitingBytes <= MOST_WAITING) this.#output.resume();
    });
  }

  /** @returns {Promise<number | null>} */
  async end() {
    this.#stop(new Ended(ENDED), false);
    this.#isOver = true;
    if (!Object.is(this.#input, this.#output)) {
      this.#input.end();
      this.#output.destroy();
    } else if (!this.#input.closed) {
      const socket = /** @type {import("node:net").Socket} */ (this.#input);
      await new Promise((resolve) => {
        const timer = setTimeout(() => socket.destroy(), milliseconds(this.#seconds ?? Infinity));
        socket.on("close", () => resolve(clearTimeout(timer)));
        socket.destroySoon();
      });
    }
    return this.#exit;
  }

  /** @param {Buffer} bytes */
  #came(bytes) {
    try {
      for (const found of this.#assembly.add(bytes)) {
        const reader = this.#readers.shift();
        if (reader !== undefined) hand(reader, found);
        else this.#keep(found);
      }
    } catch (fault) {
      this.#stop(/** @type {Error} */ (fault));
    }
    this.#watch();
  }

  /** @param {Found} found */
  #keep(found) {
    this.#waiting.push(found);
    this.#waitingBytes += found[1].length;
    if (this.#waitingBytes > MOST_WAITING) this.#output.pause();
  }

  #ended() {
    try {
      this.#assembly.end();
    } catch (fault) {
      this.#stop(/** @type {Error} */ (fault));
    }
    this.#stop(new Ended(ENDED));
  }

  /** Waits so many seconds for bytes, where somebody waits for a reply. */
  #watch() {
    clearTimeout(this.#timer);
    if (this.#seconds === null || this.#readers.length === 0) return;
    const late = () => this.#stop(new TimedOut(`nothing came for ${this.#seconds} seconds`));
    this.#timer = setTimeout(late, milliseconds(this.#seconds));
  }

  /**
   * No more replies come, and whoever waits for one is told why.
   * @param {Error} fault
   */
  #stop(fault, isAtOnce = true) {
    this.#fault ??= fault;
    clearTimeout(this.#timer);
    for (const reader of this.#readers.splice(0)) {
      reader.reject(this.#fault);
      this.#isOver = true;
    }
    if (isAtOnce) {
      this.#input.destroy();
      this.#output.destroy();
    }
  }
}

/** @param {number} seconds */
function milliseconds(seconds) {
  return Math.min(1000 * seconds, MOST_MILLISECONDS);
}

/**
 * Gives a reply and its body to who waits for it.
 * @param {Reader} reader
 * @param {Found} found
 */
function hand(reader, [reply, body]) {
  if (reply.ok) reader.resolve([reply, body]);
  else reader.reject(new Refused(reply));
}

/** One session. */
export class Canvas {
  #session;

  /**
   * A session with a program of its own, started with these words.
   * @param {readonly string[]} [words]
   */
  constructor(words = ["script"]) {
    this.#session = words instanceof Session ? words : Session.started(words);
  }

  /**
   * A session with a server at `host:port` or `unix:path`. Where a call waits and nothing comes for so many seconds
   * (null: for ever) it throws `TimedOut`.
   * @param {string} address
   * @param {number | null} [seconds]
   */
  static async connect(address, seconds = 60) {
    return new Canvas(/** @type {any} */ (await Session.connected(address, seconds)));
  }

  /**
   * Sends a request and waits for its reply and body.
   * @param {Request} request
   * @returns {Promise<Answer>}
   */
  async ask(request) {
    this.#session.checkAllRead();
    this.send(request);
    return this.read();
  }

  /**
   * Sends a request and does not wait. Its reply is read by `read`, in the order of the requests.
   * @param {Request} request
   */
  send(request) {
    this.sendLine(lineOf(request));
  }

  /**
   * Sends bytes as they are.
   * @param {Uint8Array} line
   */
  sendLine(line) {
    this.#session.put(line);
  }

  /**
   * The next reply and its body.
   * @returns {Promise<Answer>}
   */
  read() {
    return this.#session.take();
  }

  /**
   * The picture of a tile: 256 by 256 pixels.
   * @param {number} col
   * @param {number} row
   * @param {number} [level]
   */
  async tile(col, row, level = 0) {
    return pictureOf(...(await this.ask({ verb: "tile", col, row, level })));
  }

  /**
   * The picture of a window: 1 to 256 by 1 to 256 pixels.
   * @param {number} x
   * @param {number} y
   * @param {number} w
   * @param {number} h
   * @param {number} [level]
   */
  async patch(x, y, w, h, level = 0) {
    return pictureOf(...(await this.ask({ verb: "patch", x, y, w, h, level })));
  }

  /**
   * The reply that has the `colour` of a pixel of the page.
   * @param {number} x
   * @param {number} y
   */
  async point(x, y) {
    return (await this.ask({ verb: "point", x, y }))[0];
  }

  /**
   * The document, as a text that `canvas serve` opens.
   * @returns {Promise<Saved>}
   */
  async export() {
    const [reply, body] = await this.ask({ verb: "export" });
    return { version: reply.version, text: body.toString() };
  }

  /**
   * Makes a shape; the reply has its `id`.
   * @param {Shape} shape
   * @param {{ pose?: Pose, hidden?: boolean, parent?: number | null, spot?: Spot }} [more]
   */
  async create(shape, more = {}) {
    return (await this.ask({ ...more, verb: "create", shape }))[0];
  }

  /**
   * Gives a shape another place: a parent, null for the page, and a spot among its children.
   * @param {number} id
   * @param {number | null} parent
   * @param {Spot} spot
   */
  async move(id, parent, spot) {
    return (await this.ask({ verb: "move", id, parent, spot }))[0];
  }

  /**
   * Gives a shape another pose.
   * @param {number} id
   * @param {Pose} pose
   */
  async pose(id, pose) {
    return (await this.ask({ verb: "pose", id, pose }))[0];
  }

  /**
   * Gives a shape other values of the same kind.
   * @param {number} id
   * @param {Shape} shape
   */
  async reshape(id, shape) {
    return (await this.ask({ verb: "reshape", id, shape }))[0];
  }

  /**
   * Hides a shape, or shows it again.
   * @param {number} id
   * @param {boolean} hidden
   */
  async show(id, hidden) {
    return (await this.ask({ verb: "show", id, hidden }))[0];
  }

  /**
   * Takes out a shape and all below it.
   * @param {number} id
   */
  async delete(id) {
    return (await this.ask({ verb: "delete", id }))[0];
  }

  /**
   * Gives the children of a parent short keys again.
   * @param {number | null} parent
   */
  async respace(parent) {
    return (await this.ask({ verb: "respace", parent }))[0];
  }

  /**
   * Ends the session: what is not answered by then may be done or not. Gives the exit status of a program of its own,
   * and null of a server.
   * @returns {Promise<number | null>}
   */
  close() {
    return this.#session.end();
  }
}

/**
 * The kept edits of a document, one after another, by a feed door of canvasd: an async iterator of them, which waits
 * for the next one. It ends when the server ends the connection. Whoever goes on then connects again, with `version` as
 * `since` and with the generation.
 */
export class Feed {
  /** The version of the edit that was given last, or `since` before the first one. */
  version;
  /** @type {number | null} which generation is followed; null where `opening` was not asked for */
  generation = null;
  /**
   * @type {string | null} the saved text of the document with which the generation began; null where it was not asked
   *   for
   */
  opening = null;
  #socket;
  #seconds;
  /** @type {AsyncIterator<Buffer>} what comes, piece by piece */
  #coming;
  /** Of what came the bytes that were not given yet. */
  #rest = Buffer.alloc(0);
  #edits = this.#each();

  /**
   * @param {import("node:net").Socket} socket
   * @param {number} since
   * @param {number | null} seconds
   */
  constructor(socket, since, seconds) {
    this.version = since;
    this.#socket = socket;
    this.#seconds = seconds;
    this.#coming = socket[Symbol.asyncIterator]();
  }

  /**
   * A feed of all edits behind the version `since`, from a door at `host:port` or `unix:path`. It asks for the
   * generation's opening document too where `opening` is true, and is refused where another generation than the one
   * named is served. A refusal is thrown as `FeedRefused`: here where an opening was asked for, or else in the place of
   * the first edit. Where a call waits and nothing comes for so many seconds (null: for ever) it throws `TimedOut`, and
   * the feed is over.
   * @param {string} address
   * @param {Wanted} wanted
   */
  static async connect(address, { since = 0, opening = false, generation = null, seconds = null } = {}) {
    const socket = await connected(address, seconds);
    socket.setKeepAlive(true, KEEP_ALIVE);
    const feed = new Feed(socket, since, seconds);
    const wanted = { since, ...(opening && { opening }), ...(generation !== null && { generation }) };
    socket.write(`${JSON.stringify(wanted)}\n`);
    if (opening) await feed.#open();
    return feed;
  }

  [Symbol.asyncIterator]() {
    return this;
  }

  /**
   * The next edit, as iterators give it.
   * @returns {Promise<IteratorResult<KeptEdit, void>>}
   */
  next() {
    return this.#edits.next();
  }

  /** The end of a loop that is left before the feed ends. */
  async return() {
    await this.close();
    return { done: true, value: undefined };
  }

  /**
   * The edits that have come: it waits for one at least. None of them where the feed has ended.
   * @returns {Promise<KeptEdit[]>}
   */
  async batch() {
    const edits = [];
    do {
      const { done, value } = await this.next();
      if (done) break;
      edits.push(value);
    } while (this.#rest.includes(LF));
    return edits;
  }

  /** Ends the feed. */
  async close() {
    this.#rest = Buffer.alloc(0);
    if (this.#socket.closed) return;
    const closed = new Promise((resolve) => this.#socket.once("close", resolve));
    this.#socket.destroy();
    await closed;
  }

  /** @returns {AsyncGenerator<KeptEdit, void>} */
  async *#each() {
    for (let line; (line = await this.#line(MOST_LINE)) !== null; ) {
      const [, damage, text, made, version] = EDIT_LINE.exec(line) ?? this.#refuse(line);
      if (Number(version) !== this.version + 1) {
        this.#end(new BadReply(`version ${version} came after ${this.version}`));
      }
      const edit = this.#parsed(text, line);
      this.version += 1;
      const id = made === "null" ? null : Number(made);
      yield { version: this.version, id, damage: damage.split(",").map(Number), edit, text };
    }
  }

  async #open() {
    const line = await this.#line(MOST_OPENING);
    if (line === null) throw new Ended("the feed has ended before its opening document");
    const [, generation, text] = OPENING_LINE.exec(line) ?? this.#refuse(line);
    this.generation = Number(generation);
    this.opening = text;
  }

  /**
   * The next line without its LF, or null where the feed has ended before it was whole.
   * @param {number} most how many bytes it may have
   */
  async #line(most) {
    if (!this.#rest.includes(LF) && !(await this.#fill(most))) return null;
    const end = this.#rest.indexOf(LF);
    const line = this.#rest.toString("utf8", 0, end);
    this.#rest = this.#rest.subarray(end + 1);
    return line;
  }

  /**
   * Waits until a line is whole; false where the feed has ended before.
   * @param {number} most how many bytes it may have
   */
  async #fill(most) {
    const pieces = [this.#rest];
    for (let count = this.#rest.length, last = this.#rest; !last.includes(LF); count += last.length) {
      if (count > most) this.#refuse(Buffer.concat(pieces, 100).toString("latin1"));
      const piece = await this.#piece();
      if (piece === null) return false;
      pieces.push((last = piece));
    }
    this.#rest = Buffer.concat(pieces);
    return true;
  }

  /** The bytes that come next, or null at the end. */
  async #piece() {
    const late = () => this.#socket.destroy(new TimedOut(`nothing came for ${this.#seconds} seconds`));
    const timer = this.#seconds === null ? undefined : setTimeout(late, milliseconds(this.#seconds));
    try {
      const { done, value } = await this.#coming.next();
      return done ? null : value;
    } catch (fault) {
      if (fault instanceof TimedOut) throw fault;
      return null; // it was reset, or closed here
    } finally {
      clearTimeout(timer);
    }
  }

  /**
   * @param {string} text
   * @param {string} line
   */
  #parsed(text, line) {
    try {
      return JSON.parse(text);
    } catch {
      return this.#refuse(line);
    }
  }

  /**
   * Ends the feed, and throws what a line that is not wanted stands for: the server's words where it refuses.
   * @param {string} line
   * @returns {never}
   */
  #refuse(line) {
    let value = null;
    try {
      value = JSON.parse(line);
    } catch {
      // it is no JSON
    }
    const isRefusal = value?.ok === false && typeof value.error === "string";
    const start = JSON.stringify(line.slice(0, 100));
    return this.#end(isRefusal ? new FeedRefused(value.error) : new BadReply(`this is no line of a feed: ${start}`));
  }

  /**
   * @param {Error} fault
   * @returns {never}
   */
  #end(fault) {
    this.#socket.destroy();
    throw fault;
  }
}
