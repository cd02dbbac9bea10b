// What is shown: the tiles of a view, and the tree, all of one version. What is not there yet, and what the edits that
// came since may have changed, is asked for in one batch; what is older than the newest version then is asked for
// again, up to five rounds. As soon as there is a version that all of it shows, it is swapped in together. Where no
// feed tells of the edits, each of them may have changed all.
//
// Events: `shown` (tiles or the tree were swapped in).

import { Unanswered } from "./link.js";
import { age, commonVersion, keyOf, put, reachOf, requestOf } from "./tiles.js";
import { Tree } from "./tree.js";
import { TILE } from "./view.js";

const ROUNDS = 5;
const MOST_TILES = 300;
const PAUSE = 250;
const FEED_PAUSE = 300;

/** The tree of an export, or the one that was there, where it was refused. */
function treeOf(reply, before) {
  return reply.ok ? new Tree(reply.document, reply.version) : before;
}

/** The versions that some tiles and the tree are of, rising. */
function versionsOf(tiles, tree) {
  const found = new Set(tiles.map((tile) => tile.version));
  if (tree) found.add(tree.version);
  return [...found].sort((a, b) => a - b);
}

export class Picture extends EventTarget {
  #link;
  #journal;
  #wanted = [];
  #tiles = new Map();
  #bitmaps = new Map();
  #newest = 0;
  #isBusy = false;
  #isAsked = false;
  #era = 0;
  #shownFor = null;

  tree = null;
  /** The version that is shown; or several, rising, where edits come too fast. */
  versions = [];
  /** Ends it, where it stands beside another one. */
  leave = () => {};

  constructor(link, journal) {
    super();
    this.#link = link;
    this.#journal = journal;
  }

  /** A picture of the same document, for other tiles; `leave` ends it. */
  beside() {
    const journal = this.#journal.fork(), found = new Picture(this.#link, journal);
    found.tree = this.tree?.copy() ?? null;
    found.leave = () => {
      found.look([]);
      this.#journal.leave(journal);
    };
    return found;
  }

  /** Begins anew, with a server whose versions begin anew. */
  begin(version) {
    this.#tiles.clear();
    this.goTo(version);
  }

  /** Begins anew at another version of a history. What is shown stays until that is there. */
  goTo(version) {
    this.#era++;
    this.#newest = version;
    for (const tile of this.#tiles.values()) tile.until = -1;
    this.#shownFor = this.tree = null;
    this.versions = [];
    this.#settle();
  }

  /** Takes note of a version that the document has. */
  see(version) {
    if (version > this.#newest) this.#newest = version;
    this.#settle();
  }

  /** Shows these tiles from now on. */
  look(tiles) {
    this.#wanted = tiles;
    this.#settle();
  }

  /** The names of the refusals of tiles that are shown. */
  get refused() {
    return [...this.#tiles.values()].map((tile) => tile.refused).filter(Boolean);
  }

  /** Whether all tiles that are wanted are shown, of one version. */
  get isFull() {
    return this.versions.length === 1 && this.#areThere(this.versions[0]);
  }

  /** Whether all that is wanted is shown, and of the newest version. */
  get isSettled() {
    const newest = Math.max(this.#newest, this.#journal.isLive ? this.#journal.end : 0);
    return !this.#isBusy && this.tree?.version === newest && this.#areThere(newest);
  }

  #areThere(version) {
    return this.#wanted.every((tile) => this.#tiles.get(keyOf(tile))?.until >= version);
  }

  // One run at a time; what changes meanwhile is seen to by another one.
  async #settle() {
    this.#isAsked = true;
    if (this.#isBusy) return;
    this.#isBusy = true;
    try {
      while (this.#isAsked && this.#link.isHere) {
        this.#isAsked = false;
        await this.#run();
      }
    } catch (fault) {
      if (!(fault instanceof Unanswered)) throw fault;
      setTimeout(() => this.#settle(), PAUSE);
    } finally {
      this.#isBusy = false;
    }
  }

  async #run() {
    const era = this.#era, wanted = this.#wanted, journal = this.#journal;
    const found = new Map(wanted.map((tile) => [keyOf(tile), { ...tile, ...this.#tiles.get(keyOf(tile)) }]));
    const tiles = [...found.values()];
    let tree = this.tree, hasAsked = false, version = null;
    for (let round = 0; round <= ROUNDS && version === null; round++) {
      await journal.reach(this.#newest, FEED_PAUSE);
      if (era !== this.#era) return;
      tiles.forEach((tile) => age(tile, journal));
      const newest = Math.max(this.#newest, journal.isLive ? journal.end : 0);
      const old = tiles.filter((tile) => !(tile.until >= newest)), isOld = !tree || reachOf(tree, journal) < newest;
      if (old.length || isOld) {
        hasAsked = true;
        tree = await this.#ask(old, isOld, tree, newest);
        await journal.reach(this.#newest, FEED_PAUSE);
        if (era !== this.#era) return;
        tiles.forEach((tile) => age(tile, journal));
      }
      if (tree) version = commonVersion(tiles, tree, this.versions.at(-1) ?? 0, journal);
    }
    await Promise.all(tiles.map((tile) => this.#load(tile)));
    const isNew = hasAsked || wanted !== this.#shownFor || version !== this.versions[0];
    if (era === this.#era && isNew) this.#swap(wanted, found, tree, version);
  }

  // Asks for tiles, and for the tree where it is old; gives the tree.
  async #ask(old, isOld, tree, newest) {
    const replies = await this.#link.ask([...old.map(requestOf), ...(isOld ? [{ verb: "export" }] : [])]);
    this.#newest = Math.max(this.#newest, ...replies.filter(({ ok }) => ok).map(({ version }) => version));
    const found = isOld ? treeOf(replies.pop(), tree) : tree;
    replies.forEach((reply, k) => put(old[k], reply, newest));
    return found;
  }

  async #load(tile) {
    if (!tile.name) {
      tile.bitmap = null;
      return;
    }
    if (!this.#bitmaps.has(tile.name)) this.#bitmaps.set(tile.name, this.#fetch(tile.name));
    tile.bitmap = await this.#bitmaps.get(tile.name);
  }

  async #fetch(name) {
    try {
      return await createImageBitmap(await this.#link.picture(name));
    } catch {
      this.#bitmaps.delete(name);
      throw new Unanswered();
    }
  }

  // Swaps in all of a version; or, where that is null, what there is of several.
  #swap(wanted, found, tree, version) {
    const tiles = [...found.values()], journal = this.#journal;
    this.#shownFor = wanted;
    this.versions = version !== null ? [version] : versionsOf(tiles, tree);
    const newest = this.versions.at(-1) ?? tree?.version ?? 0;
    this.tree = journal.bring(tree, newest);
    // What lies beside the view is kept for a way back, while it looks as before.
    for (const [key, tile] of this.#tiles) {
      age(tile, journal);
      if (tile.until < newest || this.#tiles.size > MOST_TILES) this.#tiles.delete(key);
    }
    for (const [key, tile] of found) {
      this.#tiles.delete(key);
      this.#tiles.set(key, tile);
    }
    this.#dropBitmaps();
    journal.drop(this.tree?.version ?? 0);
    if (this.versions.length > 1 || !this.tree) setTimeout(() => this.#settle(), PAUSE);
    else if (newest < Math.max(this.#newest, journal.end)) this.#isAsked = true;
    this.dispatchEvent(new Event("shown"));
  }

  #dropBitmaps() {
    if (this.#bitmaps.size <= MOST_TILES) return;
    const used = new Set([...this.#tiles.values()].map((tile) => tile.name));
    for (const [name, bitmap] of this.#bitmaps) {
      if (used.has(name)) continue;
      this.#bitmaps.delete(name);
      bitmap.then((it) => it.close(), () => {});
    }
  }

  /** Draws a view with what is there: the tiles of its level over those of other levels, which stand in for them. */
  draw(context, view) {
    context.clearRect(0, 0, view.width, view.height);
    context.imageSmoothingEnabled = view.level > 0 && !Number.isInteger(view.level);
    const tiles = [...this.#tiles.values()].filter((tile) => tile.bitmap);
    tiles.sort((a, b) => Math.abs(b.level - view.tileLevel) - Math.abs(a.level - view.tileLevel));
    for (const tile of tiles) {
      const side = TILE * 2 ** (tile.level - view.level);
      const x = Math.round(tile.col * side - view.left), y = Math.round(tile.row * side - view.top);
      const right = Math.round((tile.col + 1) * side - view.left);
      const bottom = Math.round((tile.row + 1) * side - view.top);
      const isSeen = x < view.width && y < view.height && right > 0 && bottom > 0;
      if (isSeen) context.drawImage(tile.bitmap, x, y, right - x, bottom - y);
    }
  }
}
