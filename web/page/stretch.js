// Resizing shapes while it goes: drawn at once, and sent, at most 30 edits a second, and the last ones always. All of
// it is one step.

import { CLOCK, PAUSE } from "./drag.js";
import { copy, outline } from "./overlay.js";
import { corners } from "./plane.js";
import { stretched } from "./resize.js";
import { markupOf } from "./svg.js";

/** How many shapes are drawn on the way at most; of more the outline is. */
const MOST = 400;

const textOf = (value) => JSON.stringify(value);

export class Stretch {
  #app;
  #ids;
  #tree;
  #clock;
  #goal = null;
  #sent = -Infinity;
  #made = [];
  #way;
  #draft;
  #isFollowing = false;
  #element = null;
  #version = 0;

  /** Whether it is over, and all of it made. */
  isOver = false;

  /** Shapes that get other boxes than they have now. */
  constructor(app, ids, clock = CLOCK) {
    this.#app = app;
    this.#ids = ids;
    this.#tree = app.state.tree.copy();
    this.#draft = app.state.drafts.begin([]);
    this.#way = app.editor.begin();
    this.#clock = clock;
  }

  /** Goes on to a box, with sides that are mirrored. */
  to(goal) {
    this.#goal = { ...goal, requests: stretched(this.#tree, this.#ids, goal.box, goal.isMirrored) };
    this.#app.state.drafts.change(this.#draft, this.#withBack(this.#goal.requests));
    this.#draw();
    if (!this.#isFollowing && this.isLive) this.#follow();
  }

  /** Whether it is few enough edits to be sent on the way. */
  get isLive() {
    return this.#goal.requests.length <= MOST && !this.isOver;
  }

  /** Ends where it is; all of it is one step then. */
  end() {
    const { editor } = this.#app, goal = this.#goal;
    this.#goal = null;
    const made = editor.inTurn(async () => {
      await this.#make(goal.requests);
      this.#version = Math.max(this.#version, await editor.giveBack(this.#way));
      editor.note("resize", this.#way.changes);
    });
    return made.finally(() => this.#leave());
  }

  /** Gives up: what was made on the way goes back. */
  drop() {
    const { editor, state } = this.#app;
    this.#goal = null;
    state.drafts.change(this.#draft, this.#begin());
    const gone = editor.inTurn(async () => {
      if (this.#made.length) await this.#make(this.#begin());
      await editor.giveBack(this.#way);
    });
    gone.finally(() => this.#leave());
  }

  #leave() {
    this.isOver = true;
    this.#app.state.drafts.end(this.#draft, this.#version);
    this.#app.stage.draw();
  }

  // The requests by which all is as it was.
  #begin() {
    return this.#made.map(({ verb, id }) => {
      const { pose, shape } = this.#tree.record(id);
      return verb === "pose" ? { verb, id, pose } : { verb, id, shape };
    });
  }

  // The newest box alone, and one after the other.
  async #follow() {
    this.#isFollowing = true;
    while (this.#goal && this.#goal.requests !== this.#made) {
      const pause = this.#sent + PAUSE * this.#made.length - this.#clock.now();
      if (pause > 0) await this.#clock.wait(pause);
      if (this.#goal) await this.#app.editor.inTurn(() => this.#goal && this.#make(this.#goal.requests));
    }
    this.#isFollowing = false;
  }

  async #make(requests) {
    const { editor, state } = this.#app, isThere = requests.every(({ id }) => state.tree?.record(id));
    const sent = isThere ? this.#asNow(requests) : [];
    this.#sent = this.#clock.now();
    const done = sent.length ? await editor.make(sent, { isOnWay: true }) : { changes: [], replies: [] };
    this.#way.note(done);
    this.#version = Math.max(this.#version, ...done.replies.map(({ version }) => version));
    this.#made = requests;
    return done;
  }

  // What was moved on the way, and is to lie where it lay, goes back.
  #withBack(requests) {
    const named = new Set(requests.map(({ verb, id }) => `${verb} ${id}`));
    return [...requests, ...this.#begin().filter(({ verb, id }) => !named.has(`${verb} ${id}`))];
  }

  // What others did to the look of a shape meanwhile stays, and what is so already is not sent.
  #asNow(requests) {
    const { tree } = this.#app.state;
    return this.#withBack(requests).flatMap((request) => {
      const { verb, id, pose, shape } = request, record = tree.record(id);
      if (verb === "pose") return textOf(record.pose) === textOf(pose) ? [] : [request];
      const sides = shape.kind === "polygon" ? { points: shape.points } : { w: shape.w, h: shape.h };
      const next = { ...record.shape, ...sides };
      return textOf(record.shape) === textOf(next) ? [] : [{ verb, id, shape: next }];
    });
  }

  // -- what is shown of it --------------------------------------------------------------------------------------------

  #draw() {
    const after = this.#tree.copy();
    this.#goal.requests.forEach((request) => after.make(request));
    const markup = markupOf(after, this.#ids, MOST);
    this.#element = markup && copy("ghost", markup);
  }

  /** Whether the picture shows all of it. */
  get isShown() {
    return this.isOver && (this.#app.picture.versions[0] ?? Infinity) >= this.#version;
  }

  marks() {
    const { view } = this.#app, size = 1 / view.scale, matrix = [size, 0, 0, size, -view.left, -view.top].join(" ");
    const box = this.#goal && corners(this.#goal.box).map((point) => view.toWindow(point));
    return [
      ...(this.#element && !this.isShown ? [{ element: this.#element, transform: `matrix(${matrix})` }] : []),
      ...(box ? [outline("halo", box), outline("mark", box)] : []),
    ];
  }
}
