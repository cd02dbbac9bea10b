// What dragged shapes look like on their way: above the picture, until that shows them where they are.

import { copy, outline } from "./overlay.js";
import { markupOf } from "./svg.js";

const MOST = 1500;
const MOST_OUTLINES = 120;

export class Ghost {
  #app;
  #drag;
  #element;
  #outlines;
  #by = [0, 0];
  #version = 0;

  /** Whether the drag is over, and all of it made. */
  isOver = false;
  /**
   * Whether the shapes are on their way out of what they lie in, or into something: that may cut them off until the
   * drag is over.
   */
  isLeaving = false;

  /** Shapes that `drag` moves, or copies of them where that is null. */
  constructor(app, ids, drag = null) {
    const { tree } = app.state, markup = markupOf(tree, ids, MOST);
    this.#app = app;
    this.#drag = drag;
    this.#element = markup && copy("ghost", markup);
    this.#outlines = ids.slice(0, MOST_OUTLINES).map((id) => app.outlineOf(id)).filter(Boolean);
  }

  /** Goes on to a place, so far from the first one. */
  go(by) {
    this.#by = by;
  }

  /** Stays there until what is being made is shown. */
  async end(made) {
    const done = await made;
    if (this.#drag) this.#by = this.#drag.made;
    this.#version = this.#drag?.version ?? Math.max(0, ...(done?.replies ?? []).map(({ version }) => version));
    this.isOver = true;
    this.#app.stage.draw();
  }

  /** Whether the picture shows all of it in its place. */
  get isShown() {
    if (this.isLeaving && !this.isOver) return false;
    const { made, version } = this.isOver ? { made: this.#by, version: this.#version } : this.#drag ?? { made: [] };
    return made[0] === this.#by[0] && made[1] === this.#by[1] && (this.#app.picture.versions[0] ?? Infinity) >= version;
  }

  marks() {
    const { view } = this.#app, size = 1 / view.scale, [across, down] = this.#by;
    const matrix = [size, 0, 0, size, across * size - view.left, down * size - view.top].join(" ");
    const moved = (points) => points.map(([x, y]) => view.toWindow([x + across, y + down]));
    const both = (points) => [outline("halo", points), outline("mark", points)];
    return [
      ...(this.#element && !this.isShown ? [{ element: this.#element, transform: `matrix(${matrix})` }] : []),
      ...(this.isOver ? [] : this.#outlines.map(moved).flatMap(both)),
    ];
  }
}
