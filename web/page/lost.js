// Where the drawing is, when the view shows nothing of it: a button that tells the way, and shows all.

import { part } from "./elements.js";

const PAUSE = 200;

const meets = (a, b) => a.left < b.right && a.right > b.left && a.top < b.bottom && a.bottom > b.top;
const middleOf = ({ left, top, right, bottom }) => [(left + right) / 2, (top + bottom) / 2];

/**
 * The way from the middle of a view to the nearest shape that shows anything, where none is in the view; null where one
 * is, or where there is none.
 */
export function wayBack(tree, seen) {
  const [x, y] = middleOf(seen);
  let nearest = Infinity, way = null;
  for (const { id, hidden } of tree.children(null)) {
    const box = hidden ? null : tree.boxOf(id);
    if (!box) continue;
    if (meets(box, seen)) return null;
    const [x2, y2] = middleOf(box), far = Math.hypot(x2 - x, y2 - y);
    if (far < nearest) [nearest, way] = [far, [x2 - x, y2 - y]];
  }
  return way;
}

export class Lost {
  #app;
  #timer = 0;

  constructor(app) {
    this.#app = app;
    app.state.addEventListener("tree", () => this.look());
  }

  /** Looks, as soon as the view and the tree have been still for a moment. */
  look() {
    clearTimeout(this.#timer);
    this.#timer = setTimeout(() => this.#show(), PAUSE);
  }

  #show() {
    const { tree } = this.#app.state, way = tree && wayBack(tree, this.#app.view.box);
    part("lost").hidden = !way;
    if (way) part("lost").querySelector("svg").style.transform = `rotate(${Math.atan2(way[1], way[0])}rad)`;
  }
}
