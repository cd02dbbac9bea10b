// The grid, of 8 pixels of the page each way. While it is on, what is drawn, moved or resized lies on it, unless Alt is
// held.

import { keep, kept } from "./settings.js";

const STEP = 8;
/** The level from which on its lines are shown. */
const SHOWN = -1;

const nearest = (value) => Math.round(value / STEP) * STEP + 0;

/** A part of a way, so much longer or shorter that it ends on the grid; none stays none. */
const onGrid = (from, by) => (by === 0 ? 0 : nearest(from + by) - from);

export class Grid {
  isOn = kept("grid", false) === true;

  toggle() {
    this.isOn = !this.isOn;
    keep("grid", this.isOn);
  }

  /** How far its lines are apart for what is done now: a pixel where it is off, or let go by Alt. */
  stepFor({ isAlt = false } = {}) {
    return this.isOn && !isAlt ? STEP : 1;
  }

  /** The point of the grid next to a point of the page. */
  snap(point, keys) {
    return this.stepFor(keys) > 1 ? point.map(nearest) : point;
  }

  /** A way by which a box is moved, so that its left and upper edge lie on the grid. */
  moved(box, [across, down], keys) {
    if (!box || this.stepFor(keys) === 1) return [across, down];
    return [onGrid(box.left, across), onGrid(box.top, down)];
  }

  /**
   * A way by which edges of a box are moved, left and top as -1, right and bottom as 1, so that they lie on the grid.
   */
  pulled(box, [across, down], [dx, dy], keys) {
    if (this.stepFor(keys) === 1) return [dx, dy];
    return [onGrid(across < 0 ? box.left : box.right, dx), onGrid(down < 0 ? box.top : box.bottom, dy)];
  }

  /** Where its lines lie in a view: how far apart, and the first ones; null where they are not shown. */
  lines(view) {
    if (!this.isOn || view.level > SHOWN) return null;
    const side = STEP / view.scale, first = (from) => ((-from % side) + side) % side;
    return { side, left: first(view.left), top: first(view.top) };
  }

  show(element, view) {
    const found = this.lines(view);
    element.hidden = !found;
    if (!found) return;
    element.style.backgroundSize = `${found.side}px ${found.side}px`;
    element.style.backgroundPosition = `${found.left}px ${found.top}px`;
  }
}
