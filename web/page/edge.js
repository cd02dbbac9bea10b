// Scrolling while something is dragged at the edge of the stage, or beyond it.

/** How near to an edge, for how many milliseconds at first, and how many pixels in a millisecond so far beyond it. */
const NEAR = 12;
const REST = 200;
const FASTEST = 1;
const FAR = 100;

/** How fast a place of the window scrolls a view along a side of so many pixels: negative at its beginning. */
function speedAt(place, side) {
  const deep = place < NEAR ? place - NEAR : Math.max(0, place - (side - NEAR));
  return Math.sign(deep) * Math.min(1, Math.abs(deep) / FAR) * FASTEST;
}

export class Edge {
  #app;
  #goOn;
  #place = null;
  #frame = 0;

  /** `goOn` is called when the view was moved, so that what is dragged is dragged on. */
  constructor(app, goOn) {
    this.#app = app;
    this.#goOn = goOn;
  }

  /** Takes where something is dragged in the window. */
  at(place) {
    this.#place = place;
    if (!this.#frame && this.#speeds.some(Boolean)) this.#roll(performance.now() + REST);
  }

  /** Nothing is dragged any more. */
  stop() {
    cancelAnimationFrame(this.#frame);
    this.#frame = 0;
    this.#place = null;
  }

  get #speeds() {
    const { view } = this.#app;
    return this.#place === null ? [0, 0] : [speedAt(this.#place[0], view.width), speedAt(this.#place[1], view.height)];
  }

  #roll(last) {
    this.#frame = requestAnimationFrame((now) => {
      this.#frame = 0;
      const speeds = this.#speeds, time = now - last;
      if (!speeds.some(Boolean)) return;
      if (time > 0) this.#app.pan(...speeds.map((speed) => speed * time));
      if (time > 0) this.#goOn();
      this.#roll(Math.max(last, now));
    });
  }
}
