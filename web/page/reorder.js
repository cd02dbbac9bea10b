// Dragging rows of the layers to another place: by the mouse, or by a finger that rests first.

import { dropAt } from "./order.js";

const SLOP = 4;
/** For how many milliseconds a finger rests. */
const REST = 400;
/** How near to the upper or lower edge the list scrolls, and by how many pixels in a millisecond. */
const EDGE = 14;
const SPEED = 0.3;

export class Reorder {
  #panel;
  #mark;
  #sizes;
  #source;
  #ids = [];
  #begin = null;
  #place = null;
  #timer = 0;
  #frame = 0;
  #last = null;

  isDragging = false;

  /**
   * `sizes` are the first indent of a row and each further one. `source` gives what is there: `tree`, `rows`, their
   * `height`, `isOrdered`, `take(id)`, which selects what is dragged and gives its ids, and `put(place)`.
   */
  constructor(panel, mark, sizes, source) {
    this.#panel = panel;
    this.#mark = mark;
    this.#sizes = sizes;
    this.#source = source;
    panel.addEventListener("pointerdown", (event) => this.#down(event));
    document.addEventListener("pointermove", (event) => this.#moved(event));
    document.addEventListener("pointerup", () => this.#up());
    document.addEventListener("pointercancel", () => this.cancel());
    panel.addEventListener("touchmove", this.#hold, { passive: false });
    panel.addEventListener("contextmenu", (event) => event.preventDefault());
  }

  #down(event) {
    const row = event.target.closest(".row");
    if (!row || event.button !== 0 || event.target.closest(".eye, .twist") || !this.#source.isOrdered) return;
    const { clientX: x, clientY: y, pointerId: pointer, pointerType } = event;
    this.#begin = { id: Number(row.dataset.id), x, y, pointer, isTouch: pointerType === "touch" };
    if (!this.#begin.isTouch) return;
    this.#timer = setTimeout(() => this.#start(event), REST);
    // (the row is drawn anew when it is selected, and what the finger does is still told to the old one)
    event.target.addEventListener("touchmove", this.#hold, { passive: false });
  }

  // A finger that drags does not scroll.
  #hold = (event) => this.isDragging && event.preventDefault();

  #start(event) {
    this.#ids = this.#source.take(this.#begin.id);
    this.isDragging = true;
    // (so the click at the end is the panel's, and chooses no row)
    this.#panel.setPointerCapture(this.#begin.pointer);
    this.#panel.classList.add("dragging");
    this.#last = event;
    this.#roll(performance.now());
  }

  #moved(event) {
    if (!this.#begin) return;
    const isFar = Math.max(Math.abs(event.clientX - this.#begin.x), Math.abs(event.clientY - this.#begin.y)) >= SLOP;
    if (!this.isDragging && this.#begin.isTouch && isFar) this.cancel();
    else if (!this.isDragging && isFar) this.#start(event);
    if (!this.isDragging) return;
    this.#last = event;
    this.show();
  }

  /** Shows where what is dragged would go, among the rows as they are now. */
  show() {
    if (!this.isDragging) return;
    const { left, top } = this.#panel.getBoundingClientRect();
    const { first, indent } = this.#sizes, { tree, rows, height } = this.#source;
    const y = (this.#last.clientY - top + this.#panel.scrollTop) / height, x = this.#last.clientX - left;
    this.#ids = this.#ids.filter((id) => tree.record(id));
    if (!this.#ids.length) return this.cancel();
    this.#place = dropAt(tree, rows, y, Math.max(1, Math.floor((x - first) / indent) + 1), this.#ids);
    return this.#draw();
  }

  #draw() {
    const place = this.#place, mark = this.#mark, { first, indent } = this.#sizes, { height } = this.#source;
    mark.hidden = !place;
    if (!place) return;
    const isInto = place.into !== undefined;
    mark.className = isInto ? "into" : "";
    mark.style.top = `${(isInto ? place.into : place.line) * height}px`;
    mark.style.left = isInto ? "0" : `${first + (place.depth - 1) * indent}px`;
  }

  // Scrolls while the pointer is near the upper or lower edge.
  #roll(time) {
    if (!this.isDragging) return;
    const { top, bottom } = this.#panel.getBoundingClientRect(), y = this.#last.clientY;
    const way = y < top + EDGE ? -1 : y > bottom - EDGE ? 1 : 0;
    this.#frame = requestAnimationFrame((now) => {
      this.#panel.scrollTop += way * SPEED * (now - time);
      if (way) this.show();
      this.#roll(now);
    });
  }

  #up() {
    const place = this.isDragging ? this.#place : null;
    this.cancel();
    if (place) this.#source.put(place);
  }

  /** Gives up; tells whether anything was dragged. */
  cancel() {
    const had = this.isDragging;
    clearTimeout(this.#timer);
    cancelAnimationFrame(this.#frame);
    this.#begin = this.#place = null;
    this.isDragging = false;
    this.#mark.hidden = true;
    this.#panel.classList.remove("dragging");
    return had;
  }
}
