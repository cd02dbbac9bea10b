// The part of the page that is looked at: a level from -3 (nearest) to 6, and where its window lies. Pixel (i, j) of
// the window shows page pixel ((left + i) * 2^level, (top + j) * 2^level). Of the server's levels, 0 to 6, the next one
// is shown in its place: nearer than level 0 each pixel of the page is a square, and between two levels the picture of
// one is scaled.

export const NEAREST = -3;
export const FURTHEST = 6;
export const TILE = 256;
const EDGE = 2 ** 21;
/** By how much of a level a view may be further than it has to. */
const EMPTY = 0.6;

export class View {
  level = 0;
  left = -40;
  top = -40;
  width = 1;
  height = 1;

  /** How many pixels of the page, each way, a pixel here stands for. */
  get scale() {
    return 2 ** this.level;
  }

  /** The level of which tiles are shown. */
  get tileLevel() {
    return Math.min(FURTHEST, Math.max(0, Math.round(this.level)));
  }

  /** How long a side of a tile is here. */
  get tileSide() {
    return TILE * 2 ** (this.tileLevel - this.level);
  }

  /** The scale in words: `1:4`, or `4:1` where a pixel of the page is larger than one here. */
  get words() {
    const rounded = (value) => Number(value.toFixed(value < 10 ? 1 : 0));
    return this.level >= 0 ? `1:${rounded(this.scale)}` : `${rounded(1 / this.scale)}:1`;
  }

  /** The page pixel that a pixel of the window shows. */
  toPage([i, j]) {
    return [Math.floor((this.left + Math.floor(i)) * this.scale), Math.floor((this.top + Math.floor(j)) * this.scale)];
  }

  /** Where a point of the page lies in the window. */
  toWindow([x, y]) {
    return [x / this.scale - this.left, y / this.scale - this.top];
  }

  resize(width, height) {
    this.width = Math.max(1, Math.round(width));
    this.height = Math.max(1, Math.round(height));
    this.#stay();
  }

  panBy(across, down) {
    this.left += Math.round(across);
    this.top += Math.round(down);
    this.#stay();
  }

  /** Goes to another level; the page point at (i, j) of the window, or another one that is given, is there then. */
  zoomTo(level, i = this.width / 2, j = this.height / 2, [x, y] = this.pointAt([i, j])) {
    this.level = Math.min(FURTHEST, Math.max(NEAREST, level));
    this.left = Math.round(x / this.scale - i);
    this.top = Math.round(y / this.scale - j);
    this.#stay();
  }

  /** The point of the page, in no whole pixels, at a point of the window. */
  pointAt([i, j]) {
    return [(this.left + i) * this.scale, (this.top + j) * this.scale];
  }

  /** The next whole level, nearer by -1 or further by 1. */
  levelBeside(by) {
    return by < 0 ? Math.ceil(this.level) - 1 : Math.floor(this.level) + 1;
  }

  /** The part of the page that is seen. */
  get box() {
    const { left, top, width, height, scale } = this;
    return { left: left * scale, top: top * scale, right: (left + width) * scale, bottom: (top + height) * scale };
  }

  /** Shows a whole box, as near as it goes: at a whole level, unless a good part of the window would be empty there. */
  fit(box, nearest = NEAREST, margin = 24) {
    const needed = (side, room) => Math.log2(side / Math.max(1, room - 2 * margin));
    const across = needed(box.right - box.left, this.width), down = needed(box.bottom - box.top, this.height);
    const exact = Math.max(across, down, nearest), whole = Math.ceil(exact);
    this.level = Math.min(FURTHEST, whole - exact > EMPTY ? exact : whole);
    this.centre((box.left + box.right) / 2, (box.top + box.bottom) / 2);
  }

  /** Puts a point of the page into the middle. */
  centre(x, y) {
    this.left = Math.round(x / this.scale - this.width / 2);
    this.top = Math.round(y / this.scale - this.height / 2);
    this.#stay();
  }

  /** The tiles that the window meets and that lie on the page. */
  tiles() {
    const level = this.tileLevel, side = this.tileSide, most = EDGE / TILE / 2 ** level;
    const least = (from) => Math.max(-most, Math.floor(from / side));
    const within = (from, to) => [least(from), Math.min(most - 1, Math.floor((to - 1) / side))];
    const [first, last] = within(this.left, this.left + this.width);
    const [upper, lower] = within(this.top, this.top + this.height);
    const found = [];
    for (let row = upper; row <= lower; row++) {
      for (let col = first; col <= last; col++) found.push({ level, col, row });
    }
    return found;
  }

  // The middle of the window stays on the page.
  #stay() {
    const reach = EDGE / this.scale;
    const kept = (from, side) => Math.min(reach, Math.max(-reach, from + Math.round(side / 2))) - Math.round(side / 2);
    this.left = kept(this.left, this.width);
    this.top = kept(this.top, this.height);
  }
}
