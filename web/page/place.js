// The view in the page's address, as #x,y,level of the middle, and @version where the past is shown: so that a reload,
// or a friend, sees the same.

/** A view as a text, of a version or of now. */
export function textOf(view, version = null) {
  const [x, y] = view.pointAt([view.width / 2, view.height / 2]);
  return `#${Math.round(x)},${Math.round(y)},${Number(view.level.toFixed(2))}${version === null ? "" : `@${version}`}`;
}

/** The middle, the level and the version that a text names, or null. */
export function placeIn(text) {
  const found = /^#(-?\d+),(-?\d+),(-?\d+(?:\.\d+)?)(?:@(\d+))?$/.exec(text);
  if (found === null) return null;
  const [x, y, level] = found.slice(1, 4).map(Number);
  return { middle: [x, y], level, version: found[4] === undefined ? null : Number(found[4]) };
}

const PAUSE = 400;

export class Place {
  #app;
  #timer = 0;

  constructor(app) {
    this.#app = app;
    window.addEventListener("hashchange", () => this.go());
  }

  /** Looks at the part that the address names; tells whether it names one. */
  go() {
    const found = placeIn(location.hash), { view } = this.#app;
    if (!found) return false;
    view.zoomTo(found.level);
    view.centre(...found.middle);
    this.#app.look();
    this.#goTo(found.version);
    return true;
  }

  #goTo(version) {
    const { past } = this.#app;
    if (version === null) past.leave();
    else if (past.isOn) past.go(version);
    else past.enter(version);
  }

  /** Writes the view into the address, when it has been still for a moment. */
  note() {
    clearTimeout(this.#timer);
    const tell = () => history.replaceState(null, "", textOf(this.#app.view, this.#app.past.version));
    this.#timer = setTimeout(tell, PAUSE);
  }
}
