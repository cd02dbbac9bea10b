// What others have selected, shown in their colours; and going along with what one of them looks at.

import { outline } from "./overlay.js";

const PAUSE = 100;
/** Of how many selected shapes the others are told, and how many outlines are drawn of all of theirs. */
const MOST_TOLD = 50;
const MOST = 200;

export class Company {
  #app;
  #told = "";
  #seen = "";
  #timer = 0;
  /** The number of whose view is followed, or null; and whether the view is moved for that. */
  #leader = null;
  #isLed = false;

  constructor(app) {
    this.#app = app;
    app.state.addEventListener("selected", () => this.#tellSoon());
    app.link.addEventListener("here", () => { this.#told = ""; this.#tellSoon(); });
  }

  /** Takes note that the view was moved: where that was done here, nobody is followed any more. */
  moved() {
    if (!this.#isLed) this.leave();
    this.#tellSoon();
  }

  // Tells the others what is selected and looked at here, after a moment.
  #tellSoon() {
    this.#timer ||= setTimeout(() => this.#tell(), PAUSE);
  }

  #tell() {
    const { state, view, link, past } = this.#app;
    const [x, y] = view.pointAt([view.width / 2, view.height / 2]).map(Math.round);
    const selection = past.isOn ? [] : state.selection.slice(0, MOST_TOLD);
    const told = { selection, view: [x, y, Number(view.level.toFixed(2))] }, text = JSON.stringify(told);
    this.#timer = 0;
    if (text !== this.#told) link.tell(told);
    this.#told = text;
  }

  // -- going along ----------------------------------------------------------------------------------------------------

  /** Whether one of the others is followed. */
  isFollowing(id) {
    return this.#leader === id;
  }

  /** Shows what another one looks at, from now on, or no longer. */
  follow(person) {
    if (this.#leader === person.id) return this.leave();
    this.#leader = person.id;
    this.#app.notes.say(`You see what ${person.name} looks at. Esc, or moving the view yourself, ends that.`);
    return this.lead([person]);
  }

  /** Follows no longer; tells whether anybody was followed. */
  leave() {
    const had = this.#leader !== null;
    this.#leader = null;
    if (had) this.#app.people.list();
    return had;
  }

  /** Goes to where the one who is followed looks. */
  lead(people) {
    const { view } = this.#app, found = people.find(({ id }) => id === this.#leader);
    if (!found?.view) return;
    const [x, y, level] = found.view;
    this.#isLed = true;
    view.zoomTo(level);
    view.centre(x, y);
    this.#app.look();
    this.#isLed = false;
    this.#app.people.list();
  }

  /** Draws anew, where others have selected something else. */
  see(others) {
    const text = JSON.stringify(others.map(({ selection, colour }) => [selection, colour]));
    if (text !== this.#seen) this.#app.stage.draw();
    this.#seen = text;
  }

  // -- what they have selected ----------------------------------------------------------------------------------------

  marks() {
    const { view, people, past } = this.#app, theirs = past.isOn ? [] : people.others;
    const selected = theirs.flatMap(({ selection = [], colour }) => selection.map((id) => ({ colour, id })));
    return selected.slice(0, MOST).flatMap(({ colour, id }) => {
      const points = this.#app.outlineOf(id)?.map((point) => view.toWindow(point));
      return points ? [{ ...outline("theirs", points), stroke: `#${colour}` }] : [];
    });
  }
}
