// Who else looks at the document: their names, and where their pointers are. All of it goes through the gateway; the
// document knows nothing of it.

import { part } from "./elements.js";
import { keep, kept } from "./settings.js";

const PAUSE = 50;
const IDLE = 4000;
const GONE = 60_000;
const ARROW = '<svg viewBox="0 0 20 20" aria-hidden="true"><path d="M3 2l13 7-5.6 1.6L8 17z"/></svg>';

/** The mark of a pointer: an arrow with a name. */
function markOf({ name, colour }) {
  const mark = document.createElement("div"), label = document.createElement("span");
  mark.className = "person";
  mark.style.setProperty("--own", `#${colour}`);
  mark.innerHTML = ARROW;
  label.textContent = name;
  mark.append(label);
  return mark;
}

/** A name with its colour, for the list. It is pressed to see what they see. */
function chipOf({ name, colour, isFollowed, follow }) {
  const chip = document.createElement("li"), button = document.createElement("button");
  chip.style.setProperty("--own", `#${colour}`);
  button.textContent = name;
  button.title = `See what ${name} looks at`;
  button.setAttribute("aria-pressed", isFollowed);
  button.addEventListener("click", follow);
  chip.append(button);
  return chip;
}

export class People {
  #app;
  #them = new Map();
  #own = null;
  #me = { name: kept("own-name", ""), colour: null };
  #sent = -Infinity;
  #next = 0;
  #timer = 0;
  #listed = "";
  #layer = part("people");
  #input = part("own-name");
  #switch = part("bots");

  constructor(app) {
    this.#app = app;
    app.link.addEventListener("people", ({ detail }) => this.#take(detail));
    this.#input.value = this.#me.name;
    this.#input.addEventListener("change", () => this.#rename());
    this.#input.addEventListener("keydown", (event) => event.key === "Enter" && this.#input.blur());
    this.#switch.addEventListener("click", () => app.link.tell({ bots: !this.#bots.some(({ bot }) => bot) }));
  }

  /** Those who are here, but for oneself. */
  get others() {
    return [...this.#them.values()].filter(({ id }) => id !== this.#own);
  }

  get #bots() {
    return this.others.filter(({ bot }) => bot !== undefined);
  }

  #rename() {
    this.#me.name = this.#input.value.trim().replace(/\s+/g, " ");
    keep("own-name", this.#me.name);
    this.#app.link.tell({ me: { name: this.#me.name || `Guest ${this.#own}` } });
  }

  /** Tells where the own pointer is on the page, or null where it is away: the last place always, and not too often. */
  point(place) {
    clearTimeout(this.#next);
    const pause = this.#sent + PAUSE - performance.now();
    const tell = () => {
      this.#sent = performance.now();
      this.#app.link.tell({ pointer: place });
    };
    if (pause <= 0) tell();
    else this.#next = setTimeout(tell, pause);
  }

  #take({ people, gone, you, all }) {
    if (all) this.#forget([...this.#them.keys()].filter((id) => !people.some((person) => person.id === id)));
    this.#forget(gone);
    for (const person of people) this.#put(person);
    if (you !== undefined) this.#begin(you);
    this.#app.company.lead(people);
    this.#app.company.see(this.others);
    this.list();
    part("people-count").textContent = this.#them.size || "";
    this.#switch.hidden = !this.#bots.length;
    this.#switch.textContent = this.#bots.some(({ bot }) => bot) ? "Stop the bots" : "Let the bots draw";
    this.show();
  }

  /** Lists the others, where that has changed. */
  list() {
    const { company } = this.#app;
    const found = this.others.map((person) => ({ ...person, isFollowed: company.isFollowing(person.id) }));
    const text = JSON.stringify(found.map(({ id, name, colour, isFollowed }) => [id, name, colour, isFollowed]));
    if (text === this.#listed) return;
    this.#listed = text;
    const follow = ({ id }) => () => company.follow(this.#them.get(id));
    part("people-list").replaceChildren(...found.map((person) => chipOf({ ...person, follow: follow(person) })));
  }

  // With each connection the gateway gives a number, and has to be told the name again.
  #begin(you) {
    this.#own = you;
    const { colour, name } = this.#them.get(you);
    this.#me.colour ??= colour;
    this.#input.placeholder = name;
    this.#app.link.tell({ me: this.#me });
  }

  #forget(ids) {
    for (const id of ids) {
      this.#them.get(id)?.mark.remove();
      this.#them.delete(id);
    }
  }

  #put(person) {
    const before = this.#them.get(person.id), isSame = before?.name === person.name && before.colour === person.colour;
    const isStill = isSame && String(before.at) === String(person.at);
    if (!isSame) before?.mark.remove();
    const mark = isSame ? before.mark : markOf(person), time = isStill ? before.time : performance.now();
    this.#them.set(person.id, { ...person, mark, time });
    if (!isSame) this.#layer.append(mark);
  }

  /** Shows the pointers of the others where they are in the view; idle ones fade, and go after a while. */
  show() {
    const { view } = this.#app, now = performance.now();
    for (const { id, at, mark, time } of this.#them.values()) {
      mark.hidden = at === null || id === this.#own || now - time > GONE;
      mark.classList.toggle("idle", now - time > IDLE);
      if (at === null) continue;
      const [x, y] = view.toWindow(at);
      mark.style.transform = `translate(${x}px, ${y}px)`;
    }
    clearTimeout(this.#timer);
    if (this.others.some(({ at }) => at !== null)) this.#timer = setTimeout(() => this.show(), 1000);
  }
}
