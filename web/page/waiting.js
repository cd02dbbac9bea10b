// Edits while the server is away: they wait, and are made when it is back with the same history. Where there is no feed
// the page can't know that, and each edit is refused at once.

const PATIENCE = 5000;
const NOT_DONE = "What waited for the server was not done: another document is there now, or an older one.";

/**
 * Whether a history may go on where another one was followed up to an end of which no edit is known, as far as their
 * names tell: each begins with the generation. Where an edit is known, the gateway has compared it.
 */
export function mayGoOn(before, { live, version }) {
  const generation = (name) => name?.split("-")[0];
  const isSame = before.history !== null && live !== null && generation(live) === generation(before.history);
  return !before.mark && isSame && version >= before.end;
}

export class Waiting {
  #app;
  #before = null;
  #come = null;
  #waiting = null;

  constructor(app) {
    this.#app = app;
    app.editor.ready = () => this.#ready();
    app.link.addEventListener("away", () => this.#away());
    app.link.addEventListener("here", ({ detail }) => this.#here(detail));
    window.addEventListener("beforeunload", (event) => this.isOn && event.preventDefault());
  }

  /** Whether anything waits for the server. */
  get isOn() {
    return this.#waiting !== null;
  }

  #away() {
    const { journal } = this.#app;
    if (journal.isLive) this.#before ??= { history: journal.history, end: journal.end, mark: journal.mark };
  }

  // True, or a promise of whether what waits is to be made.
  #ready() {
    if (this.#app.link.isHere || !this.#before) return true;
    this.#waiting ??= new Promise((come) => { this.#come = come; });
    this.#app.files.show();
    return this.#waiting;
  }

  async #here(detail) {
    const before = this.#before, come = this.#come;
    this.#before = null;
    if (!come) return;
    this.#waiting = this.#come = null;
    // (the page takes note of who is there first)
    await null;
    const isKnown = detail.goesOn || detail.isSame || detail.isNext || mayGoOn(before, detail);
    if (isKnown) await this.#shown(detail.version);
    else setTimeout(() => this.#app.notes.tell(NOT_DONE));
    come(isKnown);
  }

  // Until the page knows what others did meanwhile.
  #shown(version) {
    const { state } = this.#app, isShown = () => state.tree?.version >= version;
    return new Promise((done) => {
      const timer = setTimeout(() => end(), PATIENCE);
      const end = () => {
        clearTimeout(timer);
        state.removeEventListener("tree", look);
        done();
      };
      const look = () => isShown() && end();
      state.addEventListener("tree", look);
      look();
    });
  }
}
