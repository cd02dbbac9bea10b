// The steps of this tab, which the browser keeps as long as the tab is there: over a reload of the page, and where the
// gateway is started anew. They are of one history, of which the last edit that was known is kept with them.

const PAUSE = 300;
const MOST = 500;
/** How few steps are worth to be kept. */
const FEW = 4;

const NAME = `canvas.history.${location.pathname}`;

function read() {
  try {
    const found = JSON.parse(sessionStorage.getItem(NAME));
    return found?.steps && typeof found.history === "string" ? found : null;
  } catch {
    return null;
  }
}

export class TabMemory {
  #state;
  #journal;
  #found = read();
  #timer = 0;

  constructor(state, journal) {
    this.#state = state;
    this.#journal = journal;
    state.addEventListener("history", () => this.#saveSoon());
    window.addEventListener("pagehide", () => this.#save());
  }

  /** The end of the history of the steps that are kept, or null. */
  get known() {
    return this.#found;
  }

  /** Takes the steps that are kept, once, if they are of the history that is there. */
  take(isKnown) {
    const found = this.#found;
    this.#found = null;
    if (!found || !isKnown) return;
    this.#state.history.load(found.steps);
    this.#state.dispatchEvent(new Event("history"));
  }

  #saveSoon() {
    clearTimeout(this.#timer);
    this.#timer = setTimeout(() => this.#save(), PAUSE);
  }

  // (where there is no room for all steps, the last ones are kept)
  #save() {
    clearTimeout(this.#timer);
    const { history, end, mark, isLive } = this.#journal;
    if (!isLive) return;
    for (let most = MOST; most >= FEW; most = Math.floor(most / 2)) {
      try {
        sessionStorage.setItem(NAME, JSON.stringify({ history, end, mark, steps: this.#state.history.saved(most) }));
        return;
      } catch {
        sessionStorage.removeItem(NAME);
      }
    }
  }
}
