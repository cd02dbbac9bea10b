// The names of shapes, which all tabs of a document share by the gateway.

import { keptNames, naming, takeNames } from "./names.js";

/** How many names are told at once. */
const MOST = 500;

export class Naming {
  #app;
  #known = null;

  constructor(app) {
    this.#app = app;
    app.link.addEventListener("names", (/** @type {any} */ { detail }) => this.#take(detail));
    app.state.addEventListener("tree", () => this.#tellKept());
    naming.addEventListener("names", (/** @type {any} */ { detail }) => this.#tell(detail));
  }

  #tell(names) {
    for (let k = 0; k < names.length; k += MOST) this.#app.link.tell({ names: names.slice(k, k + MOST) });
  }

  // What the gateway tells counts more than what this browser keeps, of which it is told what it does not know.
  #take({ names, all }) {
    takeNames(names);
    if (all) this.#known = new Set(names.map(([id]) => id));
    this.#app.showNames();
    this.#tellKept();
  }

  #tellKept() {
    const { tree } = this.#app.state;
    if (!this.#known || !tree || this.#app.past.isOn) return;
    this.#tell(keptNames(tree, this.#known));
    this.#known = null;
  }
}
