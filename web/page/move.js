// The tool that moves single shapes.

import { Drag } from "./drag.js";
import { Ghost } from "./ghost.js";
import { Tool } from "./tools.js";

/** Drags the shape that is pressed, however deep it lies. */
export class Move extends Tool {
  hint = "Drag any single shape to move it, however deep it lies. Arrow keys move what is selected, "
    + "with Shift ten times as far.";
  #move = null;

  press(at) {
    const { state } = this, id = state.tree?.at(at.page) ?? null;
    // What lies in what is selected moves with it.
    const isInside = id !== null && state.tree.line(id).some((record) => state.selection.includes(record.id));
    if (!isInside) this.app.editor.select(id);
    this.begin = state.selected === null ? null : at.page;
    this.touched = state.selection;
    this.from = state.box;
    this.by = [0, 0];
    this.#move = new Drag(this.app.editor, state.selection);
    this.app.ghost = null;
  }

  drag(at, keys) {
    if (!this.begin) return;
    this.by = this.grid.moved(this.from, [at.page[0] - this.begin[0], at.page[1] - this.begin[1]], keys);
    this.app.ghost ??= new Ghost(this.app, this.touched, this.#move);
    this.app.ghost.go(this.by);
    this.#move.to(this.by);
    this.point = at.page;
    this.home = this.app.editor.homeAt(this.point, this.touched);
    this.app.ghost.isLeaving = this.home !== undefined;
  }

  release() {
    const { editor } = this.app, { touched, point } = this, hasMoved = this.app.ghost !== null;
    const carried = hasMoved ? (tree) => editor.carriedHome(tree, touched, point) : undefined;
    const made = this.begin && this.#move.end(this.by, carried);
    if (made) this.app.ghost?.end(made);
    this.begin = null;
  }

  drop() {
    if (this.begin) this.#move.end([0, 0]);
    if (this.begin) this.app.ghost = null;
    return super.drop();
  }

  marks() {
    return this.begin && this.app.ghost ? this.intoMark(this.home ?? null) : [];
  }

  lost() {
    const isLost = this.begin && this.touched.some((id) => !this.state.tree?.record(id));
    if (isLost) this.#move.end(this.#move.made);
    if (isLost) this.begin = this.app.ghost = null;
    return Boolean(isLost);
  }
}
