// @ts-check
// One's own strokes, to take back. Each has what its cells were and became, and the stamps that it drew with.
// To take a stroke back draws what its cells were, of those cells alone that still carry one of its stamps.
import { stampWord } from "./drawings.js";
import { tidy } from "./patterns.js";

/** @typedef {import("./patterns.js").Cell} Cell */
/** @typedef {import("./plane.js").Plane} Plane */
/** @typedef {{ x: number, y: number, before: number, after: number }} Change */
/** @typedef {{ changes: Map<string, Change>, stamps: Set<string> }} Stroke */

const MOST = 500;

export class Strokes {
  constructor() {
    /** @type {Stroke[]} */
    this.done = [];
    /** @type {Stroke[]} */
    this.undone = [];
  }

  /** A new stroke; what was taken back cannot be drawn again from here on. */
  begin() {
    /** @type {Stroke} */
    const stroke = { changes: new Map(), stamps: new Set() };
    this.done.push(stroke);
    this.undone = [];
    if (this.done.length > MOST) this.done.shift();
    return stroke;
  }

  /** A stroke that drew nothing is none.
   * @param {Stroke} stroke */
  drop(stroke) {
    if (this.done[this.done.length - 1] === stroke) this.done.pop();
  }

  /** Notes what a cell becomes; what it was is what it was at first.
   * @param {Stroke} stroke @param {number} x @param {number} y @param {number} before @param {number} after */
  static note(stroke, x, y, before, after) {
    const key = `${x},${y}`, old = stroke.changes.get(key);
    stroke.changes.set(key, { x, y, before: old ? old.before : before, after });
  }

  /** The cells that take back the last stroke, and the stroke that notes their stamps; or null.
   * @param {Plane} plane */
  undo(plane) { return take(plane, this.done, this.undone, "before"); }

  /** The cells that draw again what was taken back last; or null.
   * @param {Plane} plane */
  redo(plane) { return take(plane, this.undone, this.done, "after"); }
}

/** @param {Plane} plane @param {Stroke[]} from @param {Stroke[]} to @param {"before" | "after"} which */
function take(plane, from, to, which) {
  const stroke = from.pop();
  if (!stroke) return null;
  /** @type {Cell[]} */
  const list = [];
  for (const change of stroke.changes.values()) {
    const w = plane.at(change.x, change.y);
    if (stroke.stamps.has(stampWord(w.c, w.r))) list.push([change.x, change.y, change[which]]);
  }
  /** @type {Stroke} */
  const again = { changes: stroke.changes, stamps: new Set() };
  to.push(again);
  return { cells: tidy(list), stroke: again };
}
