// @ts-check
// What is done to a board: strokes, pastes, areas, turns, and taking them back.
import { HALF, clipped, inPlane } from "./formats.js";
import { sorted, tidy, triples } from "./patterns.js";
import { writeRLE } from "./rle.js";
import { Strokes } from "./undo.js";

/** @typedef {import("./board.js").Board} Board */
/** @typedef {import("./formats.js").Box} Box */
/** @typedef {import("./patterns.js").Cell} Cell */
/** @typedef {import("./patterns.js").Held} Held */
/** @typedef {import("./undo.js").Stroke} Stroke */
/** @typedef {"or" | "copy"} Mode */

/** The words for what cannot be drawn. */
export const OUTSIDE = "It leaves the plane.";
export const NO_STATE = "The rule has no such state.";

/** How long a stroke gathers cells before it goes out, in milliseconds. */
const PIECE = 30;

export class Editor {
  /** @param {Board} board */
  constructor(board) {
    this.board = board;
    this.strokes = new Strokes();
    /** @type {{ stroke: Stroke, cells: Cell[], due: number, isSent: boolean } | null} */
    this.open = null;
    /** @type {Held | null} what was cut or copied last */
    this.clip = null;
  }

  // -- a stroke by mouse or finger, which goes out in pieces, so that others see it grow

  /** @param {number} due from when on it may go out */
  begin(due) { this.open = { stroke: this.strokes.begin(), cells: [], due, isSent: false }; }

  /** A straight run of cells.
   * @param {number[]} from @param {number[]} to @param {number} s */
  line(from, to, s) {
    const n = Math.max(Math.abs(to[0] - from[0]), Math.abs(to[1] - from[1]), 1);
    for (let i = 0; i <= n; i++) {
      this.dab(Math.round(from[0] + (to[0] - from[0]) * i / n), Math.round(from[1] + (to[1] - from[1]) * i / n), s);
    }
  }

  /** @param {number} x @param {number} y @param {number} s */
  dab(x, y, s) {
    if (!this.open || !inPlane(x, y)) return;
    const { stroke, cells } = this.open, old = this.board.plane.state(x, y);
    if (old === s && !cells.some(c => c[0] === x && c[1] === y)) return;
    Strokes.note(stroke, x, y, old, s);
    cells.push([x, y, s]);
  }

  /** Sends what was gathered.
   * @param {number} now */
  send(now) {
    const { open } = this;
    if (!open || open.cells.length === 0 || now < open.due) return;
    const cells = tidy(open.cells);
    open.cells = [];
    open.isSent = true;
    open.due = now + PIECE;
    this.board.draw(cells, null, open.stroke.stamps);
  }

  /** The stroke ends; one that drew nothing is none. */
  end() {
    const { open } = this;
    if (!open) return;
    this.send(Infinity);
    if (!open.isSent) this.strokes.drop(open.stroke);
    this.open = null;
  }

  /** The stroke becomes another gesture: what is not sent yet is dropped. */
  giveUp() {
    if (this.open) this.open.cells = [];
    this.end();
  }

  // -- whole drawings

  /** @param {Cell[]} list @param {Box | null} [area] */
  put(list, area = null) {
    if (list.length === 0 && !area) return;
    const { plane } = this.board, stroke = this.strokes.begin();
    if (area) for (const [x, y, s] of triples(plane.cells(area))) Strokes.note(stroke, x, y, s, 0);
    for (const [x, y, s] of list) Strokes.note(stroke, x, y, plane.state(x, y), s);
    this.board.draw(tidy(list), area, stroke.stamps);
  }

  /** Puts a pattern down; what is wrong is told.
   * @param {Held} held @param {number} x @param {number} y @param {Mode} mode */
  land(held, x, y, mode) {
    const list = triples(held.cells).map(([u, v, s]) => /** @type {Cell} */ ([u + x, v + y, s]));
    if (list.some(([, , s]) => s >= this.board.rule.states)) return NO_STATE;
    const box = mode === "copy" && held.w > 0 && held.h > 0 ? { x, y, w: held.w, h: held.h } : null;
    if (!list.every(([u, v]) => inPlane(u, v)) || box && !this.isInside(box)) return OUTSIDE;
    this.put(list, box);
    return null;
  }

  /** @param {Box} box */
  isInside(box) { return inPlane(box.x, box.y) && box.x + box.w <= HALF && box.y + box.h <= HALF; }

  /** Clears a box as far as it lies in the plane.
   * @param {Box} box */
  clear(box) {
    const inside = clipped(box);
    if (inside.w > 0 && inside.h > 0) this.put([], inside);
  }

  /** The cells of a box of the board, and where they stand.
   * @param {Box} box @param {{ cells(box: Box): number[] }} from */
  taken(box, from) {
    const cells = from.cells(box);
    const held = { w: box.w, h: box.h, cells: cells.map((n, k) => k % 3 === 0 ? n - box.x : k % 3 === 1 ? n - box.y : n) };
    return { held, text: writeRLE(cells, this.board.rule, 0, box) };
  }

  /** Turns the cells of a box where they stand; the box that they have then, or what is wrong.
   * @param {Box} box @param {(held: Held) => Held} how */
  turn(box, how) {
    const { held } = this.taken(box, this.board.plane), after = how(held);
    const cells = new Map(triples(held.cells).map(([u, v]) => [`${u},${v}`, /** @type {Cell} */ ([box.x + u, box.y + v, 0])]));
    for (const [u, v, s] of triples(after.cells)) cells.set(`${u},${v}`, [box.x + u, box.y + v, s]);
    const now = { x: box.x, y: box.y, w: after.w, h: after.h };
    if (!this.isInside(now)) return OUTSIDE;
    this.put([...cells.values()]);
    return now;
  }

  /** Takes the last stroke back, or draws it again: how many cells that were, or null where there is none.
   * @param {"undo" | "redo"} which */
  again(which) {
    const taken = this.strokes[which](this.board.plane);
    if (!taken) return null;
    this.board.draw(taken.cells, null, taken.stroke.stamps);
    return taken.cells.length / 3;
  }
}

/** The text of the cells of a board or a generation, all or those of a box.
 * @param {{ cells(box?: Box): number[] }} from @param {import("./rules.js").Rule} rule @param {number} gen @param {Box | null} [box] */
export const textOf = (from, rule, gen, box) => writeRLE(from.cells(box || undefined), rule, gen);

/** A whole pattern as the cells of its least box.
 * @param {number[]} cells @returns {Held} */
export function heldOf(cells) {
  const list = triples(cells);
  const x = list.reduce((n, c) => Math.min(n, c[0]), Infinity), y = list.reduce((n, c) => Math.min(n, c[1]), Infinity);
  const moved = list.map(([u, v, s]) => /** @type {Cell} */ ([u - x, v - y, s]));
  const side = (/** @type {0 | 1} */ k) => moved.reduce((n, c) => Math.max(n, c[k] + 1), 0);
  return { w: side(0), h: side(1), cells: sorted(moved) };
}
