// @ts-check
// Patterns in the hand: lists of cells, turned and flipped.

/** @typedef {{ w: number, h: number, cells: number[] }} Held a box and its cells that are not dead, by y, then x */
/** @typedef {[number, number, number]} Cell a column, a row and a state */

/** @param {number[]} cells @returns {Cell[]} */
export function triples(cells) {
  /** @type {Cell[]} */
  const list = [];
  for (let k = 0; k < cells.length; k += 3) list.push([cells[k], cells[k + 1], cells[k + 2]]);
  return list;
}

/** Cells by y, then x.
 * @param {Cell[]} list */
export const sorted = list => list.sort((p, q) => p[1] - q[1] || p[0] - q[0]).flat();

/** Cells by y, then x, each once: of a cell that is listed twice the last state stands.
 * @param {Cell[]} list */
export function tidy(list) {
  const last = new Map();
  for (const cell of list) last.set(`${cell[0]},${cell[1]}`, cell);
  return sorted([...last.values()]);
}

/** @param {Held} p @param {(x: number, y: number) => [number, number]} move */
const moved = (p, move) => sorted(triples(p.cells).map(([x, y, s]) => /** @type {Cell} */ ([...move(x, y), s])));

/** A quarter turn to the right.
 * @param {Held} p @returns {Held} */
export const rotate = p => ({ w: p.h, h: p.w, cells: moved(p, (x, y) => [p.h - 1 - y, x]) });
/** @param {Held} p @returns {Held} */
export const flipX = p => ({ w: p.w, h: p.h, cells: moved(p, (x, y) => [p.w - 1 - x, y]) });
/** @param {Held} p @returns {Held} */
export const flipY = p => ({ w: p.w, h: p.h, cells: moved(p, (x, y) => [x, p.h - 1 - y]) });
