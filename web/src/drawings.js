// @ts-check
// What was drawn and not confirmed, against a map.
import { MOST_CELLS } from "./formats.js";

/** @typedef {import("./formats.js").Edit} Edit */
/** @typedef {import("./plane.js").Plane} Plane */
/**
 * An edit, where the stamps are noted that it is drawn with, and whether it was drawn before the board was read:
 * then it was not sent, and is meant to lie above all that was there.
 * @typedef {Edit & { stamps?: Set<string>, isBlind?: boolean }} Drawing
 */

/** A stamp as a word.
 * @param {number} c @param {number} r */
export const stampWord = (c, r) => `${c}.${r}`;

/**
 * What of a drawing a map does not show: where it was published all is shown, or lies under a greater write.
 * @param {Drawing} edit @param {Plane} plane
 * @returns {Drawing | null}
 */
export function missing(edit, plane) {
  const { c, r, area, cells } = edit, box = area || { x: 0, y: 0, w: 0, h: 0 };
  if (box.w * box.h > MOST_CELLS) return edit;
  /** @type {number[]} */
  const list = [];
  const look = (/** @type {number} */ x, /** @type {number} */ y, /** @type {number} */ s) => {
    const w = plane.at(x, y);
    if (w.c < c || w.c === c && (w.r < r || w.r === r && w.s !== s)) list.push(x, y, s);
  };
  if (!area) for (let k = 0; k < cells.length; k += 3) look(cells[k], cells[k + 1], cells[k + 2]);
  for (let y = box.y, k = 0; y < box.y + box.h; y++) for (let x = box.x; x < box.x + box.w; x++) {
    const isListed = cells[k] === x && cells[k + 1] === y;
    look(x, y, isListed ? cells[k + 2] : 0);
    if (isListed) k += 3;
  }
  if (area && list.length === 3 * box.w * box.h) return edit;
  return list.length ? { ...edit, area: null, cells: list } : null;
}
