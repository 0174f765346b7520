// @ts-check
// Colours of states, by theme, and of seats.

/** @typedef {[number, number, number]} Colour red, green and blue, 0 to 255 */
/** @typedef {{ name: string, grid: string, of: (state: number, states: number) => Colour }} Theme */

/** @param {Colour} from @param {Colour} to @param {number} part @returns {Colour} */
const mixed = (from, to, part) => /** @type {Colour} */ (from.map((n, k) => Math.round(n + (to[k] - n) * part)));

/** Golly's for Generations: from red in even steps to yellow.
 * @param {number} s @param {number} states @returns {Colour} */
export function golly(s, states) {
  if (s === 0) return [48, 48, 48];
  return [255, states === 2 ? 0 : Math.floor((510 * (s - 1) + states - 2) / (2 * (states - 2))), 0];
}

/** A theme with a colour for dead cells, one for live ones, and a way for those that are dying.
 * @param {Colour} dead @param {Colour} live @param {Colour} from @param {Colour} to */
const ways = (dead, live, from, to) => (/** @type {number} */ s, /** @type {number} */ states) =>
  s === 0 ? dead : s === 1 ? live : mixed(from, to, (s - 2) / Math.max(1, states - 3));

/** @type {Theme[]} */
export const THEMES = [
  { name: "Golly", grid: "#484848", of: golly },
  { name: "Paper", grid: "#dddddd", of: ways([255, 255, 255], [20, 20, 20], [40, 90, 200], [200, 215, 245]) },
  { name: "Ocean", grid: "#0d2b45", of: ways([5, 20, 40], [235, 250, 255], [0, 190, 220], [20, 60, 130]) },
  { name: "Fire", grid: "#2a1a12", of: ways([15, 8, 5], [255, 245, 200], [255, 170, 40], [110, 20, 10]) },
  { name: "High contrast", grid: "#666666", of: ways([0, 0, 0], [255, 255, 255], [0, 200, 255], [255, 120, 255]) },
];

/** A colour for each seat, far from those of its neighbours.
 * @param {number} seat @returns {Colour} */
export function seatColour(seat) {
  const turn = seat * 137.508 % 360 / 60;
  const part = (/** @type {number} */ n) => Math.round(255 * (1 - 0.55 * Math.max(0, Math.min((n + turn) % 6, 4 - (n + turn) % 6, 1))));
  return [part(5), part(3), part(1)];
}

/** @param {Colour} colour */
export const hex = colour => "#" + colour.map(n => n.toString(16).padStart(2, "0")).join("");

/** As the pixels of a canvas have it on machines with the least byte first.
 * @param {Colour} colour */
export const pixel = ([r, g, b]) => (255 << 24 | b << 16 | g << 8 | r) >>> 0;
