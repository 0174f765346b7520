// @ts-check
// Pictures as SVG: one look, by the same bytes as `genedit view --svg`, and a film of several.
import { golly, hex } from "./colours.js";

/** @typedef {import("./formats.js").Box} Box */

/** The outlines of the maximal runs of one state.
 * @param {number[]} cells by y, then x @param {number} state */
function runs(cells, state) {
  let path = "";
  for (let k = 0; k < cells.length;) {
    const x = cells[k], y = cells[k + 1];
    if (cells[k + 2] !== state) { k += 3; continue; }
    let n = 0;
    while (k < cells.length && cells[k] === x + n && cells[k + 1] === y && cells[k + 2] === state) { n++; k += 3; }
    path += rectangle(x, y, n, 1);
  }
  return path;
}

/** @param {number} x @param {number} y @param {number} w @param {number} h */
const rectangle = (x, y, w, h) => `M${x} ${y}h${w}v${h}h-${w}z`;

/** The paths of each state that cells have.
 * @param {number[]} cells @param {number} states */
function paths(cells, states) {
  let text = "";
  for (let s = 1; s < states; s++) {
    const path = runs(cells, s);
    if (path) text += `<path class="s${s}" fill="${hex(golly(s, states))}" d="${path}"/>\n`;
  }
  return text;
}

/** @param {Box} box @param {number} states */
const opening = ({ x, y, w, h }, states) => `<svg xmlns="http://www.w3.org/2000/svg" viewBox="${x} ${y} ${w} ${h}" shape-rendering="crispEdges">\n` +
  `<path class="s0" fill="${hex(golly(0, states))}" d="${rectangle(x, y, w, h)}"/>\n`;

/** The picture of cells in a box.
 * @param {number[]} cells by y, then x @param {Box} box @param {number} states */
export const svgOf = (cells, box, states) => opening(box, states) + paths(cells, states) + "</svg>\n";

/**
 * A film: each picture in its turn, again and again.
 * @param {{ cells: number[] }[]} looks @param {Box} box @param {number} states @param {number} rate pictures a second
 */
export function filmOf(looks, box, states, rate) {
  const seconds = (looks.length / rate).toFixed(3), part = (/** @type {number} */ k) => (k / looks.length).toFixed(6);
  const turns = looks.map(({ cells }, k) => {
    const [values, times] = k === 0 ? ["visible;hidden", `0;${part(1)}`] : ["hidden;visible;hidden", `0;${part(k)};${part(k + 1)}`];
    const turn = looks.length === 1 ? "" :
      `<animate attributeName="visibility" calcMode="discrete" dur="${seconds}s" repeatCount="indefinite" values="${values}" keyTimes="${times}"/>\n`;
    return `<g visibility="${k === 0 ? "visible" : "hidden"}">\n${turn}${paths(cells, states)}</g>\n`;
  });
  return opening(box, states) + turns.join("") + "</svg>\n";
}

/** The least box that has all boxes, or null.
 * @param {(Box | null)[]} boxes @returns {Box | null} */
export function around(boxes) {
  const all = /** @type {Box[]} */ (boxes.filter(b => b));
  if (all.length === 0) return null;
  const x = Math.min(...all.map(b => b.x)), y = Math.min(...all.map(b => b.y));
  return { x, y, w: Math.max(...all.map(b => b.x + b.w)) - x, h: Math.max(...all.map(b => b.y + b.h)) - y };
}
