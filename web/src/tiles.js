// @ts-check
// Tiles: squares of 32 by 32 cells, of which a board and a generation are made.

/** @typedef {{ x: number, y: number, w: number, h: number }} Box */
/**
 * A tile: its column and row among the tiles, how many cells are not dead, and the states row by row.
 * @typedef {{ tx: number, ty: number, n: number, s: Uint8Array }} StateTile
 */

export const SIDE = 32;
export const CELLS = SIDE * SIDE;
// The plane has 2^26 tiles a side; generations may leave it by 2^20 of them before two tiles have one key.
const SHIFT = 2 ** 25 + 2 ** 20, SPAN = 2 * SHIFT;

/** @param {number} tx @param {number} ty */
export const tileKey = (tx, ty) => (ty + SHIFT) * SPAN + tx + SHIFT;

/** The column or row of the tile that a cell lies in.
 * @param {number} n */
export const tileOf = n => Math.floor(n / SIDE);

/** Where in its tile a cell stands.
 * @param {number} x @param {number} y */
export const placeIn = (x, y) => (y & SIDE - 1) * SIDE + (x & SIDE - 1);

/**
 * Tiles by their keys: what boards and generations have in common.
 * @template {StateTile} T
 */
export class Tiled {
  constructor() {
    /** @type {Map<number, T>} */
    this.tiles = new Map();
    this.population = 0;
  }

  /** @param {number} x @param {number} y @returns {number} */
  state(x, y) {
    const t = this.tiles.get(tileKey(tileOf(x), tileOf(y)));
    return t ? t.s[placeIn(x, y)] : 0;
  }

  /** The tiles that are there and meet a box.
   * @param {Box} box @returns {Iterable<T>} */
  *meeting({ x, y, w, h }) {
    const [a, b, c, d] = [tileOf(x), tileOf(y), tileOf(x + w - 1), tileOf(y + h - 1)];
    if ((c - a + 1) * (d - b + 1) > this.tiles.size) {
      for (const t of this.tiles.values()) if (t.tx >= a && t.tx <= c && t.ty >= b && t.ty <= d) yield t;
      return;
    }
    for (let ty = b; ty <= d; ty++) for (let tx = a; tx <= c; tx++) {
      const t = this.tiles.get(tileKey(tx, ty));
      if (t) yield t;
    }
  }

  /**
   * The cells that are not dead, in a box or everywhere, as x y state .., by y, then x.
   * @param {Box} [box]
   */
  cells(box) {
    const rows = new Map();
    for (const t of box ? this.meeting(box) : this.tiles.values()) {
      if (t.n === 0) continue;
      for (let i = 0; i < CELLS; i++) {
        if (t.s[i] === 0) continue;
        const x = t.tx * SIDE + i % SIDE, y = t.ty * SIDE + (i >> 5);
        if (box && (x < box.x || y < box.y || x >= box.x + box.w || y >= box.y + box.h)) continue;
        const row = rows.get(y);
        if (row) row.push([x, t.s[i]]);
        else rows.set(y, [[x, t.s[i]]]);
      }
    }
    const list = [];
    for (const y of [...rows.keys()].sort((p, q) => p - q)) {
      for (const [x, s] of rows.get(y).sort((/** @type {number[]} */ p, /** @type {number[]} */ q) => p[0] - q[0])) list.push(x, y, s);
    }
    return list;
  }

  /** The least box that has all cells that are not dead, or null.
   * @returns {Box | null} */
  box() {
    let x0 = Infinity, y0 = Infinity, x1 = -Infinity, y1 = -Infinity;
    for (const t of this.tiles.values()) {
      if (t.n === 0) continue;
      const x = t.tx * SIDE, y = t.ty * SIDE;
      if (x >= x0 && x + SIDE - 1 <= x1 && y >= y0 && y + SIDE - 1 <= y1) continue;
      for (let i = 0; i < CELLS; i++) {
        if (t.s[i] === 0) continue;
        const cx = x + i % SIDE, cy = y + (i >> 5);
        if (cx < x0) x0 = cx;
        if (cx > x1) x1 = cx;
        if (cy < y0) y0 = cy;
        if (cy > y1) y1 = cy;
      }
    }
    return x0 > x1 ? null : { x: x0, y: y0, w: x1 - x0 + 1, h: y1 - y0 + 1 };
  }
}
