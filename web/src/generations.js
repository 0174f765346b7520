// @ts-check
// Generations in the page: tiles of states, stepped by a rule.
import { CELLS, SIDE, Tiled, placeIn, tileKey, tileOf } from "./tiles.js";

/** @typedef {import("./rules.js").Rule} Rule */
/** @typedef {import("./tiles.js").StateTile} StateTile */

// A tile with a border of one cell, and of each place how many live ones are in its row of three.
const PAD = SIDE + 2, framed = new Uint8Array(PAD * PAD), threes = new Uint8Array(PAD * PAD);

/**
 * A generation: the states of all cells.
 * @extends {Tiled<StateTile>}
 */
export class Grid extends Tiled {
  /** The states of a board.
   * @param {Tiled<StateTile>} board */
  static of(board) {
    const grid = new Grid();
    for (const [key, t] of board.tiles) if (t.n) grid.tiles.set(key, { tx: t.tx, ty: t.ty, n: t.n, s: t.s.slice() });
    grid.population = board.population;
    return grid;
  }

  /** Cells as x y state .., moved.
   * @param {number[]} cells @param {number} [dx] @param {number} [dy] */
  static from(cells, dx = 0, dy = 0) {
    const grid = new Grid();
    for (let k = 0; k < cells.length; k += 3) grid.set(cells[k] + dx, cells[k + 1] + dy, cells[k + 2]);
    return grid;
  }

  /** @param {number} x @param {number} y @param {number} s */
  set(x, y, s) {
    const tx = tileOf(x), ty = tileOf(y), key = tileKey(tx, ty);
    let t = this.tiles.get(key);
    if (!t) this.tiles.set(key, t = { tx, ty, n: 0, s: new Uint8Array(CELLS) });
    const i = placeIn(x, y), change = (s ? 1 : 0) - (t.s[i] ? 1 : 0);
    t.s[i] = s;
    t.n += change;
    this.population += change;
  }

  /** The next generation.
   * @param {Rule} rule */
  next(rule) {
    const after = new Grid(), table = tableOf(rule);
    for (const [key, [tx, ty]] of this.reached()) {
      const t = this.step(tx, ty, table);
      if (t.n === 0) continue;
      after.tiles.set(key, t);
      after.population += t.n;
    }
    return after;
  }

  /** The tiles that may have cells in the next generation, by their keys. */
  reached() {
    /** @type {Map<number, [number, number]>} */
    const list = new Map();
    for (const { tx, ty, n, s } of this.tiles.values()) {
      if (n === 0) continue;
      list.set(tileKey(tx, ty), [tx, ty]);
      let west = 0, east = 0, north = 0, south = 0;
      for (let i = 0; i < SIDE; i++) {
        if (s[i * SIDE] === 1) west = -1;
        if (s[i * SIDE + SIDE - 1] === 1) east = 1;
        if (s[i] === 1) north = -1;
        if (s[CELLS - SIDE + i] === 1) south = 1;
      }
      for (let j = north; j <= south; j++) for (let i = west; i <= east; i++) {
        if (i || j) list.set(tileKey(tx + i, ty + j), [tx + i, ty + j]);
      }
    }
    return list;
  }

  /** Puts a tile and its neighbours' borders into the frame.
   * @param {number} tx @param {number} ty */
  frame(tx, ty) {
    framed.fill(0);
    for (let j = -1; j <= 1; j++) for (let i = -1; i <= 1; i++) {
      const t = this.tiles.get(tileKey(tx + i, ty + j));
      if (t === undefined || t.n === 0) continue;
      const s = t.s, x0 = i < 0 ? SIDE - 1 : 0, x1 = i > 0 ? 1 : SIDE, y0 = j < 0 ? SIDE - 1 : 0, y1 = j > 0 ? 1 : SIDE;
      for (let y = y0; y < y1; y++) {
        const row = (y + j * SIDE + 1) * PAD + i * SIDE + 1;
        for (let x = x0; x < x1; x++) framed[row + x] = s[y * SIDE + x];
      }
    }
  }

  /** A tile of the next generation.
   * @param {number} tx @param {number} ty @param {Uint8Array} table @returns {StateTile} */
  step(tx, ty, table) {
    this.frame(tx, ty);
    let west = 0, here = framed[0] === 1 ? 1 : 0;
    for (let p = 0; p < PAD * PAD - 1; p++) {
      const east = framed[p + 1] === 1 ? 1 : 0;
      threes[p] = west + here + east;
      west = here;
      here = east;
    }
    const s = new Uint8Array(CELLS);
    let n = 0;
    for (let y = 0, i = 0; y < SIDE; y++) {
      for (let x = 0, p = (y + 1) * PAD + 1; x < SIDE; x++, p++, i++) {
        const is = table[10 * framed[p] + threes[p - PAD] + threes[p] + threes[p + PAD]];
        s[i] = is;
        if (is !== 0) n++;
      }
    }
    return { tx, ty, n, s };
  }
}

/**
 * What becomes of a state, where so many cells of its nine are live, itself among them: at 10 times the state
 * plus that number.
 * @param {Rule} rule
 */
function tableOf({ survives, born, states }) {
  const table = new Uint8Array(10 * states);
  for (let n = 0; n <= 9; n++) {
    table[n] = born >> n & 1;
    table[10 + n] = n > 0 && survives >> n - 1 & 1 ? 1 : 2 % states;
    for (let s = 2; s < states; s++) table[10 * s + n] = (s + 1) % states;
  }
  return table;
}
