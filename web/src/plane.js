// @ts-check
// The map of a board: of all writes to a cell the greatest stands, by counter, then replica, then state.
import { Fault, within } from "./formats.js";
import { CELLS, SIDE, Tiled, placeIn, tileKey, tileOf } from "./tiles.js";

/** @typedef {import("./tiles.js").Box} Box */
/** @typedef {import("./formats.js").Edit} Edit */
/** @typedef {import("./states.js").Tree} Tree */
/** @typedef {import("./states.js").Write} Write */
/** @typedef {import("./tiles.js").StateTile & { c: Float64Array, r: Uint16Array }} Tile */

/** The most tiles that a page takes from a state, each of 11 kB. */
const MOST_TILES = 2 ** 16;
const NOTHING = { c: 0, r: 0, s: 0 };

/** Whether one write is above another.
 * @param {Write} a @param {Write} b */
export const isAbove = (a, b) => a.c > b.c || a.c === b.c && (a.r > b.r || a.r === b.r && a.s > b.s);

/**
 * Cells that were written stand in tiles. What lies outside of them is looked up in the areas and in the tree
 * of a state, so that a great area, or a great map of dead cells, takes no room.
 * @extends {Tiled<Tile>}
 */
export class Plane extends Tiled {
  constructor() {
    super();
    /** @type {{ box: Box, write: Write }[]} */
    this.areas = [];
    /** @type {Tree | null} */
    this.tree = null;
    /** The greatest counter seen. */
    this.top = 0;
  }

  /** The greatest write at a place.
   * @param {number} x @param {number} y @returns {Write} */
  at(x, y) {
    const t = this.tiles.get(tileKey(tileOf(x), tileOf(y)));
    if (t) {
      const i = placeIn(x, y);
      return { c: t.c[i], r: t.r[i], s: t.s[i] };
    }
    let greatest = this.tree ? this.tree.at(x, y) : NOTHING;
    for (const { box, write } of this.areas) if (within(box, x, y) && isAbove(write, greatest)) greatest = write;
    return greatest;
  }

  /** Takes the map of a state as its own, in front of any edit.
   * @param {Tree} tree */
  load(tree) {
    this.tree = tree;
    this.top = Math.max(this.top, tree.top);
    tree.eachLive((_, x, y) => {
      this.tile(x, y);
      if (this.tiles.size > MOST_TILES) throw new Fault(13);
    });
  }

  /** Takes an edit.
   * @param {Edit} edit */
  apply({ c, r, area, cells }) {
    if (c > this.top) this.top = c;
    if (area) this.clear(area, { c, r, s: 0 });
    for (let k = 0; k < cells.length; k += 3) this.put(this.tile(cells[k], cells[k + 1]), placeIn(cells[k], cells[k + 1]), c, r, cells[k + 2]);
  }

  /** @param {Box} box @param {Write} write */
  clear(box, write) {
    for (const t of this.meeting(box)) this.fill(t, box, write);
    const isCovered = (/** @type {{ box: Box, write: Write }} */ old) => isAbove(write, old.write) && within(box, old.box.x, old.box.y) &&
      within(box, old.box.x + old.box.w - 1, old.box.y + old.box.h - 1);
    this.areas = this.areas.filter(old => !isCovered(old));
    this.areas.push({ box, write });
  }

  /** The tile of a cell, which is made where there is none.
   * @param {number} x @param {number} y @returns {Tile} */
  tile(x, y) {
    const tx = tileOf(x), ty = tileOf(y), key = tileKey(tx, ty), there = this.tiles.get(key);
    if (there) return there;
    const t = { tx, ty, n: 0, s: new Uint8Array(CELLS), c: new Float64Array(CELLS), r: new Uint16Array(CELLS) };
    this.tiles.set(key, t);
    if (this.tree) this.copySquares(t, this.tree);
    for (const { box, write } of this.areas) this.fill(t, box, write);
    return t;
  }

  /** The writes that a tree has in a tile.
   * @param {Tile} t @param {Tree} tree */
  copySquares(t, tree) {
    for (let v = 0; v < SIDE; v += 8) for (let u = 0; u < SIDE; u += 8) {
      const square = tree.squareAt(t.tx * SIDE + u, t.ty * SIDE + v);
      if (square.blank && square.c === 0) continue;
      for (let j = 0; j < 64; j++) {
        const i = (v + (j >> 3)) * SIDE + u + (j & 7);
        if (square.blank) this.put(t, i, square.c, square.r, 0);
        else this.put(t, i, square.c[j], square.r[j], square.s[j]);
      }
    }
  }

  /** @param {Tile} t @param {Box} box @param {Write} write */
  fill(t, box, write) {
    const left = Math.max(box.x - t.tx * SIDE, 0), right = Math.min(box.x + box.w - t.tx * SIDE, SIDE);
    const top = Math.max(box.y - t.ty * SIDE, 0), bottom = Math.min(box.y + box.h - t.ty * SIDE, SIDE);
    for (let v = top; v < bottom; v++) for (let u = left; u < right; u++) this.put(t, v * SIDE + u, write.c, write.r, 0);
  }

  /** Writes at a place of a tile, where nothing greater stands.
   * @param {Tile} t @param {number} i @param {number} c @param {number} r @param {number} s */
  put(t, i, c, r, s) {
    const there = t.c[i];
    if (c < there || c === there && (r < t.r[i] || r === t.r[i] && s <= t.s[i])) return;
    const change = (s ? 1 : 0) - (t.s[i] ? 1 : 0);
    t.n += change;
    this.population += change;
    t.c[i] = c;
    t.r[i] = r;
    t.s[i] = s;
  }
}
