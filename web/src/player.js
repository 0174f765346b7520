// @ts-check
// Looks: generations of the board that are played in the page, forwards and back.
import { Grid } from "./generations.js";

/** @typedef {import("./board.js").Board} Board */
/** @typedef {{ grid: Grid, gen: number }} Look */

const MOST_LOOKS = 200, MOST_TILES = 2 ** 17;
/** The least time that a page works on generations before it lets others at it, in milliseconds. */
const SLICE = 25;

export class Player {
  /** @param {Board} board @param {() => void} changed */
  constructor(board, changed) {
    this.board = board;
    this.changed = changed;
    /** @type {Look | null} */
    this.look = null;
    /** @type {Look[]} the looks before, the last one last */
    this.past = [];
    this.isPlaying = false;
    /** How many looks a second, and how many generations from one to the next. */
    this.rate = 30;
    this.stride = 1;
    this.last = 0;
    this.work = 0;
  }

  /** What is shown: a look, or the board. */
  get shown() { return this.look ? this.look.grid : this.board.plane; }
  get gen() { return this.look ? this.look.gen : 0; }

  /** Shows a look, and keeps the one before.
   * @param {Look} look */
  show(look) {
    if (this.look) this.past.push(this.look);
    if (this.past.length > MOST_LOOKS) this.past.shift();
    for (let n = this.past.reduce((sum, p) => sum + p.grid.tiles.size, 0); n > MOST_TILES && this.past.length > 1;) {
      n -= /** @type {Look} */ (this.past.shift()).grid.tiles.size;
    }
    this.look = look;
    this.changed();
  }

  /** As many generations on as the stride says. */
  step() {
    let { grid, gen } = this.look || { grid: Grid.of(this.board.plane), gen: 0 };
    if (!this.look) this.look = { grid, gen };
    for (let k = 0; k < this.stride; k++) grid = grid.next(this.board.rule);
    this.show({ grid, gen: gen + this.stride });
  }

  /** One look back; before the first stands the board. Whether there was one. */
  back() {
    if (!this.look) return false;
    this.isPlaying = false;
    this.look = this.past.pop() || null;
    this.changed();
    return true;
  }

  /** Back to the board. */
  edit() {
    this.look = null;
    this.past = [];
    this.isPlaying = false;
    this.work++;
    this.changed();
  }

  toggle() {
    this.isPlaying = !this.isPlaying;
    this.changed();
  }

  /** Plays on, where it is time to.
   * @param {number} now */
  tick(now) {
    if (!this.isPlaying || now - this.last < 1000 / this.rate - 2) return;
    this.last = now;
    this.step();
  }

  /**
   * A generation of the board, in slices of time; null where it was given up for something else.
   * @param {number} gen @param {(gen: number) => void} told
   */
  async reach(gen, told) {
    const work = ++this.work, rule = this.board.rule;
    let grid = Grid.of(this.board.plane), until = performance.now() + SLICE;
    for (let k = 0; k < gen; k++) {
      grid = grid.next(rule);
      if (performance.now() < until) continue;
      told(k + 1);
      await new Promise(done => setTimeout(done, 0));
      if (work !== this.work) return null;
      until = performance.now() + SLICE;
    }
    return grid;
  }
}
