// @ts-check
// States, which are whole maps: the tree of squares that their texts of version 1 and 2 spell.
import { Fault, HALF, In, counterAt, readHead } from "./formats.js";

/** @typedef {{ c: number, r: number, s: number }} Write */
/**
 * A square of level 3: 64 writes, row by row.
 * @typedef {{ level: 3, blank: false, live: number, c: Float64Array, r: Uint16Array, s: Uint8Array }} Leaf
 */
/**
 * A square where every write has state 0 and one stamp; counter 0 where nothing was written.
 * @typedef {{ level: number, blank: true, live: 0, c: number, r: number }} Blank
 */
/**
 * A square above level 3: its quarters NW, NE, SW, SE, and how many leaves below have a cell that is not dead.
 * @typedef {{ level: number, blank: false, live: number, quarters: Square[] }} Node
 */
/** @typedef {Leaf | Node | Blank} Square */

const TOP = 31, LEAF_BYTES = 576;

/** The map of a state, as a tree of squares. */
export class Tree {
  /** @param {Square} root @param {number} top the greatest counter @param {string} rule */
  constructor(root, top, rule) {
    this.root = root;
    this.top = top;
    this.rule = rule;
  }

  /** The square at a place that is a leaf or blank.
   * @param {number} x @param {number} y @returns {Leaf | Blank} */
  squareAt(x, y) {
    let square = this.root, size = 2 * HALF, px = x + HALF, py = y + HALF;
    while ("quarters" in square) {
      size /= 2;
      const east = px >= size ? 1 : 0, south = py >= size ? 1 : 0;
      px -= east * size;
      py -= south * size;
      square = square.quarters[east + 2 * south];
    }
    return square;
  }

  /** @param {number} x @param {number} y @returns {Write} */
  at(x, y) {
    const square = this.squareAt(x, y);
    if (square.blank) return { c: square.c, r: square.r, s: 0 };
    const i = (x & 7) + 8 * (y & 7);
    return { c: square.c[i], r: square.r[i], s: square.s[i] };
  }

  /** Visits each leaf that has a cell which is not dead, with its corner.
   * @param {(leaf: Leaf, x: number, y: number) => void} visit */
  eachLive(visit) {
    const go = (/** @type {Square} */ square, /** @type {number} */ x, /** @type {number} */ y) => {
      if (square.live === 0) return;
      if (!("quarters" in square)) return visit(/** @type {Leaf} */ (square), x, y);
      const half = 2 ** (square.level - 1);
      square.quarters.forEach((q, k) => go(q, x + (k & 1) * half, y + (k >> 1) * half));
    };
    go(this.root, -HALF, -HALF);
  }
}

/** @param {In} from @param {number} level @param {{ top: number }} seen @returns {Blank} */
function readBlank(from, level, seen) {
  const at = from.take(8), c = counterAt(from.view, at), r = from.view.getUint16(at + 6);
  if ((c === 0) !== (r === 0)) throw new Fault(18);
  if (c > seen.top) seen.top = c;
  return { level, blank: true, live: 0, c, r };
}

/** @param {In} from @param {number} states @param {{ top: number }} seen @returns {Leaf} */
function readLeaf(from, states, seen) {
  const c = new Float64Array(64), r = new Uint16Array(64), s = new Uint8Array(64);
  let live = 0;
  for (let k = 0; k < 64; k++) {
    const at = from.take(9);
    c[k] = counterAt(from.view, at);
    r[k] = from.view.getUint16(at + 6);
    s[k] = from.view.getUint8(at + 8);
    if ((c[k] === 0) !== (r[k] === 0) || c[k] === 0 && s[k] !== 0) throw new Fault(18);
    if (s[k] >= states) throw new Fault(11);
    if (s[k]) live = 1;
    if (c[k] > seen.top) seen.top = c[k];
  }
  if (!live && c.every(n => n === c[0]) && r.every(n => n === r[0])) throw new Fault(19);
  return { level: 3, blank: false, live, c, r, s };
}

/** @param {number} level @param {Square[]} quarters @returns {Node} */
function nodeOf(level, quarters) {
  const [a] = quarters;
  if (a.blank && quarters.every(q => q.blank && q.c === a.c && q.r === a.r)) throw new Fault(19);
  return { level, blank: false, live: quarters.reduce((n, q) => n + q.live, 0), quarters };
}

/** The text of a square of version 1.
 * @param {In} from @param {number} level @param {number} states @param {{ top: number }} seen @returns {Square} */
function readSquare(from, level, states, seen) {
  const tag = from.u8();
  if (tag === 0) return readBlank(from, level, seen);
  if (tag === 1 && level === 3) return readLeaf(from, states, seen);
  if (tag !== 2 || level === 3) throw new Fault(19);
  const quarters = [];
  for (let k = 0; k < 4; k++) quarters.push(readSquare(from, level - 1, states, seen));
  return nodeOf(level, quarters);
}

/** A quarter of an entry of version 2.
 * @param {In} from @param {number} level @param {Square[]} list @param {{ top: number }} seen */
function readQuarter(from, level, list, seen) {
  const flag = from.u8();
  if (flag > 1) throw new Fault(19);
  if (flag === 0) return readBlank(from, level, seen);
  const square = list[from.u32()];
  if (!square || square.level !== level) throw new Fault(19);
  return square;
}

/** The entries of version 2, each of them new and none blank.
 * @param {In} from @param {number} n @param {number} states @param {{ top: number }} seen */
function readEntries(from, n, states, seen) {
  /** @type {Square[]} */
  const list = [];
  const known = new Set(), numbers = new Map();
  for (let k = 0; k < n; k++) {
    const level = from.u8();
    if (level < 3 || level > TOP) throw new Fault(19);
    let square, key;
    if (level === 3) {
      const at = from.at;
      square = readLeaf(from, states, seen);
      key = String.fromCharCode(...from.bytes.subarray(at, at + LEAF_BYTES));
    } else {
      const quarters = [];
      for (let q = 0; q < 4; q++) quarters.push(readQuarter(from, level - 1, list, seen));
      square = nodeOf(level, quarters);
      key = quarters.map(q => q.blank ? `${q.c}.${q.r}` : numbers.get(q)).join() + "/" + level;
    }
    if (known.has(key)) throw new Fault(19);
    known.add(key);
    numbers.set(square, k);
    list.push(square);
  }
  return list;
}

/** Whether entries are those of the walk over the last of them, in its order.
 * @param {Square[]} list */
function isWalk(list) {
  const met = new Set();
  const go = (/** @type {Square} */ square) => {
    if (square.blank || met.has(square)) return true;
    if ("quarters" in square && !square.quarters.every(go)) return false;
    met.add(square);
    return list[met.size - 1] === square;
  };
  return go(list[list.length - 1]) && met.size === list.length;
}

/**
 * The map of a state; the first fault from the left is thrown.
 * @param {Uint8Array} bytes @param {{ text: string, states: number } | null} rule or null for the state's own
 * @param {(text: string) => { states: number } | null} [ruleOf] what a printed form spells, where no rule is given
 */
export function readState(bytes, rule, ruleOf) {
  const from = new In(bytes), head = readHead(from, rule && rule.text), own = rule || (ruleOf && ruleOf(head.rule));
  if (head.magic !== "GLWS") throw new Fault(14);
  if (!own) throw new Fault(16);
  const seen = { top: 0 };
  let root;
  if (head.version === 1) root = readSquare(from, TOP, own.states, seen);
  else {
    const n = from.u32(), list = n ? readEntries(from, n, own.states, seen) : [];
    root = n ? list[n - 1] : readBlank(from, TOP, seen);
    if (root.level !== TOP || n && !isWalk(list)) throw new Fault(19);
  }
  if (from.at < bytes.length) throw new Fault(20);
  return new Tree(root, seen.top, head.rule);
}
