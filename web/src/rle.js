// @ts-check
// Golly's multi-state RLE, read and written as crates/multistate_rle has it.
import { Fault, MOST_CELLS, textIn } from "./formats.js";
import { fileRule } from "./rules.js";

/**
 * A pattern: its box, the position, generation and rule that its text tells, and its cells that are not dead.
 * @typedef {{ w: number, h: number, x: number, y: number, gen: number, rule: string | null, cells: number[] }} Pattern
 */
/** @typedef {{ x: number, y: number, w: number, h: number }} Box */

const LINE = 70, SIDE = 2 ** 32, POSITION = 2 ** 31;
const DOLLAR = 36, ZERO = 48, NINE = 57;

/** Position and generation of a `#CXRLE` line, or null where it is a comment.
 * @param {string} line */
function readOrigin(line) {
  let x = 0, y = 0, gen = 0;
  const met = new Set();
  for (const word of line.slice(6).split(/[ \t]+/).filter(w => w)) {
    const pos = /^Pos=(-?\d+),(-?\d+)$/.exec(word), at = /^Gen=(\d+)$/.exec(word), kind = word.slice(0, 3);
    if (!pos && !at || met.has(kind)) return null;
    met.add(kind);
    if (pos) [x, y] = [Number(pos[1]) + 0, Number(pos[2]) + 0];
    if (at) gen = Number(at[1]);
  }
  if (!/^#CXRLE([ \t]|$)/.test(line) || [x, y].some(n => n < -POSITION || n >= POSITION)) return null;
  return { x, y, gen };
}

/** Sides and rule of a header line.
 * @param {string} line */
function readHeader(line) {
  const found = /^[ \t]*x[ \t]*=[ \t]*(\d+)[ \t]*,[ \t]*y[ \t]*=[ \t]*(\d+)[ \t]*(?:,(.*))?$/.exec(line);
  if (!found || Number(found[1]) >= SIDE || Number(found[2]) >= SIDE) throw new Fault(4);
  const rule = /rule[ \t]*=[ \t]*([^,:]*[^,: \t])/.exec(found[3] || "");
  return { w: Number(found[1]), h: Number(found[2]), rule: rule ? rule[1] : null };
}

/**
 * What is in front of the tokens, and the places of the bytes that the tokens are read from.
 * @param {string} text
 */
function readLines(text) {
  let header = null, origin = null, end = text.length;
  const body = [];
  for (let at = 0; at < text.length;) {
    let stop = at;
    while (stop < text.length && text[stop] !== "\n" && text[stop] !== "\r") stop++;
    const line = text.slice(at, stop);
    if (line[0] === "#") {
      if (!header && !origin && line.startsWith("#CXRLE")) origin = readOrigin(line);
    } else if (!header) {
      if (/[^ \t]/.test(line)) header = readHeader(line);
    } else {
      const mark = text.indexOf("!", at), last = mark >= 0 && mark < stop ? mark : stop;
      for (let k = at; k < last; k++) if (text[k] !== " " && text[k] !== "\t") body.push(k);
      if (last < stop) { end = last; break; }
    }
    at = stop + 1;
  }
  if (!header) throw new Fault(4);
  return { header, origin: origin || { x: 0, y: 0, gen: 0 }, body, end: Math.min(end, text.length) };
}

/** Tokens, one after another: a count and a state, or -1 for the end of a row. */
class Tokens {
  /** @param {string} text @param {number[]} body @param {number} end */
  constructor(text, body, end) {
    this.text = text;
    this.body = body;
    this.end = end;
    this.at = 0;
  }
  /** @param {number} k */
  code(k) { return k < this.body.length ? this.text.charCodeAt(this.body[k]) : -1; }
  /** @param {number} k */
  place(k) { return k < this.body.length ? this.body[k] : this.end; }

  /** The next token, or null at the end; digits alone are passed over there. */
  next() {
    const begin = this.at, isDigit = (/** @type {number} */ c) => c >= ZERO && c <= NINE;
    let count = 1;
    if (isDigit(this.code(this.at))) {
      for (count = 0; isDigit(this.code(this.at)); this.at++) count = Math.min(10 * count + this.code(this.at) - ZERO, 2 ** 40);
    }
    if (this.at >= this.body.length) return null;
    const state = this.state(begin);
    if (count === 0 || count > SIDE) throw new Fault(6, this.place(begin));
    return { begin: this.place(begin), count, state };
  }

  /** @param {number} begin */
  state(begin) {
    const c = this.code(this.at++);
    if (c === DOLLAR) return -1;
    if (c === 98 || c === 46) return 0;
    if (c === 111) return 1;
    if (c >= 65 && c <= 88) return c - 64;
    if (c < 112 || c > 121) throw new Fault(5, this.place(this.at - 1));
    const letter = this.code(this.at++);
    if (letter < 65 || letter > 88) throw new Fault(5, this.at <= this.body.length ? this.place(this.at - 1) : this.end);
    const state = 24 * (c - 111) + letter - 64;
    if (state > 255) throw new Fault(7, this.place(begin));
    return state;
  }
}

/**
 * The pattern of a text; the first fault from the left is thrown.
 * @param {string} text
 * @returns {Pattern}
 */
export function readRLE(text) {
  const { header, origin, body, end } = readLines(text), tokens = new Tokens(text, body, end);
  const cells = [];
  let { w, h } = header, x = 0, y = 0;
  for (let token = tokens.next(); token; token = tokens.next()) {
    const { begin, count, state } = token;
    if (state < 0 ? y + count >= SIDE : x + count > SIDE) throw new Fault(6, begin);
    if (state < 0) { y += count; x = 0; continue; }
    if (state > 0) {
      if (cells.length / 3 + count > MOST_CELLS) throw new Fault(8);
      for (let j = 0; j < count; j++) cells.push(x + j, y, state);
      w = Math.max(w, x + count);
      h = Math.max(h, y + 1);
    }
    x += count;
  }
  return { w, h, x: origin.x, y: origin.y, gen: origin.gen, rule: header.rule, cells };
}

/** The pattern of a reply's text, or null where that has more cells than a pattern.
 * @param {Uint8Array} body */
export function patternIn(body) {
  try {
    return readRLE(textIn(body));
  } catch (fault) {
    if (fault instanceof Fault && fault.number === 8) return null;
    throw fault;
  }
}

/** The cells of a pattern where its text has them.
 * @param {Pattern} pattern */
export const placed = ({ x, y, cells }) => cells.map((n, k) => k % 3 === 0 ? n + x : k % 3 === 1 ? n + y : n);

/** The letters of a state under a rule of so many states.
 * @param {number} s @param {number} states */
function lettersOf(s, states) {
  if (states === 2) return "bo"[s];
  if (s === 0) return ".";
  const prefix = s > 24 ? String.fromCharCode(111 + Math.floor((s - 1) / 24)) : "";
  return prefix + String.fromCharCode(65 + (s - 1) % 24);
}

/** The least box that has all cells, or null.
 * @param {number[]} cells by y, then x @returns {Box | null} */
export function boxOf(cells) {
  if (!cells.length) return null;
  let least = Infinity, most = -Infinity;
  for (let k = 0; k < cells.length; k += 3) { least = Math.min(least, cells[k]); most = Math.max(most, cells[k]); }
  const y = cells[1];
  return { x: least, y, w: most - least + 1, h: cells[cells.length - 2] - y + 1 };
}

/**
 * The text of cells that are not dead, by y, then x, in the least box or in a given one.
 * @param {number[]} cells @param {{ text: string, states: number }} rule @param {number} gen @param {Box | null} [given]
 */
export function writeRLE(cells, rule, gen, given) {
  const box = given || boxOf(cells) || { x: 0, y: 0, w: 0, h: 0 };
  /** @type {string[]} */
  const lines = [];
  let line = "";
  const put = (/** @type {number} */ count, /** @type {string} */ letters) => {
    const token = (count > 1 ? count : "") + letters;
    if (line.length + token.length > LINE) { lines.push(line); line = ""; }
    line += token;
  };
  let x = box.x, y = box.y;
  for (let k = 0; k < cells.length;) {
    const cx = cells[k], cy = cells[k + 1], s = cells[k + 2];
    if (cy > y) { put(cy - y, "$"); y = cy; x = box.x; }
    if (cx > x) put(cx - x, lettersOf(0, rule.states));
    let n = 0;
    while (k < cells.length && cells[k] === cx + n && cells[k + 1] === cy && cells[k + 2] === s) { n++; k += 3; }
    put(n, lettersOf(s, rule.states));
    x = cx + n;
  }
  put(1, "!");
  lines.push(line);
  return `#CXRLE Pos=${box.x},${box.y} Gen=${gen}\nx = ${box.w}, y = ${box.h}, rule = ${rule.text}\n${lines.join("\n")}\n`;
}

/**
 * An RLE text with its rule spelled as a file spells it, which is all that changes.
 * @param {string} text @param {import("./rules.js").Rule} rule
 */
export const forFile = (text, rule) => text.replace(`, rule = ${rule.text}\n`, `, rule = ${fileRule(rule)}\n`);
