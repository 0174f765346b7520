// @ts-check
// The bytes of docs/FORMATS.md: numbers, deltas, and the requests and replies of a session.

/** A place word is a coordinate plus this; the plane goes from -HALF to HALF - 1. */
export const HALF = 2 ** 30;
/** The most cells that one edit has, and the most that a pattern has. */
export const MOST_CELLS = 2 ** 20;

/** The number that stands for a server which is not reached. */
export const AWAY = 0;

/** The names of docs/FAULTS.md that a page meets, by their numbers. */
export const NAMES = /** @type {Record<number, string>} */ ({
  0: "Away",
  4: "Header", 5: "Tag", 6: "Count", 7: "State", 8: "TooMany", 9: "Nothing", 10: "OutOfPlane", 11: "StateRange",
  13: "StoreFull", 14: "Magic", 15: "Version", 16: "OtherRule", 17: "Short", 18: "StampRange", 19: "NotCanonical",
  20: "Trailing", 21: "FrameTooLong", 22: "GenRange", 23: "TooManyCells", 24: "ClockFull", 28: "NotYours", 29: "Full",
  30: "Closed", 33: "Request", 40: "OldStamp", 45: "NoSeat", 255: "Memory",
});

/** A refusal, by its number; of a pattern's text with the place of the fault. */
export class Fault extends Error {
  /** @param {number} number @param {number} [place] */
  constructor(number, place) {
    const name = NAMES[number] || `refusal ${number}`;
    super(place === undefined ? name : `${name} at byte ${place}`);
    this.number = number;
    this.place = place;
  }
}

/**
 * An area of dead cells.
 * @typedef {{ x: number, y: number, w: number, h: number }} Box
 */
/**
 * An edit: counter and replica of its stamp, an area or null, and cells as x y state .., by y, then x.
 * @typedef {{ c: number, r: number, area: Box | null, cells: number[] }} Edit
 */

/** Bytes that are written from the front. */
export class Out {
  /** @param {number} size */
  constructor(size) {
    this.bytes = new Uint8Array(size);
    this.view = new DataView(this.bytes.buffer);
    this.at = 0;
  }
  /** @param {number} n */
  u8(n) { this.view.setUint8(this.at, n); this.at += 1; return this; }
  /** @param {number} n */
  u16(n) { this.view.setUint16(this.at, n); this.at += 2; return this; }
  /** @param {number} n */
  u32(n) { this.view.setUint32(this.at, n); this.at += 4; return this; }
  /** @param {number} counter @param {number} replica */
  stamp(counter, replica) { return this.u16(Math.floor(counter / 2 ** 32)).u32(counter % 2 ** 32).u16(replica); }
  /** @param {string} ascii */
  text(ascii) { for (let k = 0; k < ascii.length; k++) this.u8(ascii.charCodeAt(k)); return this; }
}

/** Bytes that are read from the front; what is not all there is 17. */
export class In {
  /** @param {Uint8Array} bytes */
  constructor(bytes) {
    this.bytes = bytes;
    this.view = new DataView(bytes.buffer, bytes.byteOffset, bytes.byteLength);
    this.at = 0;
  }
  /** The place of the next n bytes, which are passed over.
   * @param {number} n */
  take(n) {
    if (n > this.bytes.length - this.at) throw new Fault(17);
    this.at += n;
    return this.at - n;
  }
  u8() { return this.view.getUint8(this.take(1)); }
  u16() { return this.view.getUint16(this.take(2)); }
  u32() { return this.view.getUint32(this.take(4)); }
  /** @param {number} n */
  text(n) {
    const from = this.take(n);
    return String.fromCharCode(...this.bytes.subarray(from, from + n));
  }
}

/** The counter of the stamp at a place.
 * @param {DataView} view @param {number} at */
export const counterAt = (view, at) => view.getUint16(at) * 2 ** 32 + view.getUint32(at + 2);

/**
 * The head of a message: its magic and its version; of another rule it is 16.
 * @param {In} from @param {string | null} rule the printed form, or null for any
 */
export function readHead(from, rule) {
  const magic = from.text(4);
  if (magic !== "GLWD" && magic !== "GLWS") throw new Fault(14);
  const version = from.u8();
  if (version !== 1 && !(magic === "GLWS" && version === 2)) throw new Fault(15);
  const text = from.text(from.u8());
  if (rule !== null && text !== rule) throw new Fault(16);
  return { magic, version, rule: text };
}

/** The head of a message as it is written.
 * @param {Out} out @param {string} magic @param {number} version @param {string} rule */
export const writeHead = (out, magic, version, rule) => out.text(magic).u8(version).u8(rule.length).text(rule);

/**
 * The delta of some edits.
 * @param {string} rule @param {Edit[]} edits
 */
export function writeDelta(rule, edits) {
  const size = edits.reduce((n, e) => n + 13 + (e.area ? 16 : 0) + 3 * e.cells.length, 10 + rule.length);
  const out = writeHead(new Out(size), "GLWD", 1, rule).u32(edits.length);
  for (const { c, r, area, cells } of edits) {
    out.stamp(c, r).u8(area ? 1 : 0);
    if (area) out.u32(area.x + HALF).u32(area.y + HALF).u32(area.w).u32(area.h);
    out.u32(cells.length / 3);
    for (let k = 0; k < cells.length; k += 3) out.u32(cells[k] + HALF).u32(cells[k + 1] + HALF).u8(cells[k + 2]);
  }
  return out.bytes;
}

/**
 * The edits of a delta; the first fault from the left is thrown.
 * @param {Uint8Array} bytes @param {{ text: string, states: number }} rule
 */
export function readDelta(bytes, rule) {
  const from = new In(bytes);
  if (readHead(from, rule.text).magic !== "GLWD") throw new Fault(14);
  const edits = [];
  for (let n = from.u32(); n > 0; n--) edits.push(readEdit(from, rule.states));
  if (from.at < bytes.length) throw new Fault(20);
  return edits;
}

/** @param {In} from @param {number} states @returns {Edit} */
function readEdit(from, states) {
  const at = from.take(8), c = counterAt(from.view, at), r = from.view.getUint16(at + 6);
  if (c === 0 || r === 0) throw new Fault(18);
  const flag = from.u8();
  if (flag > 1) throw new Fault(19);
  const area = flag ? readArea(from) : null;
  const n = from.u32();
  if (n > MOST_CELLS) throw new Fault(8);
  if (n === 0 && !area) throw new Fault(9);
  return { c, r, area, cells: readCells(from, n, states, area) };
}

/** @param {In} from @returns {Box} */
function readArea(from) {
  const at = from.take(16), word = (/** @type {number} */ k) => from.view.getUint32(at + 4 * k);
  if (word(0) + word(2) > 2 * HALF || word(1) + word(3) > 2 * HALF) throw new Fault(10);
  if (word(0) >= 2 * HALF || word(1) >= 2 * HALF) throw new Fault(10);
  if (word(2) === 0 || word(3) === 0) throw new Fault(9);
  return { x: word(0) - HALF, y: word(1) - HALF, w: word(2), h: word(3) };
}

/** @param {In} from @param {number} n @param {number} states @param {Box | null} area */
function readCells(from, n, states, area) {
  /** @type {number[]} */
  const cells = [];
  for (; n > 0; n--) {
    const at = from.take(9), px = from.view.getUint32(at), py = from.view.getUint32(at + 4), s = from.view.getUint8(at + 8);
    if (s >= states) throw new Fault(11);
    if (px >= 2 * HALF || py >= 2 * HALF) throw new Fault(10);
    const k = cells.length, x = px - HALF, y = py - HALF;
    if (k > 0 && (y < cells[k - 2] || y === cells[k - 2] && x <= cells[k - 3])) throw new Fault(19);
    if (area && (s === 0 || !within(area, x, y))) throw new Fault(19);
    cells.push(x, y, s);
  }
  return cells;
}

/** @param {Box} box @param {number} x @param {number} y */
export const within = (box, x, y) => x >= box.x && y >= box.y && x < box.x + box.w && y < box.y + box.h;

/** @param {number} x @param {number} y */
export const inPlane = (x, y) => x >= -HALF && y >= -HALF && x < HALF && y < HALF;

/** A box as far as it lies in the plane; where it does not, a side is 0.
 * @param {Box} box @returns {Box} */
export function clipped(box) {
  const x = Math.max(box.x, -HALF), y = Math.max(box.y, -HALF);
  return { x, y, w: Math.max(Math.min(box.x + box.w, HALF) - x, 0), h: Math.max(Math.min(box.y + box.h, HALF) - y, 0) };
}

// -- requests, by their kinds

const alone = (/** @type {number} */ kind) => Uint8Array.of(kind);
export const hello = () => alone(1);
/** @param {string} rule @param {Edit} edit */
export function push(rule, edit) {
  const delta = writeDelta(rule, [edit]), body = new Uint8Array(1 + delta.length);
  body[0] = 2;
  body.set(delta, 1);
  return body;
}
export const poll = () => alone(3);
export const whole = () => alone(4);
/** @param {number} generation */
export const exportOf = generation => new Out(5).u8(5).u32(generation).bytes;
export const bye = () => alone(6);
/** @param {number[]} generations */
export function many(generations) {
  const out = new Out(3 + 4 * generations.length).u8(7).u16(generations.length);
  for (const g of generations) out.u32(g);
  return out.bytes;
}
/** @param {number} milliseconds */
export const awaitNews = milliseconds => new Out(5).u8(8).u32(milliseconds).bytes;
/** @param {Box} window in the plane @param {number} generation */
export const cutOf = ({ x, y, w, h }, generation) => new Out(21).u8(10).u32(x).u32(y).u32(w).u32(h).u32(generation).bytes;
export const pieces = () => alone(11);

// -- replies

const PLANE = 0xffffffff;

/**
 * How many bodies the reply to a request has, as its first one tells.
 * @param {number} kind @param {Uint8Array} first
 */
export function bodiesOf(kind, first) {
  if (first[0] !== 0) return 1;
  const from = new In(first.subarray(1));
  if (kind === 3 || kind === 8) {
    const n = from.u32();
    return 1 + (n === PLANE ? 1 : n);
  }
  if (kind === 7) return 1 + from.u16();
  if (kind === 11) { from.take(8); return 1 + from.u32(); }
  return 1;
}

/** Seat and rule of a reply to a Hello.
 * @param {Uint8Array} first */
export function readHello(first) {
  const from = new In(first.subarray(1)), seat = from.u16();
  return { seat, rule: from.text(from.u8()) };
}

/** Whether the reply to a Poll hands out a plane.
 * @param {Uint8Array} first */
export const handsPlane = first => new In(first.subarray(1)).u32() === PLANE;

/** The text of a reply, behind its 0.
 * @param {Uint8Array} body */
export const textIn = body => new TextDecoder().decode(body.subarray(1));

/** Bodies put together.
 * @param {Uint8Array[]} bodies */
export function joined(bodies) {
  const all = new Uint8Array(bodies.reduce((n, b) => n + b.length, 0));
  let at = 0;
  for (const b of bodies) { all.set(b, at); at += b.length; }
  return all;
}
