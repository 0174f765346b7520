// Writes the text of a state of version 2, from the writes that a map has, as docs/FORMATS.md has it.
import { HALF, Out, writeHead } from "../src/formats.js";

const NONE = [0, 0, 0];

/** `writes` is a Map from "x,y" to { c, r, s }. */
export function writeState(rule, writes) {
  const leaves = new Map();
  for (const [key, w] of writes) {
    const [x, y] = key.split(",").map(n => Number(n) + HALF), corner = `${x >> 3},${y >> 3}`;
    if (!leaves.has(corner)) leaves.set(corner, Array(64).fill(NONE));
    leaves.get(corner)[(x & 7) + 8 * (y & 7)] = [w.c, w.r, w.s];
  }
  let squares = new Map([...leaves].map(([corner, list]) => [corner, { level: 3, list }]));
  for (let level = 4; level <= 31; level++) {
    const above = new Map();
    for (const [corner, square] of squares) {
      const [x, y] = corner.split(",").map(Number), key = `${x >> 1},${y >> 1}`;
      if (!above.has(key)) above.set(key, { level, quarters: [null, null, null, null] });
      above.get(key).quarters[(x & 1) + 2 * (y & 1)] = square;
    }
    squares = above;
  }
  const entries = [], numbers = new Map();
  const walk = square => {
    if (square === null) return "0.0";
    const isBlank = square.level === 3 ? square.list.every(w => w[2] === 0 && w[0] === square.list[0][0] && w[1] === square.list[0][1]) : false;
    if (isBlank) return `${square.list[0][0]}.${square.list[0][1]}`;
    const kids = square.level === 3 ? [] : square.quarters.map(walk);
    if (kids.length && typeof kids[0] === "string" && kids.every(k => k === kids[0])) return kids[0];
    const key = square.level + ":" + (square.level === 3 ? square.list.join(";") : kids.join(";"));
    if (!numbers.has(key)) { numbers.set(key, entries.length); entries.push({ level: square.level, list: square.list, kids }); }
    return numbers.get(key);
  };
  const root = squares.size ? walk([...squares.values()][0]) : "0.0";
  const out = writeHead(new Out(40 + 600 * entries.length), "GLWS", 2, rule).u32(entries.length);
  const blank = word => out.stamp(...word.split(".").map(Number));
  if (!entries.length) blank(root);
  for (const { level, list, kids } of entries) {
    out.u8(level);
    if (level === 3) for (const [c, r, s] of list) out.stamp(c, r).u8(s);
    for (const kid of kids) { if (typeof kid === "string") { out.u8(0); blank(kid); } else out.u8(1).u32(kid); }
  }
  return out.bytes.slice(0, out.at);
}

/** The bytes of each entry of a state, whose head has `head` bytes. */
export function entriesOf(bytes, head) {
  const list = [];
  let at = head + 4;
  while (at < bytes.length) {
    const from = at;
    if (bytes[at++] === 3) at += 576;
    else for (let q = 0; q < 4; q++) at += bytes[at] ? 5 : 9;
    list.push(bytes.slice(from, at));
  }
  return list;
}

/** A state of these entries, under the head of another. */
export function ofEntries(bytes, head, list) {
  const count = new Out(4).u32(list.length).bytes;
  return Uint8Array.from([...bytes.slice(0, head), ...count, ...list.flatMap(e => [...e])]);
}

/** An entry whose numbers from `from` on are greater by one. */
function shifted(entry, from) {
  const list = [entry[0]];
  for (let at = 1; entry[0] > 3 && at < entry.length;) {
    const isNumber = entry[at] === 1, n = isNumber ? new DataView(entry.buffer, entry.byteOffset).getUint32(at + 1) : 0;
    list.push(...(isNumber ? [1, 0, 0, 0, n >= from ? n + 1 : n] : entry.slice(at, at + 9)));
    at += isNumber ? 5 : 9;
  }
  return Uint8Array.from(entry[0] > 3 ? list : entry);
}

/** States that are refused by 19, each by another way to spell a map: [name, bytes]. Two leaves stand under one square. */
export function otherSpellings() {
  const rule = "/2/3", head = 10, map = new Map([["1,1", { c: 1, r: 1, s: 1 }], ["9,1", { c: 2, r: 1, s: 2 }]]);
  const good = writeState(rule, map), list = entriesOf(good, head), [a, b, pair, ...rest] = list;
  const swapped = Uint8Array.from(pair), blankLeaf = Uint8Array.from([3, ...Array(576).fill(0)]), blankPair = Uint8Array.from([4, ...Array(36).fill(0)]);
  [swapped[5], swapped[10]] = [pair[10], pair[5]];
  const other = Uint8Array.from(a);
  other[10 + 8] = 0;
  other[577 - 1] = 1;
  other.set([0, 0, 0, 0, 0, 9, 0, 1], 577 - 9);
  const alike = entriesOf(writeState(rule, new Map([["1,1", { c: 1, r: 1, s: 1 }], ["9,1", { c: 1, r: 1, s: 1 }]])), head);
  const apart = Uint8Array.from(alike[1]), above = shifted(rest[0], 3), none = Array(9).fill(0);
  apart[10] = 1;
  return [
    ["two leaves alike", [alike[0], alike[0], apart, ...alike.slice(2).map(e => shifted(e, 1))]],
    ["a blank square as a quarter", [a, b, pair, blankPair, [...above.slice(0, 6), 1, 0, 0, 0, 3, ...none, ...none], ...rest.slice(1).map(e => shifted(e, 3))]],
    ["an entry twice", [a, b, pair, ...rest, pair]], ["a leaf twice", [a, b, pair, ...rest, a]], ["entries in another order", [b, a, swapped, ...rest]],
    ["an entry that none has", [a, b, pair, ...rest.slice(0, -1), other, rest[rest.length - 1]]], ["the whole plane is missing", list.slice(0, -1)],
    ["a blank leaf", [blankLeaf, ...list]], ["a blank square", [a, b, pair, blankPair, ...rest]], ["a number of a later entry", [pair, a, b, ...rest]],
  ].map(([name, entries]) => [name, ofEntries(good, head, entries)]);
}
