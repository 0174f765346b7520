// Formats both ways, against texts that the product's program wrote (fixtures/make.mjs) and docs/FORMATS.md.
import assert from "node:assert/strict";
import { readFileSync } from "node:fs";
import test from "node:test";
import * as formats from "../src/formats.js";
import { filmOf, svgOf } from "../src/pictures.js";
import { Plane } from "../src/plane.js";
import { boxOf, forFile, readRLE, writeRLE } from "../src/rle.js";
import { readRule } from "../src/rules.js";
import { readState } from "../src/states.js";
import { mapOf } from "./server.mjs";
import { otherSpellings, writeState } from "./states.mjs";

const fixtures = JSON.parse(readFileSync(new URL("fixtures/program.json", import.meta.url), "utf8"));
export const bytesOf = hex => Uint8Array.from(Buffer.from(hex.replace(/\s/g, ""), "hex"));
const hexOf = bytes => Buffer.from(bytes).toString("hex");
const faultOf = call => { try { call(); return 0; } catch (fault) { if (!(fault instanceof formats.Fault)) throw fault; return fault.number; } };
const BRAIN = readRule("/2/3");

test("deltas of the program are read, and written with the same bytes", () => {
  for (const { rule, delta, shown } of fixtures.messages) {
    const edits = formats.readDelta(bytesOf(delta), readRule(rule)), plane = new Plane();
    assert.equal(hexOf(formats.writeDelta(rule, edits)), delta);
    for (const edit of edits) plane.apply(edit);
    for (const line of shown) {
      const [x, y, s, c, r] = line.split(" ").map(Number);
      assert.deepEqual(plane.at(x, y), { c, r, s }, `${rule} ${line}`);
    }
  }
});

test("states of the program are read", () => {
  for (const { rule, state, shown } of fixtures.messages) {
    const plane = new Plane();
    plane.load(readState(bytesOf(state), readRule(rule)));
    for (const line of shown) {
      const [x, y, s, c, r] = line.split(" ").map(Number);
      assert.deepEqual(plane.at(x, y), { c, r, s }, `${rule} ${line}`);
    }
  }
});

test("the states that the tests' own server writes are the program's", () => {
  for (const { rule, state, delta } of fixtures.messages) {
    const edits = formats.readDelta(bytesOf(delta), readRule(rule));
    if (edits.some(e => e.area && e.area.w > 100)) continue;
    assert.equal(hexOf(writeState(rule, mapOf(edits))), state);
  }
});

test("a great area takes no room", () => {
  const [{ rule, state }] = fixtures.messages.filter(m => m.drawings.some(d => d.includes("2000 2000"))), plane = new Plane();
  plane.load(readState(bytesOf(state), readRule(rule)));
  assert.equal(plane.tiles.size, 1);
  assert.equal(plane.population, 1);
});

/** One cell under /2/3, as docs/FORMATS.md tells it of version 1. */
function versionOne() {
  const square = level => {
    if (level === 3) return "01" + "000000000001000101" + "000000000000000000".repeat(63);
    const blank = "000000000000000000", inside = square(level - 1);
    return "02" + (level === 31 ? [blank, blank, blank, inside] : [inside, blank, blank, blank]).join("");
  };
  return "474c57530104" + "2f322f33" + square(31);
}

test("states of version 1 are read", () => {
  assert.equal(versionOne().length / 2, 1371);
  const tree = readState(bytesOf(versionOne()), BRAIN);
  assert.deepEqual([tree.at(0, 0), tree.at(1, 0), tree.at(-5, 9)], [{ c: 1, r: 1, s: 1 }, { c: 0, r: 0, s: 0 }, { c: 0, r: 0, s: 0 }]);
  assert.deepEqual(readState(bytesOf("474c5753 01 04 2f322f33 00 0000000000000000"), BRAIN).at(3, 4), { c: 0, r: 0, s: 0 });
  const faulty = versionOne().replace("02" + "000000000000000000".repeat(3), "03" + "000000000000000000".repeat(3));
  assert.equal(faultOf(() => readState(bytesOf(faulty), BRAIN)), 19);
});

test("a map has one state: any other spelling is refused", () => {
  for (const [name, state] of otherSpellings()) assert.equal(faultOf(() => readState(state, BRAIN)), 19, name);
});

test("deltas are refused by the first fault from the left", () => {
  const good = "474c5744 01 04 2f322f33 00000001 0000000000010001 00 00000001 40000000 40000000 01";
  const rows = [
    [good, 0], ["474c5745" + good.slice(8), 14], [good.replace("5744 01", "5744 02"), 15], [good.replace("2f33", "2f34"), 16],
    [good.slice(0, -2), 17], [good + "00", 20], [good.replace("0000000000010001", "0000000000010000"), 18], [good.replace("0000000000010001", "0000000000000001"), 18],
    [good.replace("0001 00 0000", "0001 02 0000"), 19], [good.replace("00000001 40000000 40000000 01", "00000000"), 9],
    [good.replace("00000001 40000000 40000000 01", "00100001"), 8], [good.replace("40000000 01", "40000000 03"), 11], [good.replace("40000000 01", "80000000 01"), 10],
    [good.replace("00000001 40000000 40000000 01", "00000002 40000001 40000000 01 40000000 40000000 01"), 19],
    [good.replace("0001 00 00000001", "0001 01 40000000 40000000 00000001 00000000 00000001"), 9],
    [good.replace("0001 00 00000001", "0001 01 7fffffff 40000000 00000002 00000001 00000001"), 10],
    [good.replace("0001 00 00000001", "0001 01 40000001 40000000 00000002 00000001 00000001"), 19],
  ];
  for (const [hex, number] of rows) assert.equal(faultOf(() => formats.readDelta(bytesOf(hex), BRAIN)), number, hex);
});

test("requests and replies have the bytes of docs/FORMATS.md", () => {
  const sent = { c: 1, r: 1, area: null, cells: [0, 0, 1] };
  const rows = [
    [formats.hello(), "01"], [formats.push("/2/3", sent), "02474c574401042f322f330000000100000000000100010000000001400000004000000001"], [formats.poll(), "03"],
    [formats.whole(), "04"], [formats.exportOf(2 ** 29), "0520000000"], [formats.bye(), "06"], [formats.many([1, 256]), "0700020000000100000100"],
    [formats.awaitNews(60000), "080000ea60"], [formats.pieces(), "0b"], [formats.cutOf({ x: -1, y: 0, w: 5, h: 6 }, 258), "0affffffff00000000000000050000000600000102"],
  ];
  for (const [body, hex] of rows) assert.equal(hexOf(body), hex);
  assert.deepEqual(formats.readHello(bytesOf("00 0001 04 2f322f33")), { seat: 1, rule: "/2/3" });
  const counts = [[3, "00 00000000", 1], [3, "00 00000007", 8], [8, "00 ffffffff", 2], [8, "15", 1], [7, "00 0003", 4], [11, "00 0000000000000005 00000002", 3], [5, "00", 1]];
  for (const [kind, hex, n] of counts) assert.equal(formats.bodiesOf(kind, bytesOf(hex)), n);
  assert.ok(formats.handsPlane(bytesOf("00 ffffffff")) && !formats.handsPlane(bytesOf("00 00000001")));
});

test("a window is asked for as far as it lies in the plane", () => {
  const half = 2 ** 30, far = { x: -2 * half, y: half - 3, w: 8 * half, h: 9 };
  assert.deepEqual(formats.clipped(far), { x: -half, y: half - 3, w: 2 * half, h: 3 });
  assert.deepEqual(formats.clipped({ x: half, y: 0, w: 4, h: 4 }), { x: half, y: 0, w: 0, h: 4 });
  assert.deepEqual(formats.clipped({ x: -5, y: -6, w: 7, h: 8 }), { x: -5, y: -6, w: 7, h: 8 });
});

test("RLE is read and written as the program does", () => {
  for (const { rule: text, text: source, canonical, refused } of fixtures.canonical) {
    const rule = readRule(text);
    let pattern, fault = null;
    try { pattern = readRLE(source); } catch (met) { fault = met; }
    if (canonical) {
      const cells = pattern.cells.map((n, k) => k % 3 === 0 ? n + pattern.x : k % 3 === 1 ? n + pattern.y : n);
      assert.equal(writeRLE(cells, rule, pattern.gen), canonical, source);
    } else if (refused[0] === 11) assert.ok(pattern.cells.some((s, k) => k % 3 === 2 && s >= rule.states));
    else assert.deepEqual([fault.number, fault.place ?? null], refused, source);
  }
});

test("a file of two states spells its rule as Golly's Life", () => {
  const life = readRule("23/3"), seeds = readRule("/2/2");
  const text = rule => `#CXRLE Pos=-1,2 Gen=7\nx = 1, y = 1, rule = ${rule}\no!\n`;
  assert.equal(forFile(text("23/3/2"), life), text("B3/S23"));
  assert.equal(forFile(text("/2/2"), seeds), text("B2/S"));
  assert.equal(readRule("B2/S").text, "/2/2");
  assert.equal(forFile(text("/2/3").replace("o!", "A!"), BRAIN), text("/2/3").replace("o!", "A!"));
});

test("rules are spelled as the program takes them", () => {
  for (const { spelled, rule } of fixtures.rules) assert.equal(readRule(spelled)?.text ?? null, rule, spelled);
});

test("pictures have the bytes of the program's", () => {
  for (const { rule, text, svg } of fixtures.pictures) {
    const p = readRLE(text), cells = p.cells.map((n, k) => k % 3 === 0 ? n + p.x : k % 3 === 1 ? n + p.y : n);
    assert.equal(svgOf(cells, boxOf(cells), readRule(rule).states), svg);
  }
});

test("a film shows each picture in its turn", () => {
  const film = filmOf([{ cells: [0, 0, 1] }, { cells: [1, 0, 1] }, { cells: [] }], { x: 0, y: 0, w: 2, h: 1 }, 2, 10);
  assert.equal(film.match(/<g /g).length, 3);
  assert.equal(film.match(/dur="0\.300s"/g).length, 3);
  assert.match(film, /keyTimes="0;0\.333333;0\.666667"/);
});
