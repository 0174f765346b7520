// Each pattern of the library does what it claims.
import assert from "node:assert/strict";
import test from "node:test";
import { Grid } from "../src/generations.js";
import { LIBRARY } from "../src/library.js";
import { readRLE } from "../src/rle.js";
import { readRule } from "../src/rules.js";

const after = (grid, rule, n) => { for (; n > 0; n--) grid = grid.next(rule); return grid; };
const begun = ({ rle }) => Grid.from(readRLE("x = 0, y = 0\n" + rle).cells);

/** The first generation at which a pattern is itself again, and how far it is moved. */
function again(grid, rule, most) {
  const shape = (g, box) => g.cells().map((n, k) => k % 3 === 0 ? n - box.x : k % 3 === 1 ? n - box.y : n).join();
  const first = grid.box(), as = shape(grid, first);
  for (let n = 1; n <= most; n++) {
    grid = grid.next(rule);
    const box = grid.box();
    if (box && shape(grid, box) === as) return { period: n, x: box.x - first.x, y: box.y - first.y };
  }
  return null;
}

function check(entry) {
  const { does } = entry, rule = readRule(entry.rule), grid = begun(entry);
  if ("period" in does) return assert.deepEqual(again(grid, rule, does.period), { x: 0, y: 0, ...does });
  if ("every" in does) {
    const from = after(grid, rule, does.from);
    return assert.equal(after(from, rule, does.every).population - from.population, does.grows);
  }
  const before = after(grid, rule, does.at - 1);
  assert.equal(before.next(rule).population, does.cells);
  if (does.cells === 0) assert.notEqual(before.population, 0);
}

test("forty patterns, each by its own name under a rule", () => {
  assert.equal(LIBRARY.length, 40);
  assert.equal(new Set(LIBRARY.map(e => e.rule + e.name)).size, 40);
});

for (const entry of LIBRARY) test(`${entry.name}, ${entry.rule}`, () => check(entry));
