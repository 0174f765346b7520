// Generations in the page, against the exports of the product's program: 200 soups under ten rules.
import assert from "node:assert/strict";
import { createHash } from "node:crypto";
import { readFileSync } from "node:fs";
import test from "node:test";
import { Grid } from "../src/generations.js";
import { Plane } from "../src/plane.js";
import { Player } from "../src/player.js";
import { readRule } from "../src/rules.js";
import { RULES, stepped } from "./soups.mjs";

const { soups } = JSON.parse(readFileSync(new URL("fixtures/program.json", import.meta.url), "utf8"));

test("200 soups come to the program's exports", () => {
  assert.equal(RULES.length, 10);
  for (let k = 0; k < 200; k++) {
    assert.equal(createHash("sha256").update(stepped(k)).digest("hex").slice(0, 16), soups[k], `soup ${k}`);
  }
});

test("cells at the edges of the plane go on outside of it", () => {
  const rule = readRule("23/3/2"), far = 2 ** 30;
  let grid = Grid.from([far - 1, 0, 1, far - 1, 1, 1, far - 1, 2, 1, -far, -far, 1, 1 - far, -far, 1, 2 - far, -far, 1]);
  grid = grid.next(rule);
  assert.deepEqual(grid.cells(), [1 - far, -far - 1, 1, 1 - far, -far, 1, 1 - far, 1 - far, 1, far - 2, 1, 1, far - 1, 1, 1, far, 1, 1]);
});

function player() {
  const board = { plane: new Plane(), rule: readRule("23/3/2") };
  board.plane.apply({ c: 1, r: 1, area: null, cells: [1, 0, 1, 2, 1, 1, 0, 2, 1, 1, 2, 1, 2, 2, 1] });
  return new Player(board, () => {});
}

test("looks go forwards by the stride, and back one at a time, to the board", () => {
  const p = player();
  p.step();
  p.stride = 4;
  p.step();
  p.step();
  assert.deepEqual([p.gen, p.look.grid.box()], [9, { x: 2, y: 3, w: 3, h: 3 }]);
  const gens = [];
  while (p.back()) gens.push(p.gen);
  assert.deepEqual(gens, [5, 1, 0, 0]);
  assert.equal(p.look, null);
});

test("200 looks are kept", () => {
  const p = player();
  for (let k = 0; k < 300; k++) p.step();
  assert.equal(p.past.length, 200);
  for (let k = 0; k < 200; k++) p.back();
  assert.equal(p.gen, 100);
});

test("playing keeps to its rate", () => {
  const p = player();
  p.rate = 3;
  p.toggle();
  for (let now = 1000; now < 3000; now += 16) p.tick(now);
  assert.ok(p.gen === 6, `${p.gen} generations in two seconds`);
});

test("a generation far on is reached, and given up for the board", async () => {
  const p = player(), grid = await p.reach(400, () => {});
  assert.deepEqual(grid.box(), { x: 100, y: 100, w: 3, h: 3 });
  const far = p.reach(10 ** 7, () => {});
  setTimeout(() => p.edit(), 60);
  assert.equal(await far, null);
});
