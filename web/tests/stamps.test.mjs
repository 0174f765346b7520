// What was drawn and not confirmed, against a map; what is lost with a line; a board that begins anew.
import assert from "node:assert/strict";
import test from "node:test";
import { Board } from "../src/board.js";
import { missing } from "../src/drawings.js";
import { exportOf, writeDelta } from "../src/formats.js";
import { Plane } from "../src/plane.js";
import { chance } from "./chance.mjs";
import { Clock, Server, connect } from "./server.mjs";

const planeOf = (...edits) => { const plane = new Plane(); for (const e of edits) plane.apply(e); return plane; };
const edit = (c, r, cells, area = null) => ({ c, r, area, cells });

test("of a drawing that was published, or lies under greater writes, nothing is missing", () => {
  const mine = edit(5, 1, [0, 0, 1, 1, 0, 0]);
  assert.equal(missing(mine, planeOf(mine)), null);
  assert.equal(missing(mine, planeOf(mine, edit(6, 2, [0, 0, 0]))), null);
  assert.equal(missing(mine, planeOf(edit(5, 2, [0, 0, 0, 1, 0, 1]))), null);
});

test("what is missing are the cells that show a lesser write, or another edit of the same stamp", () => {
  const mine = edit(5, 1, [0, 0, 1, 1, 0, 0]);
  assert.deepEqual(missing(mine, planeOf()).cells, mine.cells);
  assert.deepEqual(missing(mine, planeOf(edit(6, 2, [0, 0, 0]))).cells, [1, 0, 0]);
  assert.deepEqual(missing(mine, planeOf(edit(5, 1, [0, 0, 2, 1, 0, 0]))).cells, [0, 0, 1]);
});

test("an area that is missing whole stays an area, and in part becomes its cells", () => {
  const mine = edit(5, 1, [1, 1, 2], { x: 0, y: 0, w: 2, h: 2 });
  assert.equal(missing(mine, planeOf(mine)), null);
  assert.equal(missing(mine, planeOf()), mine);
  const part = missing(mine, planeOf(edit(9, 2, [0, 0, 1])));
  assert.deepEqual([part.area, part.cells], [null, [1, 0, 0, 0, 1, 0, 1, 1, 2]]);
  const great = edit(5, 1, [], { x: -(2 ** 30), y: 0, w: 2 ** 31, h: 9 });
  assert.equal(missing(great, planeOf(great)), great);
});

/** A board over a server of the tests, and what it told. */
function boardOver(how, draw = () => {}) {
  const clock = new Clock(), c = chance(4), server = new Server(clock, c, "23/3/2", { kept: false, chairs: true, most: 99, frame: 2 ** 24, hasAwait: true, ...how }), told = [];
  const line = {};
  const world = { connect: ear => { line.last = connect(server, "k", ear, c); return line.last.socket; }, later: (ms, call) => clock.later(ms, call), isHidden: () => false, window: () => null };
  const board = new Board(world, { state: s => told.push(s), map() {}, refused: n => told.push(n), begunAnew: before => told.push(before.cells()) }, "/2/3");
  board.start();
  draw(board);
  return { clock, server, board, told, line };
}

test("the rule and the seat are the server's; what is drawn before is drawn then", () => {
  const { clock, server, board, told } = boardOver({}, b => b.draw([3, 3, 1], null));
  clock.run(2000);
  assert.equal(board.rule.text, "23/3/2");
  assert.deepEqual(server.list.map(e => e.edit.cells), [[3, 3, 1]]);
  assert.deepEqual(told.filter(t => typeof t === "string"), ["opening", "reading", "open"]);
});

test("too many cells, and a clock that is full, are told and not drawn", () => {
  const { clock, board, told } = boardOver({}), many = [];
  clock.run(500);
  for (let k = 0; k <= 2 ** 20; k++) many.push(k, 0, 1);
  board.draw(many, null);
  board.plane.apply(edit(2 ** 48 - 1, 9, [0, 0, 1]));
  board.draw([5, 5, 1], null);
  assert.deepEqual(told.slice(-2), [8, 24]);
  assert.equal(board.plane.population, 1);
});

const seen = b => { b.world.window = () => ({ x: 0, y: 0, w: 4, h: 4 }); };

test("a window that a server cuts out is shown before the rest, and what is drawn on it is drawn on the board", () => {
  const { clock, board, server } = boardOver({ cuts: true, frame: 700, most: 2 }, seen);
  for (const [k, x] of [1, 2, 50, 60].entries()) server.publish(edit(k + 1, 9, [x, 1, 1]), writeDelta("23/3/2", [edit(k + 1, 9, [x, 1, 1])]));
  const shown = [];
  let isDrawn = false;
  board.told.map = () => {
    shown.push(board.plane.cells().length / 3);
    if (shown.length > 1 || isDrawn) return;
    isDrawn = true;
    assert.ok(!board.hasRead && board.plane.at(1, 1).c === 0);
    board.draw([1, 1, 0], null);
  };
  clock.run(500);
  assert.deepEqual([...new Set(shown)], [2, 1, 4, 3]);
  assert.deepEqual(server.list.slice(4).map(e => [e.edit.c, ...e.edit.cells]), [[5, 1, 1, 0]]);
});

test("a server that cuts nothing out is read whole, and not asked again", () => {
  const { clock, board, server } = boardOver({ cuts: false }, seen);
  for (const s of [clock, board]) assert.ok(s);
  server.publish(edit(1, 9, [1, 1, 1]), writeDelta("23/3/2", [edit(1, 9, [1, 1, 1])]));
  clock.run(500);
  assert.deepEqual([board.plane.cells(), board.hasCut], [[1, 1, 1], false]);
});

test("a server that begins anew is told, with what stood before", () => {
  const { clock, server, board, told } = boardOver({});
  clock.run(500);
  board.draw([3, 3, 1], null);
  clock.run(1000);
  server.restart(50, false);
  clock.run(9000);
  assert.deepEqual(told.find(t => Array.isArray(t)), [3, 3, 1]);
  assert.equal(board.plane.population, 0);
  board.draw([4, 4, 1], null);
  assert.ok(board.plane.at(4, 4).c > 1, "counters go on");
});

test("a request without a reply is refused when the line is lost, or not there", async () => {
  const { clock, board, line } = boardOver({});
  clock.run(500);
  const asked = board.ask(exportOf(0)), { last } = line;
  board.leave("away", 100);
  await assert.rejects(asked, { message: "Away" });
  await assert.rejects(board.ask(exportOf(0)), { message: "Away" });
  assert.ok(last.isCut);
});

test("a server that does not answer any more is let go", () => {
  const { clock, board, server, told } = boardOver({});
  clock.run(500);
  for (const s of server.sessions) s.came = () => {};
  board.draw([1, 1, 1], null);
  clock.run(90000);
  assert.ok(told.includes("away") && board.state === "open");
  assert.equal(board.pending.length, 0);
});
