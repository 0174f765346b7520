// Taking back and drawing again, against the definition: what is taken back is drawn as it was before, with a new
// stamp, of those cells alone that still carry the stroke's stamp; and so is what is drawn again.
import assert from "node:assert/strict";
import test from "node:test";
import { Board } from "../src/board.js";
import { Editor } from "../src/editor.js";
import { chance, seedOf } from "./chance.mjs";
import { above, writesOf } from "./server.mjs";

const SIDE = 6, key = (x, y) => `${x},${y}`;

/** A board of one's own, and beside it a plain map of writes that other seats draw on too. */
class Trial {
  constructor(c) {
    this.chance = c;
    this.board = new Board(null, { state() {}, map() {}, refused() {}, begunAnew() {} }, "/2/3");
    this.editor = new Editor(this.board);
    this.map = new Map();
    this.done = [];
    this.undone = [];
    const draw = this.board.draw.bind(this.board);
    this.board.draw = (cells, area, stamps) => {
      if (!cells.length && !area) return;
      draw(cells, area, stamps);
      this.last = { c: this.board.plane.top, r: this.board.seat, area, cells };
      this.apply(this.last);
    };
  }
  apply(edit) {
    for (const w of writesOf(edit)) {
      const old = this.map.get(key(w.x, w.y));
      if (!old || above(w, old)) this.map.set(key(w.x, w.y), { c: w.c, r: w.r, s: w.s });
    }
  }
  state(x, y) { return (this.map.get(key(x, y)) || { s: 0 }).s; }
  cell() { return [this.chance.below(SIDE), this.chance.below(SIDE), this.chance.below(3)]; }

  /** One's own drawing: what its cells were is noted by the map. */
  draw() {
    const before = new Map(this.map), list = Array.from({ length: 1 + this.chance.below(4) }, () => this.cell());
    this.last = null;
    this.editor.put(list);
    this.note(before);
  }
  clear() {
    const before = new Map(this.map);
    this.editor.clear({ x: this.chance.below(4), y: this.chance.below(4), w: 1 + this.chance.below(4), h: 1 + this.chance.below(4) });
    this.note(before);
  }
  note(before) {
    const cells = [...writesOf(this.last)].map(w => [w.x, w.y]), was = new Map();
    const isNoted = ([x, y]) => !this.last.area || (before.get(key(x, y)) || { s: 0 }).s !== 0;
    for (const [x, y] of cells.filter(isNoted)) was.set(key(x, y), { x, y, before: (before.get(key(x, y)) || { s: 0 }).s, after: this.state(x, y) });
    this.done.push({ cells: was, stamp: this.last });
    this.undone = [];
  }
  /** Another seat draws: with a greater stamp, or with one that comes late. */
  other() {
    const late = this.chance.is(.3) ? this.chance.below(4) : 0, c = Math.max(1, this.board.plane.top + 1 - late);
    const edit = { c, r: 2 + this.chance.below(3), area: null, cells: [] }, [x, y, s] = this.cell();
    edit.cells = [x, y, s];
    this.board.plane.apply(edit);
    this.apply(edit);
  }
  again(which) {
    const [from, to] = which === "undo" ? [this.done, this.undone] : [this.undone, this.done], stroke = from.pop(), should = new Map(this.map);
    const drawn = [];
    if (stroke) for (const change of stroke.cells.values()) {
      const w = this.map.get(key(change.x, change.y));
      if (stroke.stamp && w.c === stroke.stamp.c && w.r === stroke.stamp.r) drawn.push([change.x, change.y, which === "undo" ? change.before : change.after]);
    }
    const top = this.board.plane.top;
    this.last = null;
    const n = this.editor.again(which);
    assert.equal(n, stroke ? drawn.length : null);
    if (!stroke) return;
    for (const [x, y, s] of drawn) should.set(key(x, y), { c: top + 1, r: 1, s });
    assert.deepEqual(this.map, should);
    to.push({ cells: stroke.cells, stamp: this.last });
  }
}

test("strokes by chance, taken back and drawn again beside what others draw", () => {
  const seed = seedOf("undo");
  for (let k = 0; k < 300; k++) {
    const c = chance(seed + k), trial = new Trial(c);
    for (let n = 0; n < 60; n++) {
      const turn = c.next();
      if (turn < .35) trial.draw();
      else if (turn < .4) trial.clear();
      else if (turn < .6) trial.other();
      else trial.again(turn < .85 ? "undo" : "redo");
      for (let y = 0; y < 8; y++) for (let x = 0; x < 8; x++) assert.deepEqual(trial.board.plane.at(x, y), trial.map.get(key(x, y)) || { c: 0, r: 0, s: 0 });
    }
  }
});

test("a stroke that goes out in pieces is one to take back, and gives back what was there at first", () => {
  const trial = new Trial(chance(1)), { editor, board } = trial;
  editor.put([[1, 0, 2]]);
  editor.begin(0);
  editor.line([0, 0], [2, 0], 1);
  editor.send(100);
  editor.line([2, 0], [0, 0], 0);
  editor.send(110);
  editor.end();
  assert.equal(board.plane.population, 0);
  assert.equal(editor.again("undo"), 3);
  assert.deepEqual(board.plane.cells(), [1, 0, 2]);
});

test("a gesture that is given up draws nothing, and is no stroke", () => {
  const { editor, board } = new Trial(chance(1));
  editor.begin(1000);
  editor.line([0, 0], [5, 5], 1);
  editor.send(10);
  editor.giveUp();
  assert.equal(board.plane.population, 0);
  assert.equal(editor.again("undo"), null);
});

test("patterns are put down, turned and cleared as one stroke each", () => {
  const { editor, board } = new Trial(chance(1));
  assert.match(editor.land({ w: 1, h: 1, cells: [0, 0, 3] }, 0, 0, "or"), /no such state/);
  assert.match(editor.land({ w: 1, h: 1, cells: [0, 0, 1] }, 2 ** 30, 0, "or"), /leaves the plane/);
  editor.put([[0, 0, 1], [1, 0, 1]]);
  assert.equal(editor.land({ w: 2, h: 1, cells: [0, 0, 2] }, 0, 0, "or"), null);
  assert.deepEqual(board.plane.cells(), [0, 0, 2, 1, 0, 1]);
  editor.again("undo");
  editor.land({ w: 2, h: 1, cells: [0, 0, 2] }, 0, 0, "copy");
  assert.deepEqual(board.plane.cells(), [0, 0, 2]);
  editor.again("undo");
  assert.deepEqual(board.plane.cells(), [0, 0, 1, 1, 0, 1]);
  assert.deepEqual(editor.turn({ x: 0, y: 0, w: 3, h: 1 }, p => ({ w: p.h, h: p.w, cells: [0, 0, 1, 0, 1, 1] })), { x: 0, y: 0, w: 1, h: 3 });
  assert.deepEqual(board.plane.cells(), [0, 0, 1, 0, 1, 1]);
  editor.again("undo");
  editor.clear({ x: 1, y: 0, w: 9, h: 9 });
  assert.deepEqual(board.plane.cells(), [0, 0, 1]);
});
