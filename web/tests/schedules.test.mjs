// Schedules by chance: pages that draw, take back, lose their lines, are loaded anew; a server that restarts.
// SEED=N runs the schedules of a seed, SCHEDULE=K of them one alone, SCHEDULES=N so many.
import assert from "node:assert/strict";
import test from "node:test";
import { Worker, isMainThread, parentPort, workerData } from "node:worker_threads";
import { Board } from "../src/board.js";
import { Editor } from "../src/editor.js";
import { chance, seedOf } from "./chance.mjs";
import { Clock, Server, above, connect, mapOf, writesOf } from "./server.mjs";

const SIDE = 10;

class Page {
  constructor(run, name) {
    Object.assign(this, { run, name, key: "k" + name, anew: 0, isHidden: false });
    this.begin([]);
  }
  begin(left) {
    const { run } = this, page = this;
    const told = { state() {}, map() {}, refused: n => run.refused.push(n), begunAnew: () => { page.anew++; } };
    const mine = { isGone: false };
    this.mine = mine;
    const world = {
      connect: ear => {
        const alive = name => (...args) => { if (!mine.isGone) ear[name](...args); };
        page.line = connect(run.server, page.key, { opened: alive("opened"), came: alive("came"), closed: alive("closed") }, run.chance);
        return page.line.socket;
      },
      later: (ms, call) => run.clock.later(ms, () => { if (!mine.isGone) call(); }),
      isHidden: () => page.isHidden, window: () => run.asksCut ? { x: 0, y: 0, w: 4, h: 4 } : null,
    };
    this.board = new Board(world, told, run.server.rule.text);
    this.editor = new Editor(this.board);
    this.noteDrawings();
    this.board.start(left);
  }
  /** Each drawing is noted with what it writes when it is drawn, and with the stamps that it gets. */
  noteDrawings() {
    const stamped = this.board.stamped.bind(this.board);
    this.board.stamped = edit => {
      const now = stamped(edit);
      if (edit.drawing) edit.drawing.stamps.push(`${now.c}.${now.r}`);
      return now;
    };
    const draw = this.board.draw.bind(this.board);
    this.board.draw = (cells, area, stamps) => {
      if (!cells.length && !area) return;
      draw(cells, area, stamps);
      const edit = this.board.pending[this.board.pending.length - 1], drawing = { writes: [...writesOf(edit)], page: this.name, stamps: [`${edit.c}.${edit.r}`] };
      edit.drawing = drawing;
      this.run.drawings.push(drawing);
    };
  }
  /** Loads the page anew: what is pending is kept as a text, and the line is lost. */
  reload() {
    const left = JSON.stringify(this.board.pending.map(({ c, r, area, cells, isBlind }) => ({ c, r, area, cells, isBlind })));
    const drawings = this.board.pending.map(e => e.drawing);
    this.mine.isGone = true;
    this.line.cut();
    const edits = JSON.parse(left);
    edits.forEach((e, k) => { e.drawing = drawings[k]; });
    this.begin(edits);
  }
  draw() {
    const { chance } = this.run, states = this.board.rule.states, at = () => chance.below(SIDE);
    if (chance.is(.15)) return void this.editor.again(chance.is(.7) ? "undo" : "redo");
    if (chance.is(.1)) return this.editor.clear({ x: at(), y: at(), w: 1 + chance.below(5), h: 1 + chance.below(5) });
    if (chance.is(.1)) return void this.editor.land({ w: 3, h: 2, cells: [0, 0, 1, 2, 0, states - 1, 1, 1, 1] }, at(), at(), chance.is(.5) ? "copy" : "or");
    const list = [];
    for (let k = 1 + chance.below(4); k > 0; k--) list.push([at(), at(), chance.below(states)]);
    this.editor.put(list);
  }
}

/** What was confirmed on a board that ends is lost with it, and what lay under a greater write there. */
function loseBoard(run, left) {
  const map = mapOf(run.server.list.map(e => e.edit));
  for (const drawing of run.drawings) {
    const isUnder = w => { const there = map.get(`${w.x},${w.y}`); return there && !above(w, there); };
    drawing.writes = left.has(drawing) ? drawing.writes.filter(w => !isUnder(w)) : [];
  }
}

/** Lets time go on until all is confirmed and heard, also by pages that nobody looks at. */
function settle({ clock, server }, pages) {
  const isQuiet = () => server.isUp && [...server.sessions].every(s => !s.isBusy) && pages.every(({ board }) => board.state === "open" && !board.pending.length);
  for (let n = 0; n < 120 && !isQuiet(); n++) clock.run(clock.now + 500);
  clock.run(clock.now + 1500);
}

function schedule(seed) {
  const c = chance(seed), clock = new Clock();
  const how = { kept: c.is(.7), chairs: c.is(.7), most: c.is(.2) ? 1 + c.below(8) : 1024, frame: c.is(.3) ? 700 : 2 ** 24, cuts: c.is(.5), hasAwait: c.is(.85) };
  const run = { chance: c, clock, refused: [], drawings: [], asksCut: c.is(.5), server: new Server(clock, c, c.is(.5) ? "/2/3" : "23/3/2", how) };
  const pages = [];
  for (let k = 2 + (c.is(.3) ? 1 : 0); k > 0; k--) pages.push(new Page(run, k));
  let ruin = 0;
  for (let n = 10 + c.below(20); n > 0; n--) {
    clock.run(clock.now + c.below(60));
    const page = pages[c.below(pages.length)], turn = c.next();
    if (turn < .68) page.draw();
    else if (turn < .8) page.line.cut();
    else if (turn < .88) page.reload();
    else if (turn < .92) page.isHidden = !page.isHidden;
    else if (turn < .95 && run.server.isUp) {
      if (!how.kept) {
        ruin++;
        loseBoard(run, new Set(pages.flatMap(p => p.board.pending.map(e => e.drawing))));
      }
      run.server.restart(c.below(400), how.kept);
    } else clock.run(clock.now + c.below(1500));
  }
  settle(run, pages);
  return { run, pages, how, ruin };
}

/** Of what one page drew at a cell, the map never shows an earlier drawing in the place of a later one. */
function checkOrder({ drawings }, map) {
  const owners = new Map(drawings.flatMap(d => d.stamps.map(stamp => [`${d.page} ${stamp}`, d]))), last = new Map();
  for (const drawing of drawings) for (const w of drawing.writes) last.set(`${drawing.page} ${w.x},${w.y}`, drawing);
  for (const [place, drawing] of last) {
    const [page, cell] = place.split(" "), shown = map.get(cell), owner = shown && owners.get(`${page} ${shown.c}.${shown.r}`);
    const isEarlier = owner && drawings.indexOf(owner) < drawings.indexOf(drawing) && owner.writes.some(w => `${w.x},${w.y}` === cell);
    assert.ok(!isEarlier, `page ${page} at ${cell}: an earlier drawing is shown in the place of a later one`);
  }
}

function check({ run, pages, how, ruin }) {
  const edits = run.server.list.map(e => e.edit), map = mapOf(edits), none = { c: 0, r: 0, s: 0 };
  assert.equal(run.server.twice, null, "a stamp stands for two edits");
  for (const page of pages) {
    assert.equal(page.board.state, "open", `page ${page.name} is not open`);
    assert.equal(page.board.pending.length, 0, `page ${page.name} has drawings that are not confirmed`);
    for (let y = -1; y < SIDE + 6; y++) for (let x = -1; x < SIDE + 6; x++) {
      const shown = page.board.plane.at(x, y), should = map.get(`${x},${y}`) || none;
      if (shown.c !== should.c || shown.r !== should.r || shown.s !== should.s) assert.deepEqual(shown, should, `page ${page.name} at ${x},${y}`);
    }
  }
  for (const { writes, page } of run.drawings) {
    for (const w of writes) {
      const should = map.get(`${w.x},${w.y}`) || none;
      assert.ok(!above(w, should), `a write of page ${page} at ${w.x},${w.y} is lost: ${JSON.stringify([w, should])}`);
    }
  }
  if (how.chairs) checkOrder(run, map);
  if (how.chairs) assert.ok(edits.length <= run.drawings.length, "a drawing was published twice");
  if (how.kept && how.chairs && !ruin) assert.deepEqual(run.server.refused, []);
}

/** Runs some schedules of a seed: how many edits were published in all. */
function runAll(seed, from, to) {
  let edits = 0;
  for (let k = from; k < to; k++) {
    const result = schedule(seed * 65536 + k);
    edits += result.run.server.list.length;
    try { check(result); } catch (fault) { throw new Error(`SEED=${seed} SCHEDULE=${k}: ${fault.message}`); }
  }
  return edits;
}

/** Runs them in a thread of its own. */
const apart = workerData => new Promise((done, bad) => {
  const worker = new Worker(new URL(import.meta.url), { workerData });
  worker.on("message", done);
  worker.on("error", bad);
});

if (!isMainThread) parentPort.postMessage(runAll(workerData.seed, workerData.from, workerData.to));
else test("pages over a server by chance", async () => {
  const seed = seedOf("schedules"), one = process.env.SCHEDULE;
  if (one) return runAll(seed, Number(one), Number(one) + 1);
  const most = Number(process.env.SCHEDULES || 10000), parts = 4, part = Math.ceil(most / parts);
  const counts = await Promise.all(Array.from({ length: parts }, (_, k) => apart({ seed, from: k * part, to: Math.min(most, (k + 1) * part) })));
  console.log(`${most} schedules, ${counts.reduce((a, b) => a + b)} edits published`);
});
