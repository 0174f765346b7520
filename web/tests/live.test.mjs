// The page's modules against the product's program, where GENEDIT names it; else left out.
import assert from "node:assert/strict";
import { spawn, spawnSync } from "node:child_process";
import { connect } from "node:net";
import test from "node:test";
import { Board } from "../src/board.js";
import { Editor, textOf } from "../src/editor.js";
import * as formats from "../src/formats.js";
import { Plane } from "../src/plane.js";
import { readRule } from "../src/rules.js";
import { readState } from "../src/states.js";
import { chance, seedOf } from "./chance.mjs";
import { bodiesOf, framed } from "./frames.mjs";
import { mapOf } from "./server.mjs";
import { soup, stepped } from "./soups.mjs";
import { otherSpellings, writeState } from "./states.mjs";

const program = process.env.GENEDIT, skip = program ? false : "GENEDIT names no program";
const run = (args, input) => spawnSync(program, args, { input, encoding: "latin1", maxBuffer: 2 ** 28 });
const faultOf = call => { try { call(); return 0; } catch (fault) { if (!(fault instanceof formats.Fault)) throw fault; return fault.number; } };
const sleep = ms => new Promise(done => setTimeout(done, ms));
async function until(is, what) { for (let t = 0; t < 20000; t += 10) { if (is()) return; await sleep(10); } assert.fail(`not so in time: ${what}`); }

async function serve(rule, sessions) {
  const server = spawn(program, ["serve", "--rule", rule, "--port", "0", "--sessions", String(sessions)], { stdio: ["ignore", "pipe", "ignore"] });
  const port = await new Promise(done => server.stdout.once("data", d => done(Number(/listening (\d+)/.exec(d)[1]))));
  return { port, end: () => server.kill() };
}

/** A board over TCP: a body goes out in its frame, and frames come in as bodies. It may be looked at, so that a Cut is asked first. */
function boardAt(port, isSeen = false) {
  const sockets = [], refused = [];
  const world = {
    connect(ear) {
      const socket = connect(port, "127.0.0.1", () => ear.opened());
      bodiesOf(socket, body => ear.came(body));
      socket.on("close", () => ear.closed());
      socket.on("error", () => {});
      sockets.push(socket);
      return { send: body => socket.write(framed(body)), close: () => socket.destroy() };
    },
    later: (ms, call) => { setTimeout(call, ms).unref(); }, isHidden: () => false, window: () => isSeen ? { x: -8, y: -8, w: 16, h: 16 } : null,
  };
  const board = new Board(world, { state() {}, map() {}, refused: n => refused.push(n), begunAnew() {} }, "23/3/2");
  board.start();
  return { board, editor: new Editor(board), refused, lose: () => sockets[sockets.length - 1].destroy(), end: () => { board.open = () => {}; board.later = () => {}; for (const s of sockets) s.destroy(); } };
}

test("200 soups under ten rules are the program's exports, byte for byte", { skip }, () => {
  for (let k = 0; k < 200; k++) {
    const { rule, cells, gen } = soup(k), { stdout } = run(["run"], `rule ${rule.text}\nreplicas 1\ncells 1 ${cells.join(" ")}\nexport 1 ${gen}\n`);
    assert.equal(stdout.slice(stdout.indexOf("#CXRLE")), stepped(k), `soup ${k}`);
  }
});

/** Some bytes of a text are others, or are missing, or there are more; the head stays. */
function damaged(bytes, from, c) {
  const list = [...bytes];
  for (let n = 1 + c.below(2); n > 0; n--) {
    const at = from + c.below(list.length - from), turn = c.next();
    if (turn < .7) list[at] = c.is(.5) ? c.below(256) : [0, 1, 2, 3, 31, 64, 127, 128, 255][c.below(9)];
    else if (turn < .85) list.length = at;
    else list.push(c.below(256));
  }
  return Uint8Array.from(list);
}

test("damaged deltas are refused as the server refuses them", { skip }, async () => {
  const { port, end } = await serve("345/2/4", 1), socket = connect(port, "127.0.0.1"), c = chance(seedOf("deltas")), rule = readRule("345/2/4");
  const replies = [], met = new Set();
  bodiesOf(socket, body => replies.push(body));
  const ask = async body => { const n = replies.length; socket.write(framed(body)); await until(() => replies.length > n, "a reply"); return replies[n]; };
  const { seat } = formats.readHello(await ask(formats.hello()));
  for (let k = 0; k < 400; k++) {
    const edit = { c: 1 + k, r: seat, area: c.is(.4) ? { x: -3, y: -3, w: 9, h: 9 } : null, cells: [-2, 0, 1, 1, 0, 3, -3, 1, 2] };
    const delta = damaged(formats.writeDelta(rule.text, [edit]), c.is(.2) ? 0 : 13, c), body = new Uint8Array(1 + delta.length);
    body.set(delta, 1);
    body[0] = 2;
    let should = faultOf(() => formats.readDelta(delta, rule));
    if (!should) {
      const edits = formats.readDelta(delta, rule);
      should = edits.length !== 1 ? 33 : edits[0].r !== seat ? 28 : 0;
    }
    const [is] = await ask(body);
    assert.equal(is, should, Buffer.from(delta).toString("hex"));
    met.add(is);
  }
  assert.ok(met.size >= 8, [...met].join());
  socket.destroy();
  end();
});

test("damaged states are refused as `genedit view` refuses them", { skip }, () => {
  const c = chance(seedOf("states")), rule = readRule("/2/3"), met = new Set();
  for (let k = 0; k < 150; k++) {
    const edits = [{ c: 1 + c.below(9), r: 1, area: c.is(.5) ? { x: 0, y: 0, w: 8 + c.below(9), h: 16 } : null, cells: [1, 0, 1, 9, 0, 2] }];
    const state = damaged(writeState(rule.text, mapOf(edits)), 10, c), should = faultOf(() => readState(state, rule));
    const { stderr } = spawnSync(program, ["view", "--plain"], { input: state, encoding: "latin1" }), is = Number((/refused (\d+)/.exec(stderr) || [0, 0])[1]);
    assert.equal(is, should, Buffer.from(state).toString("hex"));
    met.add(is);
  }
  assert.ok(met.size >= 4, [...met].join());
  for (const [name, state] of otherSpellings()) assert.match(spawnSync(program, ["view"], { input: state, encoding: "latin1" }).stderr, /refused 19 /, name);
});

test("two boards of the page beside a client of the product: one map in the end", { skip }, async () => {
  const { port, end } = await serve("345/2/4", 12), c = chance(seedOf("boards")), [a, b] = [boardAt(port, true), boardAt(port)];
  const client = spawn(program, ["join", "--port", String(port), "--quiet"], { stdio: ["pipe", "pipe", "inherit"] });
  let said = "";
  client.stdout.on("data", d => { said += d; });
  await until(() => a.board.state === "open" && b.board.state === "open", "both are open");
  assert.equal(a.board.hasCut, true, "the server knows a Cut");
  for (let k = 0; k < 250; k++) {
    const { editor } = c.is(.5) ? a : b, at = () => c.below(24) - 12, turn = c.next();
    if (turn < .7) editor.put(Array.from({ length: 1 + c.below(5) }, () => [at(), at(), c.below(4)]));
    else if (turn < .8) editor.clear({ x: at(), y: at(), w: 1 + c.below(6), h: 1 + c.below(6) });
    else editor.again(c.is(.7) ? "undo" : "redo");
    if (k % 5 === 0) client.stdin.write(`cells ${at()} ${at()} ${c.below(4)}\n`);
    if (k === 80 || k === 160) a.lose();
    if (c.is(.3)) await sleep(c.below(8));
  }
  for (const { board } of [a, b]) await until(() => board.state === "open" && !board.pending.length, "all is confirmed");
  client.stdin.write("export 0\nbye\n");
  await new Promise(done => client.on("exit", done));
  const plane = new Plane(), [[first]] = [await a.board.ask(formats.whole())];
  plane.load(readState(first.subarray(1), a.board.rule));
  const cells = [];
  for (let y = -20; y < 26; y++) for (let x = -20; x < 26; x++) cells.push([x, y]);
  await until(() => [a, b].every(({ board }) => cells.every(([x, y]) => board.plane.at(x, y).c === plane.at(x, y).c)), "both have heard all");
  for (const { board, refused } of [a, b]) {
    for (const [x, y] of cells) assert.deepEqual(board.plane.at(x, y), plane.at(x, y), `at ${x},${y}`);
    assert.deepEqual(refused, []);
  }
  const text = textOf(a.board.plane, a.board.rule, 0);
  assert.equal(said.slice(said.indexOf("#CXRLE")), text, "what `join` exports");
  const [exported] = await b.board.ask(formats.exportOf(0));
  assert.equal(new TextDecoder().decode(exported.subarray(1)), text, "what the server exports");
  const films = await b.board.ask(formats.many([0, 3]));
  assert.equal(films.length, 3);
  const parts = await a.board.ask(formats.pieces());
  assert.deepEqual(formats.joined(parts.slice(1)), first.slice(1), "Pieces are the whole plane");
  for (const one of [a, b]) one.end();
  end();
});

test("a board of more than 1,024 edits is joined by its plane", { skip }, async () => {
  const { port, end } = await serve("23/3/2", 4), a = boardAt(port);
  await until(() => a.board.state === "open", "it is open");
  for (let k = 0; k < 1100; k++) a.editor.put([[k % 40, Math.floor(k / 40), 1]]);
  await until(() => !a.board.pending.length, "all is confirmed");
  const b = boardAt(port);
  await until(() => b.board.state === "open", "it is open");
  assert.deepEqual(b.board.plane.cells(), a.board.plane.cells());
  assert.equal(b.board.plane.top, 1100);
  b.editor.put([[-1, -1, 1]]);
  await until(() => a.board.plane.state(-1, -1) === 1, "the other hears it");
  for (const one of [a, b]) one.end();
  end();
});
