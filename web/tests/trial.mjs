// The page in headless Chromium: on its own from a file, and two pages on a served board, by mouse, keys and touch.
// GENEDIT=PROGRAM node trial.mjs OUT writes screenshots into the folder OUT. `--speed` measures, `--twenty` opens twenty pages.
// Where this user may make hosts of their own on this machine, two of them try an address that is no loopback.
import { spawn, spawnSync } from "node:child_process";
import { mkdtempSync, readFileSync, rmSync, writeFileSync } from "node:fs";
import { createServer } from "node:net";
import { tmpdir } from "node:os";
import { join } from "node:path";
import { Chromium, sleep } from "./chromium.mjs";
import { openLine } from "./line.mjs";
import { readRLE } from "../src/rle.js";

const [out, ...flags] = process.argv.slice(2), program = process.env.GENEDIT;
if (!out || !program) throw new Error("GENEDIT=PROGRAM node trial.mjs OUT");
const file = new URL("../out/pazgrot.html", import.meta.url).pathname, dir = mkdtempSync(join(tmpdir(), "trial-"));
const GUN = "x = 36, y = 9, rule = B3/S23\n24bo$22bobo$12b2o6b2o12b2o$11bo3bo4b2o12b2o$2o8bo5bo3b2o$2o8bo3bob2o4bobo$10bo5bo7bo$11bo3bo$12b2o!\n";
const SERVED = "10.77.0.1", SEEN = "10.77.0.2";
let passed = 0, failed = 0, boards = 0;
const check = (name, good, more = "") => { good ? passed++ : failed++; console.log(good ? "ok  " : "FAIL", name, more); };

/** A port that is free, for now. */
const freePort = () => new Promise(done => {
  const server = createServer().listen(0, "127.0.0.1", () => { const { port } = server.address(); server.close(() => done(port)); });
});

/**
 * A server of the program, whose pages come by a line that can be cut. Its link and its ports outlive it: it is killed, and
 * at `resume` goes on with its file, at `restart` with an empty board.
 */
async function serve(rule, sessions = 64) {
  const board = join(dir, `board-${boards++}.glwl`), web = await freePort(), line = await openLine(web);
  const words = ["serve", "--rule", rule, "--keep", board, "--sessions", sessions, "--web", web, "--url", line.url, "--port"];
  let server;
  const begin = at => new Promise((done, fail) => {
    let told = "";
    server = spawn(program, [...words, at].map(String), { stdio: ["ignore", "pipe", "ignore"] });
    server.stdout.on("data", piece => {
      const found = /open (\S+)\nlistening (\d+)\n/.exec(told += piece);
      if (found) done({ link: found[1], port: Number(found[2]) });
    });
    server.once("error", fail);
  });
  const killed = async () => { const ended = new Promise(done => server.once("exit", done)); server.kill(); await ended; };
  const { link, port } = await begin(0);
  const resume = () => begin(port), restart = async () => { await killed(); rmSync(board); await begin(port); };
  return { port, link, line, killed, resume, restart, end: () => { line.close(); server.kill(); } };
}

/** A file that the product's client writes by words, as of a generation. */
function joined(port, ...words) {
  spawnSync(program, ["join", "--port", String(port), "--quiet"], { input: `${words.join(" ")} board.rle\n`, cwd: dir, timeout: 60000 });
  return readFileSync(join(dir, "board.rle"), "utf8");
}
/** The text that the program converts a pattern to. */
function converted(pattern, ...words) {
  const made = join(dir, "converted.rle");
  spawnSync(program, ["convert", "-", made, "--replace", ...words], { input: pattern, encoding: "latin1" });
  return readFileSync(made, "latin1");
}
const exported = (page, gen) => page.js(`pazgrot.board.ask((() => { const b = new Uint8Array(5), v = new DataView(b.buffer); b[0] = 5; v.setUint32(1, ${gen}); return b; })()).then(([b]) => new TextDecoder().decode(b.subarray(1)))`);
/** Has what a page gives as files told as texts, in `given`. */
const gather = page => page.js("(() => { window.given = []; const make = URL.createObjectURL; URL.createObjectURL = blob => { blob.text().then(t => window.given.push(t)); return make.call(URL, blob); }; })()");
const fill = (page, field, text) => page.js(`document.getElementById('${field}').value = ${JSON.stringify(String(text))}`);
/** Holds what was copied: the browser may take a while to tell what it has itself. */
const paste = async page => { await press(page, "paste"); await page.until("pazgrot.view.held !== null"); };
const press = (page, name) => page.js(`document.querySelector('[data-do="${name}"]').click()`);

async function alone(chromium) {
  const page = await chromium.open(`file://${file}#rule=B3/S23&rle=${encodeURIComponent(GUN)}`);
  await page.until("pazgrot.board.plane.population === 36");
  check("a file shows the pattern of its link", (await page.said()).includes("36 cells"));
  await page.js("document.getElementById('c').focus()");
  for (let k = 0; k < 3; k++) await page.key(" ");
  check("space steps", await page.js("pazgrot.player.gen") === 3, await page.said());
  await page.key("b");
  check("b is a look back", await page.js("pazgrot.player.gen") === 2);
  await page.js("document.getElementById('stride').value = '16'; document.getElementById('stride').dispatchEvent(new Event('change'))");
  await page.key("Enter");
  await page.until("pazgrot.player.gen > 60");
  await page.key("Enter");
  check("Enter plays by the stride, and stops", !await page.js("pazgrot.player.isPlaying") && await page.js("pazgrot.player.gen") % 16 === 2, await page.said());
  await page.shot(join(out, "alone-play.png"));
  await page.key("Escape");
  check("Escape is back to the board", await page.js("pazgrot.player.look === null && pazgrot.board.plane.population === 36"));
  for (const k of ["ArrowRight", "ArrowDown", "d", "ArrowRight", "d"]) await page.key(k);
  check("keys draw", await page.js("pazgrot.board.plane.population") === 38, await page.said());
  await page.key("z", 2); await page.key("z", 2);
  check("and undo", await page.js("pazgrot.board.plane.population") === 36);
  await page.key("ArrowRight", 8); await page.key("ArrowDown", 8);
  check("Shift with arrows selects", await page.js("pazgrot.view.selection.w * pazgrot.view.selection.h") === 4, await page.said());
  await page.js("pazgrot.view.cursor = [24, 0]"); await page.key("ArrowRight"); await page.key("ArrowLeft"); await page.key("ArrowDown", 8); await page.key("ArrowLeft", 8); await page.key("ArrowLeft", 8);
  await page.key("c", 2); await page.key("k"); await paste(page); await page.js("document.getElementById('c').focus()");
  for (let k = 0; k < 12; k++) await page.key("ArrowDown");
  await page.key("Enter");
  check("what was copied is put down at the cursor by Enter", await page.js("pazgrot.board.plane.population") === 39 && await page.js("pazgrot.view.held === null"), await page.said());
  await page.key("z", 2);
  await page.key("k");
  await gather(page);
  await press(page, "save"); await page.until("given.length === 1");
  check("saved RLE is what the program converts to, and told as not proved", await page.js("given[0]") === converted(GUN) && (await page.said()).includes("not proved"), await page.said());
  await press(page, "svg"); await page.until("given.length === 2");
  check("a picture has the bytes of `genedit view --svg`", await page.js("given[1]") === spawnSync(program, ["view", "--svg"], { input: GUN, encoding: "latin1" }).stdout);
  await press(page, "film"); await page.until("given.length === 3");
  check("a film has its pictures", (await page.js("given[2]")).match(/<g /g).length === 31, await page.said());
  await press(page, "png"); await page.until("given.length === 4");
  check("what is seen is saved as PNG", (await page.js("given[3]")).startsWith("\ufffdPNG"));
  writeFileSync(join(out, "film.svg"), await page.js("given[2]"));
  await fill(page, "gen", 300); await press(page, "show"); await page.until("pazgrot.player.gen === 300");
  await press(page, "save"); await page.until("given.length === 5");
  check("generation 300 by the page's steps is the program's", await page.js("given[4]") === converted(GUN, "--gen", "300"), await page.said());
  await press(page, "edit");
  await page.js("pazgrot.hold('x = 1, y = 1, rule = 345/2/4\\nABC!')");
  await page.click(500, 300);
  check("a state that the rule has not is told in words", (await page.said()).includes("no such state"), await page.said());
  await page.key("Escape");
  await page.js("(document.querySelector('details').open = true)"); await page.shot(join(out, "alone-menu.png"));
  await page.js("document.querySelectorAll('details').forEach((d, k) => { d.open = k === 2; })"); await page.shot(join(out, "alone-file.png"));
}

/** A glider that is drawn and saved by keys alone. */
async function keys(chromium) {
  const page = await chromium.open(`file://${file}#rule=B3/S23`);
  await gather(page);
  for (const key of ["ArrowRight", "d", "ArrowRight", "ArrowDown", "d", "ArrowLeft", "ArrowLeft", "ArrowDown", "d", "ArrowRight", "d", "ArrowRight", "d", "r"]) await page.key(key);
  await page.until("given.length === 1");
  check("keys alone draw a glider and save it", (await page.js("given[0]")).endsWith("rule = B3/S23\nbo$2bo$3o!\n"), await page.js("given[0]"));
}

async function narrow(chromium) {
  const page = await chromium.open(`file://${file}#rule=345/2/4&rle=${encodeURIComponent("8.A$6.ABC$CBA$CBA!")}`, 360, 640, { features: [{ name: "prefers-reduced-motion", value: "reduce" }] });
  await page.until("pazgrot.board.plane.population > 0");
  check("reduced motion: 3 looks a second", await page.js("pazgrot.player.rate") === 3);
  await page.js("document.querySelectorAll('details')[2].open = true");
  const small = await page.js("[...document.querySelectorAll('button,select,summary,input:not([type=file])')].filter(e => e.offsetParent).map(e => [e.textContent || e.id, e.offsetWidth, e.offsetHeight]).filter(e => e[1] < 40 || e[2] < 40)");
  check("each target has 40 pixels a side", small.length === 0, JSON.stringify(small));
  const wide = [];
  for (let k = 0; k < 4; k++) {
    await page.js(`document.querySelectorAll('details').forEach((d, k) => { d.open = k === ${k}; })`);
    await sleep(60);
    wide.push(...await page.js("[...document.querySelectorAll('#bar > * > button,#bar summary,details[open] .panel *')].filter(e => !e.closest('#swatches,datalist,select,[hidden]') && e.getBoundingClientRect().right > 360).map(e => e.id || e.textContent)"));
  }
  check("nothing leaves 360 pixels", await page.js("document.documentElement.scrollWidth") <= 360 && wide.length === 0, wide.join());
  check("each control has a name", await page.js("[...document.querySelectorAll('button,select,input,summary')].every(e => e.textContent.trim() || e.getAttribute('aria-label') || e.closest('label') || e.type === 'file')"));
  await page.shot(join(out, "narrow.png"));
  await page.js("document.querySelectorAll('details').forEach(d => { d.open = false; })");
  await page.call("Emulation.setTouchEmulationEnabled", { enabled: true, maxTouchPoints: 5 });
  await page.look(0, 0, 16);
  const before = await page.cells(), from = await page.at(-5, 5), to = await page.at(5, 5);
  await page.touch("touchStart", [from]);
  for (let k = 1; k <= 6; k++) await page.touch("touchMove", [[from[0] + (to[0] - from[0]) * k / 6, from[1]]]);
  await page.touch("touchEnd", []);
  check("a finger draws", await page.js("[-5, 0, 5].every(x => pazgrot.board.plane.state(x, 5) === 1)"));
  const drawn = await page.cells(), zoom = await page.js("pazgrot.view.zoom");
  await page.touch("touchStart", [[120, 320], [240, 320]]);
  for (let k = 1; k <= 5; k++) await page.touch("touchMove", [[120 - 12 * k, 320], [240 + 12 * k, 320]]);
  await page.touch("touchEnd", []);
  check("two fingers zoom, and draw nothing", await page.js("pazgrot.view.zoom") > zoom && drawn === await page.cells() && before !== drawn);
  for (const theme of [1, 4]) {
    await page.js(`document.getElementById('theme').value = '${theme}'; document.getElementById('theme').dispatchEvent(new Event('change'))`);
    await sleep(150);
    await page.shot(join(out, `narrow-theme-${theme}.png`));
  }
}

async function together(chromium) {
  const { port, link, line, killed, resume, restart, end } = await serve("23/3/2"), a = await chromium.open(link), b = await chromium.open(link);
  const both = async () => { for (const p of [a, b, a, b]) await p.settled(); await sleep(120); };
  const same = async () => (await both(), await a.cells() === await b.cells());
  await both();
  check("two pages have seats of their own", await a.js("pazgrot.board.seat") !== await b.js("pazgrot.board.seat"));
  for (const p of [a, b]) await p.look(0, 0, 16);
  await Promise.all([a, b].map(async (p, k) => {
    let seed = k + 1;
    const below = n => (seed = (seed * 1103515245 + 12345) % 2 ** 31) % n;
    for (let s = 0; s < 6; s++) {
      let [x, y] = [150 + below(650), 150 + below(320)];
      const points = [[x, y]];
      for (let j = 0; j < 8; j++) { x = Math.min(960, Math.max(20, x + below(80) - 40)); y = Math.min(560, Math.max(90, y + below(80) - 40)); points.push([x, y]); }
      await p.stroke(points);
    }
  }));
  check("they draw together, and show the same", await same() && JSON.parse(await a.cells()).length > 200, `${JSON.parse(await a.cells()).length / 3} cells`);
  await press(a, "who"); await sleep(700); await a.shot(join(out, "two-who.png")); await press(a, "who"); await b.shot(join(out, "two.png"));

  const before = await a.cells();
  await a.stroke([await a.at(-25, -15), await a.at(-15, -15), await a.at(-15, -10)]);
  await both();
  const drawn = await a.cells();
  await a.key("z", 2);
  check("undo gives back what stood there, in both", await same() && before === await a.cells() && before !== drawn);
  await a.key("y", 2);
  check("redo draws it again, in both", await same() && drawn === await b.cells());

  writeFileSync(join(dir, "gun.rle"), GUN);
  const [x, y] = await b.at(-18, 5);
  await b.drop(join(dir, "gun.rle"), x, y);
  await b.until("pazgrot.view.held !== null");
  await b.mouse("mouseMoved", x, y, { buttons: 0 }); await sleep(100); await b.shot(join(out, "two-held.png"));
  await b.key(">"); await b.key("<");
  await b.click(x, y);
  check("a file that is dropped is held, and put down, in both", await same() && await b.js("pazgrot.view.held === null"), await b.said());

  for (const gen of [0, 40]) {
    const mine = await exported(a, gen);
    check(`generation ${gen} is what \`genedit join\` exports, byte for byte`, joined(port, "export!", gen) === mine, `${mine.length} bytes`);
  }
  await press(b, "step");
  check("a step in the page is the server's generation 1", await b.js("JSON.stringify(pazgrot.player.shown.cells())") === await b.js("(async () => { await pazgrot.commands.edit(); document.getElementById('gen').value = '1'; await pazgrot.commands.show(); return JSON.stringify(pazgrot.player.shown.cells()); })()"));
  await press(b, "edit");

  await gather(a);
  await a.js("pazgrot.view.selection = { x: -12, y: -3, w: 30, h: 9 }"); await fill(a, "gen", 40); await press(a, "count");
  await a.until("document.getElementById('say').textContent.startsWith('Generation 40, in the selection')");
  const told = await a.said();
  await press(a, "save"); await a.until("given.length === 1");
  const piece = joined(port, "cut!", -12, -3, 30, 9, 0), later = readRLE(joined(port, "cut!", -12, -3, 30, 9, 40));
  check("a selection is saved as `genedit join` cuts it", await a.js("given[0]") === piece.replace("rule = 23/3/2", "rule = B3/S23"), await a.said());
  check("its cells and their box are those of the server's generation 40", told === `Generation 40, in the selection: ${later.cells.length / 3} cells, box ${later.w} x ${later.h} at ${later.x} ${later.y}.`, told);
  await a.key("k");

  const held = await a.cells();
  await a.key("s"); await a.stroke([await a.at(-26, -16), await a.at(-14, -9)]); await a.key("x", 2); await both();
  check("cut takes away, in both", await a.cells() !== held && await same());
  await a.js("document.getElementById('mode').value = 'copy'; pazgrot.view.held = pazgrot.editor.clip");
  for (let k = 0; k < 4; k++) await a.key(">");
  await a.click(...await a.at(-26, -16));
  check("paste by Copy gives back what was cut, in both", await same() && await a.cells() === held);
  await a.js("document.getElementById('mode').value = 'or'; document.querySelector('[data-tool=draw]').click()");

  const keyOf = page => page.js("sessionStorage.getItem('key ' + pazgrot.token)"), key = await keyOf(a);
  const seatOf = page => page.js("pazgrot.board.seat"), seat = await seatOf(a);
  await a.js("window.old = true");
  await a.call("Page.reload"); await a.until("!window.old && typeof pazgrot !== 'undefined' && pazgrot.board.state === 'open'");
  check("a reload shows the same, and keeps its key and its seat", await same() && await a.cells() === held && await keyOf(a) === key && key.length === 32 && await seatOf(a) === seat);
  const copy = await chromium.copy(a);
  await copy.settled();
  check("a copy of a tab takes a key of its own", await keyOf(copy) !== key && await keyOf(a) === key && await copy.cells() === held);
  await a.look(0, 0, 16);
  line.cut();
  await a.until("pazgrot.board.state !== 'open'");
  await a.stroke([await a.at(-28, -12), await a.at(-22, -12)]);
  check("what is drawn while the line is lost is drawn on the board when it is back", await same() && await b.js("pazgrot.board.plane.state(-25, -12)") === 1);
  await a.mouse("mousePressed", ...await a.at(-28, 14)); await a.mouse("mouseMoved", ...await a.at(-20, 14));
  await a.js("window.old = true"); await a.call("Page.reload"); await a.until("!window.old && typeof pazgrot !== 'undefined' && pazgrot.board.state === 'open'");
  check("a reload in the midst of a stroke loses nothing that was shown", await same() && await b.js("pazgrot.board.plane.state(-24, 14)") === 1);

  await a.js("pazgrot.hold('x = 1, y = 1, rule = 23/3/2\\no!')"); await a.key("Escape");
  await killed();
  await a.until("pazgrot.board.state === 'away'");
  await a.stroke([await a.at(-28, 10), await a.at(-20, 10)]);
  const atSeat = await seatOf(a);
  await resume();
  check("a server that is killed and goes on with its file is met again, and what was drawn meanwhile is drawn", await same() && await b.js("pazgrot.board.plane.state(-24, 10)") === 1, `seat ${atSeat}, now ${await seatOf(a)}`);
  await names(chromium, a, link);
  if (flags.includes("--speed")) await speed(a, b);
  if (flags.includes("--twenty")) await twenty(chromium, link, [a, b]);
  const last = await a.cells();
  await restart();
  await a.until("document.getElementById('say').textContent.includes('began anew')", 20000);
  check("a server that comes back at its port is met again; what stood before is held", await a.cells() === "[]", await a.said());
  await paste(a); await a.click(...await a.at(-20, -10));
  check("and is put down again, in both", await same() && JSON.parse(await b.cells()).length === JSON.parse(last).length);
  end();
  await a.until("document.getElementById('say').textContent.includes('No connection')", 20000);
  check("a server that is away is told in words", true, await a.said());
  await a.shot(join(out, "away.png"));
}

/** Seats are named in a page; who opens the link that it gives knows the names. */
async function names(chromium, a, link) {
  const seat = await a.js("pazgrot.board.seat");
  await fill(a, "named", seat); await fill(a, "name", "Ann <b>"); await press(a, "name");
  await a.js("Object.defineProperty(navigator, 'clipboard', { value: undefined })"); await press(a, "share");
  const shared = await a.said(), c = await chromium.open(shared);
  await c.settled();
  await press(c, "who"); await sleep(700);
  check("a name is told where the link of its page is opened, as text", shared.startsWith(link) && (await c.js("document.getElementById('who').textContent")).includes(`Ann <b>, seat ${seat}`), shared);
  await c.shot(join(out, "names.png"));
}

async function full(chromium) {
  const { link, end } = await serve("/2/3", 1), a = await chromium.open(link);
  await a.settled();
  const b = await chromium.open(link);
  await b.until("pazgrot.board.state === 'full'");
  check("no seat left is told in words", (await b.said()).includes("All seats"), await b.said());
  const c = await chromium.open(link.split("#")[0]);
  await sleep(300);
  check("a link without its token is told in words", (await c.said()).includes("printed, whole"), await c.said());
  end();
}

async function speed(a, b) {
  const nth = (list, q) => list.sort((p, r) => p - r)[Math.min(list.length - 1, Math.floor(list.length * q))], times = [];
  await b.js("window.there = (x, y) => new Promise(done => { const look = () => pazgrot.board.plane.state(x, y) ? done(performance.timeOrigin + performance.now()) : setTimeout(look, 1); look(); })");
  for (let k = 0; k < 30; k++) {
    const seen = b.js(`there(${k}, 200)`);
    await sleep(20);
    const drawn = await a.js(`(pazgrot.editor.put([[${k}, 200, 1]]), performance.timeOrigin + performance.now())`);
    times.push(await seen - drawn);
  }
  console.log(`from a drawing to the other page's map: median ${nth(times, .5).toFixed(1)} ms, 99th ${nth(times, .99).toFixed(1)} ms`);
  await b.js("(() => { let seed = 9; const l = []; for (let y = 0; y < 450; y++) for (let x = 0; x < 450; x++) { seed = (seed * 1103515245 + 12345) % 2 ** 31; if (seed / 2 ** 31 < .495) l.push(x - 225, y - 225, 1); } pazgrot.board.plane.apply({ c: pazgrot.board.plane.top, r: 65535, area: null, cells: l }); })()");
  for (const zoom of [1, 2]) {
    const frames = await b.js(`(async () => { pazgrot.view.centre(0, 0, ${zoom}); const work = [], t0 = performance.now(); for (let n = 0; n < 120; n++) { pazgrot.view.move(n % 2 ? 9 : -9, 0); const t = performance.now(); pazgrot.view.paint(); work.push(performance.now() - t); pazgrot.view.isDirty = true; await new Promise(requestAnimationFrame); } work.sort((p, q) => p - q); return [120000 / (performance.now() - t0), work[60], work[118]]; })()`);
    console.log(`100,000 live cells, zoom ${zoom}: ${frames[0].toFixed(1)} frames a second panning, a picture ${frames[1].toFixed(1)} ms, 99th ${frames[2].toFixed(1)} ms`);
  }
  console.log(`a generation of them: ${(await b.js("(() => { const t = performance.now(); for (let k = 0; k < 20; k++) pazgrot.player.step(); const ms = (performance.now() - t) / 20; pazgrot.player.edit(); return ms; })()")).toFixed(1)} ms`);
  await b.call("Page.reload"); await sleep(500); await b.until("typeof pazgrot !== 'undefined' && pazgrot.board.state === 'open'");
}

/** How soon a board of 1,024 by 1,024 written cells, half of them live, is seen by its link. */
async function great(chromium) {
  const { port, link, end } = await serve("23/3/2"), rows = [];
  let seed = 5;
  for (let y = 0; y < 1024; y++) rows.push(Array.from({ length: 1024 }, () => (seed = (seed * 1103515245 + 12345) % 2 ** 31) < 2 ** 30 ? "o" : "b").join(""));
  writeFileSync(join(dir, "soup.rle"), `#CXRLE Pos=-512,-512\nx = 1024, y = 1024, rule = B3/S23\n${rows.join("$\n")}!\n`);
  spawnSync(program, ["join", "--port", String(port), "--quiet"], { input: "clear -512 -512 1024 1024\nopen soup.rle\n", cwd: dir, timeout: 60000 });
  const page = await chromium.open(`${link}&at=0,0,4`);
  const [seen, whole, n] = await page.js("new Promise(done => { let seen = 0; const look = () => { if (!seen && pazgrot.board.plane.population) seen = performance.now(); if (pazgrot.board.state === 'open') done([seen, performance.now(), pazgrot.board.plane.population]); else setTimeout(look, 1); }; look(); })");
  console.log(`1,048,576 written cells, ${n} of them live: what is seen first ${seen.toFixed(0)} ms behind the link, all ${whole.toFixed(0)} ms`);
  await page.shot(join(out, "great.png"));
  end();
}

async function twenty(chromium, link, pages) {
  const all = [...pages];
  while (all.length < 20) all.push(await chromium.open(link));
  for (const p of all) await p.settled();
  const t0 = Date.now();
  await Promise.all(all.map((p, k) => p.js(`(async () => { for (let n = 0; n < 30; n++) { pazgrot.editor.put([[${k} * 3 - 30 + n % 3, 300 + (n / 3 | 0), 1]]); await new Promise(f => setTimeout(f, 30)); } })()`)));
  for (const p of all) await p.settled();
  await sleep(1500);
  const texts = new Set();
  for (const p of all) texts.add(await p.cells());
  check("twenty pages that draw at once show the same", texts.size === 1, `${Date.now() - t0} ms`);
}

/** Two hosts of this machine's own, which reach each other by a cable alone; null where this user may make none. */
function hosts() {
  const ip = (...words) => spawnSync("ip", words, { stdio: "ignore" }).status === 0;
  const [server, browser] = ["served", "seen"].map(name => `pazgrot-${name}-${process.pid}`), end = () => { ip("netns", "delete", server); ip("netns", "delete", browser); };
  const inside = (host, ...words) => ip("-n", host, ...words);
  const isMade = ip("netns", "add", server) && ip("netns", "add", browser) && inside(server, "link", "add", "cable", "type", "veth", "peer", "name", "cable", "netns", browser)
    && [[server, SERVED], [browser, SEEN]].every(([host, address]) => inside(host, "address", "add", address + "/24", "dev", "cable") && inside(host, "link", "set", "cable", "up") && inside(host, "link", "set", "lo", "up"));
  process.once("exit", end);
  if (!isMade) return null;
  return { server: ["ip", "netns", "exec", server], browser: ["ip", "netns", "exec", browser] };
}

/** A page at another host than its server, by http: the browser trusts such a page less. */
async function apart() {
  const network = hosts();
  if (!network) return console.log("left out: hosts of this machine's own, which want Debian's iproute2 and its rights: a page at an address that is no loopback");
  const [front, ...words] = [...network.server, program, "serve", "--rule", "23/3/2", "--sessions", "4", "--web", `${SERVED}:0`, "--until-close"];
  const server = spawn(front, words), far = new Chromium(network.browser);
  let warned = "";
  server.stderr.on("data", piece => { warned += piece; });
  const link = await new Promise(done => server.stdout.on("data", piece => { const found = /open (\S+)\n/.exec(piece); if (found) done(found[1]); }));
  const [a, b] = [await far.open(link), await far.open(link)];
  for (const p of [a, b]) { await p.settled(); await p.look(0, 0, 16); }
  check("at another host the link is told to travel in the clear", link.startsWith(`http://${SERVED}:`) && warned.includes("in the clear"), warned.trim());
  check("there the page is not trusted, and has no clipboard", await a.js("!isSecureContext && navigator.clipboard === undefined"));
  await a.stroke([await a.at(-5, -5), await a.at(5, 5)]);
  await a.settled(); await sleep(200);
  check("two pages there draw together", await b.js("pazgrot.board.plane.population") === 11 && await a.cells() === await b.cells());
  await a.js("pazgrot.view.selection = { x: -5, y: -5, w: 11, h: 11 }"); await press(a, "copy"); await a.key("k"); await paste(a);
  await a.click(...await a.at(8, -5)); await a.settled(); await sleep(200);
  check("they copy and paste", await b.js("pazgrot.board.plane.population") === 22 && await a.cells() === await b.cells(), await a.said());
  await press(a, "share");
  check("and the link is told to be copied by hand", (await a.said()).startsWith(link), await a.said());
  await a.shot(join(out, "apart.png"));
  const errors = far.errors();
  check("no error in a page there", errors.length === 0, JSON.stringify(errors.slice(0, 2)).slice(0, 500));
  await far.close();
  server.stdin.end("close\n");
  await new Promise(done => server.once("exit", done));
}

const chromium = new Chromium();
try {
  const parts = flags.includes("--speed") ? [alone, keys, narrow, together, full, apart, great] : [alone, keys, narrow, together, full, apart];
  for (const part of parts) await part(chromium);
  const errors = chromium.errors();
  check("no error in any page", errors.length === 0, JSON.stringify(errors.slice(0, 2)).slice(0, 500));
} catch (fault) { console.log("FAIL", fault.stack.slice(0, 1500)); failed++; }
console.log(`${passed} passed, ${failed} failed`);
await chromium.close();
rmSync(dir, { recursive: true, force: true });
process.exit(failed ? 1 : 0);
