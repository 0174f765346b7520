// A class on one board: GENEDIT=PROGRAM node class.mjs MINUTES
// Twenty pages draw a stroke a second each. Meanwhile five are reloaded every few seconds, two have a sixth of a processor and
// a slow network, and one has none every other ten seconds, and draws on. In the end all show the cells that the server exports,
// byte for byte as RLE, and none holds more than 300 MB. The last line is `N passed, M failed`.
import { spawn } from "node:child_process";
import { once } from "node:events";
import { writeRLE } from "../src/rle.js";
import { readRule } from "../src/rules.js";
import { Chromium, sleep } from "./chromium.mjs";
import { openLine } from "./line.mjs";

const PAGES = 20, RELOADED = 5, SLOWED = 2, MOST_MEGABYTES = 300, RULE = "23/3/2";
const program = process.env.GENEDIT, minutes = Number(process.argv[2] || 10);
let passed = 0, failed = 0;
const check = (name, good, more = "") => { good ? passed++ : failed++; console.log(good ? "ok  " : "FAIL", name, more); };

const server = spawn(program, ["serve", "--rule", RULE, "--sessions", "64", "--web", "0", "--until-close"], { stdio: ["pipe", "pipe", "ignore"] });
const [told] = await once(server.stdout, "data"), [, link] = /open (\S+)\n/.exec(told);

/** A stroke somewhere, by chance. */
const STROKE = "(() => { const at = () => Math.floor(Math.random() * 400) - 200, e = pazgrot.editor; e.begin(0); e.line([at(), at()], [at(), at()], Math.random() < .7 ? 1 : 0); e.end(); })()";
/** The text of generation 0, as the server exports it. */
const EXPORT = "pazgrot.board.ask(Uint8Array.of(5, 0, 0, 0, 0)).then(([b]) => new TextDecoder().decode(b.subarray(1)))";

const { port } = new URL(link), line = await openLine(Number(port));
// the browser of who is away at times finds the server at the line alone
const browsers = [new Chromium(), new Chromium([], [`--host-resolver-rules=MAP 127.0.0.1:${port} ${new URL(line.url).host}`])], pages = [];
for (let k = 0; k < PAGES; k++) pages.push(await browsers[k < PAGES - 1 ? 0 : 1].open(link));
for (const page of pages) {
  await page.settled();
  for (const domain of ["Performance", "Network"]) await page.call(domain + ".enable");
}
const slowed = pages.slice(RELOADED, RELOADED + SLOWED), away = pages[PAGES - 1];
for (const page of slowed) {
  await page.call("Emulation.setCPUThrottlingRate", { rate: 6 });
  await page.call("Network.emulateNetworkConditions", { offline: false, latency: 200, downloadThroughput: 50_000, uploadThroughput: 50_000 });
}

async function megabytes(page) {
  await page.call("HeapProfiler.collectGarbage");
  const { metrics } = await page.call("Performance.getMetrics");
  return Math.round(metrics.find(m => m.name === "JSHeapUsedSize").value / 2 ** 20);
}

const end = Date.now() + minutes * 60_000;
let strokes = 0, reloads = 0, downs = 0;
/** What a page does until the end; between two reloads it draws. */
async function draws(page, number) {
  for (let round = 1; Date.now() < end; round++) {
    await page.js(STROKE);
    strokes++;
    await sleep(1000);
    if (number < RELOADED && round % (4 + number) === 0) {
      await page.settled();
      await page.call("Page.reload");
      await page.until("typeof pazgrot !== 'undefined' && pazgrot.board.state === 'open'");
      reloads++;
    }
  }
}
async function cuts() {
  while (Date.now() < end) {
    await sleep(10_000);
    line.down();
    await sleep(10_000);
    if (await away.js("pazgrot.board.state") !== "open") downs++;
    line.up();
  }
}
await Promise.all([...pages.map(draws), cuts()]);
const most = Math.max(...await Promise.all(pages.map(megabytes)));
for (const page of slowed) await page.call("Emulation.setCPUThrottlingRate", { rate: 1 });
for (const page of pages) await page.until("pazgrot.board.state === 'open' && pazgrot.board.pending.length === 0", 120_000);
const published = await pages[0].js("pazgrot.board.published"), text = await pages[0].js(EXPORT);
for (const page of pages) await page.until(`pazgrot.board.published >= ${published}`, 120_000);
const shown = new Set(await Promise.all(pages.map(async page => writeRLE(JSON.parse(await page.cells()), readRule(RULE), 0))));
console.log(`${strokes} strokes, ${reloads} reloads, ${downs} times away, counters to ${published}, ${text.length} bytes, ${most} MB at most`);
check("all show the same cells", shown.size === 1, `${shown.size}`);
check("as the server exports them", shown.has(text), JSON.stringify([text, ...shown].map(it => it.slice(0, 200))).slice(0, shown.has(text) ? 0 : 800));
check("no page holds too much", most <= MOST_MEGABYTES, `${most} MB`);
check("who was away was so", downs > 0, `${downs}`);
const errors = browsers.flatMap(it => it.errors());
check("no page has an error", errors.length === 0, JSON.stringify(errors.slice(0, 2)).slice(0, errors.length ? 800 : 0));
for (const it of browsers) await it.close();
line.close();
server.stdin.end("close\n");
const [status] = await once(server, "exit");
check("the server ends well", status === 0, `${status}`);
console.log(`${passed} passed, ${failed} failed`);
process.exitCode = failed ? 1 : 0;
