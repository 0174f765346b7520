// How much memory a page takes that stays open: GENEDIT=PROGRAM node hour.mjs MINUTES
// Two pages draw on a served board of 100,000 cells, a stroke a second each; one of them plays for a while each minute, goes
// back, and shows a later generation. Each minute it is told how much the pages hold.
import { spawn } from "node:child_process";
import { Chromium, sleep } from "./chromium.mjs";

const program = process.env.GENEDIT, minutes = Number(process.argv[2] || 60);
const server = spawn(program, ["serve", "--rule", "23/3/2", "--sessions", "8", "--web", "0", "--until-close"]);
const link = await new Promise(done => server.stdout.on("data", piece => { const found = /open (\S+)\n/.exec(piece); if (found) done(found[1]); }));
const chromium = new Chromium(), pages = [await chromium.open(link, 1600, 1000), await chromium.open(link, 1600, 1000)], [a] = pages;
for (const page of pages) await page.settled();
await a.js("(() => { let seed = 9; const l = []; for (let y = 0; y < 450; y++) for (let x = 0; x < 450; x++) { seed = (seed * 1103515245 + 12345) % 2 ** 31; if (seed / 2 ** 31 < .495) l.push([x - 225, y - 225, 1]); } pazgrot.editor.put(l); })()");
for (const page of pages) await page.settled();

/** A stroke somewhere, by chance. */
const STROKE = "(() => { const at = () => Math.floor(Math.random() * 400) - 200, e = pazgrot.editor; e.begin(0); e.line([at(), at()], [at(), at()], Math.random() < .5 ? 1 : 0); e.end(); })()";
/** Generations forwards and back, and a later one by the server. */
const LOOKS = "(async () => { pazgrot.player.isPlaying = true; await new Promise(done => setTimeout(done, 5000)); pazgrot.player.isPlaying = false; for (let k = 0; k < 20; k++) pazgrot.player.back(); document.getElementById('gen').value = '200'; await pazgrot.commands.show(); await pazgrot.commands.edit(); })()";

async function held(page) {
  await page.call("HeapProfiler.collectGarbage");
  const { metrics } = await page.call("Performance.getMetrics");
  return Math.round(metrics.find(m => m.name === "JSHeapUsedSize").value / 2 ** 20);
}

for (const page of pages) await page.call("Performance.enable");
for (let minute = 0; minute <= minutes; minute++) {
  console.log(`minute ${minute}: ${(await Promise.all(pages.map(held))).join(" and ")} MB, ${await a.js("pazgrot.board.published")} edits`);
  if (minute === minutes) break;
  await a.js(LOOKS);
  for (let k = 0; k < 50; k++) { await Promise.all(pages.map(page => page.js(STROKE))); await sleep(1000); }
}
const errors = chromium.errors();
console.log(`${errors.length} errors`);
await chromium.close();
server.stdin.end("close\n");
