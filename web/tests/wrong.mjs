// Wrong bodies, each of which some test must refuse: node wrong.mjs [PART OF A NAME]
import { spawnSync } from "node:child_process";
import { cpSync, mkdtempSync, readFileSync, rmSync, writeFileSync } from "node:fs";
import { tmpdir } from "node:os";
import { join } from "node:path";

const WRONG = [
  ["what was not published is forgotten", "board.js", ": missing(edit, plane));\n    this.hasRead", ": null);\n    this.hasRead", "schedules"],
  ["what was published is drawn again", "board.js", ": missing(edit, plane));\n    this.hasRead", ": edit);\n    this.hasRead", "schedules"],
  ["what is drawn before the board is read is looked for on it", "board.js", "edit.isBlind ? { ...edit, isBlind: false } : missing(edit, plane)", "missing(edit, plane)", "schedules"],
  ["what is drawn anew keeps its stamp", "board.js", "    for (const edit of left) if (edit) this.pending.push(this.stamped(edit));", "    for (const edit of left) if (edit) { this.plane.apply(edit); this.pending.push(edit); }", "schedules"],
  ["each is looked at on the map of those before it", "board.js", ": missing(edit, plane));\n    this.hasRead", ": [missing(edit, plane)].map(e => { if (e) plane.apply({ ...e, c: plane.top + 1 }); return e; })[0]);\n    this.hasRead", "schedules"],
  ["counters begin anew with the map", "board.js", "    plane.top = Math.max(plane.top, this.plane.top);\n", "", "schedules"],
  ["a stamp is one above what is published", "board.js", "edit.c = this.plane.top + 1;", "edit.c = this.published + 1;", "schedules"],
  ["a full inbox drops the edit", "board.js", "if (number === 29) return this.later(FULL_INBOX, again);", "if (number === 29) { this.pending.shift(); return again(); }", "schedules"],
  ["a plane in the midst is passed over", "board.js", "    else this.hearPlane(bodies);\n", "", "schedules"],
  ["pieces are taken for the first of them", "board.js", "joined(bodies.slice(1))", "bodies[1]", "schedules"],
  ["a plane that no frame holds is not asked for in pieces", "board.js", "    if (bodies[0][0] === 21) return this.line.request(pieces(), rest => this.begin(rest));\n", "", "schedules"],
  ["a server without Await is not polled", "board.js", "if (first[0] === 33 && this.hasAwait) { this.hasAwait = false; return again(); }", "if (first[0] === 33) return;", "schedules"],
  ["what is seen first stands above what is read", "board.js", "plane.apply({ c: 0, r: 0, area", "plane.apply({ c: plane.top + 1, r: 0, area", "stamps"],
  ["what is seen first is taken for the board", "board.js", "    for (const edit of this.pending) plane.apply(edit);\n    this.replace(plane);\n  }\n\n  /** @param {Uint8Array[]} bodies the reply", "    this.hasRead = true;\n    for (const edit of this.pending) plane.apply(edit);\n    this.replace(plane);\n  }\n\n  /** @param {Uint8Array[]} bodies the reply", "stamps"],
  ["a window is asked for beyond the plane", "formats.js", "h: Math.max(Math.min(box.y + box.h, HALF) - y, 0)", "h: box.h", "formats"],
  ["a seat's name is told of every seat", "names.js", "return name ? `${name}, seat ${seat}`", "return names.size ? `${name}, seat ${seat}`", "names"],
  ["the seat of the first Hello is kept", "board.js", "      this.seat = seat;\n", "      this.seat = this.hasRead ? this.seat : seat;\n", "schedules"],
  ["an equal stamp of another seat's edit is taken for one's own", "drawings.js", "w.r === r && w.s !== s", "w.r === r && false", "stamps"],
  ["an area is looked at as its cells alone", "drawings.js", "for (let y = box.y, k = 0; y < box.y + box.h; y++)", "for (let y = box.y, k = 0; y < box.y; y++)", "schedules"],
  ["a line that is let go keeps its requests", "line.js", "    for (const { lost } of this.waiting.splice(0)) lost();\n", "", "stamps"],
  ["replicas are not compared", "plane.js", "c === there && (r < t.r[i] ||", "c === there && (", "schedules"],
  ["areas are forgotten where no tile is", "plane.js", "    this.areas.push({ box, write });\n", "", "schedules undo"],
  ["a tile is made without its areas", "plane.js", "    for (const { box, write } of this.areas) this.fill(t, box, write);\n    return t;", "    return t;", "schedules undo"],
  ["undo takes what others drew", "undo.js", "if (stroke.stamps.has(stampWord(w.c, w.r))) ", "", "undo"],
  ["undo gives back what was there last", "undo.js", "before: old ? old.before : before", "before", "undo"],
  ["redo is kept behind a new stroke", "undo.js", "    this.undone = [];\n    if", "    if", "undo"],
  ["the last shade of a dying state stays", "generations.js", "table[10 * s + n] = (s + 1) % states", "table[10 * s + n] = Math.min(s + 1, states - 1)", "generations"],
  ["a cell counts itself", "generations.js", "survives >> n - 1 & 1", "survives >> n & 1", "generations"],
  ["a tile beside is not reached", "generations.js", "for (let i = west; i <= east; i++)", "for (let i = west; i <= 0; i++)", "generations"],
  ["lines of RLE have 71 bytes", "rle.js", "const LINE = 70,", "const LINE = 71,", "formats"],
  ["a file of two states has the board's spelling of its rule", "rle.js", "rule = ${fileRule(rule)}", "rule = ${rule.text}", "formats"],
  ["a file's rule tells births behind survivals", "rules.js", "`B${born}/S${survives}`", "`B${survives}/S${born}`", "formats"],
  ["a text may end with another square", "states.js", "|| n && !isWalk(list)", "", "formats"],
  ["an entry may come twice", "states.js", "    if (known.has(key)) throw new Fault(19);\n", "", "formats"],
  ["a blank square may be an entry", "states.js", "  if (a.blank && quarters.every(q => q.blank && q.c === a.c && q.r === a.r)) throw new Fault(19);\n", "", "formats"],
];

const web = new URL("../", import.meta.url).pathname, [part = ""] = process.argv.slice(2);
let refused = 0, passed = 0;
for (const [name, file, old, now, tests] of WRONG.filter(w => w[0].includes(part))) {
  const dir = mkdtempSync(join(tmpdir(), "wrong-"));
  cpSync(web, dir, { recursive: true });
  const path = join(dir, "src", file), text = readFileSync(path, "utf8");
  if (text.split(old).length !== 2) throw new Error(`${name}: the old text stands ${text.split(old).length - 1} times in ${file}`);
  writeFileSync(path, text.replace(old, () => now));
  const { status } = spawnSync(process.execPath, ["--test", ...tests.split(" ").map(t => join(dir, "tests", t + ".test.mjs"))], { env: { ...process.env, SCHEDULES: "1200", SEED: "1" }, timeout: 120000, stdio: "ignore" });
  if (status) refused++; else { passed++; console.log(`NOT REFUSED: ${name}`); }
  rmSync(dir, { recursive: true });
}
console.log(`${refused} wrong bodies refused, ${passed} not`);
process.exit(passed ? 1 : 0);
