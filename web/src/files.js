// @ts-check
// What comes in as a file or a link, and what goes out as one.
import { Fault, clipped, cutOf, exportOf, many, textIn } from "./formats.js";
import { heldOf, textOf } from "./editor.js";
import { Grid } from "./generations.js";
import { namesText } from "./names.js";
import { around, filmOf, svgOf } from "./pictures.js";
import { field, say } from "./panel.js";
import { boxOf, forFile, placed, readRLE } from "./rle.js";
import { readRule } from "./rules.js";
import { readState } from "./states.js";
import { NOT_PROVED, refusalWords } from "./words.js";

/** @typedef {import("./page.js").App} App */

const LAST = 2 ** 29, MOST_PICTURES = 300, MOST_FILMED = 10 ** 6, MOST_LINK = 8000;

/** What went wrong, in words.
 * @param {unknown} fault */
function wordsOf(fault) {
  if (fault instanceof Fault) return refusalWords(fault.number);
  throw fault;
}

/** Gives a file to the reader.
 * @param {string} name @param {Blob} blob */
function give(name, blob) {
  const link = document.createElement("a"), url = URL.createObjectURL(blob);
  link.href = url;
  link.download = name;
  link.click();
  setTimeout(() => URL.revokeObjectURL(url), 10000);
}

/** The RLE text of a generation, of all or of a box: the server's, or where there is none the page's.
 * @param {App} app @param {number} gen @param {import("./formats.js").Box | null} [box] */
async function exported(app, gen, box) {
  if (app.board.state === "open") {
    const [body] = await app.board.ask(box ? cutOf(clipped(box), gen) : exportOf(gen));
    return textIn(body);
  }
  const grid = app.player.look && app.player.gen === gen ? app.player.look.grid : await reached(app, gen);
  return grid && textOf(grid, app.board.rule, gen, box);
}

/** A generation by the page's own steps, or null where it was given up.
 * @param {App} app @param {number} gen */
const reached = (app, gen) => app.player.reach(gen, at => say(`Generation ${at} of ${gen}. Escape gives it up.`));

/** Does something with the pattern of the generation that is asked for, of all or of a box.
 * @param {App} app @param {import("./formats.js").Box | null} box @param {(p: import("./rle.js").Pattern, gen: number) => void} call */
async function withGeneration(app, box, call) {
  const gen = Number(field("gen").value);
  if (!Number.isInteger(gen) || gen < 0 || gen > LAST) return say("A generation is a number from 0 to 536,870,912.");
  try {
    app.player.isPlaying = false;
    const text = await exported(app, gen, box);
    if (text !== null) call(readRLE(text), gen);
  } catch (fault) { say(wordsOf(fault)); }
}

/** Shows the generation that is asked for.
 * @param {App} app */
export const showGeneration = app => withGeneration(app, null, (p, gen) => {
  app.player.show({ grid: Grid.from(p.cells, p.x, p.y), gen });
  app.view.fit();
  say(`Generation ${gen}, population ${p.cells.length / 3}.`);
});

/** Tells how many cells the generation that is asked for has, and their least box, of the selection where there is one.
 * @param {App} app */
export const count = app => withGeneration(app, app.view.selection, (p, gen) => {
  const box = p.cells.length ? `, box ${p.w} x ${p.h} at ${p.x} ${p.y}` : "";
  say(`Generation ${gen}${app.view.selection ? ", in the selection" : ""}: ${p.cells.length / 3} cells${box}.`);
});

/** Saves the generation that is shown, of the board as it is, the selection or all; a rule of two states is spelled as
 * `genedit convert` does.
 * @param {App} app */
export async function save(app) {
  const { gen } = app.player, { selection } = app.view, isOwn = app.board.state !== "open";
  try {
    const shown = await exported(app, gen, selection);
    if (shown === null) return;
    const text = forFile(shown, app.board.rule);
    give(`pazgrot-${gen}.rle`, new Blob([text]));
    say(`Saved ${selection ? "the selection of " : ""}generation ${gen}, ${text.length} bytes${isOwn ? ", " + NOT_PROVED : ", written by the server"}.`);
  } catch (fault) { say(wordsOf(fault)); }
}

/** The cells of a box, or all.
 * @param {App} app */
function seen(app) {
  const { selection } = app.view, cells = app.player.shown.cells(selection || undefined);
  return { cells, box: selection || boxOf(cells) || { x: 0, y: 0, w: 0, h: 0 } };
}

/** The selection, or all, as SVG.
 * @param {App} app */
export function saveSeen(app) {
  const { cells, box } = seen(app);
  give(`pazgrot-${app.player.gen}.svg`, new Blob([svgOf(cells, box, app.board.rule.states)]));
  say(`Saved a picture of ${cells.length / 3} cells.`);
}

/** What is seen on the canvas, as PNG.
 * @param {App} app */
export function savePicture(app) {
  app.view.isDirty = true;
  app.view.paint();
  app.view.canvas.toBlob((/** @type {Blob | null} */ blob) => {
    if (!blob) return;
    give(`pazgrot-${app.player.gen}.png`, blob);
    say(`Saved what is seen, ${app.view.canvas.width} by ${app.view.canvas.height}.`);
  });
}

/** The cells of generations one after another.
 * @param {App} app @param {number} from @param {number} to */
async function looks(app, from, to) {
  const list = [];
  if (app.board.state === "open") {
    const bodies = await app.board.ask(many(Array.from({ length: to - from + 1 }, (_, k) => from + k)));
    for (const body of bodies.slice(1)) {
      if (body[0]) throw new Fault(body[0]);
      list.push({ cells: placed(readRLE(textIn(body))) });
    }
    return list;
  }
  let grid = await reached(app, from);
  for (let gen = from; grid && gen <= to; gen++, grid = grid.next(app.board.rule)) list.push({ cells: grid.cells() });
  return grid && list;
}

/** A film of some generations, as an SVG that moves.
 * @param {App} app */
export async function saveFilm(app) {
  const from = Number(field("from").value), to = Number(field("to").value);
  if (!(Number.isInteger(from) && Number.isInteger(to) && from >= 0 && from <= to && to <= LAST)) return say("A film goes from one generation to a later one.");
  if (to - from >= MOST_PICTURES) return say(`A film has at most ${MOST_PICTURES} generations.`);
  try {
    const list = await looks(app, from, to);
    if (!list) return;
    if (list.reduce((n, { cells }) => n + cells.length / 3, 0) > MOST_FILMED) return say("That film has more than a million cells.");
    const box = around(list.map(({ cells }) => boxOf(cells))) || { x: 0, y: 0, w: 1, h: 1 };
    give(`pazgrot-${from}-${to}.svg`, new Blob([filmOf(list, box, app.board.rule.states, Math.min(app.player.rate, 30))]));
    say(`Saved a film of ${list.length} generations.`);
  } catch (fault) { say(wordsOf(fault)); }
}

/** A link to the board, or with the pattern of one's own.
 * @param {App} app */
export async function share(app) {
  const { view, board } = app, { x, y, w, h } = view.window(), at = `at=${x + (w >> 1)},${y + (h >> 1)},${view.zoom}`;
  const base = location.href.split("#")[0];
  let link = `${base}#${app.token}&${at}${app.names.size ? "&names=" + encodeURIComponent(namesText(app.names)) : ""}`;
  if (board.state === "alone") {
    link = `${base}#rule=${encodeURIComponent(board.rule.text)}&rle=${encodeURIComponent(textOf(board.plane, board.rule, 0))}&${at}`;
    if (link.length > MOST_LINK) return say("The pattern is too long for a link: save it as RLE.");
  }
  const isCopied = navigator.clipboard && await navigator.clipboard.writeText(link).then(() => true, () => false);
  say(isCopied ? "The link is copied." : link);
}

/** A file that was chosen or dropped: an RLE text or a state.
 * @param {App} app @param {Blob & { name?: string }} file */
export async function openFile(app, file) {
  const bytes = new Uint8Array(await file.arrayBuffer());
  if (String.fromCharCode(...bytes.subarray(0, 4)) !== "GLWS") return app.hold(new TextDecoder().decode(bytes), file.name);
  try {
    /** @type {number[]} */
    const cells = [], tree = readState(bytes, null, readRule);
    tree.eachLive((leaf, x, y) => leaf.s.forEach((s, k) => { if (s) cells.push(x + (k & 7), y + (k >> 3), s); }));
    return app.holdCells(heldOf(cells), tree.rule, file.name);
  } catch (fault) {
    say(`${file.name}: ${wordsOf(fault)}`);
    return false;
  }
}
