// @ts-check
// What each button and key does.
import { THEMES } from "./colours.js";
import { count, save, saveFilm, savePicture, saveSeen, share, showGeneration } from "./files.js";
import { nameSeat } from "./names.js";
import { flipX, flipY, rotate } from "./patterns.js";
import { field, part, say, showWho } from "./panel.js";
import { readRule, ruleName } from "./rules.js";
import { keepNames } from "./start.js";
import { HELD } from "./words.js";

/** @typedef {import("./page.js").App} App */
/** @typedef {import("./patterns.js").Held} Held */

/** The selection, or all that is shown; null where nothing is.
 * @param {App} app */
export function chosen(app) {
  const box = app.view.selection || app.player.shown.box();
  if (!box) say("Nothing is there.");
  return box;
}

/** @param {App} app @param {boolean} isCut */
function copy(app, isCut) {
  const box = chosen(app);
  if (!box) return;
  const { held, text } = app.editor.taken(box, app.player.shown);
  app.editor.clip = held;
  app.copied = text;
  if (navigator.clipboard) navigator.clipboard.writeText(text).catch(() => {});
  const isDone = isCut && !app.player.look;
  if (isDone) app.editor.clear(box);
  say(`${isDone ? "Cut" : "Copied"} ${held.cells.length / 3} cells.`);
}

/** @param {App} app */
async function paste(app) {
  const text = navigator.clipboard && navigator.clipboard.readText ? await navigator.clipboard.readText().catch(() => "") : "";
  if (text && text !== app.copied && app.hold(text)) return;
  pasteClip(app);
}

/** Holds what was cut or copied last.
 * @param {App} app */
export function pasteClip(app) {
  if (!app.editor.clip) return say("Nothing was copied.");
  app.view.held = app.editor.clip;
  app.view.isDirty = true;
  say(HELD);
}

/** Turns what is held, or the selection where it stands.
 * @param {App} app @param {(held: Held) => Held} how */
export function turn(app, how) {
  const { view } = app;
  view.isDirty = true;
  if (view.held) { view.held = how(view.held); return; }
  if (!view.selection) return say("Select cells, or hold a pattern.");
  app.player.edit();
  const now = app.editor.turn(view.selection, how);
  if (typeof now === "string") return say(now);
  view.selection = now;
  say("Turned.");
}

/** @param {App} app @param {"undo" | "redo"} which */
function again(app, which) {
  const n = app.editor.again(which);
  if (n === null) return say(`Nothing to ${which}.`);
  if (app.player.look) app.player.edit();
  say(`${which}: ${n} cells`);
}

/** Takes another rule, on a board of one's own.
 * @param {App} app */
function takeRule(app) {
  const rule = readRule(field("rulename").value);
  if (!rule) return say("That is no rule. A rule is survival/birth/states, as 23/3/2, or as Golly has it, B3/S23, or a name.");
  const cells = app.board.plane.cells();
  if (cells.some((s, k) => k % 3 === 2 && s >= rule.states)) return say("The board has states that this rule has not. Clear them first.");
  app.setRule(rule);
  say(`The rule is ${ruleName(rule)}.`);
}

/** Names whoever has a seat, in this page.
 * @param {App} app */
function takeName(app) {
  const seat = Number(field("named").value), name = nameSeat(app.names, seat, field("name").value);
  if (name === null) return say("A seat is a number from 1 to 65,535.");
  keepNames(app.token, app.names);
  app.changed();
  showWho(app);
  say(name ? `Seat ${seat} is ${name}, in this page and in the links that it gives.` : `Seat ${seat} has no name.`);
}

/** @param {App} app @returns {Record<string, () => unknown>} */
export function commandsOf(app) {
  const { view, player } = app, edited = () => { view.isDirty = true; };
  return {
    undo: () => again(app, "undo"), redo: () => again(app, "redo"),
    cut: () => copy(app, true), copy: () => copy(app, false), paste: () => paste(app),
    rotate: () => turn(app, rotate), flipx: () => turn(app, flipX), flipy: () => turn(app, flipY),
    all: () => { view.selection = player.shown.box(); edited(); say(view.selection ? "All is selected." : "Nothing is there."); },
    none: () => { view.selection = null; edited(); say("Nothing is selected."); },
    clear: () => {
      if (!view.selection) return say("Select what is to be cleared.");
      player.edit();
      app.editor.clear(view.selection);
      say("Cleared.");
    },
    play: () => { player.toggle(); say(player.isPlaying ? "Playing." : `Stopped at generation ${player.gen}.`); },
    step: () => { player.isPlaying = false; player.step(); say(`Generation ${player.gen}, population ${player.shown.population}.`); },
    back: () => say(!player.back() ? "This is the board." : player.look ? `Generation ${player.gen}.` : "The board."),
    edit: () => { view.held = null; view.selection = null; player.edit(); say("The board."); },
    show: () => showGeneration(app), count: () => count(app),
    open: () => field("file").click(), save: () => save(app), png: () => savePicture(app), svg: () => saveSeen(app), film: () => saveFilm(app), share: () => share(app),
    rule: () => takeRule(app),
    fit: () => view.fit(), nearer: () => view.zoomBy(true), further: () => view.zoomBy(false), middle: () => view.centre(0, 0),
    who: () => { view.showsSeats = !view.showsSeats; edited(); app.changed(); showWho(app); },
    name: () => takeName(app),
    theme: () => app.setTheme(THEMES[(THEMES.indexOf(view.theme) + 1) % THEMES.length]),
    help: () => /** @type {HTMLDialogElement} */ (part("keys")).showModal(),
    shut: () => /** @type {HTMLDialogElement} */ (part("keys")).close(),
  };
}

