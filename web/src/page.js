// @ts-check
// The page: what is on it, and how it begins, alone or at a board.
import { Board } from "./board.js";
import { commandsOf } from "./commands.js";
import { Editor, NO_STATE, OUTSIDE, heldOf } from "./editor.js";
import { THEMES } from "./colours.js";
import { openFile } from "./files.js";
import { Fault } from "./formats.js";
import { Hands } from "./hands.js";
import { Keys } from "./keys.js";
import { LIBRARY } from "./library.js";
import { field, fillByRule, fillLists, part, say, showFacts, showSwatches, showTools, showWho } from "./panel.js";
import { Player } from "./player.js";
import { readRLE } from "./rle.js";
import { readRule, ruleName } from "./rules.js";
import { keepPending, namesOf, placeOf, readLink, takeKey, worldOf } from "./start.js";
import { Strokes } from "./undo.js";
import { View } from "./view.js";
import { ALONE, HELD, KEYS, lineWords, refusalWords } from "./words.js";

/** @typedef {import("./patterns.js").Held} Held */
/** @typedef {import("./rules.js").Rule} Rule */

const CALM = 3;

export class App {
  /** @param {import("./start.js").Link} link @param {string} key */
  constructor(link, key) {
    this.token = link.token;
    this.at = placeOf(link.at);
    this.names = namesOf(link);
    this.tool = "draw";
    this.state = 1;
    this.copied = "";
    /** @type {import("./formats.js").Box | null} */
    this.box = null;
    this.boxAt = "";
    /** @type {unknown} */
    this.boxOf = null;
    this.isFitted = false;
    this.isStale = true;
    /** @type {import("./line.js").World | null} */
    const world = link.token ? worldOf(link.token, key, () => this.view.window()) : null;
    this.board = new Board(world, {
      state: state => this.told(state), map: () => { this.view.isDirty = true; }, refused: n => say(refusalWords(n)), begunAnew: before => this.begunAnew(before),
    }, link.rule ? link.rule.text : "23/3/2");
    this.player = new Player(this.board, () => this.changed());
    /** @type {View} */
    this.view = new View(/** @type {HTMLCanvasElement} */ (part("c")), this.board, this.player);
    this.editor = new Editor(this.board);
    this.rule = this.board.rule;
    this.commands = commandsOf(this);
    if (matchMedia("(prefers-reduced-motion: reduce)").matches) this.player.rate = CALM;
    if (matchMedia("(prefers-contrast: more)").matches) this.setTheme(THEMES[THEMES.length - 1]);
  }

  /** Something but the map changed. */
  changed() { this.isStale = true; this.view.isDirty = true; }

  // -- what the board tells

  /** @param {import("./board.js").State} state */
  told(state) {
    const words = lineWords(state, this.board.tries);
    if (words) say(words);
    if (state === "open") this.opened();
    this.changed();
  }

  /** The board is there: its rule may be another, and one looks at it for the first time. */
  opened() {
    this.takeRule();
    if (!this.isFitted) this.lookAtFirst();
    else say("The board is there.");
  }

  /** Looks where the link says; whether it does. */
  lookAtPlace() {
    if (this.at) this.view.centre(this.at[0], this.at[1], this.at[2]);
    return this.at !== null;
  }

  lookAtFirst() {
    this.isFitted = true;
    if (!this.lookAtPlace()) this.view.fit();
  }

  /** The server began an empty board: what stood before is held, to be put down.
   * @param {import("./plane.js").Plane} before */
  begunAnew(before) {
    this.editor.strokes = new Strokes();
    this.editor.clip = heldOf(before.cells());
    say("The server began anew, without what stood here. Paste puts it down.");
  }

  /** Shows what the rule decides, where it is another one. */
  takeRule() {
    if (this.rule.text === this.board.rule.text) return;
    this.rule = this.board.rule;
    this.state = Math.min(this.state, this.rule.states - 1);
    this.player.edit();
    this.view.recolour();
    fillByRule(this);
  }

  // -- what is done

  /** Another rule, on a board of one's own.
   * @param {Rule} rule */
  setRule(rule) {
    this.board.rule = rule;
    this.takeRule();
  }

  /** @param {number} s */
  choose(s) {
    this.state = s;
    if (this.tool !== "erase" || s !== 0) this.tool = "draw";
    this.changed();
    showSwatches(this);
    say(s === 0 ? "State 0, dead." : `State ${s}.`);
  }

  /** @param {string} tool */
  takeTool(tool) {
    this.tool = tool;
    this.changed();
    say(`Tool: ${tool === "pan" ? "move" : tool}.`);
  }

  /** @param {import("./colours.js").Theme} theme */
  setTheme(theme) {
    this.view.theme = theme;
    document.documentElement.classList.toggle("strong", theme === THEMES[THEMES.length - 1]);
    this.view.recolour();
    this.changed();
    showSwatches(this);
  }

  /** @param {number} rate */
  setRate(rate) {
    this.player.rate = rate;
    this.changed();
    say(`${rate} looks a second.`);
  }

  /** Holds the pattern of an RLE text.
   * @param {string} text @param {string} [name] */
  hold(text, name) {
    try {
      const p = readRLE(text);
      return this.holdCells({ w: p.w, h: p.h, cells: p.cells }, p.rule, name);
    } catch (fault) {
      if (!(fault instanceof Fault)) throw fault;
      say(`That is no RLE text: ${fault.message}.`);
      return false;
    }
  }

  /** Holds a pattern; an empty board of one's own takes its rule.
   * @param {Held} held @param {string | null} ruleText @param {string} [name] */
  holdCells(held, ruleText, name) {
    const rule = ruleText ? readRule(ruleText) : null, isOther = rule !== null && rule.text !== this.board.rule.text;
    if (isOther && this.board.state === "alone" && this.board.plane.population === 0) this.setRule(rule);
    this.view.held = this.editor.clip = held;
    this.view.isDirty = true;
    const warning = isOther && rule.text !== this.board.rule.text ? `It is of the rule ${ruleName(rule)}, the board's is ${ruleName(this.board.rule)}. ` : "";
    say(`${warning}${held.cells.length / 3} cells${name ? " of " + name : ""}. ${HELD}`);
    return true;
  }

  /** Puts down what is held. */
  land() {
    const { held, place } = this.view;
    if (!held) return;
    this.player.edit();
    const wrong = this.editor.land(held, place[0], place[1], /** @type {"or" | "copy"} */ (field("mode").value));
    if (wrong === NO_STATE || wrong === OUTSIDE) return say(wrong);
    this.view.held = null;
    this.view.isDirty = true;
    say(`Put down ${held.cells.length / 3} cells at ${place[0]}, ${place[1]}.`);
  }

  /** One frame.
   * @param {number} now */
  frame(now) {
    requestAnimationFrame(later => this.frame(later));
    this.player.tick(now);
    if (this.editor.open) this.editor.send(now);
    if (this.isStale) showTools(this);
    this.isStale = false;
    if (this.view.paint()) showFacts(this);
  }
}

/** Buttons, fields and lists.
 * @param {App} app */
function wire(app) {
  for (const button of document.querySelectorAll("[data-do]")) {
    button.addEventListener("click", () => app.commands[/** @type {string} */ (/** @type {HTMLElement} */ (button).dataset.do)]());
  }
  for (const button of document.querySelectorAll("[data-tool]")) {
    button.addEventListener("click", () => app.takeTool(/** @type {string} */ (/** @type {HTMLElement} */ (button).dataset.tool)));
  }
  field("rate").addEventListener("input", () => app.setRate(Number(field("rate").value)));
  field("stride").addEventListener("change", () => { app.player.stride = Number(field("stride").value); });
  field("theme").addEventListener("change", () => app.setTheme(THEMES[Number(field("theme").value)]));
  field("rulename").addEventListener("keydown", e => { if (e.key === "Enter") app.commands.rule(); });
  field("file").addEventListener("change", async () => {
    const file = (field("file").files || [])[0];
    field("file").value = "";
    if (file) await openFile(app, file);
  });
  field("library").addEventListener("change", () => {
    const entry = LIBRARY[Number(field("library").value)];
    if (field("library").value && entry) app.hold(`x = 0, y = 0, rule = ${entry.rule}\n${entry.rle}`, entry.name);
    field("library").value = "";
    app.view.canvas.focus();
  });
  app.view.canvas.addEventListener("pointerdown", () => { for (const menu of document.querySelectorAll("details")) menu.open = false; });
}

/** An own board begins with what the link has.
 * @param {App} app @param {import("./start.js").Link} link */
function beginAlone(app, link) {
  say(location.protocol === "file:" || link.rle ? "" : ALONE);
  if (link.rle && app.hold(link.rle)) {
    const p = readRLE(link.rle);
    app.view.held = null;
    say(app.editor.land(p, p.x, p.y, "or") || `${p.cells.length / 3} cells from the link.`);
  }
  app.lookAtFirst();
}

async function begin() {
  const link = readLink(), { key, left } = await takeKey(link.token), app = new App(link, key);
  part("keytext").textContent = KEYS;
  fillLists();
  fillByRule(app);
  wire(app);
  new Hands(app);
  new Keys(app);
  new ResizeObserver(() => app.view.size()).observe(app.view.canvas);
  app.view.size();
  setInterval(() => showWho(app), 500);
  addEventListener("hashchange", () => location.reload());
  addEventListener("pagehide", () => { if (link.token) keepPending(link.token, app.board.pending); });
  app.lookAtPlace();
  if (link.token) app.board.start(left);
  else beginAlone(app, link);
  requestAnimationFrame(now => app.frame(now));
  Object.assign(window, { pazgrot: app });
}

begin();
