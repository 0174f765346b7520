// @ts-check
// The keyboard: a cursor that draws and selects, and a key for each command.
import { chosen, turn } from "./commands.js";
import { inPlane } from "./formats.js";
import { boxBetween } from "./hands.js";
import { part, say } from "./panel.js";
import { rotate } from "./patterns.js";

/** @typedef {import("./page.js").App} App */

/** @type {Record<string, [number, number]>} */
const ARROWS = { ArrowLeft: [-1, 0], ArrowRight: [1, 0], ArrowUp: [0, -1], ArrowDown: [0, 1] };
/** @type {Record<string, string>} */
const COMMANDS = {
  " ": "step", b: "back", Escape: "edit", f: "fit", m: "middle", ">": "rotate", x: "flipx", y: "flipy", Delete: "clear", Backspace: "clear",
  k: "none", w: "who", c: "theme", h: "help", o: "open", r: "save", "[": "further", "]": "nearer",
};
/** @type {Record<string, string>} */
const WITH_CONTROL = { z: "undo", Z: "redo", y: "redo", x: "cut", c: "copy", a: "all" };
/** @type {Record<string, string>} */
const TOOLS = { d: "draw", e: "erase", i: "pick", s: "select", v: "pan" };
/** @type {Record<string, number>} */
const SCALES = { 1: 1, 2: 2, 4: 4, 8: 8, 6: 16 };

/** Closes the menu that is open; whether one was. */
function closeMenu() {
  const menu = /** @type {HTMLDetailsElement | null} */ (document.querySelector("details[open]"));
  if (!menu) return false;
  menu.open = false;
  /** @type {HTMLElement} */ (menu.firstElementChild).focus();
  return true;
}

export class Keys {
  /** @param {App} app */
  constructor(app) {
    this.app = app;
    /** @type {number[] | null} where a selection by keys began */
    this.anchor = null;
    document.addEventListener("keydown", e => this.pressed(e));
  }

  /** @param {KeyboardEvent} e */
  pressed(e) {
    const target = /** @type {HTMLElement} */ (e.target), dialog = /** @type {HTMLDialogElement} */ (part("keys"));
    if (e.key === "Escape" && closeMenu()) return;
    if (["INPUT", "SELECT"].includes(target.tagName) || dialog.open) return;
    const onButton = ["BUTTON", "SUMMARY"].includes(target.tagName);
    if (onButton && ["Enter", " "].includes(e.key)) return;
    const act = this.actOf(e);
    if (!act) return;
    e.preventDefault();
    act();
  }

  /** What a key does, or null.
   * @param {KeyboardEvent} e @returns {(() => unknown) | null} */
  actOf(e) {
    const { app } = this, { key } = e, hasControl = e.ctrlKey || e.metaKey, arrow = ARROWS[key];
    if (arrow) return () => (hasControl ? app.view.move(arrow[0] * app.view.canvas.width / 8, arrow[1] * app.view.canvas.height / 8) : this.move(arrow, e));
    if (hasControl) {
      const name = WITH_CONTROL[e.shiftKey ? key.toUpperCase() : key];
      return name ? app.commands[name] : null;
    }
    if (e.altKey) return null;
    if (key === "Enter") return () => (app.view.held ? app.land() : app.commands.play());
    if (TOOLS[key]) return () => this.take(key);
    if (SCALES[key]) return () => app.view.zoomTo(SCALES[key]);
    if (COMMANDS[key]) return app.commands[COMMANDS[key]];
    return this.others(key);
  }

  /** @param {string} key @returns {(() => unknown) | null} */
  others(key) {
    const { app } = this, { states } = app.board.rule;
    switch (key) {
      case ",": return () => app.choose((app.state + states - 1) % states);
      case ".": return () => app.choose((app.state + 1) % states);
      case "<": return () => turn(app, p => rotate(rotate(rotate(p))));
      case "F": return () => { const box = chosen(app); if (box) app.view.fit(box); };
      case "+": return () => app.setRate(Math.min(60, app.player.rate * 2));
      case "-": return () => app.setRate(Math.max(1, app.player.rate >> 1));
      default: return null;
    }
  }

  /** Takes a tool; draw and erase work at the cursor at once.
   * @param {string} key */
  take(key) {
    const { app } = this;
    app.takeTool(TOOLS[key]);
    if (!app.view.isKeyed || !"dei".includes(key)) return;
    if (key === "i") return app.choose(app.player.shown.state(app.view.cursor[0], app.view.cursor[1]));
    this.dot();
  }

  /** Draws at the cursor. */
  dot() {
    const { app } = this, [x, y] = app.view.cursor;
    if (!inPlane(x, y)) return;
    const state = app.tool === "erase" ? 0 : app.state;
    app.player.edit();
    app.editor.put([[x, y, state]]);
    say(`${x}, ${y}: state ${state}`);
  }

  /** Moves the cursor, and selects or draws with it.
   * @param {number[]} by @param {KeyboardEvent} e */
  move(by, e) {
    const { app } = this, { view } = app, from = view.cursor;
    view.isKeyed = true;
    view.cursor = [from[0] + by[0], from[1] + by[1]];
    view.follow();
    if (e.shiftKey) {
      const anchor = this.anchor = this.anchor || from;
      view.selection = boxBetween(anchor, view.cursor);
      return say(`Selected ${view.selection.w} by ${view.selection.h}.`);
    }
    this.anchor = null;
    if (e.altKey) return this.dot();
    say(`${view.cursor[0]}, ${view.cursor[1]}: state ${app.player.shown.state(view.cursor[0], view.cursor[1])}`);
  }
}
