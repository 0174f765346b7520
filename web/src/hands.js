// @ts-check
// Mouse, fingers, the wheel, and what is dropped or pasted.
import { openFile } from "./files.js";
import { pasteClip } from "./commands.js";
import { part, say } from "./panel.js";

/** @typedef {import("./page.js").App} App */
/** @typedef {import("./formats.js").Box} Box */
/** What the pointer is at, from where it was pressed. */
/** @typedef {{ kind: "none" } | { kind: "stroke", last: number[], state: number } | { kind: "select", from: number[] } | { kind: "move", x: number, y: number } | { kind: "pinch", spread: number, zoom: number, x: number, y: number }} Grip */

/** How long a finger may be alone before what it draws goes out: a second one makes it a pinch. */
const TOUCH = 120;

/** The least box that has two cells.
 * @param {number[]} a @param {number[]} b @returns {Box} */
export const boxBetween = (a, b) => ({ x: Math.min(a[0], b[0]), y: Math.min(a[1], b[1]), w: Math.abs(a[0] - b[0]) + 1, h: Math.abs(a[1] - b[1]) + 1 });

export class Hands {
  /** @param {App} app */
  constructor(app) {
    this.app = app;
    /** @type {Map<number, { x: number, y: number }>} */
    this.fingers = new Map();
    /** @type {Grip} */
    this.grip = { kind: "none" };
    /** @type {HTMLCanvasElement} */
    const canvas = app.view.canvas;
    canvas.addEventListener("pointerdown", e => this.down(e));
    canvas.addEventListener("pointermove", e => this.moved(e));
    for (const end of ["pointerup", "pointercancel"]) canvas.addEventListener(end, e => this.up(/** @type {PointerEvent} */ (e)));
    canvas.addEventListener("contextmenu", e => e.preventDefault());
    canvas.addEventListener("wheel", e => this.wheel(e), { passive: false });
    this.listenToDrops();
  }

  /** @param {PointerEvent} e */
  down(e) {
    const { app } = this, { view } = app;
    view.canvas.focus({ preventScroll: true });
    if (e.isTrusted) view.canvas.setPointerCapture(e.pointerId);
    this.fingers.set(e.pointerId, { x: e.clientX, y: e.clientY });
    view.isKeyed = false;
    view.pointer = view.cellAt(e);
    view.isDirty = true;
    if (this.fingers.size === 2) return this.pinch();
    if (this.fingers.size > 2) return;
    if (view.held && e.button === 0) return app.land();
    if (app.tool === "pan" || e.button === 1 || e.altKey) this.grip = { kind: "move", x: e.clientX, y: e.clientY };
    else if (app.tool === "pick") app.choose(app.player.shown.state(view.pointer[0], view.pointer[1]));
    else if (app.tool === "select") this.select(view.pointer);
    else this.draw(e, view.pointer);
  }

  /** @param {number[]} at */
  select(at) {
    this.grip = { kind: "select", from: at };
    this.app.view.selection = boxBetween(at, at);
  }

  /** A press on a cell that has the state already erases.
   * @param {PointerEvent} e @param {number[]} at */
  draw(e, at) {
    const { app } = this, isThere = app.board.plane.state(at[0], at[1]) === app.state;
    app.player.edit();
    const state = app.tool === "erase" || e.button === 2 || isThere ? 0 : app.state, now = performance.now();
    app.editor.begin(now + (e.pointerType === "touch" ? TOUCH : 0));
    app.editor.line(at, at, state);
    app.editor.send(now);
    this.grip = { kind: "stroke", last: at, state };
  }

  /** Two fingers: what the first one began is given up. */
  pinch() {
    const { app } = this;
    if (this.grip.kind === "stroke") app.editor.giveUp();
    if (this.grip.kind === "select") app.view.selection = null;
    const { spread, x, y } = this.between();
    this.grip = { kind: "pinch", spread, zoom: app.view.zoom, x, y };
  }

  /** How far two fingers are from each other, and the middle of them. */
  between() {
    const [a, b] = [...this.fingers.values()], { left, top } = this.app.view.canvas.getBoundingClientRect();
    return { spread: Math.hypot(a.x - b.x, a.y - b.y), x: (a.x + b.x) / 2 - left, y: (a.y + b.y) / 2 - top };
  }

  /** @param {PointerEvent} e */
  moved(e) {
    const { app, grip } = this, { view } = app, at = view.cellAt(e);
    if (at[0] !== view.pointer[0] || at[1] !== view.pointer[1]) {
      view.pointer = at;
      if (e.buttons === 0 || !view.isKeyed) view.isDirty = true;
    }
    const finger = this.fingers.get(e.pointerId);
    if (!finger) return;
    finger.x = e.clientX;
    finger.y = e.clientY;
    if (grip.kind === "pinch" && this.fingers.size === 2) {
      const { spread, x, y } = this.between();
      view.move(grip.x - x, grip.y - y);
      view.pinch(grip.zoom * spread / grip.spread, x, y);
      grip.x = x;
      grip.y = y;
    } else if (grip.kind === "move") {
      view.move(grip.x - e.clientX, grip.y - e.clientY);
      grip.x = e.clientX;
      grip.y = e.clientY;
    } else if (grip.kind === "select") {
      view.selection = boxBetween(grip.from, at);
      view.isDirty = true;
    } else if (grip.kind === "stroke") {
      app.editor.line(grip.last, at, grip.state);
      grip.last = at;
      app.editor.send(performance.now());
    }
  }

  /** @param {PointerEvent} e */
  up(e) {
    const { app } = this;
    this.fingers.delete(e.pointerId);
    if (this.grip.kind === "stroke") app.editor.end();
    if (this.grip.kind === "select" && app.view.selection) say(`Selected ${app.view.selection.w} by ${app.view.selection.h}.`);
    if (this.fingers.size === 0 || this.grip.kind !== "pinch") this.grip = { kind: "none" };
  }

  /** @param {WheelEvent} e */
  wheel(e) {
    e.preventDefault();
    const { left, top } = this.app.view.canvas.getBoundingClientRect();
    this.app.view.zoomBy(e.deltaY < 0, e.clientX - left, e.clientY - top);
  }

  listenToDrops() {
    const { app } = this, drop = part("drop");
    document.addEventListener("dragover", e => { e.preventDefault(); drop.classList.add("shown"); });
    document.addEventListener("dragleave", e => { if (!e.relatedTarget) drop.classList.remove("shown"); });
    document.addEventListener("drop", async e => {
      e.preventDefault();
      drop.classList.remove("shown");
      if (!e.dataTransfer) return;
      const [file] = e.dataTransfer.files;
      app.view.pointer = app.view.cellAt(e);
      if (file) await openFile(app, file);
      else app.hold(e.dataTransfer.getData("text"));
    });
    document.addEventListener("paste", e => {
      if (/** @type {HTMLElement} */ (e.target).tagName === "INPUT" || !e.clipboardData) return;
      e.preventDefault();
      const text = e.clipboardData.getData("text");
      if (text && text !== app.copied) app.hold(text);
      else pasteClip(app);
    });
  }
}
