// @ts-check
// The picture on the canvas: cells, grid, selection, what is held, and the cursor.
import { THEMES, hex, pixel, seatColour } from "./colours.js";
import { CELLS, SIDE } from "./tiles.js";

/** @typedef {import("./formats.js").Box} Box */
/** @typedef {import("./patterns.js").Held} Held */
/** @typedef {import("./board.js").Board} Board */
/** @typedef {import("./player.js").Player} Player */

const LEAST = 2 ** -22, MOST = 64, GRID_FROM = 6, MOST_HELD = 60000;

/** The scale next to one, a whole number or a power of two below 1.
 * @param {number} scale @param {(n: number) => number} round */
const even = (scale, round) => scale >= 1 ? round(scale) : 2 ** round(Math.log2(scale));

export class View {
  /** @param {HTMLCanvasElement} canvas @param {Board} board @param {Player} player */
  constructor(canvas, board, player) {
    this.canvas = canvas;
    this.board = board;
    this.player = player;
    this.context = /** @type {CanvasRenderingContext2D} */ (canvas.getContext("2d", { alpha: false }));
    this.small = document.createElement("canvas");
    this.smallContext = /** @type {CanvasRenderingContext2D} */ (this.small.getContext("2d", { alpha: false }));
    /** Pixels of a cell's side, and the cell at the upper left corner. */
    this.zoom = 16;
    this.x = -20;
    this.y = -12;
    this.theme = THEMES[0];
    this.showsSeats = false;
    /** @type {Box | null} */
    this.selection = null;
    /** @type {Held | null} */
    this.held = null;
    /** Where the pointer is, and the cursor that keys move. */
    this.pointer = [0, 0];
    this.cursor = [0, 0];
    this.isKeyed = false;
    this.isDirty = true;
    this.colours = new Uint32Array(256);
    /** @type {Map<number, number>} */
    this.seats = new Map();
    this.recolour();
  }

  /** @param {number} state */
  colourOf(state) { return this.theme.of(state, this.board.rule.states); }

  /** Takes the colours of theme and rule. */
  recolour() {
    for (let s = 0; s < this.board.rule.states; s++) this.colours[s] = pixel(this.colourOf(s));
    this.isDirty = true;
  }

  /** @param {number} r */
  seatPixel(r) {
    let p = this.seats.get(r);
    if (p === undefined) this.seats.set(r, p = pixel(seatColour(r)));
    return p;
  }

  get place() { return this.isKeyed ? this.cursor : this.pointer; }

  // -- where one looks

  size() {
    const { width, height } = this.canvas.getBoundingClientRect();
    this.canvas.width = Math.max(1, Math.round(width));
    this.canvas.height = Math.max(1, Math.round(height));
    this.isDirty = true;
  }

  /** The cell under a point of the window.
   * @param {{ clientX: number, clientY: number }} point */
  cellAt({ clientX, clientY }) {
    const { left, top } = this.canvas.getBoundingClientRect();
    return [Math.floor((clientX - left) / this.zoom + this.x), Math.floor((clientY - top) / this.zoom + this.y)];
  }

  /** The cells that are seen.
   * @returns {Box} */
  window() {
    const x = Math.floor(this.x), y = Math.floor(this.y);
    return { x, y, w: Math.ceil(this.x + this.canvas.width / this.zoom) - x, h: Math.ceil(this.y + this.canvas.height / this.zoom) - y };
  }

  /** Takes a scale, with the cell under a pixel kept there.
   * @param {number} zoom @param {number} px @param {number} py */
  zoomTo(zoom, px = this.canvas.width / 2, py = this.canvas.height / 2) {
    const now = Math.max(LEAST, Math.min(MOST, zoom));
    this.x += px / this.zoom - px / now;
    this.y += py / this.zoom - py / now;
    this.zoom = now;
    this.isDirty = true;
  }

  /** One step nearer or further.
   * @param {boolean} isIn @param {number} [px] @param {number} [py] */
  zoomBy(isIn, px, py) {
    this.zoomTo(isIn ? even(this.zoom * 1.25, Math.ceil) : even(this.zoom * .8, Math.floor), px, py);
  }

  /** @param {number} zoom @param {number} px @param {number} py */
  pinch(zoom, px, py) { this.zoomTo(even(Math.max(LEAST, Math.min(MOST, zoom)), Math.round), px, py); }

  /** @param {number} dx pixels @param {number} dy */
  move(dx, dy) {
    this.x += dx / this.zoom;
    this.y += dy / this.zoom;
    this.isDirty = true;
  }

  /** @param {number} x @param {number} y @param {number} [zoom] */
  centre(x, y, zoom = this.zoom) {
    this.zoom = Math.max(LEAST, Math.min(MOST, zoom));
    this.x = x - this.canvas.width / this.zoom / 2;
    this.y = y - this.canvas.height / this.zoom / 2;
    this.isDirty = true;
  }

  /** Fits a box, or all cells.
   * @param {Box | null} [box] */
  fit(box = this.player.shown.box()) {
    if (!box) return this.centre(0, 0, 16);
    const zoom = Math.min(this.canvas.width / (box.w + 4), this.canvas.height / (box.h + 4), 32);
    this.centre(box.x + box.w / 2, box.y + box.h / 2, even(zoom, Math.floor));
  }

  /** Moves so far that the cursor is seen. */
  follow() {
    const { x, y, w, h } = this.window(), [cx, cy] = this.cursor;
    if (cx <= x) this.x -= x - cx + w / 4;
    if (cx >= x + w - 2) this.x += cx - x - w + w / 4;
    if (cy <= y) this.y -= y - cy + h / 4;
    if (cy >= y + h - 2) this.y += cy - y - h + h / 4;
    this.isDirty = true;
  }

  // -- the picture

  /** Paints, where something changed. */
  paint() {
    if (!this.isDirty) return false;
    this.isDirty = false;
    const { canvas, context, small } = this, z = Math.max(1, this.zoom), per = this.zoom < 1 ? 1 / this.zoom : 1;
    const x0 = Math.floor(this.x / per), y0 = Math.floor(this.y / per), w = Math.ceil(canvas.width / z) + 1, h = Math.ceil(canvas.height / z) + 1;
    if (small.width !== w || small.height !== h || !this.image) {
      small.width = w;
      small.height = h;
      this.image = this.smallContext.createImageData(w, h);
      this.pixels = new Uint32Array(this.image.data.buffer);
    }
    this.paintCells(x0, y0, w, h, per);
    this.smallContext.putImageData(this.image, 0, 0);
    const left = (x0 - this.x / per) * z, top = (y0 - this.y / per) * z;
    context.imageSmoothingEnabled = false;
    context.drawImage(small, left, top, w * z, h * z);
    if (this.zoom >= GRID_FROM) this.paintGrid(left, top, z);
    this.paintMarks();
    return true;
  }

  /** One pixel for a cell, or for a square of cells.
   * @param {number} x0 @param {number} y0 @param {number} w @param {number} h @param {number} per */
  paintCells(x0, y0, w, h, per) {
    const px = /** @type {Uint32Array} */ (this.pixels), { colours, showsSeats } = this;
    px.fill(colours[0]);
    for (const t of this.player.shown.meeting({ x: x0 * per, y: y0 * per, w: w * per, h: h * per })) {
      if (t.n === 0) continue;
      const tx = t.tx * SIDE, ty = t.ty * SIDE, seats = showsSeats && "r" in t ? /** @type {import("./plane.js").Tile} */ (t).r : null;
      for (let i = 0; i < CELLS; i++) {
        const s = t.s[i];
        if (s === 0) continue;
        const u = Math.floor((tx + i % SIDE) / per) - x0, v = Math.floor((ty + (i >> 5)) / per) - y0;
        if (u >= 0 && v >= 0 && u < w && v < h) px[v * w + u] = seats ? this.seatPixel(seats[i]) : colours[s];
      }
    }
  }

  /** @param {number} left @param {number} top @param {number} z */
  paintGrid(left, top, z) {
    const { context, canvas } = this;
    context.strokeStyle = this.theme.grid;
    context.lineWidth = 1;
    context.beginPath();
    for (let x = left; x < canvas.width; x += z) { context.moveTo(Math.round(x) + .5, 0); context.lineTo(Math.round(x) + .5, canvas.height); }
    for (let y = top; y < canvas.height; y += z) { context.moveTo(0, Math.round(y) + .5); context.lineTo(canvas.width, Math.round(y) + .5); }
    context.stroke();
  }

  /** Selection, held pattern and cursor. */
  paintMarks() {
    const { context } = this;
    const outline = (/** @type {Box} */ { x, y, w, h }) => {
      for (const [colour, width] of /** @type {[string, number][]} */ ([["#000", 4], ["#fff", 2]])) {
        context.strokeStyle = colour;
        context.lineWidth = width;
        context.strokeRect((x - this.x) * this.zoom, (y - this.y) * this.zoom, Math.max(1, w * this.zoom), Math.max(1, h * this.zoom));
      }
    };
    if (this.selection) {
      const { x, y, w, h } = this.selection;
      context.fillStyle = "rgba(75,175,255,.3)";
      context.fillRect((x - this.x) * this.zoom, (y - this.y) * this.zoom, w * this.zoom, h * this.zoom);
      outline(this.selection);
    }
    if (this.held) this.paintHeld(this.held, outline);
    if (this.isKeyed) outline({ x: this.cursor[0], y: this.cursor[1], w: 1, h: 1 });
  }

  /** @param {Held} held @param {(box: Box) => void} outline */
  paintHeld({ w, h, cells }, outline) {
    const { context } = this, [x, y] = this.place, size = Math.max(1, this.zoom);
    context.globalAlpha = .65;
    for (let k = 0; k < Math.min(cells.length, MOST_HELD); k += 3) {
      context.fillStyle = hex(this.colourOf(cells[k + 2]));
      context.fillRect((x + cells[k] - this.x) * this.zoom, (y + cells[k + 1] - this.y) * this.zoom, size, size);
    }
    context.globalAlpha = 1;
    outline({ x, y, w, h });
  }
}
