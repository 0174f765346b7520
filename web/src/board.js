// @ts-check
// A board that a server shares: its map, what was drawn and not confirmed, and the line as a state machine.
import { missing, stampWord } from "./drawings.js";
import { AWAY, Fault, MOST_CELLS, awaitNews, clipped, cutOf, handsPlane, hello, joined, pieces, poll, push, readDelta, readHello } from "./formats.js";
import { Line } from "./line.js";
import { Plane } from "./plane.js";
import { patternIn, placed } from "./rle.js";
import { readRule } from "./rules.js";
import { readState } from "./states.js";

/** @typedef {import("./formats.js").Box} Box */
/** @typedef {import("./drawings.js").Drawing} Drawing */
/** @typedef {import("./line.js").World} World */
/** @typedef {"alone" | "opening" | "reading" | "open" | "away" | "full" | "closed"} State */
/**
 * What a board tells: that its state or its map changed; that a drawing was refused; that the server began anew
 * without edits that were published, with the map that stood before.
 * @typedef {{ state(state: State): void, map(): void, refused(number: number): void, begunAnew(before: Plane): void }} Told
 */

/** How long the server awaits news, and how long the page awaits a reply, in milliseconds. */
const AWAIT = 20000, PATIENCE = 35000;
/** The kinds of requests that take as long as they take: exports. */
const SLOW = [5, 7, 10];
/** How long after a refusal, a loss or the last news the page asks again, in milliseconds. */
const FULL_INBOX = 20, POLLS = 50, LOST = 100, HIDDEN = 1000, NO_MEMORY = 1000, CLOSED = 5000, LONGEST = 5000, NO_SEAT = 10000;
const LAST_COUNTER = 2 ** 48 - 1;
/** Refusals that say of an edit itself that it is none. */
const NO_EDIT = [8, 9, 10, 11, 14, 15, 16, 17, 18, 19, 20, 33];

export class Board {
  /** @param {World | null} world null for a board of one's own @param {Told} told @param {string} rule */
  constructor(world, told, rule) {
    this.world = world;
    this.told = told;
    this.rule = /** @type {import("./rules.js").Rule} */ (readRule(rule));
    this.seat = 1;
    this.plane = new Plane();
    /** @type {Drawing[]} */
    this.pending = [];
    /** @type {State} */
    this.state = "alone";
    this.line = new Line();
    this.published = 0;
    this.tries = 0;
    this.hasRead = false;
    this.hasAwait = true;
    this.hasCut = true;
  }

  /**
   * Draws, at once in the page, and on the board as soon as it is reached; what is too much is told.
   * @param {number[]} cells by y, then x @param {Box | null} area @param {Set<string>} [stamps] notes the stamps
   */
  draw(cells, area, stamps) {
    if (cells.length === 0 && !area) return;
    if (cells.length / 3 > MOST_CELLS) return this.told.refused(8);
    if (this.plane.top >= LAST_COUNTER) return this.told.refused(24);
    const edit = this.stamped({ c: 0, r: 0, area, cells, stamps, isBlind: !this.hasRead });
    if (this.world) this.pending.push(edit);
    this.told.map();
    this.flush();
  }

  /** Gives a drawing a new stamp, and shows it.
   * @param {Drawing} edit */
  stamped(edit) {
    if (edit.stamps) edit.stamps.delete(stampWord(edit.c, edit.r));
    edit.c = this.plane.top + 1;
    edit.r = this.seat;
    if (edit.stamps) edit.stamps.add(stampWord(edit.c, edit.r));
    this.plane.apply(edit);
    return edit;
  }

  // -- the line

  /** Begins, with what an earlier page had drawn and not confirmed.
   * @param {Drawing[]} [left] */
  start(left = []) {
    this.pending = left;
    for (const { c } of left) this.plane.top = Math.max(this.plane.top, c);
    this.open();
  }

  open() {
    const line = this.line = new Line(), world = /** @type {World} */ (this.world);
    this.to("opening");
    line.socket = world.connect({
      opened: () => { if (this.line === line) this.greet(); },
      came: body => { if (this.line === line) this.came(body); },
      closed: () => { if (this.line === line) this.leave("away", Math.min(LONGEST, LOST * 2 ** ++this.tries)); },
    });
    this.watch();
  }

  /** Lets go of a line whose oldest request stays without a reply; an export may take its time.
   * @param {import("./line.js").Waiting} [oldest] */
  watch(oldest) {
    const [first] = this.line.waiting;
    if (first && first === oldest && !SLOW.includes(first.kind)) return this.leave("away", LOST);
    this.later(PATIENCE, () => this.watch(first));
  }

  /** Lets go of the line, and opens another one later.
   * @param {State} state @param {number} ms */
  leave(state, ms) {
    const { line } = this;
    this.line = new Line();
    line.close();
    this.to(state);
    this.later(ms, () => this.open());
  }

  /** @param {State} state */
  to(state) {
    this.state = state;
    this.told.state(state);
  }

  /** Calls later, if the line is still the same.
   * @param {number} ms @param {() => void} call */
  later(ms, call) {
    const line = this.line;
    /** @type {World} */ (this.world).later(ms, () => { if (this.line === line) call(); });
  }

  /** A body came; what is no reply ends the line.
   * @param {Uint8Array} body */
  came(body) {
    try {
      this.line.came(body);
    } catch (fault) {
      if (!(fault instanceof Fault)) throw fault;
      this.told.refused(fault.number);
      this.leave("away", LONGEST);
    }
  }

  /** Asks something else of the board.
   * @param {Uint8Array} body @returns {Promise<Uint8Array[]>} */
  ask(body) {
    return new Promise((done, refused) => {
      if (this.state !== "open") return refused(new Fault(AWAY));
      this.line.request(body, bodies => bodies[0][0] ? refused(new Fault(bodies[0][0])) : done(bodies), () => refused(new Fault(AWAY)));
    });
  }

  // -- how a session begins

  greet() {
    this.to("reading");
    this.line.request(hello(), ([first]) => {
      if (first[0] === 45) return this.leave("full", NO_SEAT);
      if (first[0]) return this.refused(first[0], () => this.greet());
      const { seat, rule } = readHello(first), own = readRule(rule);
      if (!own) throw new Fault(16);
      this.seat = seat;
      this.rule = own;
      this.read();
    });
  }

  /** Reads the whole board. The first time, what is looked at comes before it, where the server can cut. */
  read() {
    const window = this.hasCut && !this.hasRead ? /** @type {World} */ (this.world).window() : null;
    if (window) this.line.request(cutOf(clipped(window), 0), bodies => this.show(bodies));
    this.line.request(poll(), bodies => this.begin(bodies));
  }

  /** Shows a window of the board while the rest is read, its cells below every write. One of more cells than a pattern
   * has is not shown: the rest is on its way.
   * @param {Uint8Array[]} bodies */
  show([first]) {
    if (first[0] === 33) this.hasCut = false;
    if (first[0]) return;
    const plane = new Plane(), seen = patternIn(first);
    if (!seen) return;
    plane.apply({ c: 0, r: 0, area: null, cells: placed(seen) });
    for (const edit of this.pending) plane.apply(edit);
    this.replace(plane);
  }

  /** @param {Uint8Array[]} bodies the reply to the first Poll @returns {void} */
  begin(bodies) {
    if (bodies[0][0] === 21) return this.line.request(pieces(), rest => this.begin(rest));
    if (bodies[0][0]) return this.refused(bodies[0][0], () => this.read());
    const plane = this.planeOf(bodies);
    const isAnew = plane.top < this.published, before = this.plane;
    const left = this.pending.map(edit => edit.isBlind ? { ...edit, isBlind: false } : missing(edit, plane));
    this.hasRead = true;
    this.published = plane.top;
    this.pending = [];
    this.replace(plane);
    for (const edit of left) if (edit) this.pending.push(this.stamped(edit));
    this.tries = 0;
    this.to("open");
    if (isAnew) this.told.begunAnew(before);
    this.flush();
  }

  /** The board that a reply hands out, all edits from the first or the plane.
   * @param {Uint8Array[]} bodies */
  planeOf(bodies) {
    const plane = new Plane(), isPieces = bodies[0].length > 5;
    if (isPieces) plane.load(readState(joined(bodies.slice(1)), this.rule));
    else if (handsPlane(bodies[0])) plane.load(readState(bodies[1], this.rule));
    else for (const body of bodies.slice(1)) for (const edit of readDelta(body, this.rule)) plane.apply(edit);
    return plane;
  }

  /** Takes another map. Counters go on from the greatest that was seen.
   * @param {Plane} plane */
  replace(plane) {
    plane.top = Math.max(plane.top, this.plane.top);
    this.plane = plane;
    this.told.map();
  }

  // -- what goes on: one Push at a time, and behind the last of them an Await

  flush() {
    if (this.state !== "open" || this.line.isPushing) return;
    const edit = this.pending[0];
    if (!edit) return this.listen();
    this.line.isPushing = true;
    this.line.request(push(this.rule.text, edit), ([reply]) => this.pushed(edit, reply[0]));
  }

  /** @param {Drawing} edit @param {number} number the reply: 0, or its refusal */
  pushed(edit, number) {
    const again = () => { this.line.isPushing = false; this.flush(); };
    if (number === 29) return this.later(FULL_INBOX, again);
    if (number !== 0) return this.unpublished(number, again);
    this.pending.shift();
    this.published = Math.max(this.published, edit.c);
    this.told.map();
    again();
  }

  /** An edit was refused for good: it is told, and the board is read anew.
   * @param {number} number @param {() => void} again */
  unpublished(number, again) {
    if (number === 30 || number === 255) return this.refused(number, again);
    this.told.refused(number);
    if (NO_EDIT.includes(number)) this.pending.shift();
    this.to("reading");
    this.line.isPushing = false;
    this.line.request(pieces(), bodies => this.begin(bodies));
  }

  /** A request was refused.
   * @param {number} number @param {() => void} again */
  refused(number, again) {
    this.told.refused(number);
    if (number === 255) return this.later(NO_MEMORY, again);
    this.leave(number === 30 ? "closed" : "away", CLOSED);
  }

  listen() {
    const { line } = this;
    if (line.isListening) return;
    line.isListening = true;
    this.line.request(this.hasAwait ? awaitNews(AWAIT) : poll(), bodies => this.heard(bodies));
  }

  /** News, or none.
   * @param {Uint8Array[]} bodies @returns {void} */
  heard(bodies) {
    const [first] = bodies, again = () => { this.line.isListening = false; this.flush(); };
    if (first[0] === 33 && this.hasAwait) { this.hasAwait = false; return again(); }
    if (first[0] === 21) return this.line.request(pieces(), rest => this.heard(rest));
    if (first[0]) return this.refused(first[0], again);
    if (first.length === 5 && !handsPlane(first)) this.hear(bodies.slice(1));
    else this.hearPlane(bodies);
    const pause = /** @type {World} */ (this.world).isHidden() ? HIDDEN : this.hasAwait ? 0 : POLLS;
    if (pause) this.later(pause, again);
    else again();
  }

  /** @param {Uint8Array[]} deltas */
  hear(deltas) {
    for (const delta of deltas) for (const edit of readDelta(delta, this.rule)) {
      this.plane.apply(edit);
      this.published = Math.max(this.published, edit.c);
    }
    if (deltas.length) this.told.map();
  }

  /** The whole plane came, since more was drawn than can be told.
   * @param {Uint8Array[]} bodies */
  hearPlane(bodies) {
    const plane = this.planeOf(bodies);
    this.published = Math.max(this.published, plane.top);
    for (const edit of this.pending) plane.apply(edit);
    this.replace(plane);
  }
}
