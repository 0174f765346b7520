// @ts-check
// A line to a server: bodies of requests out, bodies of replies in, which come in the order of the requests.
import { bodiesOf } from "./formats.js";

/** @typedef {{ send(body: Uint8Array): void, close(): void }} Socket */
/** @typedef {{ opened(): void, came(body: Uint8Array): void, closed(): void }} Ear */
/** @typedef {(ear: Ear) => Socket} Connect */
/**
 * What a board stands on: sockets, a timer, whether nobody looks, and which window is looked at.
 * @typedef {{ connect: Connect, later(ms: number, call: () => void): void, isHidden(): boolean, window(): import("./formats.js").Box | null }} World
 */
/** @typedef {{ kind: number, got: Uint8Array[], need: number, done: (bodies: Uint8Array[]) => void, lost: () => void }} Waiting */

export class Line {
  constructor() {
    /** @type {Socket | null} */
    this.socket = null;
    /** @type {Waiting[]} */
    this.waiting = [];
    this.isPushing = false;
    this.isListening = false;
  }

  /** @param {Uint8Array} body @param {(bodies: Uint8Array[]) => void} done @param {() => void} [lost] */
  request(body, done, lost = () => {}) {
    this.waiting.push({ kind: body[0], got: [], need: 1, done, lost });
    if (this.socket) this.socket.send(body);
  }

  /** A body came: where it is the last of a reply, the request is done.
   * @param {Uint8Array} body */
  came(body) {
    const first = this.waiting[0];
    if (!first) return;
    first.got.push(body);
    if (first.got.length === 1) first.need = bodiesOf(first.kind, body);
    if (first.got.length < first.need) return;
    this.waiting.shift();
    first.done(first.got);
  }

  /** Lets go: what has no reply is lost. */
  close() {
    if (this.socket) this.socket.close();
    for (const { lost } of this.waiting.splice(0)) lost();
  }
}
