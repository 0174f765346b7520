// A server written from docs/FORMATS.md, on a clock of its own: seats, sessions, an inbox, restarts, and lines
// that are lost. It is what the board module is tried against.
import { Out, readDelta, within } from "../src/formats.js";
import { writeRLE } from "../src/rle.js";
import { readRule } from "../src/rules.js";
import { writeState } from "./states.mjs";

export class Clock {
  constructor() { this.now = 0; this.calls = []; this.number = 0; }
  later(ms, call) {
    const item = { at: this.now + ms, number: this.number++, call };
    let k = this.calls.length;
    while (k > 0 && (this.calls[k - 1].at < item.at || this.calls[k - 1].at === item.at && this.calls[k - 1].number < item.number)) k--;
    this.calls.splice(k, 0, item);
  }
  run(until) {
    while (this.calls.length && this.calls[this.calls.length - 1].at <= until) {
      const { at, call } = this.calls.pop();
      this.now = at;
      call();
    }
    this.now = until;
  }
}

export const above = (a, b) => a.c > b.c || a.c === b.c && (a.r > b.r || a.r === b.r && a.s > b.s);

/** What an edit writes: { x, y, c, r, s } of each cell. */
export function* writesOf({ c, r, area, cells }) {
  if (area) for (let y = area.y; y < area.y + area.h; y++) for (let x = area.x; x < area.x + area.w; x++) yield { x, y, c, r, s: 0 };
  for (let k = 0; k < cells.length; k += 3) yield { x: cells[k], y: cells[k + 1], c, r, s: cells[k + 2] };
}

/** The greatest writes of edits. */
export function mapOf(edits, box = null) {
  const map = new Map();
  for (const edit of edits) for (const w of writesOf(edit)) {
    if (box && !within(box, w.x, w.y)) continue;
    const key = `${w.x},${w.y}`, old = map.get(key);
    if (!old || above(w, old)) map.set(key, { c: w.c, r: w.r, s: w.s });
  }
  return map;
}

export class Server {
  /** `how`: kept (a restart keeps the list), chairs (a key keeps its seat), most (edits that a Poll hands out), frame (the longest state), cuts, hasAwait. */
  constructor(clock, chance, rule, how) {
    Object.assign(this, { clock, chance, rule: readRule(rule), how });
    this.list = [];
    this.stamps = new Set();
    this.isUp = true;
    this.sessions = new Set();
    this.seats = new Map();
    this.next = 1;
    this.refused = [];
    this.twice = null;
  }

  publish(edit, bytes) {
    const stamp = `${edit.c}.${edit.r}`;
    if (this.stamps.has(stamp)) this.twice = stamp;
    this.stamps.add(stamp);
    this.list.push({ edit, bytes });
    for (const s of this.sessions) s.wake();
  }

  /** The state of all that is published; the same bytes as long as nothing more is. */
  state() {
    if (!this.written || this.written.of !== this.list || this.written.n !== this.list.length) {
      this.written = { of: this.list, n: this.list.length, bytes: writeState(this.rule.text, mapOf(this.list.map(e => e.edit))) };
    }
    return this.written.bytes;
  }

  /** The seat of a key: the one it had, or the next. */
  seatOf(key) {
    if (!this.how.chairs || !this.seats.has(key)) this.seats.set(key, this.next++);
    return this.seats.get(key);
  }

  /** Ends the process, and begins another `pause` later. What the inbox has may be published, or not. */
  restart(pause, keeps) {
    this.isUp = false;
    for (const s of [...this.sessions]) s.crash();
    if (!keeps) { this.list = []; this.stamps = new Set(); }
    this.seats = new Map();
    this.next = 1;
    this.clock.later(pause, () => { this.isUp = true; });
  }
}

export class Session {
  constructor(server, key, reply, ended) {
    Object.assign(this, { server, key, reply, ended, queue: [], isBusy: false, awaiting: null, handed: 0, isOver: false, inbox: null, after: [] });
    // the sessions before over the same seat end first, their last Push answered
    const before = server.how.chairs ? [...server.sessions].filter(s => s.key === key) : [];
    server.sessions.add(this);
    this.waits = 0;
    for (const other of before) {
      if (!other.isOver) { other.end(); other.ended(); }
      if (!other.isBusy && !other.waits) continue;
      this.waits++;
      other.after.push(() => { this.waits--; this.pump(); });
    }
  }
  /** The socket is gone: what came whole is done, and nothing is told. */
  end() { this.isOver = true; this.queue = []; this.awaiting = null; if (!this.isBusy) this.leave(); }
  leave() { this.server.sessions.delete(this); for (const call of this.after.splice(0)) call(); }
  crash() {
    if (this.inbox && this.server.chance.is(.5)) this.server.publish(...this.inbox);
    this.inbox = null;
    this.isBusy = false;
    this.isCrashed = true;
    this.end();
    this.ended();
  }
  came(body) { if (this.isOver) return; this.queue.push(body); this.wake(true); this.pump(); }
  say(...bytes) { if (!this.isOver) this.reply(Uint8Array.from(bytes)); }
  send(body) { if (!this.isOver) this.reply(body); }
  pump() {
    while (!this.waits && !this.isBusy && !this.awaiting && this.queue.length && !this.isOver) this.answer(this.queue.shift());
  }
  answer(body) {
    const { server } = this, kind = body[0], n = body.length;
    if (kind === 1 && n === 1) {
      this.seat = server.seatOf(this.key);
      const rule = server.rule.text;
      return this.send(new Out(4 + rule.length).u8(0).u16(this.seat).u8(rule.length).text(rule).bytes);
    }
    if (kind === 2) return this.push(body);
    if (kind === 3 && n === 1) return this.poll();
    if (kind === 8 && n === 5 && server.how.hasAwait) {
      this.awaiting = { until: server.clock.now + new DataView(body.buffer).getUint32(1) };
      const mine = this.awaiting;
      server.clock.later(mine.until - server.clock.now, () => { if (this.awaiting === mine) this.wake(true); });
      return this.wake(this.queue.length > 0);
    }
    if (kind === 10 && n === 21 && server.how.cuts) return this.cut(body);
    if (kind === 11 && n === 1) return this.pieces();
    this.say(33);
  }
  /** An Await ends: there is something to hand out, or `anyway`. */
  wake(anyway = false) {
    if (!this.awaiting || !anyway && this.handed >= this.server.list.length) return;
    this.awaiting = null;
    this.poll();
    this.pump();
  }
  push(body) {
    const { server } = this, { chance, clock } = server;
    let edit;
    try { [edit] = readDelta(body.subarray(1), server.rule); } catch (fault) { return this.refuse(fault.number); }
    if (edit.r !== this.seat) return this.refuse(28);
    if (server.how.kept && server.list.some(e => e.edit.r === edit.r && e.edit.c >= edit.c)) return this.refuse(40);
    if (chance.is(.08)) return this.say(29);
    if (chance.is(.01)) return this.say(255);
    this.isBusy = true;
    this.inbox = [edit, body.slice(1)];
    clock.later(chance.below(30), () => {
      if (this.isCrashed) return;
      const what = this.inbox;
      this.inbox = null;
      this.isBusy = false;
      server.publish(...what);
      this.say(0);
      if (this.isOver) this.leave();
      this.pump();
    });
  }
  refuse(number) { this.server.refused.push(number); this.say(number); }
  poll() {
    const { list, how } = this.server, news = list.slice(this.handed);
    if (news.length > how.most) {
      const state = this.server.state();
      if (state.length > how.frame) return this.say(21);
      this.handed = list.length;
      this.send(new Out(5).u8(0).u32(0xffffffff).bytes);
      return this.send(state);
    }
    this.handed = list.length;
    this.send(new Out(5).u8(0).u32(news.length).bytes);
    for (const { bytes } of news) this.send(bytes);
  }
  pieces() {
    const { list, how } = this.server, state = this.server.state();
    const n = Math.floor(state.length / how.frame) + 1;
    this.handed = list.length;
    this.send(new Out(13).u8(0).u32(0).u32(list.length).u32(n).bytes);
    for (let k = 0; k < n; k++) this.send(state.slice(k * how.frame, (k + 1) * how.frame));
  }
  cut(body) {
    const view = new DataView(body.buffer), box = { x: view.getInt32(1), y: view.getInt32(5), w: view.getUint32(9), h: view.getUint32(13) };
    const cells = [...mapOf(this.server.list.map(e => e.edit), box)].filter(([, w]) => w.s).map(([key, w]) => [...key.split(",").map(Number), w.s]);
    cells.sort((a, b) => a[1] - b[1] || a[0] - b[0]);
    const text = writeRLE(cells.flat(), this.server.rule, 0);
    this.send(new Out(1 + text.length).u8(0).text(text).bytes);
  }
}

/** A line to a server that delays, and may be cut at any time: what is on the way then comes in part, or not at all. */
export function connect(server, key, ear, chance) {
  const { clock } = server;
  const line = { isCut: false, up: 0, down: 0, session: null };
  const after = way => { line[way] = Math.max(clock.now + chance.below(25), line[way]); return line[way] - clock.now; };
  line.cut = () => {
    if (line.isCut) return;
    line.isCut = true;
    line.stop = clock.now + chance.below(20);
    clock.later(after("down"), () => ear.closed());
    clock.later(line.stop - clock.now + 1, () => { if (line.session) line.session.end(); });
  };
  clock.later(after("down"), () => {
    if (line.isCut) return;
    if (!server.isUp) { line.isCut = true; return ear.closed(); }
    const down = body => clock.later(after("down"), () => { if (!line.isCut) ear.came(body); });
    line.session = new Session(server, key, down, line.cut);
    ear.opened();
  });
  line.socket = {
    send: body => clock.later(after("up"), () => { if (line.session && (!line.isCut || clock.now < line.stop)) line.session.came(body.slice()); }),
    close: line.cut,
  };
  return line;
}
