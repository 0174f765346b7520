// @ts-check
// How the page begins: what its link says, the key of its seat, and the sockets and timers of a browser.
import { namesText, readNames } from "./names.js";
import { readRule } from "./rules.js";

/** @typedef {import("./board.js").World} World */
/** @typedef {import("./drawings.js").Drawing} Drawing */
/** @typedef {{ token: string, rule: import("./rules.js").Rule | null, rle: string, at: string, names: string }} Link */

const TOKEN = /^[0-9a-f]{32}$/i, KEY_BYTES = 16, PROBE = 80;

/** A word of the link as it was meant.
 * @param {string} word */
function decoded(word) {
  try { return decodeURIComponent(word.replace(/\+/g, "%20")); } catch { return ""; }
}

/** What stands behind the # of the link: a board's token, or a rule and a pattern; where to look; and names of seats.
 * @returns {Link} */
export function readLink() {
  const words = location.hash.slice(1).split("&"), isWeb = /^https?:$/.test(location.protocol);
  const said = (/** @type {string} */ name) => decoded((words.find(w => w.startsWith(name + "=")) || "").slice(name.length + 1));
  const token = isWeb ? words.find(w => TOKEN.test(w)) || "" : "", rle = said("rle");
  const hasHeader = /^\s*(#|x\s*=)/.test(rle);
  return { token, rule: readRule(said("rule")), rle: rle && !hasHeader ? "x = 0, y = 0\n" + rle : rle, at: said("at"), names: said("names") };
}

/** A place `x,y,zoom` of the link, or null.
 * @param {string} text @returns {number[] | null} */
export function placeOf(text) {
  const numbers = text.split(",").map(Number);
  return text && numbers.length === 3 && numbers.every(Number.isFinite) && numbers[2] > 0 ? numbers : null;
}

/** What this tab keeps, which lives through a reload.
 * @param {string} name */
function kept(name) {
  try { return sessionStorage.getItem(name); } catch { return null; }
}

/** @param {string} name @param {string} text */
function keep(name, text) {
  try { sessionStorage.setItem(name, text); } catch { /* a page whose storage is off begins anew at a reload */ }
}

/** @param {string} token @param {import("./names.js").Names} names */
export const keepNames = (token, names) => keep("names " + token, namesText(names));

/** The names that this tab keeps, and those of its link, which are newer.
 * @param {Link} link */
export const namesOf = ({ token, names }) => new Map([...readNames(kept("names " + token) || ""), ...readNames(names)]);

/** Whether another tab has the key, as one that was made as a copy of it.
 * @param {string} key @returns {Promise<boolean>} */
function isTaken(key) {
  if (!key || typeof BroadcastChannel === "undefined") return Promise.resolve(false);
  const channel = new BroadcastChannel("pazgrot");
  return new Promise(done => {
    channel.onmessage = ({ data }) => { if (data === "taken " + key) done(true); };
    channel.postMessage("whose " + key);
    setTimeout(() => { channel.close(); done(false); }, PROBE);
  });
}

/** Answers other tabs that ask for the key.
 * @param {string} key */
function hold(key) {
  if (typeof BroadcastChannel === "undefined") return;
  const channel = new BroadcastChannel("pazgrot");
  channel.onmessage = ({ data }) => { if (data === "whose " + key) channel.postMessage("taken " + key); };
}

/** @param {string} text @returns {Drawing[]} */
function drawingsOf(text) {
  try { return JSON.parse(text); } catch { return []; }
}

/**
 * The key of this tab's seat, and what it had drawn on the board and not confirmed when it was left.
 * @param {string} token
 */
export async function takeKey(token) {
  const old = token ? kept("key " + token) || "" : "", isMine = old !== "" && !await isTaken(old);
  const left = isMine ? drawingsOf(kept("left " + token) || "[]") : [];
  const key = isMine ? old : [...crypto.getRandomValues(new Uint8Array(KEY_BYTES))].map(b => b.toString(16).padStart(2, "0")).join("");
  if (token) {
    keep("key " + token, key);
    hold(key);
  }
  return { key, left };
}

/** Keeps what is not confirmed, for a reload.
 * @param {string} token @param {Drawing[]} pending */
export function keepPending(token, pending) {
  keep("left " + token, JSON.stringify(pending.map(({ c, r, area, cells, isBlind }) => ({ c, r, area, cells, isBlind }))));
}

/**
 * The browser's sockets and timers, for the board of a token.
 * @param {string} token @param {string} key @param {() => import("./formats.js").Box | null} window
 * @returns {World}
 */
export function worldOf(token, key, window) {
  const url = `${location.protocol === "https:" ? "wss" : "ws"}://${location.host}/board?${token}.${key}`;
  return {
    connect(ear) {
      const socket = new WebSocket(url);
      socket.binaryType = "arraybuffer";
      socket.onopen = () => ear.opened();
      socket.onmessage = ({ data }) => { if (typeof data !== "string") ear.came(new Uint8Array(data)); };
      socket.onclose = () => ear.closed();
      return { send: body => { if (socket.readyState === WebSocket.OPEN) socket.send(body); }, close: () => socket.close() };
    },
    later: (ms, call) => { setTimeout(call, ms); },
    isHidden: () => document.hidden,
    window,
  };
}
