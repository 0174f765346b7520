// @ts-check
// Names of people, by their seats. A name is no edit, and no server hears of it: it is told in the page alone, and goes
// with the links that the page gives.

/** @typedef {Map<number, string>} Names */

const LAST_SEAT = 65535, LONGEST = 40;

/** A name without what parts names in a link, on one line.
 * @param {string} text */
const cleaned = text => text.replace(/[\u0000-\u001f\u007f-\u009f,:]+/g, " ").trim().slice(0, LONGEST);

/** Gives a seat a name, or takes it away where that is empty; the name, or null where there is no such seat.
 * @param {Names} names @param {number} seat @param {string} text */
export function nameSeat(names, seat, text) {
  if (!Number.isInteger(seat) || seat < 1 || seat > LAST_SEAT) return null;
  const name = cleaned(text);
  if (name) names.set(seat, name);
  else names.delete(seat);
  return name;
}

/** The names of a text, as `1:Ann,3:Bob`; what is none is passed over.
 * @param {string} text @returns {Names} */
export function readNames(text) {
  /** @type {Names} */
  const names = new Map();
  for (const [, seat, name] of text.matchAll(/(?:^|,)(\d{1,5}):([^,]*)/g)) nameSeat(names, Number(seat), name);
  return names;
}

/** @param {Names} names */
export const namesText = names => [...names].map(([seat, name]) => `${seat}:${name}`).join();

/** Who has a seat, as far as the page was told.
 * @param {Names} names @param {number} seat */
export function whoIs(names, seat) {
  const name = names.get(seat);
  return name ? `${name}, seat ${seat}` : `seat ${seat}`;
}
