// @ts-check
// What is told in plain words: states of the line, refusals with their cures, and the keys.
import { NAMES } from "./formats.js";

/** @typedef {import("./board.js").State} State */

/** @type {Record<number, string>} */
const REFUSALS = {
  0: "The server is away. Try again when it is back.",
  8: "That is too many cells for one drawing: 1,048,576 are the most. Draw it in parts.",
  9: "Nothing would be drawn.",
  10: "It leaves the plane, which goes from -1,073,741,824 to 1,073,741,823.",
  11: "The board's rule has no such state. The board is shown as the server has it.",
  13: "That wants more room than there is. Of a generation, try an earlier one; a board that wide is for `genedit join`.",
  21: "That is too great for one message of 16 MB.",
  22: "Generation 536,870,912 is the last.",
  23: "That generation has more than 16,777,216 cells.",
  24: "The clock of this board is full: nothing can be drawn any more.",
  28: "The seat was given to another page. What you drew is drawn again.",
  30: "The board is closed. What you drew is kept in this page; save it as RLE.",
  33: "The server does not know this request.",
  40: "The drawing came too late. It is drawn again.",
  45: "All seats of the board are taken. Whoever serves it can begin one with more seats.",
  255: "The server has no memory left. The page tries again.",
};

/** What a refusal means, and what to do.
 * @param {number} number */
export const refusalWords = number => REFUSALS[number] || `The server refused it: ${number} ${NAMES[number] || ""}. The board is shown as the server has it.`;

/** Where one is, for the foot of the page.
 * @param {State} state @param {number} seat */
export function stateWords(state, seat) {
  switch (state) {
    case "alone": return "on your own";
    case "opening": return "connecting";
    case "reading": return "reading the board";
    case "open": return `seat ${seat}`;
    case "away": return "no server";
    case "full": return "no seat left";
    case "closed": return "closed";
  }
}

/** What a change of the line says, once it lasts.
 * @param {State} state @param {number} tries */
export function lineWords(state, tries) {
  if (state === "away" && tries === 4) return "No connection. Is the server running, and is the link whole? What you draw is kept here, and drawn on the board when it is back.";
  if (state === "full") return refusalWords(45) + " The page asks again every ten seconds; until then you see nothing of it.";
  if (state === "closed") return refusalWords(30);
  return "";
}

export const ALONE = "This is a board of your own. To draw with others, open the link that their server printed, whole.";
export const NOT_PROVED = "written by the page, and not proved";
export const HELD = "Click or press Enter where it is to go. > and < turn it, x and y flip it, Escape lets go of it.";

export const KEYS = `Enter       play, stop            space   step
b           one look back         Escape  back to the board
[ ]         zoom                  1 2 4 8 6  pixels for a cell, 6 for 16
f F         fit the pattern, fit the selection      m  the middle
d e i s v   draw, erase, pick a state, select, move the view
, .         the state before, the state after
arrows      move the cursor; with Shift they select, with Alt they draw,
            with Ctrl they move the view
d e         draw or erase at the cursor
Enter       puts down what is held        > < x y  turn and flip it
Ctrl-Z Ctrl-Y       undo, redo            Ctrl-X C V  cut, copy, paste
Ctrl-A      select all            Delete  clear the selection     k  no selection
+ -         faster, slower        w  who drew        c  colours
o           open a file           r  save RLE        h  this page

An RLE text is dropped or pasted anywhere. Two fingers move and zoom the view.`;
