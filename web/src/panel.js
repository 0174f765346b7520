// @ts-check
// The parts of the page around the canvas: buttons, swatches, lists, and the foot.
import { THEMES, hex, seatColour } from "./colours.js";
import { LIBRARY } from "./library.js";
import { whoIs } from "./names.js";
import { NAMED, readRule, ruleName } from "./rules.js";
import { CELLS } from "./tiles.js";
import { stateWords } from "./words.js";

/** @typedef {import("./page.js").App} App */

/** An element of the page.
 * @param {string} id */
export const part = id => /** @type {HTMLElement} */ (document.getElementById(id));
/** A field of the page.
 * @param {string} id */
export const field = id => /** @type {HTMLInputElement} */ (document.getElementById(id));

/** Says something, in the foot and to who listens.
 * @param {string} text */
export const say = text => { part("say").textContent = text; };

const STRIDES = 11;

/** An entry of a list.
 * @param {string} id @param {string} text @param {string} value */
function addTo(id, text, value) {
  const option = document.createElement("option");
  option.textContent = text;
  option.value = value;
  part(id).append(option);
}

/** Fills the lists that stay. */
export function fillLists() {
  for (let k = 0; k < STRIDES; k++) addTo("stride", String(2 ** k), String(2 ** k));
  THEMES.forEach(({ name }, k) => addTo("theme", name, String(k)));
  for (const [name, text] of NAMED) addTo("rules", text, name);
}

/** Fills what the rule decides: swatches, library, rule.
 * @param {App} app */
export function fillByRule(app) {
  const { rule } = app.board;
  part("library").textContent = "";
  addTo("library", "library of patterns", "");
  LIBRARY.forEach((entry, k) => {
    const fits = entry.rule === rule.text, of = /** @type {import("./rules.js").Rule} */ (readRule(entry.rule));
    if (!fits && app.board.state !== "alone") return;
    addTo("library", `${entry.name}${fits ? "" : ` (${ruleName(of)})`}${entry.by ? ", " + entry.by : ""}`, String(k));
  });
  field("rulename").value = ruleName(rule).replace(` ${rule.text}`, "");
  part("ruler").hidden = app.board.state !== "alone";
  showSwatches(app);
}

/** @param {App} app */
export function showSwatches(app) {
  const list = part("swatches"), { states } = app.board.rule;
  if (list.children.length !== states) {
    list.textContent = "";
    for (let s = 0; s < states; s++) {
      const button = document.createElement("button");
      button.addEventListener("click", () => app.choose(s));
      list.append(button);
    }
  }
  [...list.children].forEach((child, s) => {
    const button = /** @type {HTMLButtonElement} */ (child);
    button.style.background = hex(app.view.colourOf(s));
    button.setAttribute("aria-label", s === 0 ? "state 0, dead" : s === 1 ? "state 1, live" : `state ${s}`);
    button.setAttribute("aria-pressed", String(s === app.state));
    if (s === app.state && list.scrollWidth > list.clientWidth) list.scrollLeft = button.offsetLeft - list.offsetLeft - list.clientWidth / 2;
  });
}

/** Shows which buttons are down.
 * @param {App} app */
export function showTools(app) {
  for (const button of document.querySelectorAll("[data-tool]")) {
    button.setAttribute("aria-pressed", String(/** @type {HTMLElement} */ (button).dataset.tool === app.tool));
  }
  part("play").textContent = app.player.isPlaying ? "stop" : "play";
  part("authors").setAttribute("aria-pressed", String(app.view.showsSeats));
  field("rate").value = String(app.player.rate);
  part("ratetold").textContent = `${app.player.rate} looks a second`;
  field("stride").value = String(app.player.stride);
  field("theme").value = String(THEMES.indexOf(app.view.theme));
}

/** The foot: where one is, and what stands there.
 * @param {App} app */
export function showFacts(app) {
  const { board, player, view } = app, [x, y] = view.place, shown = player.shown, write = board.plane.at(x, y);
  if (app.boxOf !== shown || app.boxAt !== `${shown.population} ${board.plane.top}`) {
    app.boxOf = shown;
    app.boxAt = `${shown.population} ${board.plane.top}`;
    app.box = shown.box();
  }
  const { box } = app, words = [
    player.look ? `generation ${player.gen}, a look` : "the board", `population ${shown.population}`,
    box ? `box ${box.w} x ${box.h} at ${box.x} ${box.y}` : "empty",
    `x ${x} y ${y}: state ${shown.state(x, y)}${write.r && !player.look && board.state !== "alone" ? ` by ${whoIs(app.names, write.r)}` : ""}`,
    `zoom ${view.zoom >= 1 ? view.zoom : "1/" + 1 / view.zoom}`,
  ];
  if (board.pending.length) words.push(`not confirmed ${board.pending.length}`);
  part("facts").textContent = words.join("   ");
  part("seat").textContent = `${stateWords(board.state, board.seat)}   ${ruleName(board.rule)}`;
}

/** Who drew what is shown, by seats.
 * @param {App} app */
export function showWho(app) {
  const list = part("who"), counts = new Map();
  list.textContent = "";
  if (!app.view.showsSeats) return;
  for (const t of app.board.plane.tiles.values()) if (t.n) for (let i = 0; i < CELLS; i++) if (t.s[i]) counts.set(t.r[i], (counts.get(t.r[i]) || 0) + 1);
  for (const [seat, n] of [...counts].sort((a, b) => a[0] - b[0])) {
    const mark = document.createElement("span");
    mark.style.background = hex(seatColour(seat));
    mark.textContent = `${whoIs(app.names, seat)}${seat === app.board.seat ? ", you" : ""}: ${n}`;
    list.append(mark);
  }
}
