// Soups by chance: 200 under ten rules, each with a generation to look at.
import { chance } from "./chance.mjs";
import { textOf } from "../src/editor.js";
import { Grid } from "../src/generations.js";
import { readRule } from "../src/rules.js";

export const RULES = ["23/3/2", "23/36/2", "34678/3678/2", "/2/2", "/2/3", "345/2/4", "12/34/3", "3456/2/6", "2/13/21", "/1/256"];

/** Soup number k: its rule, its cells by y, then x, and a generation. */
export function soup(k) {
  const c = chance(1000 + k), rule = readRule(RULES[k % RULES.length]), cells = [];
  const [x0, y0, w, h] = [c.below(200) - 100, c.below(200) - 100, 10 + c.below(38), 10 + c.below(38)], part = .1 + c.next() * .5;
  for (let y = y0; y < y0 + h; y++) for (let x = x0; x < x0 + w; x++) {
    if (c.is(part)) cells.push(x, y, c.is(.6) ? 1 : 1 + c.below(rule.states - 1));
  }
  return { rule, cells, gen: 1 + c.below(rule.text === "/1/256" ? 12 : 60) };
}

/** The text of a soup's generation, as the page steps to it. */
export function stepped(k) {
  const { rule, cells, gen } = soup(k);
  let grid = Grid.from(cells);
  for (let n = 0; n < gen; n++) grid = grid.next(rule);
  return textOf(grid, rule, gen);
}
