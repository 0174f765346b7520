// @ts-check
// Rules of the Generations family, as Golly has them, and crates/generations_rule.

/**
 * A rule: its printed form, its survival and birth counts as bits, and its number of states.
 * @typedef {{ text: string, survives: number, born: number, states: number }} Rule
 */

/** Rules with a name, as the product's program knows them. */
export const NAMED = [
  ["Life", "23/3/2"], ["HighLife", "23/36/2"], ["Day & Night", "34678/3678/2"], ["3-4 Life", "34/34/2"], ["Morley", "245/368/2"],
  ["Diamoeba", "5678/35678/2"], ["Life without Death", "012345678/3/2"], ["LongLife", "5/345/2"], ["Coral", "45678/3/2"],
  ["Seeds", "/2/2"], ["Serviettes", "/234/2"], ["Replicator", "1357/1357/2"], ["Fredkin", "02468/1357/2"],
  ["Brian's Brain", "/2/3"], ["Star Wars", "345/2/4"], ["Frogs", "12/34/3"], ["LivingOnTheEdge", "345/3/6"], ["Sticks", "3456/2/6"],
  ["Transers", "345/26/5"], ["Spirals", "2/234/5"], ["Lines", "012345/458/3"], ["SediMental", "45678/25678/4"],
  ["Caterpillars", "124567/378/4"], ["Banners", "2367/3457/5"], ["Cooties", "23/2/8"], ["Lava", "12345/45678/8"],
  ["MeteorGuns", "01245678/3/8"], ["Burst", "0235678/3468/9"], ["Xtasy", "1456/2356/16"], ["Ebb&Flow", "012478/36/18"],
  ["Fireworks", "2/13/21"], ["Bloomerang", "234/34678/24"], ["Nova", "45678/2478/25"],
];

const SPELLINGS = [
  { form: /^B([1-8]*)\/?S([0-8]*)(?:\/[CG]?(\d{1,3}))?$/i, born: 1, survives: 2 },
  { form: /^([0-8]*)\/([1-8]*)(?:\/(\d{1,3}))?$/, born: 2, survives: 1 },
];

/** @param {string} digits */
const sorted = digits => [...new Set(digits)].sort().join("");

/** @param {string} digits */
const bits = digits => [...digits].reduce((all, d) => all | 1 << Number(d), 0);

/**
 * The rule that a text spells as survival/birth/states, as Golly does, or by its name; else null.
 * @param {string} spelled
 * @returns {Rule | null}
 */
export function readRule(spelled) {
  const plain = spelled.trim();
  const named = NAMED.find(([name]) => name.toLowerCase() === plain.toLowerCase());
  const text = named ? named[1] : plain;
  for (const { form, born, survives } of SPELLINGS) {
    const found = form.exec(text);
    if (!found) continue;
    const [s, b, states] = [sorted(found[survives]), sorted(found[born]), Number(found[3] || "2")];
    if (states < 2 || states > 256) return null;
    return { text: `${s}/${b}/${states}`, survives: bits(s), born: bits(b), states };
  }
  return null;
}

/**
 * The rule as a file spells it, so that other programs take two states for a rule of Life's kind.
 * @param {Rule} rule
 */
export function fileRule(rule) {
  const [survives, born] = rule.text.split("/");
  return rule.states === 2 ? `B${born}/S${survives}` : rule.text;
}

/**
 * The rule with its name in front, where it has one.
 * @param {Rule} rule
 */
export function ruleName(rule) {
  const named = NAMED.find(([, text]) => text === rule.text);
  return named ? `${named[0]} ${rule.text}` : rule.text;
}
