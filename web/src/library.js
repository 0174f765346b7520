// @ts-check
// Forty patterns by rule, each with its discoverer where that is known, and with what it does, which a test checks.

/**
 * What a pattern does: it is itself again, moved by x and y, after so many generations and not before; or it grows
 * by so many cells in each so many generations, from a generation on; or it has so many cells at a generation, or none.
 * @typedef {{ period: number, x?: number, y?: number } | { every: number, grows: number, from: number } | { at: number, cells: number }} Claim
 */
/** @typedef {{ name: string, rule: string, by: string, rle: string, does: Claim }} Entry */

/** @param {string} rule @param {[string, string, string, Claim][]} list @returns {Entry[]} */
const under = (rule, list) => list.map(([name, by, rle, does]) => ({ name, rule, by, rle, does }));

/** @type {Entry[]} */
export const LIBRARY = [
  ...under("23/3/2", [
    ["glider", "Richard Guy", "bo$2bo$3o!", { period: 4, x: 1, y: 1 }],
    ["lightweight spaceship", "John Conway", "bo2bo$o$o3bo$4o!", { period: 4, x: -2 }],
    ["middleweight spaceship", "John Conway", "3bo$bo3bo$o$o4bo$5o!", { period: 4, x: -2 }],
    ["heavyweight spaceship", "John Conway", "3b2o$bo4bo$o$o5bo$6o!", { period: 4, x: -2 }],
    ["copperhead", "zdr", "b2o2b2o$3b2o$3b2o$obo2bobo$o6bo2$o6bo$b2o2b2o$2b4o2$3b2o$3b2o!", { period: 10, y: -1 }],
    ["loafer", "Josh Ball", "b2o2bob2o$o2bo2b2o$bobo$2bo$8bo$6b3o$5bo$6bo$7b2o!", { period: 7, x: -1 }],
    ["weekender", "David Eppstein", "bo12bo$bo12bo$obo10bobo$bo12bo$bo12bo$2bo3b4o3bo$6b4o$2b4o4b4o2$4bo6bo$5b2o2b2o!", { period: 7, y: -2 }],
    ["turtle", "Dean Hickerson", "b3o7bo$b2o2bob2ob2o$3b3o4bo$bo2bobo3bo$o4bo4bo$o4bo4bo$bo2bobo3bo$3b3o4bo$b2o2bob2ob2o$b3o7bo!", { period: 3, x: -1 }],
    ["dart", "David Bell", "7bo$6bobo$5bo3bo$6b3o2$4b2o3b2o$2bo3bobo3bo$b2o3bobo3b2o$o5bobo5bo$bob2obobob2obo!", { period: 3, y: -1 }],
    ["crab", "Jason Summers", "8b2o$7b2o$9bo$11b2o$10bo2$9bo2bo$b2o5b2o$2o5bo$2bo4bobo$4b2o2bo$4b2o!", { period: 4, x: -1, y: -1 }],
    ["Canada goose", "Jason Summers", "3o$o9b2o$bo6b3obo$3b2o2b2o$4bo$8bo$4b2o3bo$3bobob2o$3bobo2bob2o$2bo4b2o$2b2o$2b2o!", { period: 4, x: -1, y: -1 }],
    ["Gosper glider gun", "Bill Gosper", "24bo$22bobo$12b2o6b2o12b2o$11bo3bo4b2o12b2o$2o8bo5bo3b2o$2o8bo3bob2o4bobo$10bo5bo7bo$11bo3bo$12b2o!", { every: 30, grows: 5, from: 0 }],
    ["Simkin glider gun", "Michael Simkin", "2o5b2o$2o5b2o2$4b2o$4b2o5$22b2ob2o$21bo5bo$21bo6bo2b2o$21b3o3bo3b2o$26bo4$20b2o$20bo$21b3o$23bo!", { every: 120, grows: 5, from: 240 }],
    ["pulsar", "John Conway", "2b3o3b3o2$o4bobo4bo$o4bobo4bo$o4bobo4bo$2b3o3b3o2$2b3o3b3o$o4bobo4bo$o4bobo4bo$o4bobo4bo2$2b3o3b3o!", { period: 3 }],
    ["pentadecathlon", "John Conway", "2bo4bo$2ob4ob2o$2bo4bo!", { period: 15 }],
    ["toad", "Simon Norton", "b3o$3o!", { period: 2 }],
    ["figure eight", "Simon Norton", "3o$3o$3o$3b3o$3b3o$3b3o!", { period: 8 }],
    ["Kok's galaxy", "Jan Kok", "6ob2o$6ob2o$7b2o$2o5b2o$2o5b2o$2o5b2o$2o$2ob6o$2ob6o!", { period: 8 }],
    ["tumbler", "George Collins", "b2ob2o$b2ob2o$2bobo$obobobo$obobobo$2o3b2o!", { period: 14 }],
    ["queen bee shuttle", "Bill Gosper", "9bo$7bobo$6bobo$2o3bo2bo11b2o$2o4bobo11b2o$7bobo$9bo!", { period: 30 }],
    ["twin bees shuttle", "Bill Gosper", "17b2o$2o15bobo7b2o$2o17bo7b2o$17b3o4$17b3o$2o17bo7b2o$2o15bobo7b2o$17b2o!", { period: 46 }],
    ["caterer", "Dean Hickerson", "2bo$o3b4o$o3bo$o$3bo$b2o!", { period: 3 }],
    ["eater 1", "Bill Gosper", "2o$obo$2bo$2b2o!", { period: 1 }],
    ["R-pentomino", "John Conway", "b2o$2o$bo!", { at: 1103, cells: 116 }],
    ["acorn", "Charles Corderman", "bo$3bo$2o2b3o!", { at: 5206, cells: 633 }],
    ["diehard", "", "6bo$2o$bo3b3o!", { at: 130, cells: 0 }],
  ]),
  ...under("23/36/2", [["replicator", "Nathan Thompson", "2b3o$bo2bo$o3bo$o2bo$3o!", { every: 12, grows: 12, from: 0 }]]),
  ...under("34678/3678/2", [["oscillator of period 16", "", "3o$2o!", { period: 16 }]]),
  ...under("/2/2", [["spaceship", "", "b2o$o2bo!", { period: 1, y: -1 }]]),
  ...under("/2/3", [
    ["spaceship", "", "AB$AB!", { period: 1, x: -1 }],
    ["diagonal spaceship", "", "A$2B$A.A$2.B!", { period: 4, x: -1, y: 1 }],
  ]),
  ...under("345/2/4", [
    ["spaceship", "", "2C$2B$2A!", { period: 1, y: 1 }],
    ["oscillator of period 4", "", "2.B$.CACA$B2.2B$.CACA$2.B!", { period: 4 }],
    ["oscillator of period 12", "", "A.A$B3A$C.A!", { period: 12 }],
  ]),
  ...under("12/34/3", [
    ["spaceship", "", ".2A$A2.A$A2.A!", { period: 5, y: 1 }],
    ["oscillator of period 18", "", "3.A$B.3A.B3$.2A.2A!", { period: 18 }],
  ]),
  ...under("3456/2/6", [
    ["spaceship", "", "EDCBA$EDCBA!", { period: 1, x: 1 }],
    ["oscillator of period 42", "", "3.A$.AB.BA$BCECECB$.2A.2A$.2A.2A$.2A.2A$.2A.2A$D5AD$.A3.A!", { period: 42 }],
  ]),
  ...under("345/26/5", [["spaceship of period 4", "", ".2A$.3A$A2B$.3A$CDA$2BC$.A2.D$DCD$2.DC!", { period: 4, y: -4 }]]),
  ...under("2/234/5", [["spaceship", "", "DCBA$DCBA!", { period: 1, x: 1 }]]),
];
