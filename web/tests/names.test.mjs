// Names of seats, as links have them.
import assert from "node:assert/strict";
import test from "node:test";
import { nameSeat, namesText, readNames, whoIs } from "../src/names.js";

test("what a link tells of names is read, and what is none is passed over", () => {
  assert.deepEqual([...readNames("1:Ann,3:Bob B.,0:no,65536:no,x:no,4:,17")], [[1, "Ann"], [3, "Bob B."]]);
  assert.deepEqual([...readNames("")], []);
});

test("names come back from the link that they went into", () => {
  const names = new Map();
  assert.equal(nameSeat(names, 2, "  Ann, of: 7b\n"), "Ann  of  7b");
  assert.equal(nameSeat(names, 65535, "\u00c9va"), "\u00c9va");
  assert.deepEqual(readNames(namesText(names)), names);
});

test("a name is taken away by an empty one, is cut at 40 letters, and is given to seats alone", () => {
  const names = new Map([[2, "Ann"]]);
  assert.equal(nameSeat(names, 2, " , "), "");
  assert.equal(names.size, 0);
  assert.equal(nameSeat(names, 2, "a".repeat(41)), "a".repeat(40));
  for (const seat of [0, 1.5, 65536, NaN]) assert.equal(nameSeat(names, seat, "Bob"), null);
});

test("who has a seat is told by name, where the page knows it", () => {
  assert.equal(whoIs(new Map([[2, "Ann"]]), 2), "Ann, seat 2");
  assert.equal(whoIs(new Map([[2, "Ann"]]), 3), "seat 3");
});
