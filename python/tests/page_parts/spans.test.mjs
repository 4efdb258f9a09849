// Which lines several moments have. What is expected is counted by hand.

import assert from "node:assert/strict";
import test from "node:test";

import { parseCircuit } from "../../stabsim/page/static/circuit.js";
import { linesOf } from "../../stabsim/page/static/spans.js";

const BLOCK = "R 0\nTICK\nREPEAT 3 {\n    H 0\n    TICK\n    S 0\n    TICK\n}\nM 0\n";

const spanOf = (text, first, last) => {
  const found = linesOf(parseCircuit(text), first, last);
  return found && [found.list.join("/"), found.place, found.count];
};

test("ticks outside blocks have their lines with the TICK that ends the last one", () => {
  assert.deepEqual(spanOf("R 0\nTICK\nH 0\nS 1\nTICK\nM 0\n", 1, 1), ["", 2, 3]);
  assert.deepEqual(spanOf("R 0\nTICK\nH 0\nS 1\nTICK\nM 0\n", 0, 2), ["", 0, 6]);
});

test("ticks of a round, of the first and the last one too, have lines within the block", () => {
  for (const round of [0, 1, 2]) {
    const first = 1 + 2 * round;
    assert.deepEqual(spanOf(BLOCK, first, first), ["2", 0, 2]);
    assert.deepEqual(spanOf(BLOCK, first + 1, first + 1), ["2", 2, 2]);
    assert.deepEqual(spanOf(BLOCK, first, first + 1), ["2", 0, 4]);
  }
});

test("a whole block is one line, alone or beside others", () => {
  assert.deepEqual(spanOf(BLOCK, 1, 6), ["", 2, 1]);
  assert.deepEqual(spanOf(BLOCK, 0, 6), ["", 0, 3]);
  assert.deepEqual(spanOf(BLOCK, 1, 7), ["", 2, 2]);
});

test("ticks of several rounds have no lines together", () => {
  for (const [first, last] of [[2, 3], [1, 3], [0, 1], [1, 4], [5, 7]]) assert.equal(spanOf(BLOCK, first, last), null);
});

test("moments that no TICK ends are cut where an item acts again", () => {
  // Each round's H meets the M before it.
  const cut = "M 0\nREPEAT 2 {\n    H 0\n    M 0\n}\n";
  assert.deepEqual([0, 1, 2, 3, 4].map((moment) => spanOf(cut, moment, moment)), [["", 0, 1], ["1", 0, 1], ["1", 1, 1], ["1", 0, 1], ["1", 1, 1]]);
  assert.deepEqual(spanOf(cut, 3, 4), ["1", 0, 2]);
  assert.deepEqual(spanOf(cut, 1, 4), ["", 1, 1]);
});

test("a round of an inner block is within that", () => {
  const inner = "REPEAT 2 {\n    REPEAT 2 {\n        H 0\n        TICK\n    }\n    S 0\n    TICK\n}\n";
  assert.deepEqual(spanOf(inner, 4, 4), ["0/0", 0, 2]);
  assert.deepEqual(spanOf(inner, 3, 4), ["0", 0, 1]);
  assert.deepEqual(spanOf(inner, 3, 5), ["0", 0, 3]);
  assert.deepEqual(spanOf(inner, 0, 5), ["", 0, 1]);
});
