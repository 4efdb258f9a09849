// Ticks that are put in, taken out and moved. The circuits after the edits are written by hand.

import assert from "node:assert/strict";
import test from "node:test";

import { applyEdit, parseCircuit, textOf } from "../../stabsim/page/static/circuit.js";
import { momentOf } from "../../stabsim/page/static/moments.js";
import { endsByTick, gapAt, gapsOf, moveTick, putTick, stepTick, takeTick } from "../../stabsim/page/static/ticks.js";

const FLAT = "R 0\nTICK\nH 0\nS 1\nTICK\nM 0\nDETECTOR rec[-1]\n";

const written = (items) => items.map((item) => textOf(item)).join("\n");

// The lines of a circuit after the edits that `act` answers.
function moved(text, act) {
  const items = parseCircuit(text);
  act(items).edits.forEach((edit) => applyEdit(items, edit));
  return written(items);
}

test("a tick is moved over the item before it, or the next one, with what it declares", () => {
  assert.equal(moved(FLAT, (items) => stepTick(items, 1, -1)), "R 0\nTICK\nH 0\nTICK\nS 1\nM 0\nDETECTOR rec[-1]");
  assert.equal(moved(FLAT, (items) => stepTick(items, 0, 1)), "R 0\nH 0\nTICK\nS 1\nTICK\nM 0\nDETECTOR rec[-1]");
  assert.equal(moved(FLAT, (items) => stepTick(items, 1, 1)), "R 0\nTICK\nH 0\nS 1\nM 0\nDETECTOR rec[-1]\nTICK");
  assert.equal(moved(FLAT, (items) => stepTick(items, 0, -1)), "TICK\nR 0\nH 0\nS 1\nTICK\nM 0\nDETECTOR rec[-1]");
});

test("a tick that has nothing to be moved over stays", () => {
  const empty = parseCircuit("TICK\nTICK\nH 0\n");
  assert.ok(stepTick(empty, 0, -1).why && stepTick(empty, 0, 1).why);
  // The last moment has no tick at its end.
  assert.ok(stepTick(empty, 2, -1).why && stepTick(empty, 2, 1).why);
});

test("a moment has a gap in front of each item that acts, and one at its end", () => {
  const items = parseCircuit(FLAT);
  assert.deepEqual(gapsOf(items, 1).map(({ path }) => path), [[2], [3], [4]]);
  assert.deepEqual([0, 0.2, 0.5, 0.8, 1].map((part) => gapAt(items, 1, part)), [0, 0, 1, 2, 2]);
  assert.deepEqual([0, 1, 2].map((moment) => endsByTick(items, moment)), [true, true, false]);
});

test("a tick is moved to another moment, and shown there", () => {
  const items = parseCircuit(FLAT);
  const made = moveTick(items, 0, 1, 1);
  made.edits.forEach((edit) => applyEdit(items, edit));
  assert.equal(written(items), "R 0\nH 0\nTICK\nS 1\nTICK\nM 0\nDETECTOR rec[-1]");
  // R and H act on one qubit, so they are two moments of the tick.
  assert.equal(momentOf(items, made.shown.path, made.shown.rounds), 1);
  assert.equal(made.name, "move the end of tick 0");
});

test("in a block a tick is moved within its round, and so in each round", () => {
  const block = "R 0\nREPEAT 3 {\n    H 0\n    S 1\n    TICK\n    M 0\n    TICK\n}\nM 1\n";
  assert.equal(moved(block, (items) => stepTick(items, 1, -1)), "R 0\nREPEAT 3 {\n    H 0\n    TICK\n    S 1\n    M 0\n    TICK\n}\nM 1");
  // Into another round, and out of the block, it is not.
  const items = parseCircuit(block);
  assert.match(moveTick(items, 1, 3, 0).why, /within its round/);
  assert.match(stepTick(items, 6, 1).why, /within its round/);
});

test("a tick is put in at the end of a moment, and the one that ends it taken out", () => {
  assert.equal(moved("H 0\nM 0\n", (items) => putTick(items, 0)), "H 0\nTICK\nM 0");
  assert.equal(moved("H 0\nTICK\nM 0\n", (items) => takeTick(items, 0)), "H 0\nM 0");
  assert.ok(takeTick(parseCircuit("H 0\n"), 0).why);
});
