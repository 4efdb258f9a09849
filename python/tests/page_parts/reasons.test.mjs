// Coins, steps and errors at their places: what the page works out of numbers that the program gives.

import assert from "node:assert/strict";
import test from "node:test";

import { countBefore, findNumbered, parseCircuit, roundsOfStep } from "../../stabsim/page/static/circuit.js";
import { placesOfCoins, qubitsOfCoins } from "../../stabsim/page/static/coins.js";
import { drawingOf } from "../../stabsim/page/static/drawing.js";
import { lettersAt, lettersByMoments, placesOfErrors } from "../../stabsim/page/static/fault_set.js";
import { kindsOfErrors } from "../../stabsim/page/static/noise.js";

// Steps by hand: R 2, then in each round CX 2, MR 1, MPP 1, DETECTOR 1, so 5; M 2. Coins: R 2, in each round MR 1 and MPP 1, M 2.
const CODE = "R 0 1\nTICK\nREPEAT 3 {\n    CX 0 1 2 3\n    TICK\n    MR 1\n    MPP X0*Z2\n    DETECTOR rec[-1]\n    TICK\n}\nM 0 1\n";
const ITEMS = parseCircuit(CODE);

test("steps and coins are counted as the program counts them", () => {
  assert.deepEqual([ITEMS[0], ITEMS[2], ITEMS[3]].map(({ steps, coins }) => [steps, coins]), [[2, 2], [15, 6], [2, 2]]);
  assert.equal(countBefore(ITEMS, "steps", [3]), 17);
  assert.equal(countBefore(ITEMS, "coins", [2, 3], [2]), 7);
  const { path, rounds, number } = findNumbered(ITEMS, "coins", 9);
  assert.deepEqual([path, rounds, number], [[3], [], 1]);
});

test("a coin has its measurement or reset, with the qubits and the moment", () => {
  const places = placesOfCoins(ITEMS, [1, 4, 5, 8, 99]);
  assert.deepEqual(places.map(({ name, rounds, moment, qubits }) => [name, rounds, moment, qubits]), [
    ["R 1", [], 0, [1]], ["MR 1", [1], 4, [1]], ["MPP X0*Z2", [1], 4, [0, 2]], ["M 0", [], 7, [0]],
  ]);
  assert.deepEqual([...qubitsOfCoins(places, 4)], [[1, true], [0, true], [2, true]]);
});

test("a step is in the round that its number says", () => {
  // The CX begins with step 2 + 5 in round 1.
  assert.deepEqual(roundsOfStep(ITEMS, [2, 0], 7), [1]);
  assert.deepEqual(roundsOfStep(ITEMS, [2, 0], 8), [1]);
  assert.deepEqual(roundsOfStep(ITEMS, [2, 3], 15), [2]);
  const nested = parseCircuit("REPEAT 2 {\n    H 0\n    REPEAT 3 {\n        S 0 1\n    }\n}\n");
  // H is step 0, S of the inner rounds 1 to 6, and 7 is H again.
  assert.deepEqual([1, 4, 5, 8, 13].map((step) => roundsOfStep(nested, [0, 1, 0], step)), [[0, 0], [0, 1], [0, 2], [1, 0], [1, 2]]);
});

const error = (steps, path, name, record = null) => ({ steps, path, name, record });

test("errors are after their gates, before measurements, and at wrong records", () => {
  // After the first pair of the CX in round 1, whose steps are 7 and 8; before the MR in round 2; record 3, the MPP of round 1.
  const set = placesOfErrors(ITEMS, [error(8, "2/0", "X0*Z1"), error(14, "2/2", "X1"), error(10, "2/3", "M3", 3)]);
  assert.deepEqual(set.map(({ name, moment, letters }) => [name, moment, [...letters]]), [
    ["X0*Z1", 3, [[0, "X"], [1, "Z"]]], ["X1 before MR", 6, [[1, "X"]]], ["wrong MPP X0*Z2", 4, [[0, "M"], [2, "M"]]],
  ]);
  assert.deepEqual(lettersByMoments(set), { 3: { 0: "X", 1: "Z" }, 6: { 1: "X" }, 4: { 0: "M", 2: "M" } });
  assert.deepEqual(lettersAt(set, 6).at(-1), { qubit: 1, letter: "X", isHere: true });
});

test("an error after the last gate of a round is of that round", () => {
  const items = parseCircuit("R 0 1\nREPEAT 2 {\n    TICK\n    H 0 1\n}\n");
  assert.deepEqual(placesOfErrors(items, [error(4, "1/1", "X1"), error(5, "1/1", "X0")]).map(({ moment }) => moment), [1, 2]);
});

test("errors of noise are at it, in their round", () => {
  // Steps: R 2, in each round M 1, so that of round 1 begins with 3. A block without steps has all of its errors in its first round.
  const items = parseCircuit("R 0 1\nREPEAT 2 {\n    TICK\n    E(0.1) X0 Y1\n    M(0.1) 0\n}\nREPEAT 3 {\n    TICK\n    X_ERROR(0.1) 0\n}\n");
  const set = placesOfErrors(items, [error(3, "1/1", "X0*Y1"), error(4, "2/1", "X0"), error(3, "1/2", "M1", 1)]);
  assert.deepEqual(set.map(({ name, moment, letters }) => [name, moment, [...letters]]), [
    ["X0*Y1 of E", 2, [[0, "X"], [1, "Y"]]], ["X0 of X_ERROR", 3, [[0, "X"]]], ["wrong M 0", 2, [[0, "M"]]],
  ]);
});

test("the distance may be asked of the errors that a circuit has", () => {
  const kindsOf = (text) => kindsOfErrors(parseCircuit(text));
  assert.deepEqual(kindsOf("R 0\nX 0\nM 0\n"), ["everywhere"]);
  assert.deepEqual(kindsOf("REPEAT 2 {\n    I 0\n}\nM(0.1) 0\n"), ["own noise", "marked", "everywhere"]);
});

test("errors and coins have their marks in a drawing, broken where they are of other moments", () => {
  const scene = {
    places: new Map([[0, [0, 0]], [1, [1, 0]]]), box: { left: 0, top: 0, right: 1, bottom: 0 }, ancillas: new Set(), instructions: [], faces: [], region: null,
    neighbours: [], chosen: [], hasCoordinates: true, coins: new Map([[0, true]]),
    set: [{ qubit: 0, letter: "M", isHere: false }, { qubit: 1, letter: "Y", isHere: true }],
  };
  const elements = drawingOf(scene, { scale: 60, x: 50, y: 50, width: 400, height: 300, near: 1 });
  const marks = elements.filter(({ glyph }) => ["random", "measure", "Y"].includes(glyph)).map(({ glyph, label }) => [glyph, label ?? ""]);
  assert.deepEqual(marks, [["random", ""], ["measure", "!"], ["Y", "Y"]]);
  assert.equal(elements.filter(({ dash }) => dash).length, 1);
});
