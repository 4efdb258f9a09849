// Which part of a picture is drawn anew.

import assert from "node:assert/strict";
import test from "node:test";

import { Tiles, boundsOf, changesOf } from "../../stabsim/page/static/changes.js";
import { Kept, layersOf } from "../../stabsim/page/static/drawing.js";
import { parseCircuit } from "../../stabsim/page/static/circuit.js";
import { momentAt } from "../../stabsim/page/static/moments.js";
import { placesOf } from "../../stabsim/page/static/places.js";

const glyph = (x, label = "") => ({ glyph: "gate", x, y: 50, side: 20, role: "op", label });
const line = (x, y) => ({ path: [["M", 0, 0], ["L", x, y]], stroke: "ink", width: 2 });

test("only what came or went is a change, layer by layer", () => {
  const before = [[line(10, 10)], [glyph(10), glyph(90), glyph(200)]];
  assert.deepEqual(changesOf(before, [[line(10, 10)], [glyph(10), glyph(90), glyph(200)]]), []);
  assert.deepEqual(changesOf(before, [[line(10, 11)], [glyph(10), glyph(90), glyph(120), glyph(200)]]), [line(10, 10), line(10, 11), glyph(120)]);
  assert.deepEqual(changesOf(before, [[line(10, 10)], [glyph(10), glyph(90, "H"), glyph(200)]]), [glyph(90), glyph(90, "H")]);
});

test("a picture of its own is the same only as itself", () => {
  const [one, other] = [new (class Picture {})(), new (class Picture {})()];
  assert.deepEqual(changesOf([[{ picture: one }]], [[{ picture: one }]]), []);
  assert.equal(changesOf([[{ picture: one }]], [[{ picture: other }]]).length, 2);
});

test("an element is drawn within its bounds, and one without is everywhere", () => {
  assert.deepEqual(boundsOf(line(10, -5)), [-3, -8, 13, 3]);
  assert.deepEqual(boundsOf({ path: [["M", 60, 50], ["A", 50, 50, 10, 0, 7], ["Z"]], fill: "ink" }), [37.5, 37.5, 62.5, 62.5]);
  assert.deepEqual(boundsOf({ boxes: [[1, 1, 2, 2]], fill: "ink" }), [-Infinity, -Infinity, Infinity, Infinity]);
});

test("tiles that changes cover are drawn anew with all that lies on them", () => {
  const tiles = new Tiles(640, 320, [glyph(48)]);
  assert.deepEqual(tiles.boxes, [[0, 0, 96, 32], [0, 32, 96, 32], [0, 64, 96, 32]]);
  assert.equal(tiles.areMost, false);
  assert.deepEqual([glyph(48), glyph(130), glyph(200)].map((it) => tiles.areUnder(it)), [true, false, false]);
  assert.equal(tiles.areUnder({ boxes: [] }), true);
  assert.equal(new Tiles(640, 320, [{ boxes: [] }]).areMost, true);
});

test("what is drawn of a gate stays the same where an error is put in beside it", () => {
  const placement = placesOf([[0, 0], [1, 0], [2, 0]], new Set([0, 1, 2]), () => []);
  const view = { scale: 60, x: 50, y: 50, width: 400, height: 300, near: 1 };
  const kept = new Kept();
  const drawn = (items) => layersOf({ ...placement, ancillas: new Set(), instructions: momentAt(items, 0), faces: [], region: null, neighbours: [], chosen: [] }, view, kept);
  const items = parseCircuit("H 0\nCX 1 2\n");
  const before = drawn(items);
  const changes = changesOf(before, drawn([...items, ...parseCircuit("X 0\n")]));
  assert.deepEqual(changes.filter(({ glyph: shape }) => shape).map(({ glyph: shape }) => shape), ["X"]);
});
