// Rows, completion, places, drawings and edits: what the page works out without a browser.

import assert from "node:assert/strict";
import test from "node:test";

import { arranged } from "../../stabsim/page/static/arranging.js";
import { parseCircuit } from "../../stabsim/page/static/circuit.js";
import { completed } from "../../stabsim/page/static/completion.js";
import { drawingOf } from "../../stabsim/page/static/drawing.js";
import { moveTo, putIn, putQubits, takeOut, withQubits } from "../../stabsim/page/static/editing.js";
import { elementsOf, hull } from "../../stabsim/page/static/glyphs.js";
import { facesOf, neighboursOf } from "../../stabsim/page/static/knowledge.js";
import { actedOften, momentAt } from "../../stabsim/page/static/moments.js";
import { neighbourOf, placesOf } from "../../stabsim/page/static/places.js";
import { lookbacksOf, nameOfRecord, putDetector } from "../../stabsim/page/static/records.js";
import { countLines, numberOfRow, rowsBetween } from "../../stabsim/page/static/rows.js";
import { svgOf } from "../../stabsim/page/static/svg_pen.js";
import { areApart } from "../../stabsim/page/static/faces.js";
import { pathAfter, pathThere, whereAfter } from "../../stabsim/page/static/keeping.js";
import { layerOf, letterWithAlt } from "../../stabsim/page/static/keys.js";
import { HEAD, wiresOf } from "../../stabsim/page/static/wires.js";
import { UNWRAPPED, Wrap } from "../../stabsim/page/static/wrapping.js";
import { sumOf } from "../../stabsim/page/static/layers.js";
import { writtenOf } from "../../stabsim/page/static/row_parts.js";

const VIEW = { scale: 60, x: 50, y: 50, width: 400, height: 300, near: 1 };

function drawn(text, more = {}) {
  const items = parseCircuit(text);
  const placement = placesOf([[0, 0], [1, 0], [2, 0], [0, 1]], new Set(), () => []);
  const scene = { ...placement, ancillas: new Set(), instructions: momentAt(items, 0), faces: [], region: null, neighbours: [], chosen: [], ...more };
  return drawingOf(scene, VIEW);
}

const glyphs = (elements) => elements.filter(({ glyph }) => glyph).map(({ glyph, label, x, y }) => [glyph, label ?? "", (x - 50) / 60, (y - 50) / 60]);

test("a CX has a dot on its control and a cross in a ring on its target", () => {
  assert.deepEqual(glyphs(drawn("CX 2 0\n")).filter(([glyph]) => glyph !== "data"), [["control", "", 2, 0], ["xtarget", "", 0, 0]]);
});

test("measurements and resets say their basis, and idle qubits are rings", () => {
  assert.deepEqual(glyphs(drawn("MX 0\nRY 1\nMR 2\n")).map(([glyph, label]) => `${glyph} ${label}`), ["data ", "measure MX", "reset i", "mreset M"]);
});

test("a product has one outline with its letters on its qubits", () => {
  const elements = drawn("MPP X0*!Z3\n");
  assert.equal(elements.filter(({ path, fill }) => path && fill === "op-soft").length, 1);
  assert.deepEqual(glyphs(elements).filter(([glyph]) => glyph === "factor"), [["factor", "X", 0, 0], ["factor", "!Z", 0, 1]]);
});

test("an error on a gate is beside it, above on the right", () => {
  const [[, , x, y]] = glyphs(drawn("H 1\nX 1\n")).filter(([glyph]) => glyph === "X");
  assert.ok(x > 1 && y < 0);
});

test("on a wire too an error on a gate is beside it", () => {
  const items = parseCircuit("CX 0 1\nX 0\n");
  const shown = { items, moments: 1, moment: 0, qubits: [0], marksAt: () => [], waysAt: () => [] };
  const [, , glyphs, letters] = wiresOf(shown, { width: 200, first: 0, count: 1 });
  assert.deepEqual(glyphs.map(({ glyph }) => glyph), ["control"]);
  const error = letters.find(({ glyph }) => glyph === "X");
  assert.ok(error.x - glyphs[0].x > 5 && glyphs[0].y - error.y > 5 && error.y > HEAD);
});

test("the letters of a region are shapes of their own on its qubits", () => {
  const found = glyphs(drawn("TICK\n", { region: new Map([[0, "X"], [3, "Z"]]) })).filter(([glyph]) => "XZ".includes(glyph));
  assert.deepEqual(found, [["X", "X", 0, 0], ["Z", "Z", 0, 1]]);
});

test("the letter that a mark has come to lies over the ring of the mark", () => {
  const mark = { qubit: 0, letter: "X", layer: 4 };
  const elements = drawn("H 0\n", { marks: [{ ...mark, isHere: false }], ways: [mark] });
  const plates = elements.map(({ glyph }, at) => (glyph === "X" ? at : -1)).filter((at) => at >= 0);
  assert.ok(plates.length === 2 && plates[1] > elements.findLastIndex(({ stroke, dash }) => stroke === "ink" && dash));
});

test("no ring or diamond is drawn over the number of a qubit", () => {
  const elements = drawn("M 0\nCX 1 2\n", {
    set: [{ qubit: 0, letter: "X", isHere: false }], marks: [{ qubit: 1, letter: "Z", layer: 1, isHere: true }], coins: new Map([[2, true]]),
  });
  const numbers = elements.flatMap(({ words }, i) => (["0", "1", "2"].includes(words) && elements[i].halo ? [i] : []));
  const rims = elements.flatMap(({ path, stroke, width }, i) => (path && stroke === "ink" && width === 1.75 ? [i] : []));
  assert.ok(numbers.length >= 3 && rims.length === 3 && Math.max(...rims) < Math.min(...numbers));
});

test("a glyph loses its words and then its shape as it gets smaller", () => {
  const at = (side) => elementsOf({ glyph: "gate", x: 0, y: 0, side, role: "op", label: "S†" }).filter(({ words }) => words).map(({ words }) => words);
  assert.deepEqual([30, 14, 8, 3].map(at), [["S†"], ["S"], [], []]);
});

test("SVG has the same glyphs, and escapes words", () => {
  const svg = svgOf([{ words: "a<b&c", x: 0, y: 0, size: 10, fill: "ink" }, ...drawn("CX 0 1\n")], { width: 400, height: 300, colour: (name) => `var(--${name})` });
  assert.ok(svg.includes("a&lt;b&amp;c") && svg.includes('stroke="var(--wire)"') && !svg.includes("NaN"));
});

test("the hull has the corners alone", () => {
  assert.deepEqual(hull([[0, 0], [2, 0], [1, 0], [2, 2], [1, 1], [0, 2]]).length, 4);
});

test("qubits without coordinates that nothing acts on have no place", () => {
  const { places, drawer } = placesOf([[0, 0], [], [1, 0], [], [2, 2], []], new Set([3]), () => []);
  assert.deepEqual([...places.keys()], [0, 2, 4, 3]);
  assert.deepEqual(drawer, [1]);
});

test("qubits without coordinates stand by their gates, and always alike", () => {
  const qubits = Array.from({ length: 16 }, (_, qubit) => qubit);
  const joined = qubits.slice(1).map((qubit) => [qubit - 1, qubit]);
  const places = new Map(arranged(qubits, joined));
  const far = (a, b) => Math.hypot(places.get(a)[0] - places.get(b)[0], places.get(a)[1] - places.get(b)[1]);
  assert.ok(joined.every(([a, b]) => far(a, b) < far(0, 15) / 2));
  assert.deepEqual(arranged(qubits, joined), [...places]);
});

test("places that were found by gates stay when qubits come", () => {
  const coordinates = Array.from({ length: 15 }, () => []);
  const known = new Map();
  const used = new Set(Array.from({ length: 14 }, (_, qubit) => qubit));
  const before = placesOf(coordinates, used, () => [[0, 1], [1, 2]], known).places;
  const after = placesOf(coordinates, new Set([...used, 14]), () => [], known).places;
  for (const [qubit, place] of before) assert.deepEqual(after.get(qubit), place);
  assert.ok(after.has(14));
});

test("an arrow leads to the nearest qubit that way", () => {
  const places = new Map([[0, [0, 0]], [1, [1, 1]], [2, [2, 0]], [3, [0, 2]]]);
  assert.equal(neighbourOf(places, [0, 0], [1, 0]), 2);
  assert.equal(neighbourOf(places, [0, 0], [0, 1]), 3);
  assert.equal(neighbourOf(places, [0, 0], [-1, 0]), null);
});

test("runs of places and detectors are one row until they are opened", () => {
  const items = parseCircuit("QUBIT_COORDS(0) 0\nQUBIT_COORDS(1) 1\nQUBIT_COORDS(2) 2\nH 0\nREPEAT 2 {\n    M 0\n    DETECTOR rec[-1]\n}\n");
  assert.deepEqual(rowsBetween(items, new Set(), 0, 9).map(({ path, run }) => [path.join("/"), run]), [["0", 3], ["3", 0], ["4", 0]]);
  const unfolded = new Set([items[0], items[4]]);
  const rows = rowsBetween(items, unfolded, 0, 99);
  assert.deepEqual(rows.map(({ path }) => path.join("/")), ["0", "0", "1", "2", "3", "4", "4/0", "4/1"]);
  assert.equal(countLines(items, unfolded), rows.length);
  for (const { number, path, run } of rows) if (!run) assert.equal(numberOfRow(items, unfolded, path), number);
});

test("rows of one line are as many as the items, however long the list that was asked for before", () => {
  for (const count of [2, 0, 50, 3]) {
    const items = parseCircuit("H 0\n".repeat(count));
    assert.deepEqual([...UNWRAPPED.heights(items, 0)], Array.from({ length: count + 1 }, (_, number) => number));
    assert.equal(countLines(items, new Set()), count);
  }
});

test("a long item has as many lines as its words need, and rows are numbered by lines", () => {
  const items = parseCircuit("H 0 1 2 3 4 5 6\nDETECTOR(1, 2) rec[-1]\nDETECTOR rec[-1]\nDETECTOR rec[-1]\nREPEAT 2 {\n    CX 10 11 12 13\n    M 0\n}\nM 0\n");
  const wrap = new Wrap((depth) => (depth ? 8 : 10));
  assert.deepEqual([wrap.linesOf(items[0], 0), wrap.linesOf(items[4].items[0], 1), UNWRAPPED.linesOf(items[0], 0)],
    [["H 0 1 2 3", "4 5 6"], ["CX 10 11", "12 13"], [items[0].text]]);
  const told = (unfolded) => rowsBetween(items, unfolded, 0, 99, wrap).map(({ number, lines, path }) => `${path.join("/")} ${number} ${lines}`);
  assert.deepEqual(told(new Set()), ["0 0 2", "1 2 1", "4 3 1", "5 4 1"]);
  const unfolded = new Set([items[1], items[4]]);
  // Two lines each have the first, the run's first item by its coordinates and its lookback, and the other two.
  assert.deepEqual(told(unfolded), ["0 0 2", "1 2 1", "1 3 3", "2 6 2", "3 8 2", "4 10 1", "4/0 11 2", "4/1 13 1", "5 14 1"]);
  assert.equal(countLines(items, unfolded, wrap), 15);
  // A row is found by each of its lines.
  assert.deepEqual([0, 1, 4, 12, 14].map((at) => rowsBetween(items, unfolded, at, at + 1, wrap)[0].path.join("/")), ["0", "0", "1", "4/0", "5"]);
  for (const { number, path, run } of rowsBetween(items, unfolded, 0, 99, wrap)) if (!run) assert.equal(numberOfRow(items, unfolded, path, wrap), number);
});

test("names are completed as far as they are the same", () => {
  assert.equal(completed("sqrt_x_").words, "SQRT_X_DAG ");
  assert.equal(completed("H 0\nsqr").words, "SQRT_");
  assert.equal(completed("H 0 sqr"), null);
});

test("a gate joins the one in front of it, but an error is by itself", () => {
  const items = parseCircuit("H 0\nTICK\n");
  assert.deepEqual(putIn(items, 0, "H", [1, 2]).edits, [{ kind: "replace", place: "0", item: "H 0 1 2" }]);
  assert.deepEqual(putIn(items, 0, "H", [0], false, true).edits, [{ kind: "insert", place: "1", item: "H 0" }]);
  assert.deepEqual(putIn(items, 0, "X", [1]).edits, [{ kind: "insert", place: "1", item: "X 1" }]);
  assert.ok(putIn(items, 0, "CX", [1]).why);
});

test("a gate takes the place of what acts on its qubits, and leaves others and errors where they are", () => {
  const made = (text, ...words) => putIn(parseCircuit(text), 0, ...words);
  const told = ({ edits, shown }) => [edits.map(({ kind, place, item }) => `${kind} ${place} ${item ?? ""}`.trim()), shown.path.join("/")];
  assert.deepEqual(told(made("M 0\nTICK\n", "MX", [0])), [["replace 0 MX 0"], "0"]);
  assert.deepEqual(told(made("CX 0 1 2 3\nX 0\nTICK\n", "H", [0])), [["insert 2 H 0", "replace 0 CX 2 3"], "2"]);
  assert.deepEqual(told(made("H 1\nS 0 2\nR 3\nTICK\n", "H", [0, 2, 3])), [["replace 0 H 1 0 2 3", "delete 2", "delete 1"], "0"]);
  assert.deepEqual(told(made("S 0\nR 1\nM 2\nTICK\n", "H", [0, 1])), [["insert 3 H 0 1", "delete 1", "delete 0"], "1"]);
  assert.deepEqual(told(made("H 0 1\nS 2\nTICK\n", "H", [0, 2])), [["replace 0 H 0 1 2", "delete 1"], "0"]);
  assert.deepEqual(told(made("CX 0 1\nTICK\n", "CX", [1, 0])), [["replace 0 CX 1 0"], "0"]);
  assert.deepEqual(told(made("H 0\nTICK\n", "X", [0])), [["insert 1 X 0"], "1"]);
  assert.match(made("CX 0 1\nH 2\nTICK\n", "CX", [0, 1]).why, /acts there already/);
  assert.deepEqual(told(made("H 0\nREPEAT 2 {\n    H 1\n    TICK\n}\n", "S", [1, 0])), [["replace 1/0 S 1 0"], "1/0"]);
});

test("what acts several times in a tick is counted, and errors and their marks are not", () => {
  const often = (text, moment) => [...actedOften(parseCircuit(text), moment)];
  assert.deepEqual(often("H 0 1\nS 0\nX 1\nM 0\nTICK\nH 0\n", 0), [[0, 3]]);
  assert.deepEqual(often("H 0 1\nS 0\nTICK\nH 0\n", 2), []);
  assert.deepEqual(often("I 0\nH 0\nX 0\nTICK\n", 0), []);
  assert.deepEqual(often("H 0\nH 0\n", 0), []);
});

test("with Alt the key itself counts where it would type another letter, and a layer is asked for by the place of its digit", () => {
  const alone = { repeat: false, ctrlKey: false, metaKey: false, shiftKey: false, altKey: true };
  assert.equal(letterWithAlt({ ...alone, key: "˙", code: "KeyH" }), "h");
  assert.equal(letterWithAlt({ ...alone, key: "X", code: "KeyX", shiftKey: true }), "X");
  assert.equal(letterWithAlt({ ...alone, key: "h", code: "KeyH", ctrlKey: true }), "");
  assert.equal(layerOf({ ...alone, altKey: false, key: "/", code: "Digit7", shiftKey: true }), 7);
  assert.equal(layerOf({ ...alone, altKey: false, key: "7", code: "Digit7" }), null);
});

test("where a place is after a round is split off its block, its round has a block of its own", () => {
  const split = (round) => ({ kind: "split", at: [1], more: 2, round });
  const after = (rounds, round) => whereAfter({ path: [1, 4], rounds: [rounds] }, split(round));
  assert.deepEqual([0, 2, 4].map((round) => after(round, 2)), [{ path: [1, 4], rounds: [0] }, { path: [2, 4], rounds: [0] }, { path: [3, 4], rounds: [1] }]);
  assert.deepEqual([0, 3].map((round) => after(round, 0)), [{ path: [1, 4], rounds: [0] }, { path: [2, 4], rounds: [2] }]);
  assert.deepEqual(whereAfter({ path: [2], rounds: [] }, split(2)), { path: [4], rounds: [] });
});

test("marks of a layer flip what an odd number of them does", () => {
  assert.deepEqual(sumOf([["D2", "L0"], ["D10", "D2"], [], ["D1", "L0", "L1"]]), ["D1", "D10", "L1"]);
});

test("items that were one line are shown as that while all of them are beside each other", () => {
  const items = parseCircuit("SWAP 0 1\nCZ 0 1\nS 0 1\n");
  items.forEach((item, part) => { item.written = { text: "ISWAP 0 1", count: 3, part }; });
  assert.deepEqual([0, 1, 2].map((place) => writtenOf(items, place)?.part), [0, 1, 2]);
  items.splice(1, 0, ...parseCircuit("H 0\n"));
  assert.deepEqual([0, 1, 2, 3].map((place) => writtenOf(items, place)), [undefined, undefined, undefined, undefined]);
});

test("what is put into one round alone has the places that it has once the round is split off", () => {
  const items = parseCircuit("R 0\nREPEAT 4 {\n    TICK\n    H 0\n}\n");
  assert.deepEqual(putIn(items, 2, "X", [0], true), {
    edits: [{ kind: "insert", place: "2/0", item: "X 0" }], round: { place: "1", number: 2 }, shown: { path: [2, 0], rounds: [0] },
  });
});

test("what is taken out or moved takes its pair with it", () => {
  const items = parseCircuit("CX 0 1 2 3\nS 4\nTICK\nH 4\n");
  const edits = [{ kind: "delete", place: "1" }, { kind: "replace", place: "0", item: "CX 2 3" }];
  assert.deepEqual(takeOut(items, 0, [1, 4]).edits, edits);
  assert.deepEqual(moveTo(items, 0, [1], 1).edits, [{ kind: "insert", place: "3", item: "CX 0 1" }, { kind: "replace", place: "0", item: "CX 2 3" }]);
  assert.ok(moveTo(items, 0, [1], -1).why);
});

test("a new qubit has the least number that is free, after the places of the others", () => {
  const placement = { places: new Map([[0, [0, 0]], [2, [1, 0]]]), hasCoordinates: true };
  const made = putQubits(parseCircuit("QUBIT_COORDS(0, 0) 0\nQUBIT_COORDS(1, 0) 2\nH 0\n"), [[3, 4], [5, 6]], placement);
  const put = (place, item) => ({ kind: "insert", place, item });
  assert.deepEqual(made.edits, [put("2", "QUBIT_COORDS(3, 4) 1"), put("3", "QUBIT_COORDS(5, 6) 3")]);
  const gate = withQubits(putIn(parseCircuit("TICK\n"), 1, "H", [7]), { edits: made.edits });
  assert.deepEqual([gate.edits[0].place, gate.shown.path], ["1", [3]]);
});

test("a detector compares the last records of qubits, over rounds too", () => {
  const items = parseCircuit("R 0 1\nREPEAT 3 {\n    TICK\n    MR 0 1\n}\nTICK\nM 1\n");
  assert.deepEqual(lookbacksOf(items, 2, [1], 2), [{ qubit: 1, lookbacks: [{ lookback: -1, isHere: true }, { lookback: -3, isHere: false }] }]);
  const places = new Map([[0, [5, 6]], [1, [7, 8]]]);
  assert.deepEqual(putDetector(items, 4, [1, 0], { isEach: false, places, time: 2 }).edits, [{ kind: "insert", place: "4", item: "DETECTOR(5, 6, 2) rec[-1] rec[-3]" }]);
  assert.equal(nameOfRecord(parseCircuit("M 4 5\nTICK\nM 6\nCX rec[-3] 0\nM 7\n"), 1, [3], -3), "M 4");
});

test("faces have the kind of their letters on data qubits, and are grey where both kinds are checked", () => {
  const slices = [{ D0: new Map([[1, "X"], [2, "X"], [9, "Z"]]), D1: new Map([[3, "Z"], [4, "Z"]]), L0: new Map([[1, "Z"], [3, "Z"]]) }, { D2: new Map([[3, "X"], [4, "X"]]) }];
  assert.deepEqual(facesOf(slices, new Set([9])), [{ qubits: [1, 2], kind: "x", bit: "D0" }, { qubits: [3, 4], kind: "op", bit: "D1" }]);
});

test("faces that share an edge are apart, and those that lie across each other are not", () => {
  const places = new Map([[0, [0, 0]], [1, [2, 0]], [2, [0, 2]], [3, [2, 2]], [4, [4, 0]], [5, [4, 2]], [6, [1, 1]]]);
  const apart = (...faces) => areApart(faces.map((qubits) => ({ qubits })), places, 1.4);
  assert.equal(apart([0, 1, 2, 3], [1, 3, 4, 5], [0, 1]), true);
  assert.equal(apart([0, 1, 2, 3], [6, 4, 5]), false);
  assert.equal(apart([0, 3], [1, 2]), false);
});

test("the path of an item goes with it through edits, and as far as it leads to something", () => {
  const items = parseCircuit("H 0\nREPEAT 2 {\n    H 1\n    TICK\n}\nM 0\n");
  const after = (path, kind, at, more) => pathAfter(path, { kind, at, more });
  assert.deepEqual(after([1, 1], "insert", [0], 1), [2, 1]);
  assert.deepEqual(after([1, 1], "insert", [1, 1], 1), [1, 2]);
  assert.deepEqual(after([1, 1], "delete", [1, 0], -1), [1, 0]);
  assert.deepEqual(after([1, 1], "delete", [1], -1), [1, 1]);
  assert.deepEqual(after([2], "split", [1], 2), [4]);
  assert.deepEqual(pathThere(items, [1, 5]), [1, 1]);
  assert.deepEqual(pathThere(items, [2, 1]), [2]);
  assert.deepEqual(pathThere(items, [9]), [3]);
});

test("regions that one Pauli flips together are neighbours", () => {
  const slice = { D0: new Map([[0, "Z"]]), D1: new Map([[0, "Z"], [1, "Z"]]), D2: new Map([[1, "X"]]) };
  assert.deepEqual(neighboursOf(slice, "D0"), [slice.D1]);
});
