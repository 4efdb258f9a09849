// @ts-check
// The drawing of a moment, as elements (glyphs.js): what is measured where, gates, and over them what is known of detectors.
//
// A scene (scene.js) is {places, ancillas, box, hasCoordinates, instructions, often, noise, recordName, faces, region, coins, set, marks,
// ways, neighbours, chosen}, with what is drawn for the pointer: {pending, spots, frame}; a view says where a place is seen: {scale, x, y, width, height,
// near}. A drawing follows from both, wherever it is written. What gates look like says the table of shapes alone (marks.js).

import { circle, gates, sideAt, table } from "./glyphs.js";
import { groundElements, gutterElements } from "./ground_drawing.js";
import { PAULIS, actionsOf, isControlled, qubitsOf } from "./instructions.js";
import { marksOf } from "./marks.js";
import { coinElements, errorElements, faceElements, letterElements, markElements, neighbourElements, regionElements, ringElements, wayElements } from "./region_drawing.js";

// How far out of sight, in sides of a glyph, something is still drawn, since its wire may be seen.
const MARGIN = 2;
// How large the ring of what is chosen is, in sides of a glyph: the corners of a gate touch it; and that of a qubit on which nothing acts.
const RING = 0.74;
const IDLE_RING = 0.44;
// From which side of a glyph on noise is drawn.
const NOISE_FROM = 12;
// How wide the ring's line is on both sides, with some room, in pixels.
const RIM = 4;

export const drawingOf = (scene, view) => layersOf(scene, view, new Kept()).flat();

// What the last picture has drawn of things: they look the same in the next one, if they are seen at the same places.
export class Kept {
  #seen = "";
  #places = null;
  #before = new Map();
  #drawn = new Map();

  // Begins the next picture.
  take({ places, box }, view) {
    const seen = JSON.stringify([box, view]);
    this.#before = seen === this.#seen && places === this.#places ? this.#drawn : new Map();
    [this.#seen, this.#places, this.#drawn] = [seen, places, new Map()];
  }

  // What `draw()` draws of a thing by which it is known.
  of(thing, draw) {
    const drawn = this.#drawn.get(thing) ?? this.#before.get(thing) ?? draw();
    this.#drawn.set(thing, drawn);
    return drawn;
  }
}

// The drawing by its layers, the lowest first.
/** @returns {import("./types.js").Element[][]} */
export function layersOf(scene, view, kept) {
  kept.take(scene, view);
  const pitch = view.scale * view.near;
  const side = sideAt(pitch);
  const at = (qubit) => {
    const place = scene.places.get(qubit);
    return place && [view.x + place[0] * view.scale, view.y + place[1] * view.scale];
  };
  const sheet = { at, side, pitch, scene, view, kept };
  const operations = operationsOf(sheet);
  return [
    kept.of("ground", () => groundElements(sheet)),
    kept.of(scene.faces, () => faceElements(sheet)),
    neighbourElements(sheet),
    regionElements(sheet),
    operations.under,
    idleElements(sheet, operations.busy),
    ringElements(sheet),
    numberElements(sheet, operations.busy),
    operations.over,
    choiceElements(sheet, operations.busy),
    noiseElements(sheet),
    oftenElements(sheet),
    coinElements(sheet),
    letterElements(sheet, operations.busy),
    operations.errors,
    errorElements(sheet),
    markElements(sheet),
    wayElements(sheet),
    kept.of("gutter", () => gutterElements(sheet)),
  ];
}

function isSeen({ view, side }, [x, y]) {
  const margin = side * MARGIN;
  return x > -margin && y > -margin && x < view.width + margin && y < view.height + margin;
}

// What the instructions of the moment draw under and over the qubits, the errors that come after something else on their qubits, and how
// often something acts on each qubit.
function operationsOf(sheet) {
  const { scene: { instructions } } = sheet;
  const found = { under: [], over: [], errors: [], busy: new Map() };
  const isShared = shareQubits(instructions.filter(({ item }) => item.name === "MPP").map(({ item }) => item));
  for (const instruction of instructions) {
    const { item } = instruction;
    const draw = () => drawnOf(sheet, instruction, isShared, found.busy);
    const { under, over, errors } = isAlone(item) ? sheet.kept.of(item.targets, draw) : draw();
    found.under.push(...under);
    found.over.push(...over);
    found.errors.push(...errors);
    if (item.name !== "MPP" || !isShared) for (const qubit of qubitsOf(item)) found.busy.set(qubit, (found.busy.get(qubit) ?? 0) + 1);
  }
  return found;
}

// Whether it looks the same whatever else acts in its moment. Items that share their targets (circuit.js) look the same.
const isAlone = (item) => item.name !== "MPP" && !PAULIS.includes(item.name) && !isControlled(item);

// What one instruction draws, by what is drawn so far.
function drawnOf(sheet, instruction, isShared, busy) {
  const found = { under: [], over: [], errors: [] };
  for (const action of actionsOf(instruction.item)) {
    const points = action.qubits.map(sheet.at);
    if (points.includes(undefined) || !points.some((point) => isSeen(sheet, point))) continue;
    const look = lookOf(instruction, action, { isShared, busy, recordName: sheet.scene.recordName });
    const { under, over } = marksOf(look.marks, look, points, sheet.side, action.factors);
    found.under.push(...under);
    (look.marks === "error" ? found.errors : found.over).push(...over);
  }
  return found;
}

function shareQubits(items) {
  const all = items.flatMap(qubitsOf);
  return new Set(all).size < all.length;
}

// By which marks an action is drawn, with their values (marks.js).
function lookOf({ item: { name }, path }, { qubits, factors, record }, { isShared, busy, recordName }) {
  if (record) {
    const letter = name.at(-1);
    const said = recordName?.({ path }, record);
    return { marks: "controlled", letter, role: letter.toLowerCase(), record: said ? `${record}: ${said}` : record };
  }
  if (factors) {
    const [role, ...others] = new Set(factors.map((factor) => factor.role));
    return { marks: isShared ? "shared product" : "product", role: others.length ? "op" : role };
  }
  const before = busy.get(qubits[0]);
  if (before && PAULIS.includes(name)) return { marks: "error", shape: name, role: name.toLowerCase(), label: name, before: before - 1 };
  return gates[name];
}

function idleElements(sheet, busy) {
  const { scene: { places, ancillas }, at, side, kept } = sheet;
  return [...places.keys()].filter((qubit) => !busy.has(qubit) && isSeen(sheet, at(qubit))).flatMap((qubit) => {
    const shape = ancillas.has(qubit) ? "ancilla" : "data";
    return kept.of(`${shape} ${qubit}`, () => marksOf("idle", { shape }, [at(qubit)], side).over);
  });
}

function numberElements(sheet, busy) {
  const { scene: { places, chosen }, at, side, pitch } = sheet;
  if (pitch < table.levels.numbers) return [];
  // The number of a chosen qubit is beside its ring.
  const beside = (qubit, [x, y]) => (words) => {
    const away = (radiusOf(side, busy.has(qubit)) + RIM) * Math.SQRT1_2;
    return { ...words, x: x + away, y: y + away + words.size / 2 };
  };
  return [...places.keys()].filter((qubit) => isSeen(sheet, at(qubit))).flatMap((qubit) => {
    const { over } = marksOf(busy.has(qubit) ? "number beside" : "number", { number: String(qubit) }, [at(qubit)], side);
    return chosen.includes(qubit) ? over.map(beside(qubit, at(qubit))) : over;
  });
}

// A dark disc below on the left of each qubit on which several items act in the tick, with how many do if there is room for that.
function oftenElements(sheet) {
  const { scene: { often = new Map() }, at, side, pitch } = sheet;
  const hasWords = pitch >= table.levels.numbers;
  const [radius, away] = [hasWords ? 9 : 3, Math.max(4, side * 0.62)];
  return [...often].filter(([qubit]) => at(qubit) && isSeen(sheet, at(qubit))).flatMap(([qubit, count]) => {
    const [x, y] = [at(qubit)[0] - away, at(qubit)[1] + away];
    const disc = [{ path: circle(x, y, radius + 1.5), fill: "sheet" }, { path: circle(x, y, radius), fill: "ink" }];
    return hasWords ? [...disc, { words: String(count), x, y, size: 12.5, fill: "sheet", weight: 700 }] : disc;
  });
}

// A jagged line below each qubit that has noise.
function noiseElements(sheet) {
  const { scene: { noise = new Map() }, at, side } = sheet;
  if (side < NOISE_FROM) return [];
  return [...noise.keys()].filter((qubit) => at(qubit) && isSeen(sheet, at(qubit)))
    .map((qubit) => ({ glyph: "noise", x: at(qubit)[0], y: at(qubit)[1] + side * 0.86, side: side * 0.6, role: "quiet" }));
}

const radiusOf = (side, isBusy) => Math.max(8, side * (isBusy ? RING : IDLE_RING));

// A ring tight at the glyph of what is chosen; and what the next click would do.
function choiceElements({ at, side, scene: { chosen, pending = [], spots = [], frame } }, busy) {
  const elements = [];
  for (const qubit of chosen) {
    const place = at(qubit);
    if (!place) continue;
    const path = circle(...place, radiusOf(side, busy.has(qubit)));
    elements.push({ path, stroke: "sheet", width: 4 }, { path, stroke: "accent", width: 2.5 });
  }
  for (const [from, to] of pending) elements.push({ path: [["M", ...from], ["L", ...to]], stroke: "accent", width: 2, dash: [5, 4] });
  if (frame) {
    const [[left, top], [right, bottom]] = frame;
    const path = [["M", left, top], ["L", right, top], ["L", right, bottom], ["L", left, bottom], ["Z"]];
    elements.push({ path, fill: "chosen", alpha: 0.4 }, { path, stroke: "accent", dash: [3, 3] });
  }
  for (const [x, y] of spots) elements.push({ glyph: "data", x, y, side: side * 0.78, role: "accent" });
  return elements;
}
