// @ts-check
// What is drawn of detectors in a moment: the faces of checks, the chosen region with its letters or the coins that decide the bit,
// regions beside it, and errors.

import { WRONG } from "./fault_set.js";
import { circle, outline } from "./glyphs.js";
import { marksOf } from "./marks.js";

const PATTERN_FROM = 18;
// From which side of a glyph on the plates of letters beside it have room for them, and the least size of such a plate, in pixels.
const LETTERS_FROM = 16;
const LEAST_PLATE = 18;
const HATCH_OF_FACE = 0.3;
const roleOf = (letter) => letter.toLowerCase();

// Checks as calm faces: by X, by Z, which have strokes too, by Y, or grey if the same qubits are checked by several or by a mix of letters.
export function faceElements({ at, side, pitch, scene: { faces, box }, view }) {
  const middle = [view.x + ((box.left + box.right) / 2) * view.scale, view.y + ((box.top + box.bottom) / 2) * view.scale];
  const elements = [];
  const gap = Math.max(0.5, side / 20);
  for (const { qubits, kind, bit } of faces) {
    const points = qubits.map(at);
    if (points.some((point) => !point) || points.every(([x, y]) => x < 0 || y < 0 || x > view.width || y > view.height)) continue;
    const path = points.length === 2 ? lune(...points, middle, gap) : outline(smaller(points, gap), 0.01);
    elements.push({ path, fill: `${kind}-face`, bit });
    if (kind === "z" && pitch >= PATTERN_FROM) elements.push({ path, hatch: "Z", alpha: HATCH_OF_FACE });
  }
  return elements;
}

// Corners, a little towards their middle, so that faces do not touch.
function smaller(points, gap) {
  const middle = [0, 1].map((axis) => points.reduce((sum, point) => sum + point[axis], 0) / points.length);
  return points.map(([x, y]) => {
    const part = 1 - (gap * Math.SQRT2) / Math.max(1, Math.hypot(x - middle[0], y - middle[1]));
    return [middle[0] + (x - middle[0]) * part, middle[1] + (y - middle[1]) * part];
  });
}

// A check of two qubits is a half disc on the outer side.
function lune(a, b, middle, gap) {
  const centre = [(a[0] + b[0]) / 2, (a[1] + b[1]) / 2];
  let angle = Math.atan2(b[1] - a[1], b[0] - a[0]);
  const out = [Math.cos(angle + Math.PI / 2), Math.sin(angle + Math.PI / 2)];
  if (out[0] * (centre[0] - middle[0]) + out[1] * (centre[1] - middle[1]) < 0) angle += Math.PI;
  const radius = Math.max(0, Math.hypot(a[0] - b[0], a[1] - b[1]) / 2 - gap);
  [0, 1].forEach((axis) => { centre[axis] += gap * [Math.cos(angle + Math.PI / 2), Math.sin(angle + Math.PI / 2)][axis]; });
  const start = [centre[0] + radius * Math.cos(angle), centre[1] + radius * Math.sin(angle)];
  return [["M", ...start], ["A", ...centre, radius, angle, angle + Math.PI], ["Z"]];
}

// The one letter of a region, or null if it has several.
function onlyLetter(letters) {
  const all = new Set(letters.values());
  return all.size === 1 ? [...all][0] : null;
}

function seen(letters, at) {
  return [...letters].map(([qubit, letter]) => ({ letter, place: at(qubit) })).filter(({ place }) => place);
}

// Regions that share an error with the chosen one at the moment: outlines alone.
export function neighbourElements({ at, side, scene: { neighbours } }) {
  return neighbours.flatMap((letters) => {
    const points = seen(letters, at).map(({ place }) => place);
    const letter = onlyLetter(letters);
    if (!points.length) return [];
    return [{ path: outline(points, Math.max(3, side * 0.62)), stroke: letter ? roleOf(letter) : "quiet", width: 1.25, dash: [2, 4] }];
  });
}

// The chosen region: a face with the pattern of its letter, or with a disc of its own pattern for each letter.
export function regionElements({ at, side, pitch, scene: { region } }) {
  const spots = region ? seen(region, at) : [];
  if (!spots.length) return [];
  const margin = Math.max(4, side * 0.78);
  const path = outline(spots.map(({ place }) => place), margin);
  const letter = onlyLetter(region);
  const role = letter ? roleOf(letter) : "op";
  const elements = [{ path, fill: `${role}-soft`, hatch: letter && pitch >= PATTERN_FROM ? letter : undefined, stroke: letter ? role : "ink", width: 2 }];
  if (letter || pitch < PATTERN_FROM) return elements;
  return [...elements, ...spots.map((spot) => ({ path: circle(...spot.place, margin * 0.86), hatch: spot.letter }))];
}

// The letter of the region at each qubit: on an idle qubit, or beside what acts on it.
export function letterElements({ at, side, scene: { region } }, busy) {
  if (!region) return [];
  const size = plateSize(side, 0.66, 7, 22);
  return [...region].flatMap(([qubit, letter]) => {
    const place = at(qubit);
    if (!place) return [];
    const away = side >= 12 && busy.has(qubit) ? side * 0.58 : 0;
    return plateAt(letter, place[0] - away, place[1] - away, size);
  });
}

// A ring round each qubit of a set of errors and of marks, and a diamond round what is measured whose coin decides the chosen bit: broken if that is
// at another moment. They come under the numbers of qubits, so that they cross none.
export function ringElements({ at, side, scene: { set = [], marks = [], coins } }) {
  const reach = Math.max(9, side * 0.98);
  const ring = ([x, y]) => circle(x, y, Math.max(7, side * 0.86));
  const diamond = ([x, y]) => [["M", x - reach, y], ["L", x, y - reach], ["L", x + reach, y], ["L", x, y + reach], ["Z"]];
  const rims = [
    ...[...(coins ?? [])].map(([qubit, isHere]) => ({ qubit, isHere, draw: diamond })),
    ...[...set, ...marks].sort((a, b) => a.isHere - b.isHere).map(({ qubit, isHere }) => ({ qubit, isHere, draw: ring })),
  ];
  return rims.filter(({ qubit }) => at(qubit)).flatMap(({ qubit, isHere, draw }) => {
    const path = draw(at(qubit));
    return [{ path, stroke: "sheet", width: 4 }, { path, stroke: "ink", width: 1.75, dash: isHere ? undefined : [3, 4] }];
  });
}

// Errors: the letter above on the right of each of their qubits. Of a set that flips an observable unseen all are drawn.
export function errorElements({ at, side, scene: { set = [] } }) {
  return set.filter(({ qubit }) => at(qubit)).flatMap(({ qubit, letter, isHere }) => errorAt(letter, at(qubit), side, isHere));
}

// Marks of errors in layers: the same, with the number of the layer.
export function markElements({ at, side, scene: { marks = [] } }) {
  const ordered = [...marks].filter(({ qubit }) => at(qubit)).sort((a, b) => a.isHere - b.isHere);
  return ordered.flatMap(({ qubit, letter, layer, isHere }) => {
    const [x, y] = at(qubit);
    const number = { words: String(layer), x: x + side * 1.12, y: y - side * 0.72, size: 12.5, fill: "ink", weight: 700, halo: "sheet" };
    return [...errorAt(letter, [x, y], side, isHere), ...(side >= 18 ? [number] : [])];
  });
}

// What the marks have come to at the end of the moment: the letters below on the left, with the number of the layer.
export function wayElements({ at, side, scene: { ways = [] } }) {
  const size = plateSize(side, 0.6, 8, 20);
  const away = side >= 12 ? side * 0.66 : 0;
  const before = new Map();
  return ways.filter(({ qubit }) => at(qubit)).flatMap(({ qubit, letter, layer }) => {
    const [x, y] = at(qubit);
    const count = before.get(qubit) ?? 0;
    before.set(qubit, count + 1);
    const [left, top] = [x - away - count * size * 1.6, y + away];
    const number = { words: String(layer), x: left - size * 0.8, y: top, size: 12.5, fill: "ink", weight: 700, halo: "sheet" };
    return [...plateAt(letter, left, top, size), ...(side >= 18 ? [number] : [])];
  });
}

function errorAt(letter, [x, y], side, isHere) {
  const away = side >= 12 ? side * 0.6 : 0;
  return plateAt(letter, x + away, y - away, plateSize(side, isHere ? 0.8 : 0.6, 9, 26));
}

// The coins that decide the chosen bit: the mark of such a bit below on the left of what is measured.
export function coinElements({ at, side, scene: { coins } }) {
  const away = side >= 12 ? side * 0.6 : 0;
  const size = Math.max(9, Math.min(22, side * 0.66));
  return [...(coins ?? [])].filter(([qubit]) => at(qubit)).flatMap(([qubit]) => {
    const [x, y] = [at(qubit)[0] - away, at(qubit)[1] + away];
    return [{ path: circle(x, y, size * 0.62), fill: "sheet" }, { glyph: "random", x, y, side: size, role: "quiet" }];
  });
}

const plateSize = (side, part, least, most) => Math.max(side < LETTERS_FROM ? least : LEAST_PLATE, Math.min(most, side * part));

// A letter as its shape, or a wrong record, with a rim that sets it off from what is under it.
export function plateAt(letter, x, y, size) {
  const values = letter === WRONG ? { shape: "measure", role: "m", label: "!" } : { shape: letter, role: roleOf(letter), label: letter };
  return marksOf("letter", values, [[x, y]], size).over;
}
