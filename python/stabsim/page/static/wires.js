// @ts-check
// What acts on some qubits in moments that follow each other, and the drawing of it: a line a qubit, time to the right, as elements (glyphs.js).

import { circle, gates } from "./glyphs.js";
import { PAULIS, actionsOf, qubitsOf } from "./instructions.js";
import { actingAt, momentAt, nameOf } from "./moments.js";
import { noiseOf } from "./noise.js";
import { plateAt } from "./region_drawing.js";

// How high a line is, how wide a moment, where lines begin, and how high the head with the ticks is.
export const ROW = 36;
export const STEP = 46;
export const LEFT = 46;
export const HEAD = 22;
// How far the number of a partner reaches below its line.
export const FOOT = 6;
// So that two letters have 12.5 pixels; and of what has none.
const SIDE = 24.1;
const PAIR = 18;
const LETTER = 18;
const NOISE = 10;
// How far below its line a partner's number is: below what acts there, and above the next line.
const PARTNER = 17;
// Where noise is beside the middle of a gate: the number of a partner on the line above is over the middle.
const BESIDE = [-13, -11];
// How far from the middle of a gate an error beside it is: it leaves room for the letters at the end of the moment.
const ERROR = [8, -10];

// What acts on the qubits at a moment, each {places, glyphs, partners}: on which of the lines, what is drawn there, and the qubits of the same
// gate that have none.
/** @param {import("./types.js").Item[]} items @param {number} moment @param {number[]} qubits */
export function actsOn(items, moment, qubits) {
  const lineOf = new Map(qubits.map((qubit, line) => [qubit, line]));
  const isThere = ({ item }) => qubitsOf(item).some((qubit) => lineOf.has(qubit));
  return actingAt(items, moment).filter(isThere).flatMap(({ item }) => actionsOf(item).map((action) => actOf(item, action, lineOf)).filter(({ places }) => places.length));
}

/** @param {import("./types.js").Item} item */
function actOf({ name }, action, lineOf) {
  const { qubits } = action;
  const shown = qubits.map((qubit, i) => ({ qubit, glyph: glyphOf(name, action, i) }));
  const here = shown.filter(({ qubit }) => lineOf.has(qubit));
  return { places: here.map(({ qubit }) => lineOf.get(qubit)), glyphs: here.map(({ glyph }) => glyph), partners: qubits.filter((qubit) => !lineOf.has(qubit)) };
}

function glyphOf(name, { factors, record }, i) {
  if (record) return { glyph: "gate", role: name.at(-1).toLowerCase(), label: name.at(-1) };
  if (factors) return { glyph: "factor", role: factors[i].role, label: factors[i].label };
  const { shape, role, label, first, second } = gates[name];
  return first ? { glyph: i ? second : first, role: "wire" } : { glyph: shape, role, label };
}

// The moments that have room in this width, with the one that is shown among them: the first, and how many.
export function momentsIn(width, moment, moments) {
  const count = Math.max(1, Math.min(moments, Math.floor((width - LEFT) / STEP)));
  return { first: Math.max(0, Math.min(moments - count, moment - Math.floor(count / 3))), count };
}

// `shown` has items, moments, moment, qubits, and marks and ways, which answer those of a moment, each {layer, qubit, letter}. Answers layers
// of elements, the lowest first.
export function wiresOf({ items, moment, qubits, marksAt, waysAt }, { width, first, count }) {
  const y = (line) => HEAD + (line + 0.5) * ROW;
  const x = (at) => LEFT + (at - first + 0.5) * STEP;
  const height = HEAD + qubits.length * ROW;
  const layers = { ground: [], joints: [], glyphs: [], letters: [] };
  layers.ground.push({ path: box(x(moment) - STEP / 2, 0, STEP, height), fill: "chosen" });
  qubits.forEach((qubit, line) => {
    layers.ground.push({ path: [["M", LEFT, y(line)], ["L", width, y(line)]], stroke: "edge", width: 1.25 });
    layers.ground.push({ words: String(qubit), x: LEFT - 8, y: y(line), size: 12.5, fill: "ink", weight: 600, align: "right" });
  });
  for (let at = first; at < first + count; at += 1) {
    layers.ground.push({ words: nameOf(items, at).name, x: x(at), y: HEAD / 2, size: 12.5, fill: at === moment ? "ink" : "quiet", weight: at === moment ? 700 : 400 });
    const busy = new Map();
    for (const act of actsOn(items, at, qubits)) drawAct(layers, act, x(at), y, busy);
    const noise = noiseOf(momentAt(items, at));
    qubits.forEach((qubit, line) => noise.has(qubit) && layers.letters.push({ glyph: "noise", x: x(at) + BESIDE[0], y: y(line) + BESIDE[1], side: NOISE, role: "quiet" }));
    drawLetters(layers, qubits, { letters: waysAt(at), marks: marksAt(at) }, [x(at) + STEP / 2, y]);
  }
  return [layers.ground, layers.joints, layers.glyphs, layers.letters];
}

// A gate on several lines is joined; the number of a qubit that has none stands beside it. An error that comes after something else on its line,
// of which `busy` has how many are there, is beside that.
function drawAct(layers, { places, glyphs, partners }, x, y, busy) {
  const before = busy.get(places[0]) ?? 0;
  for (const line of places) busy.set(line, (busy.get(line) ?? 0) + 1);
  if (before && PAULIS.includes(glyphs[0].label) && glyphs[0].glyph === "gate") {
    layers.letters.push(...plateAt(glyphs[0].label, x + ERROR[0] + (before - 1) * LETTER, y(places[0]) + ERROR[1], LETTER));
    return;
  }
  const [top, bottom] = [Math.min(...places), Math.max(...places)];
  if (top < bottom) layers.joints.push({ path: [["M", x, y(top)], ["L", x, y(bottom)]], stroke: "wire", width: 1.5 });
  places.forEach((line, i) => layers.glyphs.push({ ...glyphs[i], x, y: y(line), side: glyphs[i].label ? SIDE : PAIR }));
  if (!partners.length) return;
  const words = partners.length > 1 ? `${partners[0]} …` : String(partners[0]);
  layers.letters.push({ words, x, y: y(bottom) + PARTNER, size: 12.5, fill: "quiet", halo: "sheet" });
}

// At the end of a moment the letters that marks have come to, those of several layers over each other, and a ring round what was put in there.
function drawLetters(layers, qubits, { letters, marks }, [x, y]) {
  qubits.forEach((qubit, line) => {
    const here = letters.filter((it) => it.qubit === qubit);
    here.forEach(({ letter, layer }, i) => {
      const top = y(line) + (i - (here.length - 1) / 2) * LETTER;
      layers.letters.push(...plateAt(letter, x, top, LETTER));
      if (marks.some((mark) => mark.qubit === qubit && mark.layer === layer)) layers.letters.push({ path: circle(x, top, 12), stroke: "ink", width: 1.75 });
    });
  });
}

const box = (x, y, width, height) => [["M", x, y], ["L", x + width, y], ["L", x + width, y + height], ["L", x, y + height], ["Z"]];
