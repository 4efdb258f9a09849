// @ts-check
// Records by the qubits that were measured: which lookback leads from the end of a moment to the record of a qubit.

import { isRecorded, qubitsOf } from "./instructions.js";
import { countBefore, findNumbered } from "./circuit.js";
import { endOf, momentAt, momentOf, nameOf } from "./moments.js";

// How many moments are looked through for an earlier record.
const MOST_MOMENTS = 2000;

// What is measured in a moment in front of its end, in order: {name, qubits} of each record.
function recordsAt(items, moment) {
  const found = [];
  for (const { item } of momentAt(items, moment)) {
    if (!isRecorded(item.name)) continue;
    if (item.name === "MPP") item.targets.forEach((product) => found.push({ name: product, qubits: product.match(/\d+/g).map(Number) }));
    else qubitsOf(item).forEach((qubit) => found.push({ name: `${item.name} ${qubit}`, qubits: [qubit] }));
  }
  return found;
}

// The records before the end of a moment, from the last one back, each {name, qubits, lookback, moment}.
function* recordsBefore(items, moment) {
  let lookback = 0;
  for (let at = moment; at >= Math.max(0, moment - MOST_MOMENTS); at -= 1) {
    for (const record of recordsAt(items, at).reverse()) {
      lookback -= 1;
      yield { ...record, lookback, moment: at };
    }
  }
}

// The lookbacks of the last `count` records of each qubit, from the end of a moment: [{qubit, lookbacks}]. A product is the record of
// each of its qubits, if all of them are asked for.
export function lookbacksOf(items, moment, qubits, count) {
  const found = new Map(qubits.map((qubit) => [qubit, []]));
  let missing = qubits.length * count;
  for (const record of recordsBefore(items, moment)) {
    if (!record.qubits.every((qubit) => found.has(qubit))) continue;
    for (const qubit of record.qubits) {
      if (found.get(qubit).length >= count) continue;
      found.get(qubit).push({ lookback: record.lookback, isHere: record.moment === moment });
      missing -= 1;
    }
    if (missing === 0) break;
  }
  return [...found].map(([qubit, lookbacks]) => ({ qubit, lookbacks }));
}

// What the record is of that a lookback at an item of a moment names: as "M 0".
export function nameOfRecord(items, moment, path, lookback) {
  let before = 0;
  for (const { item, path: at } of momentAt(items, moment)) {
    if (at.join() === path.join()) break;
    if (isRecorded(item.name)) before += item.targets.length;
  }
  const here = recordsAt(items, moment);
  const from = here.length - before;
  let number = 0;
  for (const { name, lookback: back } of recordsBefore(items, moment)) {
    number = -back - from;
    if (number === -lookback) return name;
  }
  return "";
}

const lookbackWords = (lookbacks) => [...new Set(lookbacks)].map((lookback) => `rec[${lookback}]`).join(" ");

// A detector of the last records of qubits, or with isEach one for each qubit that is measured in the moment, of its record and the one
// before it; answers as the edits of editing.js do.
export function putDetector(items, moment, qubits, { isEach, places, time }) {
  const of = isEach ? each : all;
  const lines = of(items, moment, qubits).map(({ qubit, lookbacks }) => {
    const at = places.get(qubit);
    return `DETECTOR${at ? `(${[...at, time].join(", ")})` : ""} ${lookbackWords(lookbacks)}`;
  });
  return atEnd(items, moment, lines);
}

// A detector of records, by their numbers: it comes after the item of the outermost list that makes the last of them. It has the place of a
// qubit, which may be undefined.
/** @param {import("./types.js").Item[]} items @param {number[]} records @param {number[] | undefined} place @returns {import("./types.js").Made} */
export function putDetectorOf(items, records, place) {
  const at = findNumbered(items, "records", Math.max(...records)).path[0] + 1;
  const before = countBefore(items, "records", [at]);
  const moment = momentOf(items, [at - 1], []);
  const time = items.some((item) => item.name === "SHIFT_COORDS" || item.items?.some(({ name }) => name === "SHIFT_COORDS")) ? 0 : nameOf(items, moment).tick;
  const item = `DETECTOR${place ? `(${[...place, time].join(", ")})` : ""} ${lookbackWords(records.map((record) => record - before))}`;
  return { edits: [{ kind: "insert", place: String(at), item }], round: null, shown: { path: [at], rounds: [] } };
}

// Puts the last records of qubits into an observable.
export function putObservable(items, moment, qubits, number) {
  const lines = all(items, moment, qubits).map(({ lookbacks }) => `OBSERVABLE_INCLUDE(${number}) ${lookbackWords(lookbacks)}`);
  return atEnd(items, moment, lines);
}

function all(items, moment, qubits) {
  const found = lookbacksOf(items, moment, qubits, 1).filter(({ lookbacks }) => lookbacks.length);
  // The qubit that was measured before the others, as the ancilla of a check, says the place.
  const first = [...found].sort((a, b) => a.lookbacks[0].lookback - b.lookbacks[0].lookback)[0];
  return found.length ? [{ qubit: first.qubit, lookbacks: found.flatMap(({ lookbacks }) => lookbacks.map(({ lookback }) => lookback)) }] : [];
}

function each(items, moment, qubits) {
  return lookbacksOf(items, moment, qubits, 2).filter(({ lookbacks }) => lookbacks[0]?.isHere)
    .map(({ qubit, lookbacks }) => ({ qubit, lookbacks: lookbacks.map(({ lookback }) => lookback) }));
}

function atEnd(items, moment, lines) {
  if (!lines.length) return { why: "the chosen qubits have no record here" };
  const { path, rounds } = endOf(items, moment);
  const place = path.join("/");
  return { edits: lines.reverse().map((item) => ({ kind: "insert", place, item })), round: null, shown: { path, rounds } };
}
