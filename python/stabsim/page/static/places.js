// @ts-check
// Where qubits are: by their coordinates, or if they have none by their gates.

import { arranged } from "./arranging.js";

// The most qubits that are put in a row if none has coordinates.
const MOST_IN_ROW = 12;

// `coordinates` has a list for each qubit, `used` the qubits on which something acts. Answers {places, drawer, box, near,
// hasCoordinates}: a place [x, y] for each qubit that has coordinates or is used, those that are neither, the bounds of all places, and
// the least distance of two. `joined` has pairs of qubits on which gates act, and is asked for if nothing else says the places;
// those that were found so are `known` from then on, so that an edit moves none.
export function placesOf(coordinates, used, joined, known = new Map()) {
  const places = new Map();
  const drawer = [];
  const homeless = [];
  const taken = new Map();
  coordinates.forEach((at, qubit) => {
    if (at.length) places.set(qubit, apart([at[0], at[1] ?? 0], taken));
    else (used.has(qubit) ? homeless : drawer).push(qubit);
  });
  const hasCoordinates = places.size > 0 || homeless.length === 0;
  const rest = hasCoordinates || (homeless.length <= MOST_IN_ROW && !known.size) ? rowOf(homeless) : arrangedOnce(homeless, joined, known);
  const given = boxOf(places);
  for (const [qubit, [x, y]] of rest) places.set(qubit, hasCoordinates ? [given.left + x, given.bottom + 1 + y] : [x, y]);
  // A session may have more qubits than its circuit: those after the last that has a place are nobody's.
  const last = Math.max(-1, ...places.keys());
  return { places, drawer: drawer.filter((qubit) => qubit < last), box: boxOf(places), near: nearOf(places), hasCoordinates };
}

// Those of one place, as of other layers, are a little beside each other.
function apart([x, y], taken) {
  const key = `${x} ${y}`;
  const number = taken.get(key) ?? 0;
  taken.set(key, number + 1);
  return number ? [x + 0.3 * number, y + 0.3 * number] : [x, y];
}

// Those that come later are in a row below the others.
function arrangedOnce(qubits, joined, known) {
  if (!known.size) for (const [qubit, place] of arranged(qubits, joined())) known.set(qubit, place);
  const later = qubits.filter((qubit) => !known.has(qubit));
  const { bottom } = boxOf(known);
  for (const [qubit, [x]] of rowOf(later)) known.set(qubit, [x, bottom + 1]);
  return qubits.map((qubit) => [qubit, known.get(qubit)]);
}

const rowOf = (qubits) => qubits.map((qubit, i) => [qubit, [i, 0]]);

function boxOf(places) {
  if (!places.size) return { left: 0, top: 0, right: 8, bottom: 6 };
  const box = { left: Infinity, top: Infinity, right: -Infinity, bottom: -Infinity };
  for (const [x, y] of places.values()) {
    box.left = Math.min(box.left, x);
    box.right = Math.max(box.right, x);
    box.top = Math.min(box.top, y);
    box.bottom = Math.max(box.bottom, y);
  }
  return box;
}

// The least distance of two qubits, by those of neighbouring columns.
function nearOf(places) {
  const sorted = [...places.values()].sort((a, b) => a[0] - b[0]);
  let least = Infinity;
  sorted.forEach(([x, y], i) => {
    for (let j = i + 1; j < sorted.length && sorted[j][0] - x < least; j += 1) {
      const far = Math.hypot(sorted[j][0] - x, sorted[j][1] - y);
      if (far > 0) least = Math.min(least, far);
    }
  });
  return least === Infinity ? 1 : least;
}

// What is nearest to a place in a direction, by its name; null if nothing is.
export function neighbourOf(places, from, [across, down]) {
  let [best, least] = [null, Infinity];
  for (const [qubit, [x, y]] of places) {
    const along = (x - from[0]) * across + (y - from[1]) * down;
    const aside = Math.abs((x - from[0]) * down) + Math.abs((y - from[1]) * across);
    if (along > 0 && along + 2 * aside < least) [best, least] = [qubit, along + 2 * aside];
  }
  return best;
}
