// @ts-check
// Qubits that are put on other places of the grid: their lines QUBIT_COORDS are written anew.

// The edits by which chosen qubits go to the places that `moved` makes of theirs, as those of editing.js. If qubits are placed by their
// gates alone, the places of all are written down, so that they stay.
export function replaceQubits(items, qubits, placement, moved) {
  const wanted = new Set(qubits.filter((qubit) => placement.places.has(qubit)));
  if (!wanted.size) return { why: "choose qubits first" };
  const name = `move ${wanted.size === 1 ? `qubit ${[...wanted][0]}` : `${wanted.size} qubits`}`;
  const edits = placement.hasCoordinates ? items.flatMap((item, place) => (item.name === "QUBIT_COORDS" ? written(item, place, wanted, moved) : [])).reverse().flat()
    : [...placement.places].map(([qubit, at], i) => insert(i, wanted.has(qubit) ? moved(at) : at, qubit));
  return edits.length ? { edits, round: null, shown: null, name } : { why: "their places are not written in the circuit's own lines" };
}

// What takes the place of one line, if it has some of the qubits: the others stay in it.
function written(item, place, wanted, moved) {
  const [ours, others] = [item.targets.filter((it) => wanted.has(Number(it))), item.targets.filter((it) => !wanted.has(Number(it)))];
  if (!ours.length) return [];
  const at = /\(([^)]*)\)/.exec(item.text)[1].split(",").map(Number);
  const line = { kind: others.length ? "insert" : "replace", place: String(place), item: textOf([...moved(at), ...at.slice(2)], ours) };
  return [others.length ? [line, { kind: "replace", place: String(place + 1), item: textOf(at, others) }] : [line]];
}

const insert = (place, at, qubit) => ({ kind: "insert", place: String(place), item: textOf(at, [qubit]) });
const textOf = (at, qubits) => `QUBIT_COORDS(${at.map((it) => Math.round(it * 1e6) / 1e6).join(", ")}) ${qubits.join(" ")}`;

// The ways in which places are moved: by a step, by a quarter turn to the right, and mirrored; the upper left corner of all stays.
export const shiftBy = ([across, down]) => ([x, y]) => [x + across, y + down];

export function turned(places) {
  const { left, top, bottom } = boundsOf(places);
  return ([x, y]) => [left + bottom - y, top + x - left];
}

export function mirrored(places, isDown) {
  const { left, top, right, bottom } = boundsOf(places);
  return ([x, y]) => (isDown ? [x, top + bottom - y] : [left + right - x, y]);
}

function boundsOf(places) {
  const [across, down] = [places.map(([x]) => x), places.map(([, y]) => y)];
  return { left: Math.min(...across), right: Math.max(...across), top: Math.min(...down), bottom: Math.max(...down) };
}
