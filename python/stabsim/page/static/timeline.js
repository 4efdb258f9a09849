// @ts-check
// What a timeline shows of a circuit: the moment and the row of each detector, the rounds of moments, and what happens in each.

import { derived } from "./counts.js";
import { PAULIS, acts } from "./instructions.js";
import { actingAt, momentAt, momentsOfDetectors, nameOf } from "./moments.js";

export class Timeline {
  #items;
  #peers = new Map();
  #known = new Map();

  // state: {items, coordinates}, with a list of coordinates for each detector.
  constructor({ items, coordinates }) {
    this.#items = items;
    this.moments = momentsOfDetectors(items);
    const { rowOf, rows } = rowsOf(this.moments, coordinates);
    this.rowOf = rowOf;
    this.rows = rows;
  }

  // Whether its detectors are where those of another timeline are.
  isLike(other) {
    const { moments, rowOf } = other;
    let same = 0;
    while (same < moments.length && moments[same] === this.moments[same]) same += 1;
    return this.rowOf === rowOf && this.moments.length === moments.length && same === moments.length;
  }

  // The first of the detectors from one moment to before another, and the first one after them.
  range(from, to) {
    return [this.#firstFrom(from), this.#firstFrom(to)];
  }

  // Their numbers.
  *between(from, to) {
    const [first, end] = this.range(from, to);
    for (let number = first; number < end; number += 1) yield number;
  }

  // How far a detector is beside the middle of its moment, from -1/2 to 1/2, since several may have one place.
  side(detector) {
    const moment = this.moments[detector];
    if (!this.#peers.has(moment)) this.#peers.set(moment, this.#peersAt(moment));
    const peers = this.#peers.get(moment).get(this.rowOf[detector]);
    return (peers.indexOf(detector) - (peers.length - 1) / 2) / peers.length;
  }

  name(moment) {
    return this.#of(moment).name;
  }

  // What says most of a moment: a Pauli that was put in and not the gates beside it, else the last item that acts.
  operation(moment) {
    return this.#of(moment).operation;
  }

  // Stretches of moments of the same round, as {from, to, label, short, isBlock, isOdd}.
  bands(first, last) {
    const bands = [];
    for (let moment = first; moment <= last; moment += 1) {
      const { key, band } = this.#of(moment);
      if (bands.at(-1)?.key === key) bands.at(-1).to = moment + 1;
      else bands.push({ key, from: moment, to: moment + 1, ...band });
    }
    return bands;
  }

  // Detectors are numbered in the order of time.
  #firstFrom(moment) {
    let [low, high] = [0, this.moments.length];
    while (low < high) {
      const middle = (low + high) >> 1;
      if (this.moments[middle] < moment) low = middle + 1;
      else high = middle;
    }
    return low;
  }

  // The detectors of a moment, by their rows.
  #peersAt(moment) {
    const found = new Map();
    for (const number of this.between(moment, moment + 1)) {
      const row = this.rowOf[number];
      if (found.has(row)) found.get(row).push(number);
      else found.set(row, [number]);
    }
    return found;
  }

  #of(moment) {
    if (!this.#known.has(moment)) this.#known.set(moment, this.#found(moment));
    return this.#known.get(moment);
  }

  #found(moment) {
    const acting = actingAt(this.#items, moment);
    const operation = (acting.find(({ item }) => PAULIS.includes(item.name)) ?? acting.at(-1))?.item ?? null;
    const { path, rounds } = roundOf(acting.length ? acting : momentAt(this.#items, moment));
    const key = rounds.length ? `${path.slice(0, rounds.length).join("/")} ${rounds.join("/")}` : "";
    return { name: nameOf(this.#items, moment), operation, key, band: this.#bandOf(path, rounds) };
  }

  #bandOf(path, rounds) {
    if (!rounds.length) return { label: "once", short: "", isBlock: false, isOdd: false };
    const round = rounds.at(-1);
    return { label: `${path.slice(0, rounds.length).join("/")}: round ${round}`, short: String(round), isBlock: true, isOdd: round % 2 === 1 };
  }
}

// The round of a moment: that of what acts in it, else that of what ends it.
export function roundOf(instructions) {
  const shown = instructions.findLast(({ item }) => acts(item.name)) ?? instructions.at(-1);
  return shown ? { path: shown.path, rounds: shown.rounds } : { path: [], rounds: [] };
}

// The row of each detector: one for each place by its coordinates without time, from above; without any, one after another.
function rowsOf(moments, coordinates) {
  const { rows, keys, isWhole } = derived(coordinates, "rows", placesOf);
  const rowOf = derived(coordinates, "rowOf", () => Int32Array.from(keys, (key) => rows.get(key) ?? 0));
  if (isWhole) return { rowOf, rows: rows.size };
  const counts = new Map();
  let most = 0;
  const mixed = Int32Array.from(rowOf, (row, number) => {
    if (keys[number] !== null) return row;
    const place = counts.get(moments[number]) ?? 0;
    counts.set(moments[number], place + 1);
    most = Math.max(most, place + 1);
    return rows.size + place;
  });
  return { rowOf: mixed, rows: rows.size + most };
}

// The row of each place, and the place of each detector, or null.
function placesOf(coordinates) {
  const keys = coordinates.map((at) => (at.length ? keyOf(at) : null));
  const places = new Map();
  coordinates.forEach((at, number) => at.length && places.set(keys[number], at));
  const order = [...places].sort(([, a], [, b]) => (a[1] ?? 0) - (b[1] ?? 0) || a[0] - b[0]);
  return { keys, rows: new Map(order.map(([key], row) => [key, row])), isWhole: keys.every((key) => key !== null) };
}

// Of three coordinates or more the third is time; of fewer the last.
const keyOf = (at) => at.slice(0, at.length >= 3 ? 2 : at.length - 1).join();
