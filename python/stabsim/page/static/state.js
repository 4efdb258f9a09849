// @ts-check
// What all views show of the circuit: the server's events alone change it.

import { applyEdits, blocksAround, itemAt, parseCircuit, pathOf } from "./circuit.js";
import { isPair, isRecord, pairsOf, qubitOf, qubitsOf } from "./instructions.js";
import { placesOf } from "./places.js";
import { Uses } from "./uses.js";

const ENCODER = new TextEncoder();

// Characters 0 and 1 as numbers.
const bitsOf = (line) => ENCODER.encode(line).map((letter) => letter & 1);

export class State {
  age = 0;
  name = "";
  /** @type {import("./types.js").Item[]} */
  items = [];
  numbers = { qubits: 0, steps: 0, records: 0, detectors: 0, observables: 0 };
  /** @type {Uint8Array | null} */
  deterministic = null;
  /** @type {{text: string, changed: string[]}[]} */
  entries = [];
  position = 0;
  markedAt = 0;
  savedAt = 0;
  /** @type {Set<string>} */
  flipped = new Set();
  /** @type {Set<string>} */
  marked = new Set();
  uses = new Uses();
  /** @type {import("./types.js").Placement | null} */
  placement = null;
  /** @type {Map<number, import("./types.js").Spot>} */
  arranged = new Map();
  /** The last edits, as applyEdits answers them. @type {import("./types.js").Move[]} */
  moves = [];
  // The items that have a line which was given for them.
  #noted = [];

  constructor(event) {
    Object.assign(this, {
      age: event.age,
      name: event.name,
      items: parseCircuit(event.circuit),
      numbers: event.numbers,
      deterministic: event.deterministic === null ? null : bitsOf(event.deterministic),
      entries: event.entries,
      position: event.position,
      markedAt: event.marked_at,
      savedAt: event.saved_at,
      flipped: new Set(event.flipped),
      marked: new Set(event.marked),
    });
    this.uses.count(this.items, 1);
    this.takeWritten(event.written);
    this.#takeBits(event);
    this.#place();
  }

  // Edits that were made, by this tab or another. Entries that were undone are gone if new ones came.
  take(event) {
    const used = [...this.uses.acting].join();
    this.moves = applyEdits(this.items, event.edits, (move) => this.#countUses(move));
    if (event.entries.length) this.entries.splice(event.position - event.entries.length, Infinity, ...event.entries);
    // A mark that has moved counts from where the history goes on.
    if (event.marked_at !== this.markedAt) this.marked.clear();
    Object.assign(this, {
      age: event.age, position: event.position, markedAt: event.marked_at, savedAt: event.saved_at, flipped: new Set(event.flipped), deterministic: null,
    });
    for (const name of event.flipped) if (!this.marked.delete(name)) this.marked.add(name);
    const isMoved = event.detectors !== undefined || event.numbers.qubits !== this.numbers.qubits || [...this.uses.acting].join() !== used;
    this.numbers = event.numbers;
    if (event.detectors === undefined) event.flipped.forEach((name) => this.#flip(name));
    else this.#takeBits(event);
    if (isMoved) this.#place();
  }

  // Notes at items which line was given for them: [the path of the first, how many they are, the line] of each.
  takeWritten(written) {
    for (const item of this.#noted) delete item.written;
    this.#noted = [];
    for (const [place, count, text] of written) this.#note(pathOf(place), count, text);
  }

  #note(path, count, text) {
    for (let part = 0; part < count; part += 1) {
      const item = itemAt(this.items, [...path.slice(0, -1), path.at(-1) + part]);
      item.written = { text, count, part };
      this.#noted.push(item);
    }
  }

  /** @param {import("./types.js").Move} move */
  #countUses({ kind, at, before, after }) {
    const rounds = blocksAround(this.items, at).reduce((product, { count }) => product * count, 1);
    if (kind === "delete" || kind === "replace") this.uses.count([before], -rounds);
    if (kind === "insert" || kind === "replace") this.uses.count([after], rounds);
  }

  // The qubits that are measured more than once.
  get ancillas() {
    return this.uses.ancillas;
  }

  takeDeterministic(line) {
    this.deterministic = bitsOf(line);
  }

  mark(position) {
    this.marked.clear();
    this.markedAt = position;
  }

  // Whether the circuit is another than the one that was saved last.
  get isUnsaved() {
    return this.position !== this.savedAt;
  }

  // Of a bit as D3 or L0: whether there is one, and whether a coin decides it, as far as that is known.
  isThere(bit) {
    return bit !== null && Number(bit.slice(1)) < this.#listOf(bit).length;
  }

  isRandom(bit) {
    return this.deterministic?.[Number(bit.slice(1)) + (bit.startsWith("D") ? 0 : this.detectors.length)] === 0;
  }

  // How a bit is drawn: "random" if a coin decides it, "flipped" if it is one of `flips`, or "bit0" or "bit1".
  kindOf(bit, flips) {
    if (this.isRandom(bit)) return "random";
    if (flips.has(bit)) return "flipped";
    return this.#listOf(bit)[Number(bit.slice(1))] ? "bit1" : "bit0";
  }

  // The detectors from one to before another that are drawn otherwise than as 0, in order.
  toldBetween(first, end, flips) {
    const { detectors, deterministic } = this;
    const told = [];
    for (let number = first; number < end; number += 1) if (detectors[number] === 1 || deterministic?.[number] === 0) told.push(number);
    const flipped = [...flips].filter((name) => name.startsWith("D")).map((name) => Number(name.slice(1)));
    return [...new Set([...told, ...flipped.filter((number) => number >= first && number < end)])].sort((a, b) => a - b);
  }

  #listOf(bit) {
    return bit.startsWith("D") ? this.detectors : this.observables;
  }

  #flip(name) {
    this.#listOf(name)[Number(name.slice(1))] ^= 1;
  }

  #takeBits(event) {
    this.detectors = bitsOf(event.detectors);
    this.observables = bitsOf(event.observables);
    this.coordinates = event.detector_coordinates;
    this.qubitCoordinates = event.qubit_coordinates;
  }

  #place() {
    this.placement = placesOf(this.qubitCoordinates, this.uses.acting, () => joinedIn(this.items), this.arranged);
  }
}

// The pairs of qubits on which gates act.
function joinedIn(items) {
  return items.flatMap((item) => {
    if (item.items) return joinedIn(item.items);
    if (item.name === "MPP") return qubitsOf(item).slice(1).map((qubit, i) => [qubitsOf(item)[i], qubit]);
    return isPair(item.name) ? pairsOf(item).filter((pair) => !pair.some(isRecord)).map((pair) => pair.map(qubitOf)) : [];
  });
}
