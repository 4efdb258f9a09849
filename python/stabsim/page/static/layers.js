// @ts-check
// Marks of errors, in ten layers: they are no part of the circuit, and each layer says what all of its marks flip together, by the program's
// table of faults, and which way they go, as the program runs it (ways.py).

import { momentAfter } from "./keeping.js";
import { endOf, momentsOf } from "./moments.js";

// The product of two Paulis, without its sign; I is "".
const PRODUCTS = { XX: "", YY: "", ZZ: "", XY: "Z", YX: "Z", XZ: "Y", ZX: "Y", YZ: "X", ZY: "X" };

/**
 * The records that the marks of a layer flip, and their letters by moments, each null if that is not known; or why it is not.
 * @typedef {{records: number[] | null, letters: Record<number, Record<number, string>> | null, why: string}} Way
 */
/** @typedef {{layer: number, letter: string, qubit: number, moment: number, where: import("./types.js").Where}} Mark */

export class Layers {
  /** The layer at hand, into which marks are put. @type {number | null} */
  at = null;
  /** @type {Mark[]} */
  marks = [];
  // What the marks of each layer flip, as names; null if that is not known yet.
  #flips = new Map();
  /** @type {Map<number, Way>} */
  #ways = new Map();
  #asked = 0;
  #followed = 0;
  #moments = 0;
  #flipsOf;
  #waysOf;
  #changed;

  // `flipsOf(moment, qubit)` asks what X, Y and Z there flip, and `waysOf(layers)` for the ways of marks; `changed()` is called after each change.
  constructor({ flipsOf, waysOf, changed }) {
    [this.#flipsOf, this.#waysOf, this.#changed] = [flipsOf, waysOf, changed];
  }

  // Takes a layer in hand, or lets go of it.
  take(layer) {
    this.at = layer === this.at ? null : layer;
    this.#changed();
  }

  // Puts marks of the layer at hand on qubits at the end of a moment; two on one place are their product.
  /** @param {string} letter @param {number[]} qubits @param {import("./types.js").Item[]} items @param {number} moment */
  put(letter, qubits, items, moment) {
    for (const qubit of qubits) {
      const found = this.#find(qubit, moment);
      const product = found ? PRODUCTS[found.letter + letter] : letter;
      this.marks = this.marks.filter((mark) => mark !== found);
      if (product) this.marks.push({ layer: this.at ?? 0, letter: product, qubit, moment, where: endOf(items, moment) });
    }
    this.#moments = momentsOf(items);
    this.learn();
  }

  #find(qubit, moment) {
    return this.marks.find((mark) => mark.layer === this.at && mark.qubit === qubit && mark.moment === moment);
  }

  // Takes marks of the layer at hand out; answers whether there were any.
  takeOut(qubits, moment) {
    const gone = new Set(qubits.map((qubit) => this.#find(qubit, moment)).filter(Boolean));
    this.marks = this.marks.filter((mark) => !gone.has(mark));
    if (gone.size) this.learn();
    return gone.size > 0;
  }

  clear(layer) {
    this.marks = this.marks.filter((mark) => mark.layer !== layer);
    this.learn();
  }

  letGo() {
    [this.at, this.marks] = [null, []];
    this.#flips.clear();
    this.#ways.clear();
  }

  // Takes marks over edits. If there are as many moments as before each stays at its own; else it goes with what ends its moment.
  keep({ items, moves, placement }) {
    if (!this.marks.length) return;
    const isAlike = momentsOf(items) === this.#moments;
    this.marks = this.marks.filter(({ qubit, where }) => placement.places.has(qubit) && (isAlike || isThere(where, moves)));
    for (const mark of this.marks) {
      if (!isAlike) mark.moment = momentAfter(items, mark.where, moves);
      mark.where = endOf(items, mark.moment);
    }
    this.#moments = momentsOf(items);
    this.#flips.clear();
    this.#ways.clear();
    this.follow();
  }

  // Finds out what the layers flip, and where their marks go.
  async learn() {
    this.#asked += 1;
    const asked = this.#asked;
    this.#flips.clear();
    this.#changed();
    this.follow();
    const found = await Promise.all(this.used.map(async (layer) => [layer, await this.#flippedBy(layer)]));
    if (asked !== this.#asked) return;
    this.#flips = new Map(/** @type {[number, string[]][]} */ (found));
    this.#changed();
  }

  // Finds out where the marks of the layers go.
  async follow() {
    this.#followed += 1;
    const [followed, layers] = [this.#followed, this.used];
    const found = layers.length ? await this.#waysOf(layers.map((layer) => this.told(layer))) : [];
    if (followed !== this.#followed) return;
    this.#ways = new Map(layers.flatMap((layer, i) => (found?.[i] ? [[layer, found[i]]] : [])));
    this.#changed();
  }

  // The marks of a layer, as the server is told them.
  told(layer) {
    return this.marks.filter((mark) => mark.layer === layer).map(({ letter, qubit, where }) => ({ letter, qubit, ...where }));
  }

  // The way of a layer's marks; null if that is not known yet.
  way(layer) {
    return this.#ways.get(layer) ?? null;
  }

  // The letters of the layers at a moment, each {layer, qubit, letter}.
  lettersAt(moment) {
    return [...this.#ways].flatMap(([layer, { letters }]) => Object.entries(letters?.[moment] ?? {}).map(([qubit, letter]) => ({ layer, qubit: Number(qubit), letter })));
  }

  // The layers that have marks, in order.
  get used() {
    return [...new Set(this.marks.map(({ layer }) => layer))].sort((a, b) => a - b);
  }

  // What the marks of a layer flip together; null if that is not known.
  flips(layer) {
    return this.#flips.get(layer) ?? null;
  }

  async #flippedBy(layer) {
    const marks = this.marks.filter((mark) => mark.layer === layer);
    const each = await Promise.all(marks.map(({ moment, qubit }) => this.#flipsOf(moment, qubit)));
    return each.includes(null) ? null : sumOf(each.map((flips, i) => flips[marks[i].letter] ?? []));
  }
}

// The names that are in an odd number of lists, detectors first.
export function sumOf(lists) {
  const found = new Set();
  for (const name of lists.flat()) if (!found.delete(name)) found.add(name);
  return [...found].sort((a, b) => a[0].localeCompare(b[0]) || Number(a.slice(1)) - Number(b.slice(1)));
}

// Whether no block around a place was taken out.
const isThere = ({ path }, moves) => !moves.some(({ kind, at }) => kind === "delete" && at.length < path.length && at.every((place, i) => place === path[i]));
