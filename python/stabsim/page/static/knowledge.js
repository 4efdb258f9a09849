// @ts-check
// What the program's table of faults says of the circuit: what each Pauli would flip, and where bits have their regions. It is asked for
// when it is shown, and known until the next edit.

import { areApart } from "./faces.js";
import { isRecorded } from "./instructions.js";
import { momentAt, momentsOf } from "./moments.js";

// How many moments are looked through for one in which something is measured.
const MOST_MOMENTS = 60;
// A region of more qubits is no check.
const MOST_OF_CHECK = 12;

export class Knowledge {
  #ask;
  #slices = new Map();
  #flips = new Map();
  #coins = new Map();

  // `ask(question)` asks the server.
  constructor(ask) {
    this.#ask = ask;
  }

  forget() {
    this.#slices.clear();
    this.#flips.clear();
    this.#coins.clear();
  }

  // The region of a bit as letters by moments, {region}, or {why} there is none.
  async region(bit) {
    const answer = await this.#ask({ ask: "region", bit }).catch(() => ({}));
    return { region: answer.region ?? {}, why: answer.why ?? "" };
  }

  // The numbers of the coins that decide a bit; null if the program does not say them.
  coins(bit) {
    return this.#kept(this.#coins, bit, { ask: "why", bit }, (answer) => answer.coins ?? null);
  }

  // The ways of the marks of layers (ways.py), in the circuit of an age; null if they are not known.
  async ways(layers, age) {
    const { ways } = await this.#ask({ ask: "ways", layers, age }).catch(() => ({}));
    return ways ?? null;
  }

  // What X, Y and Z on a qubit at the end of a moment would flip; null until the table is there.
  flips(moment, qubit) {
    return this.#kept(this.#flips, `${moment} ${qubit}`, { ask: "faults", moment, qubit }, (answer) => answer.flips ?? null);
  }

  // All regions at the end of a moment, {bit: Map of letters by qubits}; null until the table is there.
  slice(moment) {
    return this.#kept(this.#slices, moment, { ask: "slice", moment }, (answer) => (answer.slice ? slicesOf(answer.slice) : null));
  }

  async #kept(known, key, question, read) {
    if (!known.has(key)) known.set(key, this.#ask(question).then(read).catch(() => null));
    const found = await known.get(key);
    // What is not there yet is asked for again.
    if (!found && known.get(key)) known.delete(key);
    return found;
  }

  // The faces of checks round a moment of a state: those of the last moment up to it, and of the first after it, in which something is measured.
  async faces({ items, ancillas, placement: { places, near } }, moment) {
    const moments = measuredRound(items, moment);
    const slices = await Promise.all(moments.map((it) => this.slice(it)));
    if (slices.some((slice) => slice === null)) return null;
    const faces = facesOf(slices, ancillas);
    return areApart(faces, places, near) ? faces : [];
  }

  // The regions at a moment that share an error with that of a bit.
  async neighbours(bit, moment) {
    const slice = await this.slice(moment);
    return slice ? neighboursOf(slice, bit) : [];
  }
}

// Of each bit the server says the qubits, and their letters as one word.
function slicesOf(slice) {
  return Object.fromEntries(Object.entries(slice).map(([bit, [qubits, letters]]) => [bit, new Map(qubits.map((qubit, i) => [qubit, letters[i]]))]));
}

// The moments next to one in which something is measured: the last up to it, and the first after it.
export function measuredRound(items, moment) {
  const isMeasured = (at) => momentAt(items, at).some(({ item }) => isRecorded(item.name));
  const found = [];
  for (let at = moment; at >= Math.max(0, moment - MOST_MOMENTS); at -= 1) {
    if (isMeasured(at)) {
      found.push(at);
      break;
    }
  }
  for (let at = moment + 1; at < Math.min(momentsOf(items), moment + MOST_MOMENTS); at += 1) {
    if (isMeasured(at)) return [...found, at];
  }
  return found;
}

// The faces of slices: of each detector the qubits that are no ancillas, with the kind of its letters, or "op" for several; `bit` is the
// first of those that have them.
export function facesOf(slices, ancillas) {
  const faces = new Map();
  for (const slice of slices) {
    for (const [bit, letters] of Object.entries(slice)) {
      if (!bit.startsWith("D")) continue;
      const qubits = [...letters.keys()].filter((qubit) => !ancillas.has(qubit)).sort((a, b) => a - b);
      if (qubits.length < 2 || qubits.length > MOST_OF_CHECK) continue;
      const own = new Set(qubits.map((qubit) => letters.get(qubit)));
      const kind = own.size > 1 ? "op" : [...own][0].toLowerCase();
      const key = qubits.join(" ");
      const known = faces.get(key);
      faces.set(key, { qubits, kind: known && known.kind !== kind ? "op" : kind, bit: known?.bit ?? bit });
    }
  }
  // Greater ones are drawn first, so that none hides another.
  return [...faces.values()].sort((a, b) => b.qubits.length - a.qubits.length);
}

// Whether faces are those of another list.
export const areFaces = (faces, others) => faces.length === others.length
  && faces.every(({ qubits, kind, bit }, i) => kind === others[i].kind && bit === others[i].bit && qubits.join() === others[i].qubits.join());

// The regions that some Pauli on one qubit flips together with that of a bit.
export function neighboursOf(slice, bit) {
  const own = slice[bit];
  if (!own) return [];
  const isHit = (letters) => [...own].some(([qubit, letter]) => letters.has(qubit) && ["X", "Y", "Z"].some((pauli) => pauli !== letter && pauli !== letters.get(qubit)));
  return Object.entries(slice).filter(([other, letters]) => other !== bit && other.startsWith("D") && isHit(letters)).map(([, letters]) => letters);
}
