// @ts-check
// On which qubits the items of a circuit act, and which are measured more than once, as ancillas are.

import { isRecorded, qubitsOf, resets } from "./instructions.js";

export class Uses {
  acting = new Set();
  ancillas = new Set();
  #acts = new Map();
  #measures = new Map();

  // Takes note of items, each carried out `rounds` times, or with a negative number of those that are gone.
  count(items, rounds) {
    for (const item of items) {
      if (item.items) this.count(item.items, item.count * rounds);
      else this.#countItem(item, rounds);
    }
  }

  #countItem(item, rounds) {
    // A product is of data. What is reset with its measurement is measured again.
    const measured = isRecorded(item.name) && item.name !== "MPP" ? rounds * (resets(item.name) ? 2 : 1) : 0;
    for (const qubit of qubitsOf(item)) {
      add(this.#acts, qubit, rounds, this.acting, 1);
      if (measured) add(this.#measures, qubit, measured, this.ancillas, 2);
    }
  }
}

// Adds to the count of a qubit, which is in `found` from a least count on.
function add(counts, qubit, more, found, least) {
  const count = (counts.get(qubit) ?? 0) + more;
  counts.set(qubit, count);
  if (count >= least) found.add(qubit);
  else found.delete(qubit);
}
