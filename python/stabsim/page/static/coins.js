// @ts-check
// Which measurements and resets the coins are of that decide a detector or an observable.

import { findNumbered } from "./circuit.js";
import { groupsOf } from "./instructions.js";
import { momentOf, nameOf } from "./moments.js";

// Where coins are thrown, each {name, path, rounds, moment, tick, qubits}: `name` is what the coin decides, as M 2, and `tick` what its
// moment is called. Numbers of which the circuit has no coin are left out.
export function placesOfCoins(items, numbers) {
  return numbers.map((number) => findNumbered(items, "coins", number)).filter(Boolean).map(({ item, path, rounds, number }) => {
    const { words, qubits } = groupsOf(item)[number];
    const moment = momentOf(items, path, rounds);
    return { name: `${item.name} ${words.join(" ")}`, path, rounds, moment, tick: nameOf(items, moment).name, qubits };
  });
}

// The qubits of coins, each with whether its coin is thrown at a moment.
export function qubitsOfCoins(coins, moment) {
  const found = new Map();
  for (const coin of coins) for (const qubit of coin.qubits) found.set(qubit, found.get(qubit) || coin.moment === moment);
  return found;
}
