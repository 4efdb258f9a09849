// @ts-check
// Noise among the items: channels, and chances of wrong records. It takes no step, cuts no moment, and acts on nothing that is drawn of gates.

import { groupsOf, headOf, isChannel, qubitsOf } from "./instructions.js";

// What the menu of a qubit offers, and that of two, with one chance each.
export const OFFERED = ["X_ERROR", "Z_ERROR", "DEPOLARIZE1"];
export const OFFERED_FOR_PAIRS = "DEPOLARIZE2";

// Whether some item has noise.
/** @param {import("./types.js").Item[]} items @returns {boolean} */
export const hasNoise = (items) => items.some((item) => (item.items ? hasNoise(item.items) : isChannel(item.name) || chanceOf(item) !== ""));

// Of which errors a circuit's distance may be asked: of its own noise, of those that it marks, or everywhere.
/** @param {import("./types.js").Item[]} items @returns {string[]} */
export const kindsOfErrors = (items) => [...(hasNoise(items) ? ["own noise"] : []), ...(hasMarks(items) ? ["marked"] : []), "everywhere"];

/** @param {import("./types.js").Item[]} items @returns {boolean} */
const hasMarks = (items) => items.some((item) => (item.items ? hasMarks(item.items) : item.name === "I"));

// The chance that the records of a measurement are wrong, as it is written, or "".
/** @param {import("./types.js").Item} item @returns {string} */
export const chanceOf = ({ text, records }) => (records && /^\w+(?:\[[^\]]*\])?\(([^)]*)\)/.exec(text)?.[1]) || "";

// The noise among instructions of a moment on each qubit: [{words, path}], with what it is called there.
/** @param {import("./types.js").Instruction[]} instructions */
export function noiseOf(instructions) {
  /** @type {Map<number, {words: string, path: import("./types.js").Path}[]>} */
  const found = new Map();
  const add = (qubit, words, path) => found.set(qubit, [...(found.get(qubit) ?? []), { words, path }]);
  for (const { item, path } of instructions) {
    const chance = chanceOf(item);
    if (chance) for (const qubit of new Set(qubitsOf(item))) add(qubit, `wrong record (${chance})`, path);
    if (isChannel(item.name)) addChannel(item, path, add);
  }
  return found;
}

function addChannel(item, path, add) {
  for (const { words, qubits } of groupsOf(item)) {
    const said = words[0] === String(qubits[0]) && words.length === 1 ? headOf(item) : `${headOf(item)} ${words.join(" ")}`;
    for (const qubit of qubits) add(qubit, said, path);
  }
}
