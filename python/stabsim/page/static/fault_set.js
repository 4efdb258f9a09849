// @ts-check
// Where the errors of a set are that flip an observable and no detector.

import { findNumbered, itemAt, pathOf, roundsOfStep } from "./circuit.js";
import { groupsOf, isChannel, isRecorded } from "./instructions.js";
import { momentOf, nameOf } from "./moments.js";

// The letter of a wrong record among those of Paulis.
export const WRONG = "M";

// Errors, each {steps, path, name, record} as the program names them, at their places: {name, path, moment, tick, letters}, with letters by
// qubits. Before a measurement, or at a mark or noise, the step of an error is that of what follows it; else the error follows its item.
export function placesOfErrors(items, errors) {
  return errors.map((error) => (error.record === null ? placeOfPaulis(items, error) : placeOfRecord(items, error))).filter(Boolean);
}

function placeOfPaulis(items, { steps, path: written, name }) {
  const path = pathOf(written);
  const item = itemAt(items, path);
  if (!item) return null;
  const isBefore = isRecorded(item.name) || item.name === "I" || isChannel(item.name);
  const rounds = roundsOfStep(items, path, isBefore ? steps : steps - 1);
  const letters = new Map(name.split("*").map((factor) => [Number(factor.slice(1)), factor[0]]));
  const said = isRecorded(item.name) ? ` before ${item.name}` : isChannel(item.name) ? ` of ${item.name}` : "";
  return placed(items, { name: `${name}${said}`, path, rounds, letters });
}

function placeOfRecord(items, { record }) {
  const found = findNumbered(items, "records", record);
  if (!found) return null;
  const { words, qubits } = groupsOf(found.item)[found.number];
  const letters = new Map(qubits.map((qubit) => [qubit, WRONG]));
  return placed(items, { name: `wrong ${found.item.name} ${words.join(" ")}`, path: found.path, rounds: found.rounds, letters });
}

function placed(items, { name, path, rounds, letters }) {
  const moment = momentOf(items, path, rounds);
  return { name, path, moment, tick: nameOf(items, moment).name, letters };
}

// The letters of a set, each {qubit, letter, isHere}: those of a moment come last, so that no other is drawn over them.
export function lettersAt(set, moment) {
  const letters = set.flatMap((error) => [...error.letters].map(([qubit, letter]) => ({ qubit, letter, isHere: error.moment === moment })));
  return letters.sort((a, b) => a.isHere - b.isHere);
}

// The letters of a set by moments, each as letters by qubits.
export function lettersByMoments(set) {
  const found = {};
  for (const { moment, letters } of set) Object.assign((found[moment] ??= {}), Object.fromEntries(letters));
  return found;
}
