// @ts-check
// What is said of a detector under the pointer, and of what an edit flipped.

import { by } from "./by_id.js";
import { findNumbered } from "./circuit.js";

// {words, path} of a detector or observable, as D3 or L0.
export function saidOfBit(bit, state) {
  const number = Number(bit.slice(1));
  if (bit.startsWith("L")) return { words: `${bit} is ${state.observables[number]}${kindOf(bit, state)}`, path: null };
  const found = findNumbered(state.items, "detectors", number);
  const records = found.item.targets.map((target) => found.records - Number(/\d+/.exec(target)[0]));
  const at = state.coordinates[number]?.length ? ` at (${state.coordinates[number].join(", ")})` : "";
  const rounds = found.rounds.length ? `, round ${found.rounds.join("/")}` : "";
  const words = `${bit}${at} is ${state.detectors[number]}${kindOf(bit, state)}; item ${found.path.join("/")}${rounds}; records ${records.join(" ") || "none"}`;
  return { words, path: found.path };
}

function kindOf(bit, state) {
  if (state.deterministic === null) return "";
  return state.isRandom(bit) ? ", random" : ", deterministic";
}

// Shows words beside a place of the window, or with none hides them.
/** @param {string} words @param {{left: number, top: number}} place */
export function showWords(words, place) {
  by("tip").hidden = !words;
  if (!words) return;
  by("tip").textContent = words;
  by("tip").style.left = `${Math.min(place.left + 14, innerWidth - by("tip").offsetWidth - 4)}px`;
  by("tip").style.top = `${Math.min(place.top + 14, innerHeight - by("tip").offsetHeight - 4)}px`;
}

const MOST_FLIPS = 12;

// What an edit flipped, in words for those who do not see it.
export function saidOfFlips(flipped) {
  if (!flipped.length) return "flips nothing";
  return `flips ${flipped.slice(0, MOST_FLIPS).join(" ")}${flipped.length > MOST_FLIPS ? ` and ${flipped.length - MOST_FLIPS} more` : ""}`;
}
