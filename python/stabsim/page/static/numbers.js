// @ts-check
// How many of each thing there are, and what can be undone.

import { wide } from "./boxes.js";
import { buttonBy, by } from "./by_id.js";

// Says how many detectors and observables are random, or nothing until that is known.
export function sayRandom(deterministic) {
  const random = deterministic?.reduce((sum, it) => sum + (it === 0), 0) ?? 0;
  by("random").textContent = random ? `${random} of ${deterministic.length} random` : "";
}

const count = (number, name) => `${number.toLocaleString("en")} ${name}${number === 1 ? "" : "s"}`;

export function sayNumbers({ numbers, placement, items, position, entries, deterministic }) {
  by("numbers").replaceChildren(
    count(placement.places.size, "qubit"), wide(` · ${count(numbers.steps, "step")}`),
    ` · ${count(numbers.records, "record")} · ${count(numbers.detectors, "detector")} · ${count(numbers.observables, "observable")}`,
    wide(` · ${count(items.length, "item")}`),
  );
  by("numbers").title = by("numbers").textContent;
  sayRandom(deterministic);
  by("drawer").hidden = !placement.drawer.length;
  by("drawer").textContent = `${placement.drawer.length} unused`;
  buttonBy("undo").disabled = position === 0;
  buttonBy("redo").disabled = position === entries.length;
}
