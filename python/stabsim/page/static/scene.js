// @ts-check
// What the views are given of what is shown: the picture of a moment (drawing.js), and time (timeline_view.js).

import { qubitsOfCoins } from "./coins.js";
import { lettersAt, lettersByMoments } from "./fault_set.js";
import { momentsOf } from "./moments.js";
import { nameOfRecord } from "./records.js";
import { mapOf } from "./regions.js";

// `shown` has state, moment, instructions, often, noise, chosen, waiting, set and layers; `followed` is what followed.js has; `known` has {faces, neighbours}.
export function sceneOf({ state, moment, instructions, often, noise, chosen, waiting, set, layers }, followed, { faces, neighbours }) {
  return {
    ...state.placement,
    ancillas: state.ancillas,
    instructions,
    often,
    noise,
    recordName: ({ path }, target) => nameOfRecord(state.items, moment, path, Number(/-?\d+/.exec(target)[0])),
    faces,
    region: mapOf(followed.region[moment]),
    coins: qubitsOfCoins(followed.coins ?? [], moment),
    set: lettersAt(set, moment),
    ways: layers.lettersAt(moment),
    marks: layers.marks.map((mark) => ({ ...mark, isHere: mark.moment === moment })),
    neighbours,
    chosen,
    waiting,
  };
}

// What the view of wires is given (wires.js).
export function wiresOfShown({ state: { items }, moment, chosen, layers }) {
  const marksAt = (at) => layers.marks.filter((mark) => mark.moment === at);
  return { items, moments: momentsOf(items), moment, qubits: chosen, marksAt, waysAt: (at) => layers.lettersAt(at) };
}

// `flips` has the bits that are drawn as flipped.
export function timeOf({ state, moment, set, layers }, { bit, region, coins }, flips) {
  return {
    items: state.items, moments: momentsOf(state.items), moment, bit, region, coins, set: lettersByMoments([...set, ...layers.marks.map((mark) => ({ moment: mark.moment, letters: new Map([[mark.qubit, mark.letter]]) }))]),
    hit: layers.at === null ? [] : layers.flips(layers.at) ?? [],
    observables: state.observables, coordinates: state.coordinates,
    kindOf: (it) => state.kindOf(it, flips), toldBetween: (first, end) => state.toldBetween(first, end, flips),
  };
}
