// @ts-check
// What was chosen before an update of the circuit, and is still there after it.

import { momentEndedAt } from "./moments.js";

// The path of what a path led to before an edit, which was made at a place of a list that it made `more` items longer. What was taken out
// leaves its path to what came in its place.
/** @param {import("./types.js").Path} path @param {import("./types.js").Move} move @returns {import("./types.js").Path} */
export function pathAfter(path, { kind, at, more }) {
  const deep = at.length - 1;
  if (path.length <= deep || at.slice(0, deep).some((place, i) => place !== path[i])) return path;
  const isMoved = kind === "insert" ? path[deep] >= at[deep] : path[deep] > at[deep];
  return isMoved ? [...path.slice(0, deep), path[deep] + more, ...path.slice(deep + 1)] : path;
}

// Where a place in some rounds is after an edit: a round that is split off has a block of its own.
/** @param {import("./types.js").Where} where @param {import("./types.js").Move} move @returns {import("./types.js").Where} */
export function whereAfter({ path, rounds }, move) {
  const deep = move.at.length - 1;
  const isInside = move.kind === "split" && path.length > deep + 1 && move.at.every((place, i) => place === path[i]);
  if (!isInside) return { path: pathAfter(path, move), rounds };
  const round = rounds[deep];
  const before = move.round > 0 ? 1 : 0;
  const [further, now] = round < move.round ? [0, round] : round === move.round ? [before, 0] : [before + 1, round - move.round - 1];
  return { path: path.with(deep, path[deep] + further), rounds: rounds.with(deep, now) };
}

// A path as far as it leads to something: to an item, or to the end of the outermost list.
/** @param {import("./types.js").Item[]} items @param {import("./types.js").Path} path @returns {import("./types.js").Path} */
export function pathThere(items, path) {
  const found = [];
  let list = items;
  for (const place of path) {
    if (!list) break;
    found.push(Math.min(place, list === items ? list.length : list.length - 1));
    list = list[found.at(-1)]?.items;
  }
  return found;
}

// Which moment one is after edits that made more of them, or fewer: it goes with what ends it, which was at `where`.
/** @param {import("./types.js").Item[]} items @param {import("./types.js").Where} where @param {import("./types.js").Move[]} moves @returns {number} */
export function momentAfter(items, where, moves) {
  const { path, rounds } = moves.reduce(whereAfter, where);
  return momentEndedAt(items, { path: pathThere(items, path), rounds });
}

// Gives what is chosen over from the circuit before an update to that after it, before any view shows anything. `chosen` has {moment,
// chosen, waiting, hovered, bit}, of the last three empty or null if nothing is; it answers the same of what is still there.
export function stillThere({ moment, chosen, waiting, hovered, bit }, state, moments) {
  const isPlaced = (qubit) => state.placement.places.has(qubit);
  return {
    moment: Math.min(moment, moments - 1), chosen: chosen.filter(isPlaced), waiting: waiting.filter(isPlaced),
    hovered: isPlaced(hovered) ? hovered : null, bit: state.isThere(bit) ? bit : null,
  };
}

// Where a path in some rounds leads to once first rounds were split off blocks: {path, rounds}. `splitOff` has the paths of the blocks, each
// as it was when its first round was.
export function afterSplits({ path, rounds }, splitOff) {
  return splitOff.filter((place) => !place.includes("/")).map(Number).reduce(({ path: [first, ...rest], rounds: [round, ...others] }, block) => {
    const isInside = first === block && rest.length > 0;
    if (first < block || (isInside && round === 0) || (first === block && !isInside)) return { path: [first, ...rest], rounds: round === undefined ? [] : [round, ...others] };
    return { path: [first + 1, ...rest], rounds: isInside ? [round - 1, ...others] : round === undefined ? [] : [round, ...others] };
  }, { path, rounds });
}
