// @ts-check
// The lines of several moments.

import { blocksAround, itemAt } from "./circuit.js";
import { beginOf, endOf } from "./moments.js";

// The lines of the moments from one to another, as the path of their list, the place of the first, and how many they are; null if no list has
// them all, as those of two rounds.
/** @param {import("./types.js").Item[]} items @param {number} first @param {number} last @returns {{list: number[], place: number, count: number} | null} */
export function linesOf(items, first, last) {
  const ends = sameAs(items, afterLast(items, last));
  for (const begin of sameAs(items, beginOf(items, first))) {
    const end = ends.find((it) => listOf(it) === listOf(begin) && placeOf(it) >= placeOf(begin));
    if (end) return { list: begin.path.slice(0, -1), place: placeOf(begin), count: placeOf(end) - placeOf(begin) };
  }
  return null;
}

/** @param {import("./types.js").Where} where */
const listOf = ({ path, rounds }) => `${path.slice(0, -1).join("/")} ${rounds.join("/")}`;
/** @param {import("./types.js").Where} where */
const placeOf = ({ path }) => path.at(-1);
/** @param {import("./types.js").Where} where @param {number} place @returns {import("./types.js").Where} */
const movedTo = ({ path, rounds }, place) => ({ path: [...path.slice(0, -1), place], rounds });

// Where what comes after a moment begins: after the TICK that ends it, if one does.
function afterLast(items, moment) {
  const end = endOf(items, moment);
  return itemAt(items, end.path)?.name === "TICK" ? movedTo(end, placeOf(end) + 1) : end;
}

// All places between the same two lines in time: where a round ends the next one begins, or what comes after its block.
/** @param {import("./types.js").Item[]} items @param {import("./types.js").Where} where @returns {import("./types.js").Where[]} */
function sameAs(items, where) {
  const found = [where];
  const names = new Set([nameOf(where)]);
  for (const place of found) {
    const others = besideOf(items, place).filter((it) => !names.has(nameOf(it)));
    others.forEach((it) => names.add(nameOf(it)));
    found.push(...others);
  }
  return found;
}

const nameOf = (where) => `${listOf(where)} ${placeOf(where)}`;

// The same place seen from within a block that begins or ends there, from the next round or the one before, and from outside.
function besideOf(items, where) {
  const { path, rounds } = where;
  const block = blocksAround(items, path).at(-1);
  const place = placeOf(where);
  const [next, last] = [itemAt(items, path), place > 0 ? itemAt(items, movedTo(where, place - 1).path) : null];
  const found = [];
  if (next?.items) found.push({ path: [...path, 0], rounds: [...rounds, 0] });
  if (last?.items) found.push({ path: [...path.slice(0, -1), place - 1, last.items.length], rounds: [...rounds, last.count - 1] });
  if (block && place === block.items.length) found.push(overEnd(where, block));
  if (block && place === 0) found.push(overBegin(where, block));
  return found;
}

/** @param {import("./types.js").Where} where @param {import("./types.js").Item} block @returns {import("./types.js").Where} */
function overEnd({ path, rounds }, { count }) {
  const round = rounds.at(-1) + 1;
  if (round < count) return { path: [...path.slice(0, -1), 0], rounds: [...rounds.slice(0, -1), round] };
  return { path: [...path.slice(0, -2), path.at(-2) + 1], rounds: rounds.slice(0, -1) };
}

/** @param {import("./types.js").Where} where @param {import("./types.js").Item} block @returns {import("./types.js").Where} */
function overBegin({ path, rounds }, { items }) {
  const round = rounds.at(-1) - 1;
  if (round >= 0) return { path: [...path.slice(0, -1), items.length], rounds: [...rounds.slice(0, -1), round] };
  return { path: path.slice(0, -1), rounds: rounds.slice(0, -1) };
}
