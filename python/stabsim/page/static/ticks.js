// @ts-check
// The edits that put a TICK in, take one out, and move one; each answers what those of editing.js do.

import { itemAt } from "./circuit.js";
import { acts } from "./instructions.js";
import { endOf, momentAt, nameOf } from "./moments.js";

const isTick = (items, path) => itemAt(items, path)?.name === "TICK";
const inSameList = (one, other) => one.path.slice(0, -1).join() === other.path.slice(0, -1).join() && one.rounds.join() === other.rounds.join();

// Puts a tick in at the end of a moment: what comes later is then in a tick of its own.
export function putTick(items, moment) {
  const { path, rounds } = endOf(items, moment);
  return { edits: [{ kind: "insert", place: path.join("/"), item: "TICK" }], round: null, shown: { path: [...path.slice(0, -1), path.at(-1) + 1], rounds } };
}

// Takes out the tick that ends a moment.
export function takeTick(items, moment) {
  const { path } = endOf(items, moment);
  if (!isTick(items, path)) return { why: "no TICK ends this moment" };
  return { edits: [{ kind: "delete", place: path.join("/") }], round: null, shown: null };
}

// Whether a TICK ends a moment.
export const endsByTick = (items, moment) => isTick(items, endOf(items, moment).path);

// The gaps of a moment into which a tick can be moved, {path, rounds}: in front of each item that acts, and at its end.
export function gapsOf(items, moment) {
  const acting = momentAt(items, moment).filter(({ item }) => acts(item.name));
  return [...acting.map(({ path, rounds }) => ({ path, rounds })), endOf(items, moment)];
}

// The number of the gap that is nearest to a part of a moment, from 0 at its beginning to 1 at its end.
export const gapAt = (items, moment, part) => Math.round(part * (gapsOf(items, moment).length - 1));

// Moves the tick that ends a moment into a gap of this moment or of another one.
export function moveTick(items, moment, to, gap) {
  const from = endOf(items, moment);
  if (!isTick(items, from.path)) return { why: "no TICK ends this moment" };
  const target = gapsOf(items, to)[gap];
  if (!inSameList(from, target)) return { why: "a tick is moved within its round" };
  const [old, place] = [from.path.at(-1), target.path.at(-1)];
  if (place === old || place === old + 1) return { why: "the tick is there already" };
  const taken = { kind: "delete", place: from.path.join("/") };
  const put = { kind: "insert", place: target.path.join("/"), item: "TICK" };
  // The later change is made first, so that it moves no place of the other.
  const isEarlier = place < old;
  return {
    edits: isEarlier ? [taken, put] : [put, taken], round: null, name: `move the end of tick ${nameOf(items, moment).name}`,
    shown: { path: [...target.path.slice(0, -1), isEarlier ? place : place - 1], rounds: target.rounds },
  };
}

// Moves the tick that ends a moment over the item before it (-1), or the next one (1).
export function stepTick(items, moment, direction) {
  if (direction < 0) {
    const gaps = gapsOf(items, moment);
    return gaps.length > 1 ? moveTick(items, moment, moment, gaps.length - 2) : { why: "nothing acts before this tick" };
  }
  const next = endsByTick(items, moment) ? gapsOf(items, moment + 1) : [];
  if (next.length === 1) return { why: "nothing acts after this tick" };
  return moveTick(items, moment, moment + 1, 1);
}
