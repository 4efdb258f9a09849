// @ts-check
// Moments: what is between two ticks or cuts, with the rounds of blocks written out.

import { itemAt } from "./circuit.js";
import { before, firstReaching } from "./counts.js";
import { acts, isErrorOrMark, qubitsOf } from "./instructions.js";

// The instructions of a moment, each {item, path, rounds}.
/** @type {(items: import("./types.js").Item[], moment: number) => import("./types.js").Instruction[]} */
export const momentAt = (items, moment) => instructionsAt(items, moment, () => true);

// Those of a moment that act on qubits: a moment may declare hundreds of detectors beside them.
/** @type {(items: import("./types.js").Item[], moment: number) => import("./types.js").Instruction[]} */
export const actingAt = (items, moment) => instructionsAt(items, moment, ({ name }) => acts(name));

function instructionsAt(items, moment, isWanted) {
  const found = [];
  gather(items, { moment, isWanted, found }, 0, [], []);
  return found;
}

// Adds those of a list in front of which this many moments end.
function gather(items, sought, start, path, rounds) {
  const { moment, isWanted, found } = sought;
  const { bounds } = before(items);
  for (let place = firstReaching(bounds, moment - start); place < items.length; place += 1) {
    const item = items[place];
    let now = start + bounds[place];
    if (now > moment) return;
    if (item.cut) now += 1;
    if (item.items) gatherBlock(item, sought, now, [...path, place], rounds);
    else if (now === moment && isWanted(item)) found.push({ item, path: [...path, place], rounds });
  }
}

// A block within one moment is shown by its first round.
function gatherBlock(block, sought, now, path, rounds) {
  const once = block.once.bounds;
  if (once === 0) {
    gather(block.items, sought, now, path, [...rounds, 0]);
    return;
  }
  const last = Math.min(block.count - 1, Math.floor((sought.moment - now) / once));
  for (let round = Math.max(0, last - 1); round <= last; round += 1) {
    gather(block.items, sought, now + round * once, path, [...rounds, round]);
  }
}

export const momentsOf = (items) => before(items).bounds[items.length] + 1;

// The moment of the item at a path, in the given round of each block around it, else in the first.
/** @param {import("./types.js").Item[]} items @param {import("./types.js").Path} path @param {number[]} [rounds] @returns {number} */
export function momentOf(items, path, rounds = []) {
  let moment = 0;
  let list = items;
  path.forEach((place, deep) => {
    moment += before(list).bounds[Math.min(place, list.length)];
    const item = list[place];
    if (item?.cut) moment += 1;
    if (item?.items && deep + 1 < path.length) moment += (rounds[deep] ?? 0) * item.once.bounds;
    list = item?.items ?? [];
  });
  return moment;
}

// Where something is put in so that it is at the end of a moment, as {path, rounds}: in front of what ends it, or after the
// last item.
/** @param {import("./types.js").Item[]} items @param {number} moment @returns {import("./types.js").Where} */
export function endOf(items, moment) {
  const found = endIn(items, moment, [], []);
  return found ?? { path: [items.length], rounds: [] };
}

function endIn(list, moment, path, rounds) {
  const { bounds } = before(list);
  // The first item by which one more moment has ended.
  const place = firstReaching(bounds, moment + 1);
  if (place >= list.length || bounds[place + 1] < moment + 1) return null;
  const item = list[place];
  const left = moment - bounds[place] - (item.cut ? 1 : 0);
  if (!item.items || left < 0) return { path: [...path, place], rounds };
  const round = Math.floor(left / item.once.bounds);
  return endIn(item.items, left - round * item.once.bounds, [...path, place], [...rounds, round]);
}

// The moment that an item ends, by a cut in front of it or as a TICK; of the end of the list the last one.
/** @param {import("./types.js").Item[]} items @param {import("./types.js").Where} where @returns {number} */
export const momentEndedAt = (items, { path, rounds }) => Math.max(0, momentOf(items, path, rounds) - (itemAt(items, path)?.cut ? 1 : 0));

// Where something is put in so that it is at the beginning of a moment: after what ends the one before.
/** @param {import("./types.js").Item[]} items @param {number} moment @returns {import("./types.js").Where} */
export function beginOf(items, moment) {
  if (moment === 0) return { path: [0], rounds: [] };
  const { path, rounds } = endOf(items, moment - 1);
  return itemAt(items, path)?.name === "TICK" ? { path: [...path.slice(0, -1), path.at(-1) + 1], rounds } : { path, rounds };
}

// What a moment is called: its tick, and its part if cuts make several moments of that tick.
export function nameOf(items, moment) {
  const tick = tickOf(items, moment);
  const first = firstOfTick(items, tick, moment);
  const isAlone = first === moment && (moment + 1 >= momentsOf(items) || tickOf(items, moment + 1) !== tick);
  return { tick, name: isAlone ? String(tick) : `${tick}.${moment - first + 1}` };
}

// The first moment of a tick that has the given moment.
function firstOfTick(items, tick, moment) {
  let low = 0;
  let high = moment;
  while (low < high) {
    const middle = (low + high) >> 1;
    if (tickOf(items, middle) === tick) high = middle;
    else low = middle + 1;
  }
  return low;
}

// How many moments of its tick are looked at on either side of a moment.
const MOST_BESIDE = 40;

// The qubits on which several items act in the tick of a moment, with how many do. Paulis that are put in are errors, and `I` marks some:
// neither is counted; nor is anything in a circuit without ticks.
/** @param {import("./types.js").Item[]} items @param {number} moment @returns {Map<number, number>} */
export function actedOften(items, moment) {
  const found = new Map();
  if (!before(items).ticks[items.length]) return found;
  const tick = tickOf(items, moment);
  const end = Math.min(momentsOf(items), moment + MOST_BESIDE);
  for (let at = Math.max(firstOfTick(items, tick, moment), moment - MOST_BESIDE); at < end && tickOf(items, at) === tick; at += 1) {
    for (const qubit of operatedAt(items, at)) found.set(qubit, (found.get(qubit) ?? 0) + 1);
  }
  return new Map([...found].filter(([, count]) => count > 1));
}

// The qubits on which items act at a moment that are neither errors nor marks of them.
const operatedAt = (items, moment) => actingAt(items, moment).filter(({ item }) => !isErrorOrMark(item.name)).flatMap(({ item }) => [...new Set(qubitsOf(item))]);

// How many TICKs come before a moment.
export function tickOf(items, moment) {
  if (moment <= 0) return 0;
  return ticksUpTo(items, moment);
}

// How many TICKs are among the first bounds of a list, up to a number of them.
function ticksUpTo(list, number) {
  const { bounds, ticks } = before(list);
  const place = firstReaching(bounds, number);
  if (place >= list.length) return ticks[list.length];
  const item = list[place];
  let count = ticks[place];
  const left = number - bounds[place] - (item.items && item.cut ? 1 : 0);
  if (left <= 0) return count;
  if (!item.items) return count + item.ticks;
  const round = Math.floor(left / item.once.bounds);
  count += round * item.once.ticks;
  const rest = left - round * item.once.bounds;
  return rest > 0 ? count + ticksUpTo(item.items, rest) : count;
}

// The moment that declares each detector, in order.
export function momentsOfDetectors(items) {
  const found = new Int32Array(before(items).detectors[items.length]);
  fill(items, 0, found, 0);
  return found;
}

// Fills in those of a list, from a moment and a detector on.
function fill(list, start, found, first) {
  const { bounds, detectors } = before(list);
  for (let place = 0; place < list.length; place += 1) {
    if (detectors[place + 1] === detectors[place]) continue;
    if (list[place].items) fillBlock(list[place], start + bounds[place], found, first + detectors[place]);
    else found[first + detectors[place]] = start + bounds[place];
  }
}

// Those of the later rounds are as far from each other as those of the first.
function fillBlock({ items, cut, count, once }, moment, found, first) {
  fill(items, moment + (cut ? 1 : 0), found, first);
  for (let round = 1; round < count; round += 1) {
    for (let i = 0; i < once.detectors; i += 1) found[first + round * once.detectors + i] = found[first + i] + round * once.bounds;
  }
}
