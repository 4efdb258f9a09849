// @ts-check
// How many ticks, moments, records, detectors, steps and coins items have, their rounds written out. Each target that is measured or
// reset has a coin, whether or not that decides anything.

// What is kept of a list whose items are those of several rounds (cuts.js).
export const ROUNDS = "body of rounds";
const NAMES = ["ticks", "bounds", "records", "detectors", "steps", "coins"];

// The places at which an item ends moments: a TICK is one, and a cut in front of an item.
const boundsOf = (item) => (item.items ? item.bounds : item.ticks) + (item.cut ? 1 : 0);

const newSums = (length) => Object.fromEntries(NAMES.map((name) => [name, new Float64Array(length)]));

// Adds up the items of a list from one place to before another: sums[name][place + 1] is what comes up to that place. Each name is
// written out, since to look up names one after another takes many times as long.
function addUp(list, sums, from, to) {
  const { ticks, bounds, records, detectors, steps, coins } = sums;
  for (let place = from; place < to; place += 1) {
    const item = list[place];
    ticks[place + 1] = ticks[place] + item.ticks;
    bounds[place + 1] = bounds[place] + boundsOf(item);
    records[place + 1] = records[place] + item.records;
    detectors[place + 1] = detectors[place] + item.detectors;
    steps[place + 1] = steps[place] + item.steps;
    coins[place + 1] = coins[place] + item.coins;
  }
  return sums;
}

// Counts what a block has anew, once its items are right.
export function recount(block) {
  forget(block.items);
  multiply(block);
}

// Counts what a block has, if its items are counted and its rounds may be others.
export function multiply(block) {
  const sums = before(block.items);
  block.once = Object.fromEntries(NAMES.map((name) => [name, sums[name].at(-1)]));
  for (const name of NAMES) block[name] = block.once[name] * block.count;
}

// What is worked out of a list, by its name, is kept until the list changes.
const kept = new WeakMap();

export function derived(list, name, make) {
  const known = kept.get(list)?.[name];
  if (known !== undefined) return known;
  // What else was kept may be forgotten on the way.
  const found = make(list);
  kept.set(list, { ...kept.get(list), [name]: found });
  return found;
}

// Keeps what counts a list for a copy of it too.
export function share(list, copy) {
  const { sums, [ROUNDS]: body } = kept.get(list) ?? {};
  if (sums && body) kept.set(copy, { ...kept.get(copy), sums, [ROUNDS]: body });
}

export function forget(list) {
  kept.delete(list);
}

// What comes before each item of a list, in order: how many of each name.
export const before = (list) => derived(list, "sums", () => addUp(list, newSums(list.length + 1), 0, list.length));

// Counts a list anew after an edit that changed its items from one place to before another, and made them `more` than they were; those
// before and after are counted already.
export function recountPart(list, from, to, more) {
  const old = kept.get(list)?.sums;
  forget(list);
  if (!old) return;
  const sums = newSums(list.length + 1);
  for (const name of NAMES) sums[name].set(old[name].subarray(0, from + 1));
  addUp(list, sums, from, to);
  for (const name of NAMES) moveRest(sums[name], old[name], to, more);
  derived(list, "sums", () => sums);
}

// What comes after the changed items is as far from these as it was.
function moveRest(sums, old, to, more) {
  const by = sums[to] - old[to - more];
  if (by) for (let place = to + 1; place < sums.length; place += 1) sums[place] = old[place - more] + by;
  else sums.set(old.subarray(to - more), to);
}

// The first place of a list whose sums reach a number: sums[place + 1] >= number.
export function firstReaching(sums, number) {
  let low = 0;
  let high = sums.length - 1;
  while (low < high) {
    const middle = (low + high) >> 1;
    if (sums[middle + 1] >= number) high = middle;
    else low = middle + 1;
  }
  return low;
}
