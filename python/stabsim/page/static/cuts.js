// @ts-check
// Where items are cut into moments: at each TICK, and in front of an item (its `cut`) that acts on a qubit on which the moment has
// acted before. text/moments.py cuts by the same rules, so that the program's table of faults counts the same moments.

import { ROUNDS, derived, multiply, recount } from "./counts.js";
import { qubitsOf } from "./instructions.js";

const PAULIS = new Set(["X", "Y", "Z"]);

// Cuts a list, or the part of it from the last TICK in front of `from` to the next one after `to`; answers where that begins and ends.
export function cutList(list, from = 0, to = list.length) {
  let first = Math.min(from, list.length);
  while (first > 0 && list[first - 1].name !== "TICK") first -= 1;
  let end = Math.min(to, list.length);
  while (end < list.length && list[end].name !== "TICK") end += 1;
  const on = new Map();
  for (let place = first; place < end; place += 1) cutItem(list[place], on);
  return [first, end];
}

// `on` has the qubits of the moment so far, each with whether a Pauli acts on it after something else.
function cutItem(item, on) {
  item.cut = false;
  if (item.name === "TICK") on.clear();
  else if (item.items) cutBlock(item, on);
  else {
    const qubits = qubitsOf(item);
    const isPauli = PAULIS.has(item.name);
    item.cut = qubits.some((qubit) => on.get(qubit) === true || (!isPauli && on.has(qubit)));
    if (item.cut) on.clear();
    act(on, qubits, isPauli);
  }
}

// Notes that an item acts on qubits.
function act(on, qubits, isPauli) {
  if (isPauli) {
    const isOver = qubits.map((qubit) => on.has(qubit));
    qubits.forEach((qubit, i) => on.set(qubit, isOver[i]));
  } else for (const qubit of qubits) on.set(qubit, false);
}

// If a block would meet what is before it, it is cut in front; if its rounds would meet each other, each is cut in front of its
// first item that acts.
function cutBlock(block, on) {
  const { first, last, hasSeveral, isCutWithin } = bodyOf(block);
  block.cut = !isCutWithin && [...first].some((qubit) => on.has(qubit));
  multiply(block);
  if (isCutWithin || block.cut || hasSeveral) on.clear();
  for (const [qubit, isOver] of last) on.set(qubit, isOver);
}

// What the items of a block come to, cut and counted. It is worked out once, until they change.
function bodyOf(block) {
  const name = block.count > 1 ? ROUNDS : "body of a round";
  return derived(block.items, name, () => {
    cutList(block.items);
    const { first, last, hasSeveral, begins } = summaryOf(block.items);
    const isCutWithin = begins !== null && block.count > 1 && [...first].some((qubit) => last.has(qubit));
    if (isCutWithin) begins.cut = true;
    recountWithin(block);
    return { first, last, hasSeveral, isCutWithin };
  });
}

// The qubits of the first moment of a list that was cut, those of its last, whether it has several, and the first item that acts, if
// that is in the first moment and has no cut in front of it.
function summaryOf(list) {
  const found = { first: null, last: new Map(), hasSeveral: false, begins: null };
  gather(list, found);
  found.first ??= new Set(found.last.keys());
  return found;
}

function gather(list, found) {
  const end = () => {
    found.first ??= new Set(found.last.keys());
    found.hasSeveral = true;
    found.last = new Map();
  };
  for (const item of list) {
    if (item.cut) end();
    if (item.name === "TICK") end();
    else if (item.items) {
      const inner = summaryOf(item.items);
      if (!found.hasSeveral) found.begins ??= inner.begins;
      if (inner.hasSeveral) {
        for (const qubit of inner.first) found.last.set(qubit, false);
        end();
      }
      for (const [qubit, isOver] of inner.last) found.last.set(qubit, isOver);
    } else {
      const qubits = qubitsOf(item);
      if (qubits.length && !found.hasSeveral && !item.cut) found.begins ??= item;
      act(found.last, qubits, PAULIS.has(item.name));
    }
  }
}

function recountWithin(block) {
  for (const item of block.items) if (item.items) recountWithin(item);
  recount(block);
}
