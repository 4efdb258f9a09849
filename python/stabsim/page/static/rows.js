// @ts-check
// The rows of a circuit's text: each item has one; after a block that is unfolded its items have theirs; and items that only name
// places, or detectors, are folded to one row if three or more follow each other. A row has one line, or as many as its item is wrapped
// to, and is numbered by the lines before it. No list of all rows is kept, since an edit moves most of them; what is unfolded is a set of
// blocks, and of the first items of such runs.

import { derived, firstReaching } from "./counts.js";
import { UNWRAPPED } from "./wrapping.js";

const FOLDING = new Set(["QUBIT_COORDS", "DETECTOR"]);
const LEAST_RUN = 3;

// The blocks and runs of a list, in order, each {place, end, isRun}.
const partsOf = (list) => derived(list, "parts", findParts);

function findParts(list) {
  const parts = [];
  for (let place = 0; place < list.length;) {
    let end = place + 1;
    if (FOLDING.has(list[place].name)) while (end < list.length && list[end].name === list[place].name) end += 1;
    if (list[place].items) parts.push({ place, end, isRun: false });
    else if (end - place >= LEAST_RUN) parts.push({ place, end, isRun: true });
    place = end;
  }
  return parts;
}

// How many lines the rows of a list's items have.
export function countLines(list, unfolded, wrap = UNWRAPPED, depth = 0) {
  const heights = wrap.heights(list, depth);
  let count = heights[list.length];
  for (const { place, end, isRun } of partsOf(list)) {
    const isOpen = unfolded.has(list[place]);
    if (isRun) count += isOpen ? 1 : 1 - (heights[end] - heights[place]);
    else if (isOpen) count += countLines(list[place].items, unfolded, wrap, depth + 1);
  }
  return count;
}

// The rows with some of the lines from one number to another, each {number, lines, path, item, run}: `run` is how many items are folded in
// it, or 0.
export function rowsBetween(items, unfolded, first, last, wrap = UNWRAPPED) {
  const found = [];
  gather(items, [], 0, { first, last, unfolded, wrap }, found);
  return found;
}

// Adds those of a list whose first row has the number `start`, and answers the number after its last.
function gather(list, path, start, sight, found) {
  const heights = sight.wrap.heights(list, path.length);
  let number = start;
  let place = 0;
  const add = (row) => {
    if (number >= sight.first && number < sight.last) found.push({ number, lines: 1, ...row });
    number += 1;
  };
  const addUpTo = (end) => {
    const above = number - heights[place];
    for (let at = Math.max(place, firstReaching(heights, sight.first - above + 1)); at < end && above + heights[at] < sight.last; at += 1) {
      found.push({ number: above + heights[at], lines: heights[at + 1] - heights[at], path: [...path, at], item: list[at], run: 0 });
    }
    number = above + heights[end];
    place = end;
  };
  for (const part of partsOf(list)) {
    const head = list[part.place];
    const isOpen = sight.unfolded.has(head);
    if (part.isRun) {
      addUpTo(part.place);
      add({ path: [...path, part.place], item: head, run: part.end - part.place });
      if (!isOpen) place = part.end;
    } else if (isOpen) {
      addUpTo(part.end);
      number = gather(head.items, [...path, part.place], number, sight, found);
    }
  }
  addUpTo(list.length);
  return number;
}

// The number of the row of a path whose blocks are all unfolded: of a folded run's items, that of the run.
export function numberOfRow(items, unfolded, path, wrap = UNWRAPPED) {
  let number = 0;
  let list = items;
  path.forEach((place, deep) => {
    if (deep > 0) number += 1;
    number += linesBefore(list, unfolded, place, wrap, deep);
    list = list[place]?.items ?? [];
  });
  return number;
}

function linesBefore(list, unfolded, place, wrap, depth) {
  const heights = wrap.heights(list, depth);
  let number = heights[place];
  for (const part of partsOf(list)) {
    if (part.place > place) break;
    const isOpen = unfolded.has(list[part.place]);
    const folded = heights[Math.min(part.end, place)] - heights[part.place];
    if (part.isRun) number += isOpen ? 1 : Number(place >= part.end) - folded;
    else if (isOpen && part.place < place) number += countLines(list[part.place].items, unfolded, wrap, depth + 1);
  }
  return number;
}
