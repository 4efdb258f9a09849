// @ts-check
// Long items of the text over several lines of a row, if they are wrapped: between words, and no more than a few.

import { derived } from "./counts.js";

// How many lines a row has at most, and how many letters those after the first are indented.
const MOST_LINES = 12;
export const INDENT = 2;
// The fewest letters to which items are wrapped.
const LEAST_COLUMNS = 12;
// How far the items of a block are indented, in pixels, and the letters of a fold.
export const STEP = 14;
export const FOLD = 2;

export class Wrap {
  #columns;

  // `columns(depth)` says how many letters fit into a line of the row of an item with this many blocks around it; without it each has one line.
  /** @param {((depth: number) => number) | null} columns */
  constructor(columns = null) {
    this.#columns = columns;
  }

  // The lines of an item's row.
  /** @param {import("./types.js").Item} item @param {number} depth @returns {string[]} */
  linesOf(item, depth) {
    return this.#columns && !item.items && !item.written ? wrapped(item.text, this.#columns(depth)) : [item.text];
  }

  // How many lines come before each row of a list's items, and in all.
  /** @param {import("./types.js").Item[]} list @param {number} depth @returns {Float64Array} */
  heights(list, depth) {
    if (!this.#columns) return numbersTo(list.length);
    const columns = this.#columns(depth);
    return derived(list, `lines of ${columns}`, () => {
      const found = new Float64Array(list.length + 1);
      list.forEach((item, place) => { found[place + 1] = found[place] + countOf(item, columns); });
      return found;
    });
  }
}

let numbers = new Float64Array(1);

// The numbers from 0 to a last one: the same list for all, which grows as it is needed.
/** @param {number} last @returns {Float64Array} */
function numbersTo(last) {
  if (last >= numbers.length) numbers = Float64Array.from({ length: 2 * last + 1 }, (_, number) => number);
  return numbers.subarray(0, last + 1);
}

// Each row has one line.
export const UNWRAPPED = new Wrap();

// How many lines an item has is kept with it.
function countOf(item, columns) {
  if (item.items || item.written || item.text.length <= columns) return 1;
  if (item.wrapped?.columns !== columns) item.wrapped = { columns, count: wrapped(item.text, columns).length };
  return item.wrapped.count;
}

/** @param {string} text @param {number} columns @returns {string[]} */
function wrapped(text, columns) {
  const lines = [""];
  for (const word of text.split(" ")) {
    const line = lines[lines.length - 1];
    if (line && line.length + 1 + word.length > columns - (lines.length > 1 ? INDENT : 0)) lines.push(word);
    else lines[lines.length - 1] = line ? `${line} ${word}` : word;
  }
  return lines.length > MOST_LINES ? [...lines.slice(0, MOST_LINES - 1), `${lines[MOST_LINES - 1]} …`] : lines;
}

// The wrap by which items fit into the rows of a place, of which one is given.
/** @param {HTMLElement} place @param {HTMLElement} row */
export function wrapFor(place, row) {
  const style = getComputedStyle(row);
  const pen = document.createElement("canvas").getContext("2d");
  pen.font = style.font;
  const letter = pen.measureText("0".repeat(100)).width / 100;
  const width = place.clientWidth - parseFloat(style.paddingLeft) - parseFloat(style.paddingRight) - parseFloat(style.borderLeftWidth);
  return new Wrap((depth) => Math.max(LEAST_COLUMNS, Math.floor((width - depth * STEP) / letter - FOLD)));
}
