// @ts-check
// What a row of the text says: its fold, its item, and marks of what is known of that.

import { iconOf } from "./svg_pen.js";
import { span } from "./text_rows.js";
import { FOLD, INDENT, STEP } from "./wrapping.js";

// How many letters of a line are shown at most.
const MOST_LETTERS = 300;

export const foldOf = (item, run, isOpen) => span("fold", !item?.items && !run ? "" : isOpen ? "▾" : "▸");

// The line that was given for an item of a list, if the others for which it was given are still beside it; else undefined.
/** @param {import("./types.js").Item[]} list @param {number} place */
export function writtenOf(list, place) {
  const { written } = list[place] ?? {};
  if (!written) return undefined;
  const first = place - written.part;
  const isWhole = Array.from({ length: written.count }, (_, part) => list[first + part]?.written)
    .every((it, part) => it && it.text === written.text && it.part === part && it.count === written.count);
  return isWhole ? written : undefined;
}

// An item as it was written, with what the program reads in its place.
function asWritten(margin, item, { text, part }) {
  const [, name, rest] = /^(\S*?)((?:[[(\s].*)?)$/.exec(text);
  if (part) return [margin, span("inside", `${item.text} · also of ${name}`)];
  return [margin, span("name", name), span("words", rest.slice(0, 300)), span("inside", ` = ${item.text}`)];
}

// `lines` are those of the item's row (wrapping.js), those after the first at the same margin.
/** @param {string[]} lines @param {import("./types.js").Written} [written] */
export function saidOf(item, run, isOpen, depth, lines, written) {
  const margin = span("margin", "");
  margin.style.paddingLeft = `${depth * STEP}px`;
  if (run) return [margin, span("inside", `${run} × ${item.name}`)];
  if (!item) return [margin];
  if (written) return asWritten(margin, item, written);
  const [, name, rest] = /^(\S*?)((?:[[(\s].*)?)$/.exec(lines[0]);
  const words = [margin, span("name", name), span("words", rest.slice(0, MOST_LETTERS)), ...lines.slice(1).map((line) => lineOf(line, depth))];
  if (item.items && !isOpen) words.push(span("inside", ` ${item.items.length} items, ${item.detectors} detectors`));
  return words;
}

function lineOf(text, depth) {
  const line = span("words line", text);
  line.style.paddingLeft = `calc(${FOLD + INDENT}ch + ${depth * STEP}px)`;
  return line;
}

export function marksOf(kind, refusal) {
  const marks = refusal ? [span("refusal", refusal)] : [];
  if (!kind) return marks;
  const flag = span("flag", "");
  flag.title = kind;
  flag.innerHTML = iconOf(kind, kind === "random" ? 11 : 8, kind === "random" ? "quiet" : "flip");
  return [flag, ...marks];
}
