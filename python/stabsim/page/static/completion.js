// @ts-check
// Completion of the names of instructions.

import { NAMES } from "./instructions.js";

// What completes the name at the end of a text, at the beginning of its line: {typed, words, names}, with what was typed, what
// takes its place, and all names that begin so; null if nothing does, or it is complete.
export function completed(text) {
  const typed = /(?:^|\n)[ \t]*([A-Za-z][A-Za-z_]*)$/.exec(text)?.[1];
  if (!typed) return null;
  const names = NAMES.filter((name) => name.startsWith(typed.toUpperCase()));
  if (!names.length) return null;
  if (names.length === 1) return { typed, words: `${names[0]} `, names };
  const words = commonStart(names);
  return { typed, words, names };
}

function commonStart(names) {
  let start = names[0];
  for (const name of names) while (!name.startsWith(start)) start = start.slice(0, -1);
  return start;
}
