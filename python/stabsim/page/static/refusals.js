// @ts-check
// What explains a refusal, and how it is said.

import { element } from "./boxes.js";

// The parts of an explanation: the line at fault with its carets, if it names one, and what is wrong with it.
export function partsOf(explanation) {
  const lines = (explanation ?? "").split("\n");
  const shown = lines.length > 2 ? 2 : 0;
  return { shown: lines.slice(0, shown).join("\n"), why: lines.slice(shown).join(" ") };
}

// A refusal in one line: the line at fault, with its number in a text and the word marked at which the carets are, and what is wrong with it.
export function saidOfRefusal({ refused, explanation }) {
  const { shown, why } = partsOf(explanation);
  if (!shown) return [`${refused} ${why}`.trim()];
  const [line, carets] = shown.split("\n");
  const [from, to] = [carets.indexOf("^"), carets.lastIndexOf("^") + 1];
  return [line.slice(0, from).replace(/^\d+: /, "line $&"), element("mark", "", line.slice(from, to)), `${line.slice(to)} · ${why}`];
}
