// @ts-check
// What the marks on the picture and the timeline mean, and the keys that one begins with.

import { iconOf } from "./svg_pen.js";

/** @type {[string, number, string, string][]} */
const MARKS = [
  ["data", 13, "qubit", "data"], ["ancilla", 13, "qubit", "ancilla"], ["X", 13, "x", "X"], ["Y", 13, "y", "Y"], ["Z", 13, "z", "Z"],
  ["flipped", 9, "flip", "flipped"], ["random", 11, "quiet", "random"], ["bit1", 9, "one", "1"], ["noise", 12, "quiet", "noise"],
];

export function showLegend(place) {
  place.replaceChildren(...MARKS.map(([glyph, side, role, words]) => {
    const mark = document.createElement("span");
    mark.innerHTML = iconOf(glyph, side, role);
    mark.append(words);
    return mark;
  }));
}
