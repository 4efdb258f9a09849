// @ts-check
// Boxes of the inspector: what they are filled with.

import { iconOf } from "./svg_pen.js";

const filled = new WeakMap();

// Fills a box anew if it is about something else than before; `parts()` makes what is in it.
export function fillOnce(box, about, parts) {
  const said = JSON.stringify(about);
  if (filled.get(box) === said) return;
  filled.set(box, said);
  fill(box, ...parts());
}

// Fills a box anew; the focus stays on the button of the same place.
export function fill(box, ...parts) {
  const buttons = () => [...box.querySelectorAll("button:not(:disabled)")];
  const at = buttons().indexOf(document.activeElement);
  box.replaceChildren(...parts);
  if (at >= 0) (buttons()[at] ?? buttons().at(-1))?.focus();
}

export const line = (...parts) => element("p", "", ...parts);
export const code = (words) => element("code", "", words);
export const quiet = (words, name = "p") => element(name, "none", words);
export const title = (words, small) => element("h3", "", words, ...(small ? [" ", element("small", "", small)] : []));

// What is said where there is room for it.
export const wide = (words) => element("span", "wide", words);

// A button that looks like a link.
export function link(words, act) {
  const button = element("button", "link", words);
  button.addEventListener("click", act);
  return button;
}

const icons = new Map();
// How far a glyph with a letter reaches from its middle, in sides.
const REACH = 0.52;

// A glyph as an icon; one that looks the same is copied, since that is quicker than to read it anew.
export function icon(glyph, side, role, label = "") {
  const key = [glyph, side, role, label].join();
  if (!icons.has(key)) {
    icons.set(key, element("span", "icon"));
    icons.get(key).innerHTML = label ? iconOf(glyph, side, role, label, REACH) : iconOf(glyph, side, role);
  }
  return icons.get(key).cloneNode(true);
}

export function element(name, className, ...parts) {
  const made = document.createElement(name);
  if (className) made.className = className;
  made.append(...parts);
  return made;
}
