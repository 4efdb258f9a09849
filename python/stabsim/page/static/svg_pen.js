// @ts-check
// Writes elements (glyphs.js) as SVG: `colour(name)` gives what is written for a colour or a family of letters.

import { elementsOf, hatch } from "./glyphs.js";

const number = (value) => String(Math.round(value * 100) / 100);
const escaped = (words) => String(words).replace(/&/g, "&amp;").replace(/</g, "&lt;").replace(/"/g, "&quot;");

// A whole picture, by itself.
export function svgOf(elements, { width, height, colour, ground = null }) {
  const letters = [...new Set(elements.map((element) => element.hatch).filter(Boolean))];
  const patterns = letters.map((letter) => patternOf(letter, colour)).join("");
  const paper = ground ? `<rect width="100%" height="100%" fill="${colour(ground)}"/>` : "";
  return `<svg xmlns="http://www.w3.org/2000/svg" width="${number(width)}" height="${number(height)}" viewBox="0 0 ${number(width)} ${number(height)}">`
    + `${patterns && `<defs>${patterns}</defs>`}${paper}${bodyOf(elements, colour)}</svg>\n`;
}

// A glyph alone, which follows the theme of its page, with room as far as it reaches from its middle, in sides.
export function iconOf(glyph, side, role, label = "", reach = 0.68) {
  const middle = side * reach;
  const body = bodyOf([{ glyph, x: middle, y: middle, side, role, label }], (name) => `var(--${name})`);
  return `<svg width="${number(2 * middle)}" height="${number(2 * middle)}" aria-hidden="true">${body}</svg>`;
}

function bodyOf(elements, colour) {
  return elements.flatMap((element) => (element.glyph ? elementsOf(element) : [element]))
    .map((element) => (element.path ? pathOf(element, colour) : element.boxes ? boxesOf(element, colour) : wordsOf(element, colour))).join("");
}

function boxesOf({ boxes, fill, alpha }, colour) {
  const path = boxes.flatMap(([x, y, width, height]) => [["M", x, y], ["L", x + width, y], ["L", x + width, y + height], ["L", x, y + height], ["Z"]]);
  return pathOf({ path, fill, alpha }, colour);
}

/** @param {import("./types.js").Element} element */
function pathOf({ path, fill, stroke, width = 1, dash, alpha = 1, hatch: letter }, colour) {
  const line = stroke ? ` stroke="${colour(stroke)}" stroke-width="${number(width)}" stroke-linejoin="round" stroke-linecap="round"` : "";
  const broken = dash ? ` stroke-dasharray="${dash.join(" ")}"` : "";
  const clear = alpha < 1 ? ` opacity="${number(alpha)}"` : "";
  const commands = commandsOf(path);
  const whole = `<path d="${commands}" fill="${fill ? colour(fill) : "none"}"${line}${broken}${clear}/>`;
  return letter ? `${whole}<path d="${commands}" fill="url(#${letter})"/>` : whole;
}

// A path as SVG writes it. SVG has no arc by angles, and none of half a circle or more: such a one has two parts. As on a canvas a line
// leads to where an arc begins, if the path is not there already.
export function commandsOf(path) {
  let last = "";
  return path.map(([op, ...numbers], i) => {
    if (op !== "A") {
      last = numbers.map(number).join(" ");
      return op + last;
    }
    const [x, y, radius, from, to] = numbers;
    const at = (angle) => `${number(x + radius * Math.cos(angle))} ${number(y + radius * Math.sin(angle))}`;
    const lead = at(from) === last ? "" : `${i ? "L" : "M"}${at(from)}`;
    const ends = to - from < Math.PI - 1e-6 ? [to] : [(from + to) / 2, to];
    last = at(to);
    return lead + ends.map((angle) => `A${number(radius)} ${number(radius)} 0 0 1 ${at(angle)}`).join("");
  }).join("");
}

function wordsOf({ words, x, y, size, fill, align = "center", weight = 400, mono = false, halo }, colour) {
  const anchor = { center: "middle", left: "start", right: "end" }[align];
  const rim = halo ? ` stroke="${colour(halo)}" stroke-width="3" paint-order="stroke"` : "";
  return `<text x="${number(x)}" y="${number(y + size * 0.35)}" font-family="${escaped(colour(mono ? "mono" : "sans"))}" font-size="${number(size)}" `
    + `font-weight="${weight}" text-anchor="${anchor}" fill="${colour(fill)}"${rim}>${escaped(words)}</text>`;
}

function patternOf(letter, colour) {
  const paint = colour(letter.toLowerCase());
  const mark = { dots: `<rect x="2" y="2" width="2" height="2" fill="${paint}"/>`, rising: `<path d="M-1 1L1-1M0 6L6 0M5 7L7 5" stroke="${paint}"/>`,
    level: `<path d="M0 3.5H6" stroke="${paint}"/>` }[hatch[letter]];
  return `<pattern id="${letter}" width="6" height="6" patternUnits="userSpaceOnUse"><g opacity=".55">${mark}</g></pattern>`;
}
