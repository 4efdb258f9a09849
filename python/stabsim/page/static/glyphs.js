// @ts-check
// Glyphs: the shapes of shapes.json as paths and words, for whatever pen draws them.
//
// A drawing is a list of elements: a path {path, fill, stroke, width, dash, alpha, hatch} whose commands are [op, numbers..] with
// M x y, L x y, A x y r from to (an arc, clockwise), Z; boxes {boxes, fill, alpha}, each [x, y, width, height]; words {words, x, y, size,
// fill, align, weight, mono, halo}; and a glyph {glyph, x, y, side, role, label}. Colours are names of colours.css.

import table from "./shapes.json" with { type: "json" };

export { table };
export const { hatch } = table;
export { drawn as gates } from "./instructions.js";
export const PITCH = table.glyph_of_pitch;
// The side of a glyph, by how far neighbouring qubits are seen from each other.
/** @param {number} pitch */
export const sideAt = (pitch) => Math.max(3, Math.min(40, pitch * PITCH));

const WHOLE = 2 * Math.PI;

// How much is drawn of a glyph: "full", its "far" shape, or a "dot".
/** @param {import("./types.js").Element} glyph */
function levelOf({ glyph, side, label = "" }) {
  const { full, mark } = table.levels;
  if (side < mark) return "dot";
  const size = table.shapes[glyph].full.find(([kind]) => kind === "label")?.[3];
  return side >= full && (!label || !size || wordsOn(label, side * size)) ? "full" : "far";
}

// The paths and words of a glyph.
/** @param {import("./types.js").Element} glyph @returns {import("./types.js").Element[]} */
export function elementsOf(glyph) {
  const { x, y, side } = glyph;
  const level = levelOf(glyph);
  const [solid, soft, edge, on] = table.roles[glyph.role];
  if (level === "dot") return [{ path: circle(x, y, 1.4), fill: solid }];
  const stroke = Math.max(1, Math.min(1.6, side / 14));
  const paints = {
    solid: { fill: solid }, fill: { fill: soft }, paper: { fill: "sheet" }, on: { fill: on },
    edge: { stroke: edge, width: stroke, fill: edge }, ink: { stroke: edge, width: stroke * 1.25 },
  };
  const { full, far = full } = table.shapes[glyph.glyph];
  return (level === "full" ? full : far).map((part) => DRAWN[part[0]](part, glyph, paints[part.at(-1)])).filter(Boolean);
}

const filled = (path, { stroke, width, fill }) => (stroke ? { path, stroke, width } : { path, fill });
const placed = ({ x, y, side }, left, top) => [x + (left * side) / 2, y + (top * side) / 2];

// How each kind of part is drawn.
export const DRAWN = {
  circle: ([, x, y, radius], glyph, paint) => filled(circle(...placed(glyph, x, y), (radius * glyph.side) / 2), paint),
  line: ([, x, y, right, bottom], glyph, paint) => filled([["M", ...placed(glyph, x, y)], ["L", ...placed(glyph, right, bottom)]], paint),
  box: ([, x, y, ...sizes], glyph, paint) => filled(roundedBox(...placed(glyph, x, y), ...sizes.slice(0, 3).map((size) => (size * glyph.side) / 2)), paint),
  poly(part, glyph, paint) {
    const path = [];
    for (let i = 1; i + 1 < part.length; i += 2) path.push([path.length ? "L" : "M", ...placed(glyph, part[i], part[i + 1])]);
    return filled([...path, ["Z"]], paint);
  },
  label([, across, down, size], glyph, { fill }) {
    const [x, y] = placed(glyph, across, down);
    const said = wordsOn(glyph.label ?? "", glyph.side * size);
    return said && { ...said, x, y, fill, weight: 600 };
  },
};

// The words for a label on a glyph of this side, and their size: shorter ones if there is no room for its own, and none if there is none for those.
// The colour and the inspector say the rest.
function wordsOn(label, side) {
  const { part, room, least, most } = table.letters;
  for (const words of [label, table.brief[label]]) {
    if (!words) continue;
    const more = Math.min(words.length, part.length) - 1;
    const size = side * part[more];
    if (size >= room[more]) return { words, size: Math.max(least, Math.min(most, size)) };
  }
  return null;
}

export function circle(x, y, radius) {
  return [["M", x + radius, y], ["A", x, y, radius, 0, WHOLE], ["Z"]];
}

function roundedBox(x, y, width, height, corner) {
  const [right, bottom] = [x + width, y + height];
  const quarter = WHOLE / 4;
  return [
    ["M", x, y + corner], ["A", x + corner, y + corner, corner, 2 * quarter, 3 * quarter],
    ["A", right - corner, y + corner, corner, 3 * quarter, WHOLE], ["A", right - corner, bottom - corner, corner, 0, quarter],
    ["A", x + corner, bottom - corner, corner, quarter, 2 * quarter], ["Z"],
  ];
}

// The outline of points with a margin round them: their hull, with round corners.
export function outline(points, margin) {
  const ring = hull(points);
  if (ring.length === 1) return circle(...ring[0], margin);
  const path = [];
  ring.forEach((corner, i) => {
    const before = ring.at(i - 1);
    const after = ring[(i + 1) % ring.length];
    const from = Math.atan2(corner[1] - before[1], corner[0] - before[0]) - Math.PI / 2;
    let to = Math.atan2(after[1] - corner[1], after[0] - corner[0]) - Math.PI / 2;
    while (to < from) to += WHOLE;
    const start = [corner[0] + margin * Math.cos(from), corner[1] + margin * Math.sin(from)];
    path.push([path.length ? "L" : "M", ...start], ["A", ...corner, margin, from, to]);
  });
  return [...path, ["Z"]];
}

// The corners of the hull of points, clockwise as y goes down.
export function hull(points) {
  const sorted = [...points].sort((a, b) => a[0] - b[0] || a[1] - b[1]);
  if (sorted.length < 3) return sorted;
  const turn = (o, a, b) => (a[0] - o[0]) * (b[1] - o[1]) - (a[1] - o[1]) * (b[0] - o[0]);
  const half = (list) => {
    const chain = [];
    for (const point of list) {
      while (chain.length > 1 && turn(chain.at(-2), chain.at(-1), point) <= 1e-6) chain.pop();
      chain.push(point);
    }
    return chain.slice(0, -1);
  };
  return [...half(sorted), ...half(sorted.reverse())];
}
