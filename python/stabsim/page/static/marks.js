// @ts-check
// What gates, qubits and numbers look like: the marks of shapes.json on their spots, as elements (glyphs.js). diagrams/marks.py draws by
// the same table.

import { circle, outline, table } from "./glyphs.js";

// The elements of marks of a name, {under, over}. `points` are where the qubits are seen, and `side` is that of a glyph; `values` are
// named in the table, and `each` has those of single qubits.
export function marksOf(name, values, points, side, each = []) {
  const found = { under: [], over: [] };
  const sheet = { points, side, middle: middleOf(points) };
  for (const mark of table.marks[name]) {
    if (!isDrawn(mark, sheet)) continue;
    const layer = mark.layer === "under" ? found.under : found.over;
    if (mark.on === "each") sheet.points.forEach((at, i) => layer.push(DRAWN[mark.draw](mark, sheet, valued({ ...values, ...each[i] }), at)));
    else {
      const element = DRAWN[mark.draw](mark, sheet, valued(values), mark.on && spotOf([mark.on, 0, 0], sheet));
      if (element) layer.push(element);
    }
  }
  return found;
}

export const middleOf = (points) => [0, 1].map((axis) => points.reduce((sum, point) => sum + point[axis], 0) / points.length);

function isDrawn({ from = 0, clear = 0 }, { points, side, middle }) {
  if (typeof from === "number" && side < from) return false;
  return clear === 0 || points.every(([x, y]) => Math.hypot(x - middle[0], y - middle[1]) > clear * side);
}

// A field's value: what the gate, the action or the qubit has, or a colour of its role.
function valued(values) {
  const [solid, soft, edge] = table.roles[values.role] ?? [];
  const all = { solid, soft, edge, ...values };
  return (field) => (typeof field === "string" && field.startsWith("$") ? all[field.slice(1)] ?? "" : field);
}

const lengthOf = ([part, least, most], side) => Math.max(least, Math.min(most, part * side));

function spotOf([on, across, down], { points, side, middle }) {
  const [x, y] = { first: points[0], second: points[1], middle }[on];
  return [x + across * side, y + down * side];
}

function besideOf({ by = [0, 0], step = [0, 0], lift = 0 }, { side }, of, [x, y]) {
  const before = of("$before") || 0;
  return [x + (by[0] + before * step[0]) * side, y + (by[1] + before * step[1]) * side - lift];
}

// How each kind of mark is drawn; one without an element changes the spots of those after it.
export const DRAWN = {
  glyph(mark, sheet, of, at) {
    const [x, y] = besideOf(mark, sheet, of, at);
    const side = mark.side ? lengthOf(mark.side, sheet.side) : sheet.side;
    return { glyph: of(mark.shape), x, y, side, role: of(mark.role), label: of(mark.label ?? "") };
  },
  words(mark, sheet, of, at) {
    const [x, y] = besideOf(mark, sheet, of, at);
    const { align, weight, mono, halo } = mark;
    return { words: of(mark.words), x, y, size: lengthOf(mark.size, sheet.side), fill: of(mark.fill), align, weight, mono, halo };
  },
  circle(mark, sheet, of, at) {
    return { path: circle(...besideOf(mark, sheet, of, at), lengthOf(mark.radius, sheet.side)), fill: of(mark.fill) };
  },
  line(mark, sheet, of) {
    const [from, to] = [spotOf(mark.from, sheet), spotOf(mark.to, sheet)];
    return { path: [["M", ...from], ["L", ...to]], stroke: of(mark.stroke), width: lengthOf(mark.width, sheet.side), dash: mark.dash };
  },
  outline(mark, sheet, of) {
    const path = outline(sheet.points, lengthOf(mark.margin, sheet.side));
    if (mark.fill) return { path, fill: of(mark.fill), alpha: mark.alpha };
    return { path, stroke: of(mark.stroke), width: lengthOf(mark.width, sheet.side) };
  },
  inwards({ part, most }, sheet) {
    const { side, middle } = sheet;
    sheet.points = sheet.points.map(([x, y]) => {
      const way = Math.min(most, (part * side) / (Math.hypot(middle[0] - x, middle[1] - y) || 1));
      return [x + (middle[0] - x) * way, y + (middle[1] - y) * way];
    });
    return null;
  },
};
