// @ts-check
// The drawing of a timeline, as layers of elements (glyphs.js).
//
// A sheet says what is shown and where: {line, shown, width, height, step, first, last, aim, range, gap, x(moment), at(bit), rowHeight,
// ground}, with the moments in sight from `first` to `last`, the one to which something is dragged as `aim`, the first and the last moment of
// the chosen lines as `range`, where a tick is dragged to as `gap`, and the picture of all detectors as they are if nothing is known of them
// as `ground`.

import { WRONG } from "./fault_set.js";
import { circle, gates, table } from "./glyphs.js";
import { isControlled, isPair } from "./instructions.js";
import { endsByTick } from "./ticks.js";

export const LEFT = 86;
export const TOP = 82;
const ROUNDS = 11;
const TICKS = 30;
// From where to where the marks of ticks reach, and from which width of a moment on they are drawn.
export const MARKS = [20.5, 27];
const MARKS_FROM = 10;
// From which width on numbers of ticks are beside each other, and how far down a mark reaches above those that are not.
const APART = 26;
const ABOVE_NUMBERS = 24.5;
export const OPERATIONS = 49;
// The greatest glyph, so that its letter has 12.5 pixels.
const OPERATION = 19;
const ERROR_SIDE = 18;
const ERROR = 68;

export function timelineOf(sheet) {
  const { shown, width, height, aim, range, gap } = sheet;
  const columnsOf = (from, to) => ({ path: box(sheet.x(from) - Math.max(3, sheet.step / 2), 20.5, Math.max(6, (to - from + 1) * sheet.step), height - 25) });
  const columnOf = (moment) => columnsOf(moment, moment);
  const head = columnOf(shown.moment);
  const chosen = range ? [columnsOf(...range)] : [];
  return [
    bands(sheet),
    [...chosen, head].map((it) => ({ ...it, fill: "chosen" })),
    ticks(sheet),
    tickMarks(sheet),
    errorElements(sheet),
    thread(sheet),
    coinThread(sheet),
    [sheet.ground],
    dots(sheet),
    [...chosen, head].map((it) => ({ ...it, stroke: "accent", width: 1.5 })),
    aim === null ? [] : [{ ...columnOf(aim), stroke: "accent", width: 2, dash: [4, 3] }],
    gap === null ? [] : [{ path: [["M", gap, 20.5], ["L", gap, height - 5]], stroke: "accent", width: 2.5 }],
    [{ path: box(0, 0, LEFT - 4, height), fill: "sheet" }],
    names(),
    observables(sheet, width, height),
  ];
}

function names() {
  const said = [["rounds", ROUNDS], ["ticks", TICKS], ["operations", OPERATIONS], ["error", ERROR], ["detectors", TOP + 14]];
  return said.map(([words, y]) => ({ words, x: 10, y, size: 12.5, fill: "quiet", align: "left" }));
}

// Rounds as bands, each with its block and its number; what is in no block is between them.
function bands({ line, first, last, x, step, height }) {
  const elements = [];
  for (const { from, to, label, short, isOdd, isBlock } of line.bands(first, last)) {
    const [left, right] = [x(from) - step / 2, x(to) - step / 2];
    if (isBlock) elements.push({ path: box(left, 0, right - left, height), fill: isOdd ? "hover" : "well" });
    elements.push({ path: [["M", left, 0], ["L", left, height]], stroke: "hair" });
    const seen = Math.max(left, LEFT);
    const words = right - seen > 7 * label.length + 8 ? label : right - seen > 7 * short.length + 8 ? short : "";
    if (words) elements.push({ words, x: seen + 5, y: ROUNDS, size: 12.5, fill: "ink", align: "left" });
  }
  return elements;
}

function ticks({ line, shown, first, last, x, step }) {
  const every = [1, 2, 5, 10, 20, 50, 100].find((it) => it * step >= APART) ?? 200;
  const side = Math.min(OPERATION, step * 0.84);
  const elements = [];
  for (let moment = first; moment <= last; moment += 1) {
    const isNow = moment === shown.moment;
    const { tick, name } = line.name(moment);
    const isClear = Math.abs(moment - shown.moment) * step > 22;
    if (isNow || (tick % every === 0 && isClear && !name.includes(".")) || (name.endsWith(".1") && isClear && every === 1)) {
      elements.push({ words: name, x: x(moment), y: TICKS, size: 12.5, fill: isNow ? "ink" : "quiet", weight: isNow ? 700 : 400 });
    }
    const glyph = glyphOf(line.operation(moment), side);
    if (glyph) elements.push({ ...glyph, x: x(moment), y: OPERATIONS, side });
  }
  return elements;
}

// A grip between two moments if a TICK is there: by it the tick is moved.
function tickMarks({ shown: { items }, first, last, x, step }) {
  if (step < MARKS_FROM) return [];
  const path = [];
  const low = step < APART ? ABOVE_NUMBERS : MARKS[1];
  for (let moment = first; moment <= last; moment += 1) {
    if (endsByTick(items, moment)) path.push(["M", x(moment + 0.5), MARKS[0]], ["L", x(moment + 0.5), low]);
  }
  return path.length ? [{ path, stroke: "edge", width: 2 }] : [];
}

// A set of errors: at each moment the letter, or a grey mark for several, and on how many qubits it is.
function errorElements({ shown: { set }, first, last, x, step }) {
  const side = Math.max(5, Math.min(ERROR_SIDE, step * 0.84));
  return Object.entries(set).map(([moment, letters]) => [Number(moment), Object.values(letters)])
    .filter(([moment]) => moment >= first && moment <= last)
    .map(([moment, letters]) => ({ ...errorMark(letters, side), x: x(moment), y: ERROR, side }));
}

function errorMark(letters, side) {
  const [letter] = letters;
  const count = side < 12 || letters.length === 1 ? "" : String(letters.length);
  if (new Set(letters).size > 1) return { glyph: "gate", role: "op", label: count };
  if (letter === WRONG) return { glyph: "measure", role: "m", label: count || (side < 12 ? "" : "!") };
  return { glyph: letter, role: letter.toLowerCase(), label: count || (side < 12 ? "" : letter) };
}

// The region of the chosen bit through time: at each moment the letters that it has there.
function thread({ shown: { bit, region }, first, last, x, at, step, height }) {
  const moments = Object.keys(region).map(Number);
  if (bit === null || !moments.length) return [];
  const [end, y] = bit.startsWith("D") ? at(bit) : [x(moments.at(-1)), height - 26];
  /** @type {import("./types.js").Element[]} */
  const elements = [{ path: [["M", x(moments[0]) - step / 2, y], ["L", end, y]], stroke: "ink", width: 1.5 }];
  for (const moment of moments) {
    if (moment < first || moment > last) continue;
    const letters = [...new Set(Object.values(region[moment]))].sort();
    letters.forEach((letter, i) => elements.push({
      glyph: letter, x: x(moment), y: y + (i - (letters.length - 1) / 2) * 7, side: Math.max(5, Math.min(9, step * 0.6)), role: letter.toLowerCase(),
    }));
  }
  return elements;
}

// The coins that decide the chosen bit: a broken line from the first of them.
function coinThread({ shown: { bit, coins }, x, at, height }) {
  if (!coins?.length) return [];
  const moments = [...new Set(coins.map(({ moment }) => moment))].sort((a, b) => a - b);
  const [end, y] = bit.startsWith("D") ? at(bit) : [x(moments.at(-1)), height - 26];
  const marks = moments.map((moment) => ({ ...dotOf("random"), x: x(moment), y, side: 10 }));
  return [{ path: [["M", x(moments[0]), y], ["L", end, y]], stroke: "quiet", width: 1.5, dash: [3, 3] }, ...marks];
}

const sizeOfDots = ({ rowHeight, step }) => Math.max(3.5, Math.min(9, rowHeight * 0.8, step * 0.8));

// Those that are 1, flipped, or decided by a coin are drawn over the others, and the last two are never small.
function dots(sheet) {
  const { line, shown, first, last, at } = sheet;
  const size = sizeOfDots(sheet);
  const marks = shown.toldBetween(...line.range(first - 1, last + 1)).map((number) => {
    const kind = shown.kindOf(`D${number}`);
    const [x, y] = at(`D${number}`);
    return { ...dotOf(kind), x, y, side: kind === "bit1" ? size : Math.max(9, size), isLate: kind !== "bit1" };
  });
  const chosen = shown.bit?.startsWith("D") ? [{ path: circle(...at(shown.bit), 8), stroke: "accent", width: 2 }] : [];
  return [...marks.filter(({ isLate }) => !isLate), ...marks.filter(({ isLate }) => isLate), ...hits(sheet), ...chosen];
}

// A dark ring round each bit that the marks of the layer at hand flip.
function hits({ shown: { hit = [], observables: { length } }, at }) {
  return hit.filter((name) => name.startsWith("D") || Number(name.slice(1)) < length).map((name) => ({ path: circle(...at(name), 7), stroke: "ink", width: 2 }));
}

// All detectors as they are if nothing is known of them.
export function groundOf(sheet) {
  const { line, first, last, at, rowHeight } = sheet;
  const size = sizeOfDots(sheet);
  const spots = [...line.between(first - 1, last + 1)].map((number) => at(`D${number}`));
  if (size >= 5) return spots.map(([x, y]) => ({ ...dotOf("bit0"), x, y, side: size }));
  const height = Math.min(3, Math.max(1.2, rowHeight * 0.75));
  return [{ boxes: spots.map(([x, y]) => [x - 1.5, y - height / 2, 3, height]), fill: "zero" }];
}

function observables({ shown, at }, width, height) {
  /** @type {import("./types.js").Element[]} */
  const elements = [{ path: box(0, height - 22, width, 22), fill: "sheet" }];
  shown.observables.forEach((_, number) => {
    const [x, y] = at(`L${number}`);
    elements.push({ ...dotOf(shown.kindOf(`L${number}`)), x, y, side: 10 }, { words: `L${number}`, x: x - 10, y, size: 12.5, fill: "quiet", align: "right" });
    if (shown.bit === `L${number}`) elements.push({ path: circle(x, y, 8), stroke: "accent", width: 2 });
  });
  return shown.observables.length ? elements : [];
}

const ROLES = { random: "quiet", flipped: "flip", bit1: "one", bit0: "zero" };
const dotOf = (kind) => ({ glyph: kind, role: ROLES[kind] });

const box = (x, y, width, height) => [["M", x, y], ["L", x + width, y], ["L", x + width, y + height], ["L", x, y + height], ["Z"]];

function glyphOf(item, side) {
  if (!item) return null;
  if (item.name === "MPP") return { glyph: "factor", role: "wire", label: side >= 12 ? "P" : "" };
  if (isPair(item.name)) {
    const letter = item.name.slice(1);
    return isControlled(item) ? { glyph: "gate", role: letter.toLowerCase(), label: letter } : { glyph: gates[item.name].second, role: "wire" };
  }
  const { shape, role, label } = gates[item.name];
  return { glyph: shape, role, label: label && (table.brief[label] ?? label) };
}
