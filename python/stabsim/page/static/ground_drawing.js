// @ts-check
// What lies under a picture of qubits: a dot where one could be; and coordinates in gutters at the edges, over all else.

// From which scale on there are dots, and from which on all over the picture.
const DOTS_FROM = 14;
const ALL_FROM = 20;
// How near numbers at the edges are at most, in pixels.
const LEAST_STEP = 24;
// How wide the gutters of the numbers are, at the left and at the top.
export const LEFT = 32;
export const TOP = 22;
// How far from its middle a letter of a number reaches across, and its lines down, in pixels.
const HALF_LETTER = 4.5;
const HALF_LINE = 8;

const HINT = ["Press q, and click where a qubit shall be.", "A circuit may be dropped here, pasted or opened."];

export function groundElements({ scene, view }) {
  return [...dots(scene, view), ...(scene.places.size ? [] : hint(view))];
}

// The whole numbers that are in sight, across or down.
const between = (from, length, scale) => [Math.ceil(-from / scale), Math.floor((length - from) / scale)];

function dots({ box }, { scale, x, y, width, height }) {
  if (scale < DOTS_FROM) return [];
  let [[left, right], [top, bottom]] = [between(x, width, scale), between(y, height, scale)];
  if (scale < ALL_FROM) {
    [left, right] = [Math.max(left, Math.ceil(box.left) - 1), Math.min(right, Math.floor(box.right) + 1)];
    [top, bottom] = [Math.max(top, Math.ceil(box.top) - 1), Math.min(bottom, Math.floor(box.bottom) + 1)];
  }
  const boxes = [];
  for (let across = left; across <= right; across += 1) {
    // On whole pixels, so that all dots look alike.
    for (let down = top; down <= bottom; down += 1) boxes.push([Math.round(x + across * scale) - 1, Math.round(y + down * scale) - 1, 2, 2]);
  }
  return boxes.length ? [{ boxes, fill: "edge", alpha: 0.45 }] : [];
}

export function gutterElements({ scene, view: { scale, x, y, width, height } }) {
  if (!scene.hasCoordinates) return [];
  const step = [1, 2, 5, 10, 20, 50].find((it) => it * scale >= LEAST_STEP) ?? 100;
  const said = { size: 12.5, fill: "quiet" };
  const across = numbers(x, width, scale, step).filter(([words, at]) => at > LEFT + 8 && at + words.length * HALF_LETTER < width).map(([words, at]) => ({ ...said, words, x: at, y: TOP / 2 }));
  const down = numbers(y, height, scale, step).filter(([, at]) => at > TOP + 6 && at + HALF_LINE < height).map(([words, at]) => ({ ...said, words, x: LEFT - 5, y: at, align: "right" }));
  return [
    { boxes: [[0, 0, width, TOP], [0, 0, LEFT, height]], fill: "sheet" }, { boxes: [[LEFT, TOP, width, 1], [LEFT, TOP, 1, height]], fill: "hair" },
    ...across, ...down,
  ];
}

// The numbers in steps that are in sight, each with where it is.
function numbers(from, length, scale, step) {
  const [first, last] = between(from, length, scale * step);
  return Array.from({ length: Math.max(0, last - first + 1) }, (_, i) => [String((first + i) * step), from + (first + i) * step * scale]);
}

// Beside the gutter, as large as it has room there.
function hint({ width, height }) {
  const size = Math.min(14, ((width - LEFT) / Math.max(...HINT.map((words) => words.length))) * 1.9);
  return HINT.map((words, i) => ({ words, x: (LEFT + width) / 2, y: height / 2 + (i - 0.5) * 22, size, fill: "quiet", halo: "sheet" }));
}
