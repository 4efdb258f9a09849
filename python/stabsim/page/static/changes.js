// @ts-check
// Which part of a picture has to be drawn anew. A picture is a list of layers, each a list of elements (glyphs.js), the lowest first.

// How large a tile is.
export const TILE = 32;
// Which part of all tiles may change at most, so that it is not all drawn anew.
const MOST_CHANGED = 0.5;

// The elements that came and went from one picture to another, layer by layer: all from the first to the last that is not the same.
export const changesOf = (before, now) => now.flatMap((layer, i) => middleOf(before[i], layer));

function middleOf(before, now) {
  const least = Math.min(before.length, now.length);
  let first = 0;
  while (first < least && isAlike(before[first], now[first])) first += 1;
  let last = 0;
  while (last < least - first && isAlike(before.at(-1 - last), now.at(-1 - last))) last += 1;
  return [...before.slice(first, before.length - last), ...now.slice(first, now.length - last)];
}

// Whether two elements, or parts of them, look the same.
function isAlike(one, other) {
  if (one === other) return true;
  if (Array.isArray(one)) return Array.isArray(other) && one.length === other.length && one.every((part, i) => part === other[i] || isAlike(part, other[i]));
  if (one?.constructor !== Object || other?.constructor !== Object) return false;
  for (const name in one) if (one[name] !== other[name] && !isAlike(one[name], other[name])) return false;
  for (const name in other) if (one[name] === undefined && other[name] !== undefined) return false;
  return true;
}

// The tiles of a picture that elements cover.
export class Tiles {
  #across;
  #down;
  #covered;

  constructor(width, height, elements) {
    [this.#across, this.#down] = [Math.ceil(width / TILE), Math.ceil(height / TILE)];
    this.#covered = new Uint8Array(this.#across * this.#down);
    for (const element of elements) this.#someUnder(element, (tile) => { this.#covered[tile] = 1; });
  }

  // Whether they are most of the picture, so that all may be drawn anew as well.
  get areMost() {
    return this.#covered.reduce((sum, it) => sum + it, 0) > MOST_CHANGED * this.#covered.length;
  }

  // Whether an element covers one of them.
  areUnder(element) {
    return this.#someUnder(element, (tile) => this.#covered[tile] === 1);
  }

  // Boxes of those that lie side by side, [x, y, width, height].
  get boxes() {
    const boxes = [];
    this.#covered.forEach((isCovered, tile) => {
      const [across, down] = [tile % this.#across, Math.floor(tile / this.#across)];
      if (isCovered && across && this.#covered[tile - 1]) boxes.at(-1)[2] += TILE;
      else if (isCovered) boxes.push([across * TILE, down * TILE, TILE, TILE]);
    });
    return boxes;
  }

  #someUnder(element, test) {
    const [left, top, right, bottom] = boundsOf(element);
    const lastDown = Math.min(this.#down - 1, Math.floor(bottom / TILE));
    const lastAcross = Math.min(this.#across - 1, Math.floor(right / TILE));
    const firstAcross = Math.max(0, Math.floor(left / TILE));
    for (let down = Math.max(0, Math.floor(top / TILE)); down <= lastDown; down += 1) {
      for (let across = firstAcross; across <= lastAcross; across += 1) if (test(down * this.#across + across)) return true;
    }
    return false;
  }
}

// Bounds in which an element is drawn: [left, top, right, bottom].
export function boundsOf({ glyph, path, words, x, y, side, size, width = 1 }) {
  if (glyph) return around(x, y, side * 0.75 + 4);
  if (words) return around(x, y, size * words.length + 3, size + 3);
  if (!path) return [-Infinity, -Infinity, Infinity, Infinity];
  const bounds = [Infinity, Infinity, -Infinity, -Infinity];
  for (const [op, across, down, radius] of path) {
    if (op === "Z") continue;
    const [left, top, right, bottom] = around(across, down, (op === "A" ? radius : 0) + width / 2 + 2);
    if (left < bounds[0]) bounds[0] = left;
    if (top < bounds[1]) bounds[1] = top;
    if (right > bounds[2]) bounds[2] = right;
    if (bottom > bounds[3]) bounds[3] = bottom;
  }
  return bounds;
}

const around = (x, y, across, down = across) => [x - across, y - down, x + across, y + down];
