// @ts-check
// Draws elements (glyphs.js) on a canvas. A glyph is drawn once as a picture of its own and then copied, since most of a moment's
// glyphs are the same.

import { TILE, Tiles, changesOf } from "./changes.js";
import { elementsOf, hatch } from "./glyphs.js";
import { colourOf, theme } from "./colours.js";

const MOST_PICTURES = 400;
const HATCH_STEP = 6;

export class CanvasPen {
  #canvas;
  #pen;
  #pictures = new Map();
  #hatches = new Map();
  #theme = null;
  #ratio = 1;
  // The layers that are drawn, or null if there are none.
  #layers = null;

  constructor(canvas) {
    this.#canvas = canvas;
    this.#pen = canvas.getContext("2d");
  }

  // Makes the canvas as large as it is shown. What was drawn stays, if it was drawn alike.
  begin(width, height) {
    const ratio = devicePixelRatio || 1;
    if (theme() !== this.#theme || ratio !== this.#ratio) {
      this.#pictures.clear();
      this.#hatches.clear();
      this.#layers = null;
    }
    [this.#theme, this.#ratio] = [theme(), ratio];
    const size = [Math.round(width * ratio), Math.round(height * ratio)];
    if (this.#canvas.width !== size[0] || this.#canvas.height !== size[1]) {
      [this.#canvas.width, this.#canvas.height] = size;
      this.#layers = null;
    }
    this.#pen.setTransform(ratio, 0, 0, ratio, 0, 0);
    this.#pen.lineJoin = this.#pen.lineCap = "round";
  }

  // Draws layers in place of what was drawn before (changes.js): the tiles that change, or all if most do, or if tiles are no whole pixels.
  show(layers, width, height) {
    const changes = this.#layers && Number.isInteger(TILE * this.#ratio) && changesOf(this.#layers, layers);
    const tiles = changes && new Tiles(width, height, changes);
    this.#layers = layers;
    if (tiles && !tiles.areMost) return void this.#drawWithin(tiles, layers.flat());
    this.#pen.clearRect(0, 0, width, height);
    this.draw(layers.flat());
  }

  #drawWithin(tiles, elements) {
    const { boxes } = tiles;
    if (!boxes.length) return;
    this.#pen.save();
    this.#pen.beginPath();
    for (const box of boxes) this.#pen.rect(...box);
    this.#pen.clip();
    for (const box of boxes) this.#pen.clearRect(...box);
    this.draw(elements.filter((element) => tiles.areUnder(element)));
    this.#pen.restore();
  }

  draw(elements) {
    for (let i = 0; i < elements.length; i += 1) {
      const element = elements[i];
      if (element.glyph) this.#copy(element);
      else if (element.picture) this.#pen.drawImage(element.picture, 0, 0, element.width, element.height);
      else if (element.path) {
        // Lines one after another that look alike are one path, which takes a fraction of the time.
        const paths = [element.path];
        while (isLikeLine(element, elements[i + 1])) paths.push(elements[i += 1].path);
        this.#path(this.#pen, paths.length > 1 ? { ...element, path: paths.flat() } : element);
      }
      else if (element.boxes) this.#boxes(element);
      else this.#words(this.#pen, element);
    }
  }

  // One path of many boxes would take a hundred times as long.
  #boxes({ boxes, fill, alpha = 1 }) {
    this.#pen.globalAlpha = alpha;
    this.#pen.fillStyle = colourOf(fill);
    for (const [x, y, width, height] of boxes) this.#pen.fillRect(x, y, width, height);
    this.#pen.globalAlpha = 1;
  }

  // A picture of elements by themselves, which `draw` takes as {picture, width, height}.
  pictureOf(elements, width, height) {
    const picture = new OffscreenCanvas(Math.max(1, Math.round(width * this.#ratio)), Math.max(1, Math.round(height * this.#ratio)));
    const shown = this.#pen;
    this.#pen = picture.getContext("2d");
    this.#pen.scale(this.#ratio, this.#ratio);
    this.draw(elements);
    this.#pen = shown;
    return picture;
  }

  #copy(glyph) {
    const key = `${glyph.glyph} ${glyph.side.toFixed(2)} ${glyph.role} ${glyph.label ?? ""}`;
    let picture = this.#pictures.get(key);
    if (!picture) {
      if (this.#pictures.size >= MOST_PICTURES) this.#pictures.clear();
      picture = this.#glyphPicture(glyph);
      this.#pictures.set(key, picture);
    }
    const side = picture.width / this.#ratio;
    // On whole pixels, else a copy would be blurred.
    const left = Math.round((glyph.x - side / 2) * this.#ratio) / this.#ratio;
    const top = Math.round((glyph.y - side / 2) * this.#ratio) / this.#ratio;
    this.#pen.drawImage(picture, left, top, side, side);
  }

  #glyphPicture(glyph) {
    const side = Math.ceil(Math.max(4, glyph.side * 1.5)) + 2;
    const picture = new OffscreenCanvas(Math.ceil(side * this.#ratio), Math.ceil(side * this.#ratio));
    const pen = picture.getContext("2d");
    pen.scale(this.#ratio, this.#ratio);
    pen.lineJoin = pen.lineCap = "round";
    const middle = picture.width / this.#ratio / 2;
    for (const element of elementsOf({ ...glyph, x: middle, y: middle })) {
      if (element.path) this.#path(pen, element);
      else this.#words(pen, element);
    }
    return picture;
  }

  // Whether a spot is within a path.
  isWithin(path, [x, y]) {
    trace(this.#pen, path);
    return this.#pen.isPointInPath(x * this.#ratio, y * this.#ratio);
  }

  /** @param {any} pen @param {import("./types.js").Element} element */
  #path(pen, { path, fill, stroke, width = 1, dash, alpha = 1, hatch: letter }) {
    trace(pen, path);
    pen.globalAlpha = alpha;
    if (fill) {
      pen.fillStyle = colourOf(fill);
      pen.fill();
    }
    if (letter) {
      pen.fillStyle = this.#hatch(letter);
      pen.fill();
    }
    if (stroke) {
      pen.strokeStyle = colourOf(stroke);
      pen.lineWidth = width;
      pen.setLineDash(dash ?? []);
      pen.stroke();
      if (dash) pen.setLineDash([]);
    }
    pen.globalAlpha = 1;
  }

  /** @param {any} pen @param {import("./types.js").Element} element */
  #words(pen, { words, x, y, size, fill, align = "center", weight = 400, mono = false, halo }) {
    pen.font = `${weight} ${size}px ${colourOf(mono ? "mono" : "sans")}`;
    pen.textAlign = align;
    pen.textBaseline = "middle";
    if (halo) {
      pen.strokeStyle = colourOf(halo);
      pen.lineWidth = 3;
      pen.strokeText(words, x, y);
    }
    pen.fillStyle = colourOf(fill);
    pen.fillText(words, x, y);
  }

  // By patterns letters are told apart without colour.
  #hatch(letter) {
    if (!this.#hatches.has(letter)) this.#hatches.set(letter, this.#pen.createPattern(tileOf(letter), "repeat"));
    return this.#hatches.get(letter);
  }
}

function trace(pen, path) {
  pen.beginPath();
  for (const [op, ...numbers] of path) {
    if (op === "M") pen.moveTo(...numbers);
    else if (op === "L") pen.lineTo(...numbers);
    else if (op === "A") pen.arc(...numbers);
    else pen.closePath();
  }
}

// Whether two elements are lines of the same colour and width. Faces are not taken together, since they may lie over each other.
function isLikeLine(one, other) {
  return other?.path && one.stroke && one.stroke === other.stroke && one.width === other.width && !one.fill && !other.fill && !one.hatch && !other.hatch
    && !one.dash && !other.dash && one.alpha === other.alpha && (one.alpha ?? 1) === 1;
}

function tileOf(letter) {
  const tile = new OffscreenCanvas(HATCH_STEP, HATCH_STEP);
  const pen = tile.getContext("2d");
  pen.strokeStyle = pen.fillStyle = colourOf(letter.toLowerCase());
  pen.globalAlpha = 0.55;
  if (hatch[letter] === "dots") pen.fillRect(2, 2, 2, 2);
  else {
    const strokes = hatch[letter] === "rising" ? [[-1, 1, 1, -1], [0, 6, 6, 0], [5, 7, 7, 5]] : [[0, 3.5, 6, 3.5]];
    for (const [left, top, right, bottom] of strokes) {
      pen.moveTo(left, top);
      pen.lineTo(right, bottom);
    }
    pen.stroke();
  }
  return tile;
}
