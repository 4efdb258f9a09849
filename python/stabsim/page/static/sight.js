// @ts-check
// Where places of the grid are seen on a picture: all of them fitted in, or zoomed and panned.

import { sideAt } from "./glyphs.js";
import { LEFT, TOP } from "./ground_drawing.js";

// How much room there is beside the outermost places at least: at the edges where no gutter is; and for what is drawn of a qubit, as a ring with a letter
// and the number of its layer, in sides of a glyph and some pixels, across and down.
const MARGIN = { right: 40, bottom: 34 };
const REACH = [1.15, 1];
const RIM = 4;
// How far apart neighbouring qubits are at most when all are fitted in, and at any zoom, in pixels.
const MOST_FITTED = 104;
const MOST = 200;
// Which part of a picture has to be in sight at least, across and down, so that it is moved and not drawn anew.
const LEAST_SEEN = 0.5;
// By which part it may be stretched, at least and at most.
const LEAST_PART = 0.4;
const MOST_PART = 3;

export class Sight {
  #size = [0, 0];
  #box = null;
  #near = 1;
  #scale = 0;
  #at = [0, 0];
  #fitted = 1;
  // How much of the picture's lower end lies below something else.
  #below = 0;
  // Whether all is as it was fitted in, neither zoomed nor panned.
  #isWhole = true;

  // Whether anything can be seen: there are places, and a picture of some size.
  get isThere() {
    return this.#scale > 0;
  }

  get size() {
    return this.#size;
  }

  // By how much it is zoomed: 1 if all is fitted in.
  get part() {
    return this.#scale / this.#fitted;
  }

  // How far apart neighbouring qubits are seen.
  get pitch() {
    return this.#scale * this.#near;
  }

  // What drawing.js takes.
  get view() {
    return { scale: this.#scale, x: this.#at[0], y: this.#at[1], width: this.#size[0], height: this.#size[1], near: this.#near };
  }

  // Takes where places are (places.js); with `isFresh` all are fitted in, and so they are if all were and one would be out of sight. Answers whether
  // they were fitted in anew.
  take({ box, near }, isFresh) {
    [this.#box, this.#near] = [box, near];
    const isFitted = isFresh || !this.isThere || (this.#isWhole && !this.#isInSight());
    if (isFitted) this.fit();
    return isFitted;
  }

  // Whether the outermost places are seen.
  #isInSight() {
    const { left, right, top, bottom } = this.#box;
    const [first, last] = [this.seen([left, top]), this.seen([right, bottom])];
    return Math.min(...first) >= 0 && last[0] <= this.#size[0] && last[1] <= this.#size[1] - this.#below;
  }

  fit() {
    const [width, height] = this.#size;
    if (!this.#box || !width) return;
    const { left, right, top, bottom } = this.#box;
    const scaleIn = (room) => Math.max(1e-3, Math.min((width - room.left - room.right) / (right - left || 1), (height - room.top - room.bottom) / (bottom - top || 1), MOST_FITTED / this.#near));
    // With more room at the edges glyphs are smaller, and so have enough.
    const room = this.#roomBeside(sideAt(scaleIn(this.#roomBeside(0)) * this.#near));
    this.#fitted = scaleIn(room);
    this.#scale = this.#fitted;
    this.#isWhole = true;
    this.#at = [(width + room.left - room.right - this.#fitted * (left + right)) / 2, (height + room.top - room.bottom - this.#fitted * (top + bottom)) / 2];
  }

  // The room beside the outermost places that glyphs of a side ask for.
  #roomBeside(side) {
    const [across, down] = REACH.map((part) => part * side + RIM);
    return { left: LEFT + across, right: Math.max(MARGIN.right, across), top: TOP + down, bottom: Math.max(MARGIN.bottom, down) + this.#below };
  }

  // Zooms by a factor, so that the spot given stays where it is.
  zoom(factor, x = this.#size[0] / 2, y = this.#size[1] / 2) {
    const scale = Math.max(this.#fitted / 2, Math.min(MOST / this.#near, this.#scale * factor));
    const part = scale / this.#scale;
    this.#at = [x - (x - this.#at[0]) * part, y - (y - this.#at[1]) * part];
    this.#scale = scale;
    this.#isWhole = false;
  }

  pan(across, down) {
    if (across || down) this.#isWhole = false;
    this.#at = [this.#at[0] + across, this.#at[1] + down];
  }

  // Pans just so far that a spot is in sight.
  bringIntoSight([x, y]) {
    const [width, height] = this.#size;
    const into = (value, most) => Math.min(0, most - 24 - value) + Math.max(0, 24 - value);
    this.pan(into(x, width), into(y, height));
  }

  // Takes the size of the picture, and how much of its lower end lies below something else.
  resize(size, below = 0) {
    const before = this.#size;
    const isFitted = !this.isThere || this.#scale === this.#fitted;
    [this.#size, this.#below] = [size, below];
    if (isFitted) this.fit();
    else this.pan((size[0] - before[0]) / 2, (size[1] - before[1]) / 2);
  }

  // How a picture of another view lies in this one: how far it is moved, and by which part it is stretched.
  shiftFrom({ scale, x, y }) {
    const part = this.#scale / scale;
    return [this.#at[0] - part * x, this.#at[1] - part * y, part];
  }

  // Whether a picture of another view, moved and stretched, shows most of what is seen here.
  isLike(view) {
    const [left, top, part] = this.shiftFrom(view);
    const [width, height] = this.#size;
    if (view.width !== width || view.height !== height || part < LEAST_PART || part > MOST_PART) return false;
    const overlap = (from, length) => Math.min(length, from + part * length) - Math.max(0, from);
    return overlap(left, width) > LEAST_SEEN * width && overlap(top, height) > LEAST_SEEN * height;
  }

  // Where a place is seen.
  /** @param {import("./types.js").Spot} place @returns {import("./types.js").Spot} */
  seen([x, y]) {
    return [this.#at[0] + x * this.#scale, this.#at[1] + y * this.#scale];
  }

  // The whole place that is nearest to a spot.
  /** @param {import("./types.js").Spot} spot @returns {import("./types.js").Spot} */
  placeAt([x, y]) {
    return [Math.round((x - this.#at[0]) / this.#scale), Math.round((y - this.#at[1]) / this.#scale)];
  }
}
