// @ts-check
// The qubits at one moment, on a canvas in a pane, zoomed and panned.

import { CanvasPen } from "./canvas_pen.js";
import { Kept, layersOf } from "./drawing.js";
import { Gestures } from "./gestures.js";
import { PITCH } from "./glyphs.js";
import { qubitsOf } from "./instructions.js";
import { Sight } from "./sight.js";

// From this many marks on a picture is moved as it is while it is zoomed or panned. It is drawn anew after this many milliseconds of rest.
const MANY = 500;
const REST = 150;
// How far a click on a qubit may be from its middle where there is a face, in parts of the distance of neighbours.
const ON_QUBIT = 0.36;

export class LayoutView {
  #canvas;
  #pen;
  #act;
  #gestures;
  #sight = new Sight();
  #scene = null;
  #kept = new Kept();
  #frame = 0;
  #rest = 0;
  // How places were seen when the picture was drawn, if it has many marks; else null.
  #drawn = null;

  // `act` has tool(), which is "pick", "qubit" or the name of a gate; choose(qubit, isMore), box(qubits, isMore), hover(qubit),
  // menu(qubit, place); use(qubit, isTurned), lead(first, second, isTurned) and useAt(place, isTurned) of the tool, place(places) of new qubits;
  // shift(qubit, place) of a qubit that is dragged; carry(qubit, place) and drop(qubit, place) of a gate that is; face(bit) of a face that is clicked; and zoomed(part).
  constructor(pane, act) {
    this.#canvas = pane.querySelector("canvas");
    this.#pen = new CanvasPen(this.#canvas);
    this.#act = act;
    this.#gestures = new Gestures(pane, this, act);
    new ResizeObserver(() => {
      this.#sight.resize([pane.clientWidth, pane.clientHeight], parseFloat(getComputedStyle(pane).getPropertyValue("--below")));
      this.#zoomed();
    }).observe(pane);
  }

  // Draws another scene (drawing.js). If it is fresh, all its qubits are fitted in.
  show(scene, isFresh) {
    this.#scene = scene;
    if (this.#sight.take(scene, isFresh)) this.#zoomed();
    else this.draw();
  }

  // Draws in the next frame, however often it is asked for.
  draw() {
    this.#frame ||= requestAnimationFrame(() => {
      this.#frame = 0;
      this.drawNow();
    });
  }

  drawNow() {
    if (!this.isThere) return;
    const layers = this.#layers();
    this.#pen.begin(...this.size);
    this.#pen.show(layers, ...this.size);
    this.#canvas.style.transform = "";
    this.#drawn = layers.flat().length > MANY ? this.#sight.view : null;
  }

  // Whether it is drawn as it is to be seen.
  get isDrawn() {
    return !this.#frame && !this.#rest;
  }

  // What is drawn, as elements (glyphs.js).
  elements() {
    return this.#layers().flat();
  }

  #layers() {
    return layersOf({ ...this.#scene, ...this.#marks() }, this.#sight.view, this.#kept);
  }

  get isThere() {
    return this.#scene !== null && this.#sight.isThere;
  }

  get size() {
    return this.#sight.size;
  }

  // Where a qubit is seen, from the upper left corner of the canvas; null if it has no place.
  at(qubit) {
    const place = this.#scene?.places.get(qubit);
    return place && this.isThere ? this.#sight.seen(place) : null;
  }

  // Where a place of the grid is seen.
  spot(place) {
    return this.#sight.seen(place);
  }

  fit() {
    this.#sight.fit();
    this.#zoomed();
  }

  // Zooms by a factor, so that the spot given stays where it is.
  zoom(factor, x, y) {
    if (!this.isThere) return;
    this.#sight.zoom(factor, x, y);
    this.#zoomed();
  }

  pan(across, down) {
    this.#sight.pan(across, down);
    this.#move();
  }

  // Pans just so far that a qubit is in sight.
  bringIntoSight(qubit) {
    const spot = this.at(qubit);
    if (!spot) return;
    this.#sight.bringIntoSight(spot);
    this.draw();
  }

  qubitAt([x, y]) {
    let [best, least] = [null, Math.max(10, this.#sight.pitch * 0.5)];
    for (const [qubit, place] of this.#scene.places) {
      const [left, top] = this.#sight.seen(place);
      const far = Math.hypot(left - x, top - y);
      if (far < least) [best, least] = [qubit, far];
    }
    return best;
  }

  // The qubits in a box of two spots.
  qubitsIn([[left, top], [right, bottom]]) {
    const isBetween = (value, a, b) => value >= Math.min(a, b) && value <= Math.max(a, b);
    return [...this.#scene.places].filter(([, place]) => {
      const [x, y] = this.#sight.seen(place);
      return isBetween(x, left, right) && isBetween(y, top, bottom);
    }).map(([qubit]) => qubit);
  }

  placeAt(spot) {
    return this.#sight.placeAt(spot);
  }

  // Where a drag of a qubit to a spot takes it, with all that are chosen if it is one of them.
  placesShifted(qubit, spot) {
    const { chosen, places } = this.#scene;
    const [[x, y], [across, down]] = [places.get(qubit), this.placeAt(spot)];
    const ours = chosen.includes(qubit) ? chosen : [qubit];
    return ours.map((it) => places.get(it)).filter(Boolean).map(([left, top]) => [left + across - x, top + down - y]);
  }

  // The whole places in a box of two spots on which no qubit is, or each second of them that way and this.
  placesIn([from, to], step) {
    const [[x, y], [right, bottom]] = [this.placeAt(from), this.placeAt(to)];
    const taken = new Set([...this.#scene.places.values()].map((place) => place.join()));
    const between = (a, b) => Array.from({ length: Math.floor(Math.abs(b - a) / step) + 1 }, (_, i) => a + Math.sign(b - a) * i * step);
    return between(y, bottom).flatMap((down) => between(x, right).map((across) => [across, down])).filter((place) => !taken.has(place.join()));
  }

  // Whether a spot is on the glyph of what acts on a qubit.
  hasGlyphAt(qubit, [x, y]) {
    const [left, top] = this.at(qubit);
    const isOn = Math.hypot(left - x, top - y) <= Math.max(8, Math.min(20, (this.#sight.pitch * PITCH) / 2));
    return isOn && this.#scene.instructions.some(({ item }) => qubitsOf(item).includes(qubit));
  }

  // The bit of the face under a spot, if that is not on a qubit; or null.
  faceAt(spot) {
    const qubit = this.qubitAt(spot);
    const [left, top] = (qubit !== null && this.at(qubit)) || [Infinity, Infinity];
    if (Math.hypot(left - spot[0], top - spot[1]) <= Math.max(10, this.#sight.pitch * ON_QUBIT)) return null;
    return this.elements().findLast(({ path, bit }) => bit && this.#pen.isWithin(path, spot))?.bit ?? null;
  }

  #zoomed() {
    this.#act.zoomed(this.isThere ? this.#sight.part : 1);
    this.#move();
  }

  // Draws after a zoom or a pan. While they go on, the browser moves and stretches a canvas of many marks as it is, since to draw it
  // takes longer than a frame.
  #move() {
    clearTimeout(this.#rest);
    this.#rest = 0;
    if (!this.#drawn || !this.#sight.isLike(this.#drawn)) return void this.draw();
    this.#rest = setTimeout(() => {
      this.#rest = 0;
      this.draw();
    }, REST);
    const [left, top, part] = this.#sight.shiftFrom(this.#drawn);
    this.#canvas.style.transform = `translate(${left}px, ${top}px) scale(${part})`;
  }

  // What is drawn for the pointer: lines to what a gate on two would act on next, the places of new qubits, the box of a drag.
  #marks() {
    const { pointer, frame, places, led } = this.#gestures.marks;
    return { pending: pointer ? this.#pending(pointer, led) : [], spots: places.map((place) => this.#sight.seen(place)), frame };
  }

  // A line from each qubit that waits for another, all like the one from the last of them to the pointer.
  #pending(pointer, led) {
    const from = this.#scene.waiting.includes(led) || led === null ? this.#scene.waiting : [led];
    const anchor = this.at(led ?? from.at(-1));
    if (!anchor) return [];
    const [across, down] = [pointer[0] - anchor[0], pointer[1] - anchor[1]];
    return from.map((qubit) => this.at(qubit)).filter(Boolean).map(([x, y]) => [[x, y], [x + across, y + down]]);
  }
}
