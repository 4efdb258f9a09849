// @ts-check
// The chosen qubits over time, below the picture: a click goes to a moment.

import { CanvasPen } from "./canvas_pen.js";
import { FOOT, HEAD, LEFT, ROW, STEP, momentsIn, wiresOf } from "./wires.js";

// How many qubits have a line at most.
const MOST_LINES = 12;

export class WiresView {
  #place;
  #canvas;
  #pen;
  #shown = null;
  #frame = 0;
  #span = { first: 0, count: 1 };

  // `act` has goTo(moment).
  constructor(place, act) {
    [this.#place, this.#canvas] = [place, place.querySelector("canvas")];
    this.#pen = new CanvasPen(this.#canvas);
    this.#canvas.addEventListener("click", ({ offsetX }) => this.#shown && act.goTo(this.#momentAt(offsetX)));
    new ResizeObserver(() => this.draw()).observe(place);
  }

  // Whether it is there.
  get isOpen() {
    return !this.#place.hidden;
  }

  open(isOpen) {
    this.#place.hidden = !isOpen;
    this.draw();
  }

  // `shown` is what wires.js takes, with all that are chosen as its qubits.
  show(shown) {
    const qubits = shown.qubits.slice(-MOST_LINES);
    this.#shown = { ...shown, qubits };
    this.#place.querySelector("p").hidden = qubits.length > 0;
    const height = `${HEAD + Math.max(1, qubits.length) * ROW + FOOT}px`;
    if (this.#canvas.style.height !== height) this.#canvas.style.height = height;
    this.draw();
  }

  // Draws in the next frame, however often it is asked for.
  draw() {
    if (!this.isOpen || !this.#shown) return;
    this.#frame ||= requestAnimationFrame(() => {
      this.#frame = 0;
      this.drawNow();
    });
  }

  drawNow() {
    if (!this.isOpen || !this.#shown) return;
    const [width, height] = [this.#canvas.clientWidth, this.#canvas.clientHeight];
    this.#span = momentsIn(width, this.#shown.moment, this.#shown.moments);
    this.#pen.begin(width, height);
    this.#pen.show(this.#layers(), width, height);
  }

  // Whether it is drawn as it is to be seen.
  get isDrawn() {
    return !this.#frame;
  }

  // What is drawn, as elements (glyphs.js).
  elements() {
    return this.#layers().flat();
  }

  // Where a moment of a line is seen.
  spot(moment, line) {
    return [LEFT + (moment - this.#span.first + 0.5) * STEP, HEAD + (line + 0.5) * ROW];
  }

  #layers() {
    return this.#shown?.qubits.length ? wiresOf(this.#shown, { width: this.#canvas.clientWidth, ...this.#span }) : [[], [], [], []];
  }

  #momentAt(x) {
    const { first, count } = this.#span;
    return first + Math.max(0, Math.min(count - 1, Math.floor((x - LEFT) / STEP)));
  }
}
