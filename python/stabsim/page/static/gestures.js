// @ts-check
// What the pointer does on the picture of qubits, handed on as what it means: a click, a box of qubits, places for new ones, a gate that
// is led from one qubit to another or dragged to another tick, and the zoom.

import { isPair } from "./instructions.js";

// How far a pointer may move in a click, and a finger in a tap.
const SLIP = 4;
const SLIP_OF_FINGER = 10;

const spotOf = (event) => [event.offsetX, event.offsetY];
const isFinger = (event) => event.pointerType === "touch";

export class Gestures {
  #canvas;
  #picture;
  #act;
  #pointers = new Map();
  #drag = null;
  #hovered = null;

  // `picture` has isThere, qubitAt(spot), faceAt(spot), qubitsIn(box), placeAt(spot), placesIn(box, step), placesShifted(qubit, spot), hasGlyphAt(qubit, spot), pan(across, down),
  // zoom(factor, x, y) and draw(); `act` is that of the LayoutView.
  constructor(canvas, picture, act) {
    [this.#canvas, this.#picture, this.#act] = [canvas, picture, act];
    canvas.addEventListener("wheel", (event) => this.#wheel(event), { passive: false });
    canvas.addEventListener("pointerdown", (event) => this.#press(event));
    canvas.addEventListener("pointermove", (event) => this.#move(event));
    canvas.addEventListener("pointerup", (event) => this.#release(event));
    canvas.addEventListener("pointercancel", (event) => { this.#stop(); this.#forget(event); });
    canvas.addEventListener("pointerleave", () => this.#drag || this.#hover(null));
    // The menu comes once the button is let go, since a drag by it pans.
    canvas.addEventListener("contextmenu", (event) => event.preventDefault());
  }

  // What is drawn for the pointer: {pointer, frame, places}, where it is, the box of a drag, and the places for new qubits, or for those that are dragged.
  get marks() {
    const { kind, from, last, isMoved, isMore } = this.#drag ?? {};
    const pointer = this.#hovered?.at ?? null;
    const isBox = isMoved && (kind === "box" || kind === "places");
    const places = isMoved && kind === "shift" ? this.#picture.placesShifted(this.#drag.qubit, last)
      : isBox && kind === "places" ? this.#picture.placesIn([from, last], isMore ? 2 : 1) : this.#placesUnder(pointer);
    return { pointer, frame: isBox ? [from, last] : null, places, led: isMoved && kind === "pair" ? this.#drag.qubit : null };
  }

  #placesUnder(pointer) {
    const isEmpty = pointer && this.#act.tool() !== "pick" && this.#picture.qubitAt(pointer) === null;
    return isEmpty ? [this.#picture.placeAt(pointer)] : [];
  }

  #wheel(event) {
    event.preventDefault();
    if (!this.#picture.isThere) return;
    // A pinch of two fingers comes as a wheel with Ctrl; two fingers that slide pan by Shift, as elsewhere.
    if (event.shiftKey) this.#picture.pan(-event.deltaX, -event.deltaY);
    else this.#picture.zoom(Math.exp(-event.deltaY / (event.ctrlKey ? 100 : 400)), ...spotOf(event));
  }

  #press(event) {
    if (event.button > 2 || !this.#picture.isThere) return;
    // A pointer that the browser does not know, as in a test, has nothing to be held.
    if (event.isTrusted) this.#canvas.setPointerCapture(event.pointerId);
    const spot = spotOf(event);
    this.#pointers.set(event.pointerId, spot);
    const qubit = this.#picture.qubitAt(spot);
    // With a second finger nothing is dragged: both zoom and pan.
    if (this.#pointers.size > 1) return this.#stop();
    this.#drag = { kind: this.#kindOf(event, qubit), button: event.button, from: spot, last: spot, qubit, isMoved: false, isMore: event.shiftKey };
    return undefined;
  }

  // What a drag would do that begins so.
  #kindOf(event, qubit) {
    if (event.button !== 0 || event.ctrlKey || event.metaKey) return "pan";
    if (event.altKey && qubit !== null) return "shift";
    const tool = this.#act.tool();
    // A finger has no key and no second button to pan by, so it leads gates on two and does nothing else.
    if (isFinger(event)) return qubit !== null && isPair(tool) ? "pair" : "pan";
    if (tool === "qubit") return "places";
    if (qubit !== null && isPair(tool)) return "pair";
    return qubit !== null && tool === "pick" && !event.shiftKey && this.#picture.hasGlyphAt(qubit, spotOf(event)) ? "gate" : "box";
  }

  #move(event) {
    const spot = spotOf(event);
    if (this.#pointers.size === 2 && this.#pointers.has(event.pointerId)) return this.#pinch(event.pointerId, spot);
    if (!isFinger(event) || this.#drag?.kind === "pair") this.#hover(spot);
    if (!this.#drag) return undefined;
    const { kind, from, last } = this.#drag;
    this.#drag.isMoved ||= Math.hypot(spot[0] - from[0], spot[1] - from[1]) >= (isFinger(event) ? SLIP_OF_FINGER : SLIP);
    if (!this.#drag.isMoved) return undefined;
    [this.#drag.last, this.#drag.isMore] = [spot, event.shiftKey];
    if (kind === "pan") return this.#picture.pan(spot[0] - last[0], spot[1] - last[1]);
    if (kind === "gate") return this.#act.carry(this.#drag.qubit, { left: event.clientX, top: event.clientY });
    return this.#picture.draw();
  }

  // One of two fingers moves: what is under the middle of both stays there, as far apart as they are.
  #pinch(id, spot) {
    const other = [...this.#pointers].find(([it]) => it !== id)[1];
    const before = this.#pointers.get(id);
    const far = (a) => Math.hypot(a[0] - other[0], a[1] - other[1]) || 1;
    const middle = (a) => [(a[0] + other[0]) / 2, (a[1] + other[1]) / 2];
    this.#pointers.set(id, spot);
    const [[x, y], [left, top]] = [middle(spot), middle(before)];
    this.#picture.pan(x - left, y - top);
    this.#picture.zoom(far(spot) / far(before), x, y);
  }

  // Ends a drag with nothing done.
  #stop() {
    if (this.#drag?.kind === "gate" && this.#drag.isMoved) this.#act.drop(this.#drag.qubit, null);
    this.#drag = null;
    this.#picture.draw();
  }

  #release(event) {
    const drag = this.#drag;
    this.#forget(event);
    if (!drag) return;
    if (drag.isMoved) this.#dropped(drag, event);
    else if (drag.button === 0) this.#click(event, drag);
    else if (drag.button === 2 && drag.qubit !== null) this.#act.menu(drag.qubit, { left: event.clientX, top: event.clientY });
    this.#picture.draw();
  }

  #dropped({ kind, from, last, qubit, isMore }, event) {
    const end = this.#picture.qubitAt(last);
    if (kind === "box") this.#act.box(this.#picture.qubitsIn([from, last]), isMore);
    else if (kind === "places") this.#act.place(this.#picture.placesIn([from, last], isMore ? 2 : 1));
    else if (kind === "shift") this.#act.shift(qubit, this.#picture.placeAt(last));
    else if (kind === "gate") this.#act.drop(qubit, { left: event.clientX, top: event.clientY });
    else if (kind === "pair" && end !== null && end !== qubit) this.#act.lead(qubit, end, isMore);
  }

  #click(event, { qubit }) {
    const tool = this.#act.tool();
    const isMore = event.shiftKey || event.ctrlKey || event.metaKey;
    const bit = tool === "pick" && !isMore ? this.#picture.faceAt(spotOf(event)) : null;
    if (bit) this.#act.face(bit);
    else if (tool === "pick" || (qubit !== null && tool === "qubit")) this.#act.choose(qubit, isMore);
    else if (qubit !== null) this.#act.use(qubit, isMore);
    else if (tool === "qubit") this.#act.place([this.#picture.placeAt(spotOf(event))]);
    else this.#act.useAt(this.#picture.placeAt(spotOf(event)), isMore);
  }

  // A finger that is left of two pans.
  #forget(event) {
    this.#pointers.delete(event.pointerId);
    const [left] = this.#pointers.values();
    this.#drag = left ? { kind: "pan", button: 0, from: left, last: left, qubit: null, isMoved: true, isMore: false } : null;
  }

  #hover(spot) {
    const qubit = spot && this.#picture.isThere ? this.#picture.qubitAt(spot) : null;
    const isNew = qubit !== (this.#hovered?.qubit ?? null);
    this.#hovered = spot && { qubit, at: spot };
    if (isNew) this.#act.hover(qubit);
    if (this.#act.tool() !== "pick") this.#picture.draw();
  }
}
