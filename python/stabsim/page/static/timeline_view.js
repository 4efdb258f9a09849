// @ts-check
// Time from left to right: rounds as bands, ticks with what happens there, and detectors at the moment that declares them, in a row for
// each place. The region of the chosen detector is the thread that leads to it. A drag scrubs, and one of a tick's mark moves the tick.

import { CanvasPen } from "./canvas_pen.js";
import { itemAt } from "./circuit.js";
import { theme } from "./colours.js";
import { nameOf } from "./moments.js";
import { neighbourOf } from "./places.js";
import { endsByTick, gapAt, gapsOf } from "./ticks.js";
import { Timeline } from "./timeline.js";
import { LEFT, MARKS, OPERATIONS, TOP, groundOf, timelineOf } from "./timeline_drawing.js";

const RIGHT = 14;
const MOST_STEP = 44;
const LEAST_STEP = 5;
const MOST_ROW = 16;
// How near to a dot a click has to be.
const NEAR = 7;
// How near to the mark of a tick, in pixels, and in which part of a moment's width.
const NEAR_MARK = 6;
const PART_OF_STEP = 0.25;
// How far down a mark can be taken: as far as the ticks' numbers reach.
const BELOW_MARKS = 38;
// How far the pointer may move in a click.
const SLIP = 3;

// The text of an item, shortened.
const textAt = (items, path) => itemAt(items, path).text.slice(0, 40);

export class TimelineView {
  #canvas;
  #pen;
  #act;
  #line = null;
  #shown = null;
  #size = [0, 0];
  #step = MOST_STEP;
  #offset = 0;
  #frame = 0;
  // The moment to which something is dragged.
  #aim = null;
  // The first and the last moment of the lines that are chosen, or null.
  #range = null;
  // The tick that is dragged by its mark, as {moment, from, place}: the moment that it ends, where the drag began, and where the tick
  // would go, {moment, gap, x}, or null.
  #held = null;
  // All detectors as they are if nothing is known of them, drawn once for as long as they are where they are.
  #ground = null;

  // `act` has goTo(moment), range(moment) from the one that is shown, choose(bit), moveTick(moment, to, gap) (ticks.js), tip(bit, place) and say(words, place); without a bit or
  // words these two take away what was said.
  constructor(canvas, act) {
    this.#canvas = canvas;
    this.#pen = new CanvasPen(canvas);
    this.#act = act;
    canvas.addEventListener("pointerdown", (event) => this.#press(event));
    // What chooses several ticks gives the focus to their lines.
    canvas.addEventListener("mousedown", (event) => event.shiftKey && event.preventDefault());
    canvas.addEventListener("pointermove", (event) => this.#move(event));
    canvas.addEventListener("pointerup", () => this.#release());
    canvas.addEventListener("pointercancel", () => this.#letGo());
    canvas.addEventListener("pointerleave", () => this.#held || act.tip(""));
    canvas.addEventListener("wheel", (event) => this.#wheel(event), { passive: false });
    new ResizeObserver(() => {
      this.#size = [canvas.clientWidth, canvas.clientHeight];
      this.#measure();
      if (this.#shown) this.#scrollBy(0);
    }).observe(canvas);
  }

  // state: {items, moments, moment, observables, coordinates, toldBetween, kindOf, bit, region, coins, set}: `kindOf(bit)` says how a
  // bit is drawn and `toldBetween(first, end)` which detectors otherwise than as 0 (state.js), `bit` is the chosen one, `coins` are those
  // that decide it, and `region` has its letters by moment, as `set` has those of errors; `coins` may be null.
  show(state, isFresh) {
    const isOther = this.#shown?.items !== state.items;
    if (isFresh || !this.#line) {
      const line = new Timeline(state);
      if (!this.#line || !line.isLike(this.#line)) this.#ground = null;
      this.#line = line;
    }
    this.#shown = state;
    this.#measure();
    if (isOther) this.#offset = 0;
    this.bringIntoSight(state.moment);
  }

  get size() {
    return this.#size;
  }

  // Whether it is drawn as it is to be seen.
  get isDrawn() {
    return !this.#frame;
  }

  // Where a detector is drawn, from the upper left corner of the canvas, or an observable, as D3 or L0.
  at(bit) {
    const number = Number(bit.slice(1));
    return bit.startsWith("D") ? [this.#dotX(number), this.#dotY(number)] : this.#observableAt(number);
  }

  // The detector nearest to another in a direction, as [1, 0] to the right; null if there is none.
  beside(bit, direction) {
    const places = new Map([...this.#line.moments.keys()].map((number) => [`D${number}`, this.at(`D${number}`)]));
    return neighbourOf(places, this.at(bit), direction);
  }

  // The moment under a place of the window; null if that is not on the timeline.
  momentUnder({ left, top }) {
    const box = this.#canvas.getBoundingClientRect();
    const isOver = this.#shown && left >= box.left + LEFT && left < box.right && top >= box.top && top < box.bottom;
    return isOver ? this.#momentAt(left - box.left) : null;
  }

  // Where the column of a moment is seen.
  columnOf(moment) {
    return [this.#x(moment), OPERATIONS];
  }

  aim(moment) {
    this.#aim = moment;
    this.draw();
  }

  get range() {
    return this.#range;
  }

  takeRange(range) {
    if (range?.join() === this.#range?.join()) return;
    this.#range = range;
    this.draw();
  }

  bringIntoSight(moment) {
    const room = Math.max(1, this.#size[0] - LEFT - RIGHT);
    const at = moment * this.#step;
    if (at < this.#offset) this.#offset = at - room / 3;
    if (at + this.#step > this.#offset + room) this.#offset = at - (2 * room) / 3;
    this.#scrollBy(0);
  }

  draw() {
    this.#frame ||= requestAnimationFrame(() => {
      this.#frame = 0;
      this.drawNow();
    });
  }

  drawNow() {
    if (!this.#line) return;
    this.#pen.begin(...this.#size);
    const sheet = this.#sheet();
    this.#pen.show(timelineOf({ ...sheet, ground: this.#groundOf(sheet) }), ...this.#size);
  }

  // What is drawn, as elements (glyphs.js), with all detectors one by one.
  elements() {
    const sheet = this.#sheet();
    return [timelineOf({ ...sheet, ground: groundOf(sheet) })].flat(2);
  }

  #measure() {
    if (!this.#line || !this.#shown) return;
    const room = this.#size[0] - LEFT - RIGHT;
    this.#step = Math.max(LEAST_STEP, Math.min(MOST_STEP, room / this.#shown.moments));
  }

  #scrollBy(pixels) {
    const most = Math.max(0, this.#shown.moments * this.#step - (this.#size[0] - LEFT - RIGHT));
    this.#offset = Math.max(0, Math.min(most, this.#offset + pixels));
    this.draw();
  }

  #rowHeight() {
    return Math.min(MOST_ROW, (this.#size[1] - TOP - 30) / Math.max(1, this.#line.rows));
  }

  #x(moment) {
    return LEFT + (moment + 0.5) * this.#step - this.#offset;
  }

  #dotX(detector) {
    return this.#x(this.#line.moments[detector]) + this.#line.side(detector) * Math.min(this.#step, 16);
  }

  #dotY(detector) {
    return TOP + 6 + (this.#line.rowOf[detector] + 0.5) * this.#rowHeight();
  }

  #observableAt(number) {
    return [LEFT - 46 + 40 * number, this.#size[1] - 12];
  }

  #momentAt(x) {
    return Math.max(0, Math.min(this.#shown.moments - 1, Math.floor((x - LEFT + this.#offset) / this.#step)));
  }

  // The detector or observable near a spot, or null.
  #bitAt(x, y) {
    let [best, least] = [null, NEAR];
    /** @param {string} name @param {number[]} spot */
    const consider = (name, [left, top]) => {
      const far = Math.hypot(left - x, top - y);
      if (far < least) [best, least] = [name, far];
    };
    this.#shown.observables.forEach((_, number) => consider(`L${number}`, this.#observableAt(number)));
    if (y < TOP - 4) return null;
    const reach = Math.ceil(16 / this.#step) + 1;
    const moment = this.#momentAt(x);
    for (const number of this.#line.between(moment - reach, moment + reach + 1)) consider(`D${number}`, [this.#dotX(number), this.#dotY(number)]);
    return best;
  }

  #press(event) {
    if (event.button !== 0 || !this.#shown) return;
    const bit = this.#bitAt(event.offsetX, event.offsetY);
    if (bit !== null) return void this.#act.choose(bit);
    if (event.shiftKey) return void this.#act.range(this.#momentAt(event.offsetX));
    if (event.isTrusted) this.#canvas.setPointerCapture(event.pointerId);
    const moment = this.#tickAt(event.offsetX, event.offsetY);
    if (moment === null) this.#act.goTo(this.#momentAt(event.offsetX));
    else this.#held = { moment, from: event.offsetX, place: null };
  }

  #move(event) {
    if (!this.#shown) return;
    if (this.#held) return void this.#drag(event);
    this.#canvas.classList.toggle("grips", this.#tickAt(event.offsetX, event.offsetY) !== null);
    if (event.buttons & 1 && this.#canvas.hasPointerCapture(event.pointerId)) return void this.#act.goTo(this.#momentAt(event.offsetX));
    const bit = this.#bitAt(event.offsetX, event.offsetY);
    this.#act.tip(bit ?? "", { left: event.clientX, top: event.clientY });
  }

  // The moment that is ended by the tick whose mark is near a spot, or null.
  #tickAt(x, y) {
    if (y < MARKS[0] - 2 || y > BELOW_MARKS || x < LEFT) return null;
    const near = Math.min(NEAR_MARK, this.#step * PART_OF_STEP);
    const moment = Math.round((x - LEFT + this.#offset) / this.#step) - 1;
    const isNear = Math.abs(this.markOf(moment)[0] - x) <= near;
    return isNear && moment >= 0 && moment < this.#shown.moments && endsByTick(this.#shown.items, moment) ? moment : null;
  }

  // Where the mark of the tick that ends a moment is seen.
  markOf(moment) {
    return [this.#x(moment + 0.5), (MARKS[0] + MARKS[1]) / 2];
  }

  // Where a gap of a moment is seen, of this many.
  #gapX(moment, gap, count) {
    return this.#x(moment) + this.#step * (count > 1 ? gap / (count - 1) - 0.5 : 0.5);
  }

  #drag(event) {
    const held = this.#held;
    if (!held.place && Math.abs(event.offsetX - held.from) < SLIP) return;
    const { items } = this.#shown;
    const moment = this.#momentAt(event.offsetX);
    const part = Math.max(0, Math.min(1, (event.offsetX - this.#x(moment)) / this.#step + 0.5));
    const gap = gapAt(items, moment, part);
    const gaps = gapsOf(items, moment);
    held.place = { moment, gap, x: this.#gapX(moment, gap, gaps.length) };
    const place = gap < gaps.length - 1 ? `in front of ${textAt(items, gaps[gap].path)}` : `to the end of tick ${nameOf(items, moment).name}`;
    this.#act.say(`the tick: ${place}`, { left: event.clientX, top: event.clientY });
    this.draw();
  }

  #release() {
    const held = this.#held;
    this.#letGo();
    if (!held) return;
    if (held.place) this.#act.moveTick(held.moment, held.place.moment, held.place.gap);
    else this.#act.goTo(held.moment);
  }

  #letGo() {
    if (!this.#held) return;
    this.#held = null;
    this.#act.say("");
    this.draw();
  }

  #wheel(event) {
    event.preventDefault();
    if (this.#shown) this.#scrollBy(event.deltaX + event.deltaY);
  }

  #sheet() {
    const [width, height] = this.#size;
    return {
      line: this.#line, shown: this.#shown, width, height, step: this.#step, first: this.#momentAt(LEFT), last: this.#momentAt(width), aim: this.#aim, range: this.#range, gap: this.#held?.place?.x ?? null,
      x: (moment) => this.#x(moment), at: (bit) => this.at(bit), rowHeight: this.#rowHeight(),
    };
  }

  #groundOf(sheet) {
    const key = [theme(), devicePixelRatio, ...this.#size, this.#offset, this.#step].join();
    if (this.#ground?.key !== key) {
      const [width, height] = this.#size;
      this.#ground = { key, element: { picture: this.#pen.pictureOf(groundOf(sheet), width, height), width, height } };
    }
    return this.#ground.element;
  }
}
