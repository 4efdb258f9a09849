// @ts-check
// What is done with the chosen lines of the text: each is one entry of the history.

import { by } from "./by_id.js";
import { itemAt, textOf } from "./circuit.js";
import { copiedLines } from "./clipboard.js";
import { momentOf, nameOf } from "./moments.js";
import { linesOf } from "./spans.js";

export class LineEditor {
  #page;

  // `page` has shown, text (the TextView), send(edits), ask(question), say(words, isBad) and number(words, offered, least).
  constructor(page) {
    this.#page = page;
  }

  // The chosen lines, {list, first, count, places, areApart}; null if none is.
  get #lines() {
    const { lines } = this.#page.text;
    if (!lines) return null;
    const { list, places } = lines;
    const [first, count] = [places[0], places.length];
    return { list, places, first, count, areApart: places.at(-1) - first >= count };
  }

  // The first and the last moment of several lines that are chosen and follow each other, in the round that is shown; else null.
  get moments() {
    const lines = this.#lines;
    if (!lines || lines.count < 2 || lines.areApart) return null;
    const { state: { items }, round } = this.#page.shown;
    const { list, first, count } = lines;
    const rounds = round && list.every((place, deep) => place === round.path[deep]) ? round.rounds : [];
    const [begin, end] = [first, first + count - 1].map((place) => momentOf(items, [...list, place], rounds));
    return [begin, end + lengthOf(itemAt(items, [...list, first + count - 1]))];
  }

  // The same, if they follow each other; else it is said that they don't.
  #together() {
    const lines = this.#lines;
    if (!lines?.areApart) return lines;
    this.#page.say("the chosen lines are apart: choose some that follow each other", true);
    return null;
  }

  #place(number) {
    const { list, first } = this.#lines;
    return [...list, first + number].join("/");
  }

  #texts() {
    const { list, places } = this.#lines;
    return places.map((place) => textOf(itemAt(this.#page.shown.state.items, [...list, place])));
  }

  // The lines as a text that is pasted elsewhere; "" if none is chosen.
  copied() {
    return this.#lines ? copiedLines(this.#texts()) : "";
  }

  remove() {
    if (!this.#lines) return;
    const { list, places, count } = this.#lines;
    const edits = places.map((place) => ({ kind: "delete", place: [...list, place].join("/") })).reverse();
    this.#page.send(edits, null, count > 1 ? `delete ${count} lines` : "");
  }

  // Puts lines in before the chosen ones, or at the end, and chooses them.
  async paste(texts) {
    const { list, first } = this.#lines ?? { list: [], first: this.#page.shown.state.items.length };
    const edits = texts.map((item, i) => ({ kind: "insert", place: [...list, first + i].join("/"), item }));
    if (await this.#page.send(edits, null, texts.length > 1 ? `put ${texts.length} lines in` : "")) this.#choose(list, first, texts.length);
  }

  #choose(list, first, count) {
    this.#page.text.selectLines(list, first, count);
    this.#page.shown.showItem([...list, first + count - 1]);
  }

  // Moves the lines over the one before them (-1), or after them: that one goes to their other end.
  async move(by_) {
    const lines = this.#together();
    if (!lines) return;
    const { list, first, count } = lines;
    const other = by_ < 0 ? -1 : count;
    const item = itemAt(this.#page.shown.state.items, [...list, first + other]);
    if (!item || first + other < 0) return void this.#page.say("there is no line beyond them", true);
    const to = by_ < 0 ? count - 1 : 0;
    const edits = [{ kind: "delete", place: this.#place(other) }, { kind: "insert", place: this.#place(to), item: textOf(item) }];
    if (await this.#page.send(edits, null, `move ${count === 1 ? "a line" : `${count} lines`} ${by_ < 0 ? "up" : "down"}`)) this.#choose(list, first + by_, count);
  }

  async repeat() {
    const lines = this.#together();
    const rounds = lines && await this.#page.number("rounds of the block", 2, 1);
    if (rounds) await this.#ask("repeat", lines, 1, { rounds });
  }

  reverse() {
    const lines = this.#together();
    return lines && this.#ask("reverse", lines, lines.count);
  }

  takeOut() {
    return this.#lines && this.#ask("take out", this.#lines, 1);
  }

  // Has the server do something with lines, and chooses the lines that they are then.
  async #ask(act, { list, first, count }, after, more = {}) {
    const answer = await this.#page.ask({ ask: "lines", act, place: [...list, first].join("/"), count, ...more });
    if (!answer.refused) this.#choose(list, first, after);
  }

  // Chooses the lines of the ticks from one moment to another.
  chooseTicks(from, to) {
    const { items } = this.#page.shown.state;
    const [first, last] = [Math.min(from, to), Math.max(from, to)];
    const found = linesOf(items, first, last);
    if (!found) return void this.#page.say("these ticks are in several rounds: choose some within one, or outside blocks", true);
    const { list, place, count } = found;
    if (!count) return void this.#page.say("there are no lines", true);
    this.#choose(list, place, count);
    // In a small window the text may not be there.
    (by("text").checkVisibility() ? by("text") : by("timeline")).focus();
    return void this.#page.say(`ticks ${nameOf(items, first).name} to ${nameOf(items, last).name}: ${count} lines are chosen`);
  }

  // What the menu offers for the chosen lines.
  offers() {
    const { text } = this.#page;
    /** @type {import("./types.js").Offer} */
    const wrap = [text.isWrapped ? "each item in one line" : "wrap long items", () => text.takeWrap(!text.isWrapped), "l"];
    if (!this.#lines) return [wrap, ["choose lines first: click, and Shift-click the last one", () => {}]];
    const { list, first, count } = this.#lines;
    const block = count === 1 && itemAt(this.#page.shown.state.items, [...list, first])?.items;
    return [
      ["make a REPEAT of them …", () => this.repeat(), "r"], ...(block ? [["write its rounds out", () => this.takeOut(), "w"]] : []),
      ["reverse them", () => this.reverse(), "v"], ["move up (Alt ↑)", () => this.move(-1), "u"], ["move down (Alt ↓)", () => this.move(1), "d"],
      ["delete", () => this.remove(), "x"], wrap,
    ];
  }
}

// By how many moments an item reaches beyond the one in which it begins.
/** @param {import("./types.js").Item} item */
const lengthOf = ({ items, count, once }) => (items ? count * once.bounds - (items.at(-1)?.name === "TICK" ? 1 : 0) : 0);
