// @ts-check
// The line below the text in which an item is written, with what is wrong with it at its place.

import { itemAt, textOf } from "./circuit.js";
import { completed } from "./completion.js";
import { pathAfter, pathThere } from "./keeping.js";
import { keepFromPage } from "./keys.js";
import { partsOf } from "./refusals.js";

const HINT = "Tab completes a name, Shift-Enter begins a line.";
// A block of more items than these is written out when it is to be changed, and not before.
const MOST_ITEMS = 200;

export class EntryView {
  #form;
  #act;
  #kind = "replace";
  #path = null;
  #item = null;
  #count = 0;
  #isOpening = false;

  // `act` has send(kind, path, text), which answers whether it was done, split(path, round) and leave().
  constructor(form, act) {
    this.#form = form;
    this.#act = act;
    this.#field.addEventListener("keydown", (event) => this.#key(event));
    this.#field.addEventListener("input", () => this.#fitted());
    form.addEventListener("submit", (event) => {
      event.preventDefault();
      this.#send();
    });
    this.#find(".split").addEventListener("click", () => this.#split());
    this.#find("#round").addEventListener("keydown", (event) => this.#roundKey(event));
    this.show(null, null, 0);
  }

  get #field() {
    return this.#find("#words");
  }

  #find(selector) {
    return this.#form.querySelector(selector);
  }

  // Whether somebody writes in it.
  get isWritten() {
    return document.activeElement === this.#field;
  }

  // Takes over where an item is written from the items before edits to those after them. If the item is another now, what is written
  // does not take its place, but is put in before it.
  keep(items, moves) {
    if (this.#path === null) return;
    this.#path = pathThere(items, moves.reduce(pathAfter, this.#path));
    const item = itemAt(items, this.#path) ?? null;
    if (item === this.#item) return;
    if (this.#kind === "replace") this.#kind = "insert";
    this.#item = item;
    this.#say();
  }

  // Shows an item that was chosen, in a block of `count` rounds, or 0 if it is in none.
  show(path, item, count) {
    [this.#kind, this.#path, this.#item, this.#count] = ["replace", path, item, count];
    this.#say();
    this.#field.value = !item ? "" : item.items && item.items.length > MOST_ITEMS ? `${item.text} { …` : textOf(item);
    this.#field.disabled = path === null;
    this.#fitted();
  }

  // Opens it to write an item: kind is "insert" (before), "behind" or "replace".
  open(kind, path, item, count) {
    [this.#kind, this.#path, this.#item, this.#count] = [kind, path, item, count];
    this.#say();
    this.#field.disabled = false;
    this.#field.value = kind === "replace" && item ? textOf(item) : "";
    this.#fitted();
    this.#isOpening = true;
    this.#field.focus();
  }

  // Says what an edit was refused with; answers with what is wrong, in words.
  refuse({ refused, explanation }) {
    const { shown, why } = partsOf(explanation);
    this.#form.classList.add("bad");
    this.#find("#refusal").textContent = refused;
    this.#find("#fault").textContent = shown;
    this.#showCarets(this.#find("#fault"));
    this.#sayWhy(why);
    return why;
  }

  // Scrolls what is shown of a long item so far that the word at fault, which has carets below it, is in the middle.
  #showCarets(fault) {
    const carets = fault.textContent.split("\n").at(-1);
    fault.scrollLeft = (fault.scrollWidth * (carets.trimStart().length / 2 + carets.search(/\S|$/))) / Math.max(1, carets.length) - fault.clientWidth / 2;
  }

  #say() {
    const place = this.#path === null ? "" : this.#path.join("/");
    const said = { replace: this.#item ? `item ${place}` : "the end", insert: `before item ${place}`, behind: `after item ${place}` };
    this.#find("#entry-label").textContent = this.#path === null ? "no item" : said[this.#kind];
    this.#form.classList.remove("bad");
    this.#find("#refusal").textContent = "";
    this.#find("#fault").textContent = "";
    this.#sayWhy(this.#path === null ? "Choose an item to change it." : HINT);
    // An edit inside a block is one of each of its rounds; one round can be taken out first.
    this.#find("#rounds").hidden = this.#count < 2;
    this.#find("#rounds-said").textContent = `changes all ${this.#count} rounds;`;
    this.#find("#round").max = this.#count - 1;
  }

  #sayWhy(words) {
    this.#find("#why").textContent = words;
    this.#find("#why").classList.toggle("hint", words === HINT);
  }

  // With several lines there is more room for them.
  #fitted() {
    this.#form.parentElement.classList.toggle("tall", this.#field.value.includes("\n"));
  }

  async #send() {
    if (this.#path === null) return;
    if (await this.#act.send(this.#kind, this.#path, this.#field.value.trim())) this.#act.leave();
  }

  #split() {
    this.#act.split(this.#path, Number(this.#find("#round").value));
  }

  #roundKey(event) {
    keepFromPage(event);
    if (event.key === "Escape") this.#act.leave();
    if (event.key !== "Enter") return;
    event.preventDefault();
    this.#split();
  }

  // Enter sends the item. The key that opened it may still be held down, and types nothing.
  #key(event) {
    keepFromPage(event);
    this.#isOpening &&= event.repeat;
    const isEnter = event.key === "Enter" && !event.shiftKey;
    if (event.repeat && (this.#isOpening || isEnter)) event.preventDefault();
    else if (event.key === "Escape") this.#act.leave();
    else if (event.key === "Tab" && !event.shiftKey) this.#complete(event);
    else if (isEnter) {
      event.preventDefault();
      this.#form.requestSubmit();
    }
  }

  #complete(event) {
    const { value, selectionStart } = this.#field;
    const found = completed(value.slice(0, selectionStart));
    if (!found) return;
    event.preventDefault();
    this.#field.setRangeText(found.words, selectionStart - found.typed.length, selectionStart, "end");
    this.#sayWhy(found.names.length > 1 ? found.names.join(" ") : HINT);
  }
}
