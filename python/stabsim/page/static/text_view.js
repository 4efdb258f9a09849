// @ts-check
// The circuit as text: a tree of items with their paths, of which only the rows in sight are in the document.

import { blocksAround, pathOf } from "./circuit.js";
import { before } from "./counts.js";
import { pathAfter, pathThere } from "./keeping.js";
import { keyOf } from "./keys.js";
import { foldOf, marksOf, saidOf, writtenOf } from "./row_parts.js";
import { countLines, numberOfRow, rowsBetween } from "./rows.js";
import { TextRows } from "./text_rows.js";
import { UNWRAPPED, wrapFor } from "./wrapping.js";

export class TextView {
  #place;
  #sheet = document.createElement("div");
  #rows;
  #act;
  #items = [];
  // Blocks, and first items of runs; those that are gone are forgotten.
  #unfolded = new WeakSet();
  // The path of the row that is chosen, and whether that is the head of a run and no item.
  #selected = null;
  #isHead = false;
  // Where a range of lines begins that ends with the chosen one, in the same list; null if there is none.
  #anchor = null;
  // The places of lines of that list that are chosen beside them, apart from each other.
  #apart = new Set();
  #here = new Set();
  /** @type {(first: number, behind: number) => string | null} */
  #flagOf = () => null;
  #refusal = null;
  #height = 0;
  #wrap = UNWRAPPED;
  // How far it is scrolled, or is to be in the next frame: to ask the browser for it while rows change would have it lay out the page.
  #top = 0;
  #isScrolled = true;
  #row = 20;
  #frame = 0;

  // `act` has select(path, item), write(kind, path, item), remove() of the chosen lines, move(by) of them, and drawn().
  constructor(place, act) {
    this.#place = place;
    this.#act = act;
    this.#sheet.className = "sheet";
    // Rows are of the tree, and what they lie in is not.
    const list = document.createElement("div");
    this.#sheet.role = list.role = "presentation";
    this.#sheet.append(list);
    this.#rows = new TextRows(list);
    place.append(this.#sheet);
    place.addEventListener("scroll", () => {
      if (!this.#isScrolled) return;
      this.#top = place.scrollTop;
      this.#draw();
    });
    list.addEventListener("click", (event) => this.#click(this.#rowOf(event.target), /** @type {HTMLElement} */ (event.target).matches(".fold"), event));
    // A range of lines is chosen, and not their letters.
    list.addEventListener("mousedown", (event) => event.shiftKey && event.preventDefault());
    list.addEventListener("dblclick", ({ target }) => this.#write(this.#rowOf(target)));
    place.addEventListener("keydown", (event) => this.#key(event));
    new ResizeObserver(() => {
      this.#height = place.clientHeight;
      if (this.isWrapped) this.takeWrap(true);
      this.#row = parseFloat(getComputedStyle(place).lineHeight) || 20;
      this.#draw();
    }).observe(place);
  }

  // Takes over what is chosen and unfolded from the items before edits, as applyEdits answers them, to those after them.
  keep(items, moves) {
    this.#items = items;
    this.#refusal = null;
    for (const { before, after } of moves) {
      if (before && after && Boolean(before.items) === Boolean(after.items) && this.#unfolded.has(before)) this.#unfolded.add(after);
    }
    if (this.#selected === null) return;
    this.#selected = pathThere(items, moves.reduce(pathAfter, pathOf(this.#selected))).join("/");
    this.#forgetOthers();
    this.#isHead &&= this.#selectedRow() !== null;
  }

  // `flagOf(first, behind)` says whether one of some detectors is "flipped" or "random".
  show(items, flagOf) {
    this.#items = items;
    this.#flagOf = flagOf;
    this.#draw();
  }

  // Marks the items that act at the moment which is shown.
  mark(paths) {
    this.#here = new Set(paths.map((path) => path.join("/")));
    this.#draw();
  }

  get selected() {
    return this.#selected;
  }

  // Whether it is drawn as it is to be seen.
  get isDrawn() {
    return !this.#frame;
  }

  // The item that is chosen; null if none is, after the last, or if an edit has taken it away.
  get item() {
    return this.#selectedRow()?.item ?? null;
  }

  // The chosen lines, as the path of their list and their places in order; null if none is.
  get lines() {
    const item = this.item;
    if (!item) return null;
    return { list: this.#list, places: this.#places() };
  }

  get #list() {
    return pathOf(this.#selected).slice(0, -1);
  }

  // The places of the chosen lines.
  #places() {
    const last = pathOf(this.#selected).at(-1);
    const first = this.#anchor === null ? last : pathOf(this.#anchor).at(-1);
    const range = Array.from({ length: Math.abs(last - first) + 1 }, (_, i) => Math.min(first, last) + i);
    return [...new Set([...range, ...this.#apart])].sort((a, b) => a - b);
  }

  // Only the one line stays chosen.
  #forgetOthers() {
    this.#anchor = null;
    this.#apart.clear();
  }

  get isWrapped() {
    return this.#wrap !== UNWRAPPED;
  }

  // Wraps long items, or has each in one line.
  takeWrap(isWrapped) {
    this.#wrap = isWrapped ? wrapFor(this.#place, this.#place.querySelector(".row")) : UNWRAPPED;
    this.#draw();
  }

  // Chooses lines of a list.
  selectLines(list, first, count) {
    this.select([...list, first + count - 1]);
    this.#anchor = count > 1 ? [...list, first].join("/") : null;
    this.#draw();
  }

  select(asked) {
    const path = pathThere(this.#items, asked);
    this.#selected = path.join("/");
    this.#isHead = false;
    this.#forgetOthers();
    for (const block of blocksAround(this.#items, path)) this.#unfolded.add(block);
    this.#bringIntoSight();
    this.#draw();
  }

  letGo() {
    [this.#selected, this.#isHead, this.#refusal, this.#unfolded] = [null, false, null, new WeakSet()];
    this.#forgetOthers();
    this.#scrollTo(0);
    this.#draw();
  }

  focus() {
    this.#place.focus();
  }

  // Shows at the row of a path with what an edit was refused; with null it goes.
  refuse(place, words) {
    this.#refusal = place === null ? null : { place, words };
    this.#draw();
  }

  // After the last item something can be put in, too, so there is a row more.
  #rowsBetween(first, last) {
    const count = countLines(this.#items, this.#unfolded, this.#wrap);
    const rows = rowsBetween(this.#items, this.#unfolded, first, last, this.#wrap);
    if (first <= count && count < last) rows.push({ number: count, lines: 1, path: [this.#items.length], item: null, run: 0 });
    return { rows, count: count + 1 };
  }

  #selectedRow() {
    if (this.#selected === null) return null;
    const path = pathOf(this.#selected);
    const number = numberOfRow(this.#items, this.#unfolded, path, this.#wrap);
    const row = this.#rowsBetween(number, number + 2).rows.find((it) => it.path.join("/") === this.#selected && (it.run > 0) === this.#isHead);
    // An item in a folded run has no row of its own, and is chosen all the same.
    return row ?? this.#inFoldedRun(path, number);
  }

  #inFoldedRun(path, number) {
    if (this.#isHead) return null;
    const list = blocksAround(this.#items, path).at(-1)?.items ?? this.#items;
    const [head] = this.#rowsBetween(number, number + 1).rows;
    const item = list[path.at(-1)];
    return head?.run && item ? { number, lines: 1, path, item, run: 0 } : null;
  }

  #bringIntoSight() {
    const top = numberOfRow(this.#items, this.#unfolded, pathOf(this.#selected), this.#wrap) * this.#row;
    if (top >= this.#top && top + this.#row <= this.#top + this.#height) return;
    this.#scrollTo(top - this.#height / 2);
  }

  // Scrolls once what is unfolded is drawn.
  #scrollTo(top) {
    [this.#top, this.#isScrolled] = [top, false];
  }

  // Draws in the next frame, however often it is asked for.
  #draw() {
    this.#frame ||= requestAnimationFrame(() => {
      this.#frame = 0;
      this.#drawNow();
    });
  }

  #drawNow() {
    const height = (countLines(this.#items, this.#unfolded, this.#wrap) + 1) * this.#row;
    this.#top = Math.max(0, Math.min(this.#top, height - this.#height));
    const first = Math.max(0, Math.floor(this.#top / this.#row) - 5);
    const { rows } = this.#rowsBetween(first, first + Math.ceil(this.#height / this.#row) + 10);
    const selected = this.#selectedRow()?.number;
    const others = this.#anchor !== null || this.#apart.size ? new Set(this.#places()) : new Set();
    this.#sheet.style.height = `${height}px`;
    this.#rows.show(rows.map((row) => this.#shown(row, row.number === selected || (others.has(row.path.at(-1)) && this.#isBeside(row.path) && !row.run))));
    const active = rows.find(({ number }) => number === selected);
    if (active) this.#place.setAttribute("aria-activedescendant", idOf(active));
    else this.#place.removeAttribute("aria-activedescendant");
    if (!this.#isScrolled) this.#place.scrollTop = this.#top;
    this.#isScrolled = true;
    this.#act.drawn();
  }

  // A row with what it says (text_rows.js).
  #shown(row, isSelected) {
    const { path, item, run } = row;
    const isOpen = this.#unfolded.has(item);
    const flag = this.#flag(path, item, run);
    const refusal = this.#refusal?.place === path.join("/") && !run ? this.#refusal.words : "";
    const lines = item && !run ? this.#wrap.linesOf(item, path.length - 1) : [];
    const within = item?.items ? `${item.items.length} ${item.detectors}` : "";
    const written = item?.written && writtenOf(blocksAround(this.#items, path).at(-1)?.items ?? this.#items, path.at(-1));
    return {
      ...row, said: [...lines, run, within, path.length, isOpen, flag, refusal, written?.text].join("\n"),
      parts: () => [foldOf(item, run, isOpen), ...saidOf(item, run, isOpen, path.length - 1, lines, written), ...marksOf(flag, refusal)],
      place: (line) => this.#placeRow(line, row, isSelected),
    };
  }

  #placeRow(line, row, isSelected) {
    const { number, lines, path, item, run } = row;
    const name = path.join("/");
    const isHere = !run && this.#here.has(name);
    line.className = ["row", isSelected && "selected", isHere && "here", item?.name === "TICK" && "tick"].filter(Boolean).join(" ");
    line.id = idOf(row);
    line.ariaLevel = path.length;
    line.ariaPosInSet = path.at(-1) + 1;
    line.ariaSetSize = (blocksAround(this.#items, path).at(-1)?.items ?? this.#items).length + (path.length > 1 ? 0 : 1);
    line.ariaSelected = isSelected;
    line.ariaExpanded = item?.items || run ? this.#unfolded.has(item) : null;
    line.style.top = `${number * this.#row}px`;
    line.style.height = `${lines * this.#row}px`;
    line.dataset.path = run ? `${name}+` : name;
    const label = item ? name : "end";
    if (line.firstChild.textContent !== label) line.firstChild.textContent = label;
  }

  // Whether detectors of a row were flipped, or coins decide them; in a block rows have detectors of each round, and no flag.
  #flag(path, item, run) {
    if (path.length > 1 || item?.name !== "DETECTOR" || (run && this.#unfolded.has(item))) return null;
    const { detectors } = before(this.#items);
    return this.#flagOf(detectors[path[0]], detectors[path[0] + Math.max(1, run)]);
  }

  // The row of which an element is a part; null if it is of none, as after a drag from row to row, or if an edit has just moved it.
  #rowOf(element) {
    const row = this.#rows.rowOf(element);
    return row && pathThere(this.#items, row.path).join() === row.path.join() ? row : null;
  }

  #click(row, isFold, { shiftKey, ctrlKey, metaKey }) {
    if (!row) return;
    const { path, item, run } = row;
    const isLine = item && !run && this.#isBeside(path) && !this.#isHead;
    if (isFold && (item?.items || run)) this.#toggle(item);
    else if (shiftKey && isLine) this.#extend(path);
    else if ((ctrlKey || metaKey) && isLine) this.#exchange(path);
    else this.#choose(path, item, run);
  }

  // Chooses one more line beside the others, or one less.
  #exchange(path) {
    const places = new Set(this.#places());
    const place = path.at(-1);
    if (!places.delete(place)) places.add(place);
    const now = places.has(place) ? place : [...places].at(-1);
    if (now === undefined) return;
    this.#choose([...path.slice(0, -1), now], null, 0);
    places.delete(now);
    this.#apart = places;
    this.#draw();
  }

  // Whether a path is of the list of the chosen line.
  #isBeside(path) {
    return this.#selected !== null && path.slice(0, -1).join("/") === pathOf(this.#selected).slice(0, -1).join("/");
  }

  // Has the range of lines end at a path.
  #extend(path) {
    const anchor = this.#anchor ?? this.#selected;
    this.#choose(path, null, 0);
    this.#anchor = anchor === path.join("/") ? null : anchor;
    this.#draw();
  }

  // Has the range of lines end one line further.
  #extendBy(by) {
    if (!this.item) return;
    const path = pathOf(this.#selected);
    const list = blocksAround(this.#items, path).at(-1)?.items ?? this.#items;
    const place = path.at(-1) + by;
    if (!list[place]) return;
    this.#extend([...path.slice(0, -1), place]);
    this.#bringIntoSight();
  }

  #write(row) {
    if (row && !row.run) this.#act.write(row.item ? "replace" : "insert", row.path, row.item);
  }

  #toggle(item) {
    if (!this.#unfolded.delete(item)) this.#unfolded.add(item);
    this.#draw();
  }

  #choose(path, item, run) {
    this.#selected = path.join("/");
    this.#isHead = run > 0;
    this.#forgetOthers();
    this.#refusal = null;
    this.#draw();
    this.#place.focus();
    this.#act.select(path, run ? null : item);
  }

  #key(event) {
    const moves = { ArrowDown: 1, ArrowUp: -1, PageDown: 20, PageUp: -20, Home: -Infinity, End: Infinity };
    const row = this.#selectedRow();
    const by = { ArrowDown: 1, ArrowUp: -1 }[event.key];
    if (by && (event.shiftKey || event.altKey)) {
      event.preventDefault();
      if (event.shiftKey) this.#extendBy(by);
      else if (!event.repeat) this.#act.move(by);
      return;
    }
    if (event.key in moves) {
      event.preventDefault();
      const beyond = row && moves[event.key] > 0 ? row.lines - 1 : 0;
      this.#move(row || Math.abs(moves[event.key]) === Infinity ? (row?.number ?? 0) + beyond + moves[event.key] : 0);
      return;
    }
    if (!row) return;
    const { path, item, run } = row;
    const folds = item?.items || run;
    const isOpen = this.#unfolded.has(item);
    const keys = {
      ArrowRight: () => folds && !isOpen && this.#toggle(item),
      ArrowLeft: () => folds && isOpen && this.#toggle(item),
      Enter: () => (run ? this.#toggle(item) : this.#act.write(item ? "replace" : "insert", path, item)),
      i: () => this.#act.write("insert", path, item),
      a: () => item && !run && this.#act.write("behind", path, item),
      Delete: () => item && !run && this.#act.remove(),
    };
    const act = keys[keyOf(event)];
    if (act) {
      event.preventDefault();
      act();
    }
  }

  // Selects the row with a number, or the nearest there is.
  #move(number) {
    const last = countLines(this.#items, this.#unfolded, this.#wrap);
    const at = Math.max(0, Math.min(last, number));
    const { path, item, run } = this.#rowsBetween(at, at + 1).rows[0];
    this.#choose(path, item, run);
    this.#bringIntoSight();
  }
}

const idOf = ({ path, run }) => `row-${path.join("/")}${run ? "+" : ""}`;
