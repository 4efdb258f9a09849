// @ts-check
// The keys of the whole page: each pane is one tab stop, and arrows move within it.

import { buttonBy, by, dialogBy } from "./by_id.js";
import { ALL_KEYS, commandOf, isField, keyOf, layerOf, letterOf, letterWithAlt } from "./keys.js";
import { momentAt, momentsOf } from "./moments.js";
import { neighbourOf } from "./places.js";
import { Roving } from "./roving.js";
import { roundOf } from "./timeline.js";

const PANES = ["tools", "text", "words", "palette", "picture", "view", "timeline", "inspector"];
const ROVING = ["tools", "line-tools", "palette", "rounds-of-edits", "view", "inspector"];
const ARROWS = { ArrowLeft: [-1, 0], ArrowRight: [1, 0], ArrowUp: [0, -1], ArrowDown: [0, 1] };

// How far a key pans, in pixels.
const PAN = 60;

export class Keyboard {
  #page;
  #roving = new Map(ROVING.map((id) => [id, new Roving(by(id))]));

  // `page` has shown, editor, menu, layout, timeline, openMenu(qubit), chooseBit(bit), panes, and press(id), which clicks a button.
  constructor(page) {
    this.#page = page;
    document.addEventListener("keydown", (event) => this.#key(event));
    sayKeys(by("keys"), by("hints"));
  }

  #key(event) {
    if (event.defaultPrevented || !this.#page.shown.state) return;
    const command = commandOf(event);
    if ((dialogBy("asking").open || dialogBy("keys").open) && command !== "save") return;
    if (event.key === "F6") return void this.#nextPane(event);
    if (command && !(isField(event.target) && command !== "save" && command !== "open")) {
      event.preventDefault();
      if (command === "all") this.#page.shown.chooseAll(this.#page.shown.state.placement.places.keys());
      else this.#page.press(command);
    } else if (!isField(event.target) && !this.#page.menu.isOpen) this.#act(event);
    else if (event.key === "Escape") this.#page.menu.close();
  }

  #act(event) {
    const isDone = this.#everywhere(event) || this.#inPane(event) || (!by("text").contains(event.target) && this.#onChosen(event));
    if (isDone) event.preventDefault();
  }

  // Keys that mean the same in each pane. Brackets may need other keys held, so they are taken by what they type.
  #everywhere({ key, ctrlKey, metaKey }) {
    const { shown } = this.#page;
    if (ctrlKey || metaKey) return false;
    const keys = {
      "[": () => shown.goTo(shown.moment - 1), "]": () => shown.goTo(shown.moment + 1), "+": () => this.#page.press("greater"), "=": () => this.#page.press("greater"),
      "-": () => this.#page.press("smaller"), 0: () => this.#page.press("fit"), "?": () => dialogBy("keys").showModal(), Escape: () => this.#letGo(),
      "/": () => this.#page.press("search"), ",": () => this.#bit(-1), ".": () => this.#bit(1), "{": () => this.#page.editor.stepTick(-1), "}": () => this.#page.editor.stepTick(1),
    };
    if (!Object.hasOwn(keys, key)) return false;
    keys[key]();
    return true;
  }

  #inPane(event) {
    const pane = [...PANES, "line-tools"].find((id) => by(id).contains(event.target));
    if (pane === "timeline") return this.#onTimeline(event);
    if (pane === "picture") return this.#onPicture(event);
    const by_ = { ArrowLeft: -1, ArrowUp: -1, ArrowRight: 1, ArrowDown: 1 }[event.key];
    if (!by_ || !this.#roving.has(pane)) return false;
    this.#roving.get(pane).move(by_);
    return true;
  }

  // The next detector, or the one before.
  #bit(by_) {
    const bit = this.#page.shown.bitBeside(by_);
    if (bit !== null) this.#page.chooseBit(bit);
  }

  // The nearest detector that way on the timeline.
  #bitThere(direction) {
    const { shown, timeline } = this.#page;
    if (!shown.bit?.startsWith("D")) return void this.#bit(1);
    const bit = timeline.beside(shown.bit, direction);
    if (bit !== null) this.#page.chooseBit(bit);
  }

  #onPicture(event) {
    const { shown } = this.#page;
    if (ARROWS[event.key] && event.altKey) {
      if (shown.chosen.length && !event.repeat) this.#page.editor.shift(shown.chosen[0], ARROWS[event.key]);
      return true;
    }
    if (ARROWS[event.key] && (event.ctrlKey || event.metaKey)) {
      this.#page.layout.pan(...ARROWS[event.key].map((step) => -step * PAN));
      return true;
    }
    if (ARROWS[event.key]) {
      const { places, box } = shown.state.placement;
      const from = places.get(shown.chosen.at(-1)) ?? [box.left - 1, box.top];
      const next = shown.chosen.length ? neighbourOf(places, from, ARROWS[event.key]) : neighbourOf(places, from, [1, 0]);
      if (next !== null) shown.choose(next, event.shiftKey);
      return true;
    }
    const key = keyOf(event);
    if (key !== "Enter" && key !== " ") return false;
    if (shown.chosen.length) this.#page.openMenu(shown.chosen.at(-1));
    return true;
  }

  #onTimeline({ key, shiftKey }) {
    const { shown, timeline } = this.#page;
    if (ARROWS[key] && (shiftKey || ARROWS[key][1])) {
      this.#bitThere(ARROWS[key]);
      return true;
    }
    const keys = {
      ArrowLeft: () => shown.goTo(shown.moment - 1), ArrowRight: () => shown.goTo(shown.moment + 1), Home: () => shown.goTo(0), End: () => shown.goTo(momentsOf(shown.state.items) - 1),
      PageUp: () => this.#round(-1), PageDown: () => this.#round(1), ...(timeline.range && { Delete: () => this.#page.press("delete") }),
    };
    keys[key]?.();
    return Boolean(keys[key]);
  }

  // The same tick one round later or earlier; outside blocks eight moments.
  #round(by_) {
    const { shown } = this.#page;
    const { path, rounds } = roundOf(momentAt(shown.state.items, shown.moment));
    let list = shown.state.items;
    let once = 8;
    for (const place of path.slice(0, rounds.length)) {
      once = list[place].once.bounds;
      list = list[place].items;
    }
    shown.goTo(shown.moment + by_ * Math.max(1, once));
  }

  #onChosen(event) {
    if (event.altKey) return this.#page.editor.add(letterWithAlt(event));
    const layer = layerOf(event);
    if (layer !== null) this.#page.shown.layers.take(layer);
    if (layer !== null) return true;
    const letter = letterOf(event);
    return letter !== "" && this.#page.editor.key(letter);
  }

  // Escape lets go of one thing after another.
  #letGo() {
    const { shown } = this.#page;
    if (shown.tool !== "pick" || shown.waiting.length) shown.takeTool("pick");
    else if (shown.layers.at !== null) shown.layers.take(shown.layers.at);
    else if (shown.bit !== null) shown.chooseBit(null);
    else if (shown.set.length) shown.showSet([]);
    else shown.choose(null);
  }

  #nextPane(event) {
    event.preventDefault();
    const now = PANES.findIndex((id) => by(id).contains(document.activeElement));
    const step = event.shiftKey ? -1 : 1;
    for (let i = 1; i <= PANES.length; i += 1) {
      const id = PANES[(Math.max(now, step < 0 ? 0 : -1) + step * i + 2 * PANES.length) % PANES.length];
      const stop = this.#roving.has(id) ? this.#roving.get(id).stop : buttonBy(id).disabled ? null : by(id);
      if (!stop) continue;
      this.#page.panes.show(stop);
      stop.focus();
      return;
    }
  }
}

function sayKeys(dialog, hints) {
  const list = document.createElement("dl");
  for (const [keys, words] of ALL_KEYS) list.append(made("dt", made("kbd", keys)), made("dd", words));
  dialog.append(made("h2", "All keys"), list);
  const parts = [["[", " "], ["]", " tick · "], ["←↑↓→", " qubit · "], ["F6", " next pane · "], ["?", " all keys"]];
  hints.replaceChildren(...parts.flatMap(([key, words]) => [made("kbd", key), words]));
}

function made(name, content) {
  const element = document.createElement(name);
  element.append(content);
  return element;
}
