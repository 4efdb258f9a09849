// @ts-check
// What a person has to know before all else, in lines above the panes, each with what can be done about it.

import { element } from "./boxes.js";

export class Banner {
  #place;
  #lines = new Map();

  constructor(place) {
    this.#place = place;
  }

  // Says something of a kind, in the place of what was said of it before; `offers` are pairs of words and what a click on them does, after
  // which the line goes.
  /** @param {string} kind @param {string} words @param {import("./types.js").Offer[]} [offers] */
  say(kind, words, offers = [["Close", () => {}]]) {
    this.take(kind);
    const buttons = offers.map(([name, act]) => this.#button(name, () => { this.take(kind); act(); }));
    const line = element("p", "", element("span", "", words), ...buttons);
    this.#lines.set(kind, line);
    this.#place.append(line);
  }

  // Takes away what is said of a kind.
  take(kind) {
    this.#lines.get(kind)?.remove();
    this.#lines.delete(kind);
  }

  #button(name, act) {
    const button = element("button", "", name);
    button.addEventListener("click", act);
    return button;
  }
}
