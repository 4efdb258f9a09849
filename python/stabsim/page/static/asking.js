// @ts-check
// A number that is asked for before something is done.

import { by, fieldBy } from "./by_id.js";

export class Asking {
  #dialog;
  #settle = null;

  constructor(dialog) {
    this.#dialog = dialog;
    by("asking-form").addEventListener("submit", (event) => {
      event.preventDefault();
      this.#end(fieldBy("asked").value);
    });
    dialog.addEventListener("close", () => this.#end(""));
  }

  // Asks in some words for a number from `least` on, in steps, with one that is offered; answers it, or null if none is given.
  number(words, offered, least = 0, step = "1") {
    by("asking-said").textContent = words;
    fieldBy("asked").min = String(least);
    fieldBy("asked").step = step;
    fieldBy("asked").value = String(offered);
    this.#dialog.showModal();
    fieldBy("asked").select();
    return new Promise((settle) => { this.#settle = settle; });
  }

  #end(given) {
    const settle = this.#settle;
    this.#settle = null;
    this.#dialog.close();
    settle?.(given === "" ? null : Number(given));
  }
}
