// @ts-check
// Work that is not saved, in the storage of the browser: a page that is opened again offers it.

import { packed, unpacked } from "./files.js";

const KEY = "stabsim unsaved ";
// How long, in milliseconds, nothing is changed before it is kept.
const PAUSE = 300;

export class Unsaved {
  #key;
  #fail;
  #timer = 0;
  #asked = 0;

  // `run` names the run of the server, each of which has its own work; `fail()` is called if it finds no room.
  constructor(run, fail) {
    [this.#key, this.#fail] = [KEY + run, fail];
  }

  // Keeps what `work()` answers some time, as {name, text}, once nothing has changed for a while, or with null no longer keeps any.
  keep(work) {
    clearTimeout(this.#timer);
    this.#asked += 1;
    this.#timer = setTimeout(() => this.#put(work, this.#asked), PAUSE);
  }

  async #put(make, asked) {
    const work = await make();
    if (asked !== this.#asked) return;
    if (!work) return void localStorage.removeItem(this.#key);
    const letters = await packed(work.text);
    try {
      localStorage.setItem(this.#key, JSON.stringify({ name: work.name, time: Date.now(), letters }));
    } catch {
      this.#fail();
    }
  }

  // The latest work of another run, {key, name, time, text}; null if there is none.
  async found() {
    const keys = Object.keys(localStorage).filter((key) => key.startsWith(KEY) && key !== this.#key);
    const [last] = keys.map((key) => ({ key, ...JSON.parse(localStorage.getItem(key)) })).sort((a, b) => b.time - a.time);
    return last ? { ...last, text: await unpacked(last.letters) } : null;
  }

  drop(key) {
    localStorage.removeItem(key);
  }
}
