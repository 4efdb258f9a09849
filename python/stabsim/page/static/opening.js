// @ts-check
// Circuits that are opened: of a file, of the address, and work that was not saved, which the browser keeps.

import { circuitOfAddress, forgetLink, saidOfSize } from "./files.js";
import { Unsaved } from "./unsaved.js";

// The greatest text that is read, in bytes.
const MOST_BYTES = 2 ** 25;

export class Opening {
  #page;
  #unsaved;
  #isFirst = true;

  // `page` has shown, ask(question), say(words, isBad), text(), which answers the circuit's some time, and banner; `run` names the run of the server.
  constructor(page, run) {
    this.#page = page;
    this.#unsaved = new Unsaved(run, () => page.say("the circuit is too long to be kept in the browser until it is saved", true));
  }

  // Once the server has opened a circuit: after the first one that of the address, and work that was not saved, are looked for.
  heard() {
    if (this.#isFirst) this.#openAddress();
    else forgetLink();
    this.#isFirst = false;
  }

  async #openAddress() {
    const text = await circuitOfAddress().catch(() => this.#page.say("the address holds no circuit", true));
    if (text) await this.file({ name: "linked.stim", size: text.length, text: async () => text });
    await this.#offerUnsaved();
  }

  // Opens a file {name, size, text()}, and answers whether it could; `more` is what the server is told beside it.
  async file(file, more = {}) {
    const { name, size } = file;
    const { say, ask } = this.#page;
    if (size > MOST_BYTES) return void say(`${name} has ${saidOfSize(size)}, and no more than ${saidOfSize(MOST_BYTES)} are read`, true);
    say(`${name}: ${saidOfSize(size)} are being read …`);
    document.body.classList.add("reading");
    const given = await file.text().catch((fault) => void say(`${name}: ${fault.message}`, true));
    const isOpened = given !== undefined && !(await ask({ ask: "open", text: given, name, ...more })).refused;
    document.body.classList.remove("reading");
    if (isOpened) say(`${name} is opened; Undo brings the circuit before it back`);
    return isOpened;
  }

  // The title has a dot for work that is not saved, and the browser keeps it.
  sayWhetherSaved() {
    const { shown, text } = this.#page;
    document.title = `${shown.state.isUnsaved ? "● " : ""}${shown.state.name} · stabsim`;
    this.#unsaved.keep(async () => (shown.state.isUnsaved ? { name: shown.state.name, text: await text() } : null));
  }

  async #offerUnsaved() {
    const work = await this.#unsaved.found();
    if (!work) return;
    const { key, name, time, text } = work;
    const settle = () => {
      this.#unsaved.drop(key);
      this.#offerUnsaved();
    };
    const openIt = () => this.file({ name, size: text.length, text: async () => text }, { unsaved: true }).then((isOpened) => isOpened && settle());
    this.#page.banner.say("unsaved", `${name} of ${new Date(time).toLocaleString()} was not saved.`, [["Open it", openIt], ["Drop it", settle]]);
  }
}
