// @ts-check
// A gate that is dragged from the picture to a tick of the timeline.

import { nameOf } from "./moments.js";

export class Carrier {
  #page;

  // `page` has shown, editor, timeline, tip(words, place), which without words takes it away, and say(words, isBad).
  constructor(page) {
    this.#page = page;
  }

  // Shows where it would be dropped.
  carry(qubit, place) {
    const { shown, timeline, tip } = this.#page;
    const moment = timeline.momentUnder(place);
    timeline.aim(moment);
    const what = this.#qubits(qubit).length > 1 ? `what acts on ${this.#qubits(qubit).length} qubits` : `what acts on ${qubit}`;
    tip(moment === null ? `drop ${what} on a tick of the timeline` : `${what}: to tick ${nameOf(shown.state.items, moment).name}`, place);
  }

  // Moves it to the tick at a place of the window; without a place, or at none, nothing is moved.
  drop(qubit, place) {
    const { editor, timeline, tip, say } = this.#page;
    const moment = place && timeline.momentUnder(place);
    timeline.aim(null);
    tip("");
    if (moment === null) say("dropped on no tick: nothing is moved");
    else editor.moveTo(this.#qubits(qubit), moment);
  }

  // With one that is chosen goes what acts on all that are.
  #qubits(qubit) {
    const { chosen } = this.#page.shown;
    return chosen.includes(qubit) ? chosen : [qubit];
  }
}
