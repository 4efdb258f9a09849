// @ts-check
// In which rounds of a block edits are made: in the one that is seen, or in all; as long as neither is chosen, errors in the one, and all
// else in all.

export class RoundsSwitch {
  #place;
  #chosen = "";

  constructor(place) {
    this.#place = place;
    for (const button of place.children) button.addEventListener("click", () => this.#choose(button.dataset.rounds));
  }

  // Whether an edit is made in the round that is seen alone.
  isAlone(isError) {
    return this.#chosen === "" ? isError : this.#chosen === "this";
  }

  // Shows it if there are rounds.
  show(isInBlock) {
    this.#place.classList.toggle("outside", !isInBlock);
  }

  // What is chosen already is let go.
  #choose(rounds) {
    this.#chosen = this.#chosen === rounds ? "" : rounds;
    for (const button of this.#place.children) button.ariaPressed = button.dataset.rounds === this.#chosen;
  }
}
