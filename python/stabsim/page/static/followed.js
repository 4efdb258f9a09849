// @ts-check
// What is followed through time: the region of a detector or observable, or the coins that decide it.

export class Followed {
  // The detector or observable whose region is shown, as D3 or L0.
  bit = null;
  // The letters of its region by moments, or why none is known.
  region = {};
  why = "";
  // Where the coins are thrown that decide it (coins.js), or null if that is not known, or none does.
  coins = null;
  #knowledge;
  #page;

  // `page` has changed(), which is called after each change, isRandom(bit) and placesOfCoins(numbers).
  constructor(knowledge, page) {
    [this.#knowledge, this.#page] = [knowledge, page];
  }

  async chooseBit(bit) {
    this.take(bit);
    this.#page.changed();
    if (bit !== null) await this.#findRegion(bit);
  }

  // Takes a bit of which nothing is known yet, or null.
  take(bit) {
    this.bit = bit;
    [this.region, this.why, this.coins] = [{}, bit === null ? "" : "its region is asked for", null];
  }

  async #findRegion(bit) {
    this.explain();
    const found = await this.#knowledge.region(bit);
    if (this.bit !== bit) return;
    [this.region, this.why] = [found.region, found.why];
    this.#page.changed();
  }

  // Asks which coins decide the bit, if it is known that some do.
  async explain() {
    const { bit } = this;
    if (bit === null || !this.#page.isRandom(bit)) return;
    const numbers = await this.#knowledge.coins(bit);
    if (this.bit !== bit || !numbers) return;
    this.coins = this.#page.placesOfCoins(numbers);
    this.#page.changed();
  }

  // Asks anew, once more is known; what is shown stays until the answer is there.
  known() {
    if (this.bit !== null) this.#findRegion(this.bit);
  }
}
