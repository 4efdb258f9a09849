// @ts-check
// A menu at some place of the page. The event that opens it does no more than that: what is chosen is chosen by another.

export class Menu {
  #place;
  #opener = null;
  #keys = new Map();

  constructor(place) {
    this.#place = place;
    place.addEventListener("keydown", (event) => this.#key(event));
    document.addEventListener("pointerdown", (event) => { if (!place.contains(event.target)) this.#place.hidden = true; });
  }

  // Opens it with offers, each [words, what choosing it does, and perhaps a key that chooses it]; the focus comes back to `opener`.
  open(opener, { left, top }, offers) {
    this.#opener = opener;
    this.#keys = new Map(offers.filter((offer) => offer[2]).map(([, act, key]) => [key, act]));
    this.#place.replaceChildren(...offers.map(([words, act]) => this.#offer(words, act)));
    this.#place.hidden = false;
    // It stays inside of the window.
    this.#place.style.left = `${Math.max(0, Math.min(left, innerWidth - this.#place.offsetWidth))}px`;
    this.#place.style.top = `${Math.max(0, Math.min(top, innerHeight - this.#place.offsetHeight))}px`;
    this.#place.firstChild.focus();
  }

  get isOpen() {
    return !this.#place.hidden;
  }

  // Closes it, and answers whether it was open.
  close() {
    if (this.#place.hidden) return false;
    this.#place.hidden = true;
    this.#opener.focus();
    return true;
  }

  #key(event) {
    // The key that opened it may still be held down.
    if (event.repeat && event.key !== "Tab") return void event.preventDefault();
    if (event.ctrlKey || event.altKey || event.metaKey) return;
    const act = this.#keys.get(event.key);
    const by = { ArrowDown: 1, ArrowRight: 1, ArrowUp: -1, ArrowLeft: -1 }[event.key];
    if (!act && !by) return;
    event.preventDefault();
    event.stopPropagation();
    if (act) this.#choose(act);
    else {
      const buttons = [...this.#place.children];
      buttons.at((buttons.indexOf(document.activeElement) + by) % buttons.length).focus();
    }
  }

  #choose(act) {
    this.close();
    act();
  }

  #offer(words, act) {
    const button = document.createElement("button");
    button.role = "menuitem";
    button.textContent = words;
    button.addEventListener("click", () => this.#choose(act));
    return button;
  }
}
