// @ts-check
// A pane of buttons as one tab stop: the button that has the focus, or had it last; arrows move within.

export class Roving {
  #pane;
  #stop = null;

  constructor(pane) {
    this.#pane = pane;
    pane.addEventListener("focusin", () => this.#settle());
    // Buttons that come, and those that can be used no more.
    const changes = { childList: true, subtree: true, attributes: true, attributeFilter: ["disabled", "aria-checked"] };
    new MutationObserver(() => this.#settle()).observe(pane, changes);
    this.#settle();
  }

  get #buttons() {
    return [...this.#pane.querySelectorAll("button:not(:disabled)")];
  }

  // The button that the Tab key leads to, or null.
  get stop() {
    return this.#stop;
  }

  // Moves the focus by a number of buttons.
  move(count) {
    const buttons = this.#buttons;
    buttons.at((buttons.indexOf(this.#stop) + count) % buttons.length)?.focus();
  }

  #settle() {
    const buttons = this.#buttons;
    const checked = buttons.find((button) => button.ariaChecked === "true");
    const kept = buttons.includes(this.#stop) ? this.#stop : buttons[0];
    this.#stop = buttons.find((button) => button === document.activeElement) ?? checked ?? kept ?? null;
    for (const button of this.#pane.querySelectorAll("button")) button.tabIndex = button === this.#stop ? 0 : -1;
  }
}
