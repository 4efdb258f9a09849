// @ts-check
// The panes beside the picture: splitters say how large they are. In a small window one of them is there at most, as tabs say.

// How small a pane gets at least, in pixels, and which part of all it takes at most.
const LEAST = 120;
const MOST_PART = 0.7;
// How far a key moves a splitter, in pixels.
const STEP = 24;

export class Panes {
  #main;
  #tabs;

  // `main` has the panes, and `tabs` a button for each, which names it.
  constructor(main, tabs) {
    [this.#main, this.#tabs] = [main, [...tabs.children]];
    for (const tab of this.#tabs) tab.addEventListener("click", () => this.#choose(tab.dataset.pane === main.dataset.pane ? "" : tab.dataset.pane));
    for (const splitter of main.querySelectorAll(".splitter")) this.#hear(splitter);
    this.#choose("circuit");
  }

  // Has the pane that has an element be seen.
  show(element) {
    const pane = this.#tabs.map((tab) => tab.dataset.pane).find((id) => document.getElementById(id).contains(element));
    if (pane && !element.checkVisibility()) this.#choose(pane);
  }

  // With "" all are folded.
  #choose(pane) {
    this.#main.dataset.pane = pane;
    for (const tab of this.#tabs) tab.ariaSelected = tab.dataset.pane === pane;
  }

  #hear(splitter) {
    let from = null;
    const placeOf = (event) => (isAcross(splitter) ? event.clientX : event.clientY);
    splitter.addEventListener("pointerdown", (event) => {
      splitter.setPointerCapture(event.pointerId);
      from = placeOf(event) - this.#sizeOf(splitter) * this.#signOf(splitter);
    });
    splitter.addEventListener("pointermove", (event) => from !== null && this.#resize(splitter, (placeOf(event) - from) * this.#signOf(splitter)));
    splitter.addEventListener("lostpointercapture", () => { from = null; });
    splitter.addEventListener("keydown", (event) => {
      const by = { ArrowLeft: -1, ArrowUp: -1, ArrowRight: 1, ArrowDown: 1 }[event.key];
      if (!by) return;
      event.preventDefault();
      this.#resize(splitter, this.#sizeOf(splitter) + by * STEP * this.#signOf(splitter));
    });
  }

  // The pane that a splitter sizes: the one that is named, or in a small window the one that is there.
  #paneOf(splitter) {
    const named = document.getElementById(splitter.dataset.pane);
    return named.checkVisibility() ? named : document.getElementById(this.#main.dataset.pane);
  }

  // A pane at the left end grows to the right, and others grow to the left or upwards.
  #signOf(splitter) {
    return splitter.dataset.pane === "circuit" ? 1 : -1;
  }

  #sizeOf(splitter) {
    const { width, height } = this.#paneOf(splitter).getBoundingClientRect();
    return isAcross(splitter) ? width : height;
  }

  #resize(splitter, size) {
    const { width, height } = this.#main.getBoundingClientRect();
    const most = MOST_PART * (isAcross(splitter) ? width : height);
    const name = getComputedStyle(splitter).getPropertyValue("--sizes").trim();
    document.documentElement.style.setProperty(name, `${Math.round(Math.max(LEAST, Math.min(most, size)))}px`);
  }
}

const isAcross = (splitter) => getComputedStyle(splitter).cursor === "col-resize";
