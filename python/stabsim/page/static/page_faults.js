// @ts-check
// What goes wrong in the page itself, wherever it does: it is told, and all views are drawn anew from the whole state.

export class PageFaults {
  #isDrawnAnew = false;
  #act;

  // `act` has say(words) and drawAnew().
  constructor(act) {
    this.#act = act;
    // The browser's own notices have no error.
    addEventListener("error", ({ error }) => error && this.#take(error));
    addEventListener("unhandledrejection", ({ reason }) => this.#take(reason));
  }

  // An update was shown: what goes wrong next has another cause.
  settle() {
    this.#isDrawnAnew = false;
  }

  #take(fault) {
    const words = `The page went wrong: ${fault?.message ?? fault}.`;
    if (this.#isDrawnAnew) return void this.#act.say(`${words} Load it anew.`);
    this.#isDrawnAnew = true;
    this.#act.say(`${words} It is drawn anew, as the circuit is.`);
    this.#act.drawAnew();
  }
}
