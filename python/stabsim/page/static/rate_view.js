// @ts-check
// How often a decoder by matching takes an observable wrongly, with the noise of a model of the literature on the circuit.

import { element, fillOnce, line, quiet, title } from "./boxes.js";

const ABOUT = "How often does a decoder by matching take an observable wrongly?";
// What the circuit's own noise is called, and the models (noise.py), with what has errors in each.
const OWN = "own noise";
const MODELS = [
  ["uniform", "gates, resets, records, idle qubits, products"], ["SD6", "gates, resets, records, idle qubits"], ["SI1000", "as of superconducting qubits"],
  ["EM3", "measured products of two"], ["code capacity", "data qubits, once"], ["phenomenological", "data qubits and records of checks, each round"],
];

export class RateView {
  #act;
  #head = element("div", "head");
  #body = element("div");
  // What the server said last (rates.py), and the chance that was asked for last.
  #told = null;
  #chance = 0.001;

  // `act` has ask(question), which asks the server, menu(opener, place, offers), number(words, offered, least, step), which asks for one, and
  // hasNoise(), which says whether the circuit has some.
  constructor(box, act) {
    this.#act = act;
    box.append(this.#head, this.#body);
    this.#draw();
  }

  // Takes what was said of the circuit; null once another is opened, of which more may be said.
  take(told) {
    this.#told = told;
    this.#draw();
  }

  #draw() {
    const { state, rate, before } = this.#told ?? { state: "none", rate: [], before: null };
    const isRunning = state === "running";
    const best = rate.length && state !== "refused" ? ` ${written(rate[1])}` : "";
    fillOnce(this.#head, [best, isRunning], () => [title(`Rate${best}`), this.#noiseButton(), this.#button(isRunning)]);
    const said = [...this.#said(), ...(before ? [quiet(`before the last edits: ${saidOfRate(before)}`)] : [])];
    fillOnce(this.#body, said.map((it) => it.textContent), () => said);
  }

  #button(isRunning) {
    const made = element("button", "ask", isRunning ? "Stop" : "Count ▾");
    made.title = isRunning ? "stop counting" : ABOUT;
    if (!isRunning) made.setAttribute("aria-haspopup", "menu");
    made.addEventListener("click", () => (isRunning ? this.#act.ask({ ask: "end rate" }) : this.#act.menu(made, made.getBoundingClientRect(), this.#offers())));
    return made;
  }

  // What puts noise on the circuit, or takes it out.
  #noiseButton() {
    const made = element("button", "ask", "Noise ▾");
    made.title = "put the noise of a model on the circuit, or take its noise out";
    made.setAttribute("aria-haspopup", "menu");
    const offers = () => [...MODELS.map(([name, about]) => [`${name}: ${about}`, () => this.#with(name, "noise")]),
      ...(this.#act.hasNoise() ? [["none", () => this.#act.ask({ ask: "noise", model: "", chance: 0 })]] : [])];
    made.addEventListener("click", () => this.#act.menu(made, made.getBoundingClientRect(), offers()));
    return made;
  }

  #offers() {
    const own = this.#act.hasNoise() ? [[`${OWN}: as it is in the circuit`, () => this.#act.ask({ ask: "rate", model: OWN, chance: 0 })]] : [];
    return [...own, ...MODELS.map(([name, about]) => [`${name}: ${about}`, () => this.#with(name, "rate")])];
  }

  // Asks for a rate, or puts noise on, by a model with a chance that is asked for.
  async #with(model, ask) {
    const chance = await this.#act.number(`${model}: the chance of an error`, this.#chance, 0, "any");
    if (chance === null) return;
    this.#chance = chance;
    await this.#act.ask({ ask, model, chance });
  }

  #said() {
    if (!this.#told || this.#told.state === "none") return [];
    if (this.#told.state === "refused") return [line(element("span", "bad", this.#told.said))];
    const counted = line(saidOfRate(this.#told));
    counted.setAttribute("role", "status");
    return [counted];
  }
}

const written = (rate) => (rate === 0 ? "0" : String(Number(rate.toPrecision(3))));

/** @param {{model: string, chance: number, shots: number, errors: number, rate: number[]}} counted */
function saidOfRate({ model, chance, shots, errors, rate }) {
  const noise = model === OWN ? model : `${model} ${chance}`;
  if (!shots) return `${noise}: being counted`;
  return `${written(rate[0])} to ${written(rate[2])} · ${errors.toLocaleString("en")} of ${shots.toLocaleString("en")} shots wrong · ${noise}`;
}
