// @ts-check
// What tools, keys and menus do to the circuit: each is one entry of the history, made whole or refused.

import * as editing from "./editing.js";
import { PAULIS, isPair, isSingle } from "./instructions.js";
import { afterSplits } from "./keeping.js";
import { nameOf } from "./moments.js";
import { OFFERED, OFFERED_FOR_PAIRS } from "./noise.js";
import { titleOf, toolOf } from "./palette.js";
import { partnersOf } from "./pairing.js";
import { putDetector, putDetectorOf, putObservable } from "./records.js";
import { mirrored, replaceQubits, shiftBy, turned } from "./replacing.js";
import { moveTick, putTick, stepTick, takeTick } from "./ticks.js";

export class Editor {
  #shown;
  #act;
  #last = Promise.resolve(true);

  // `act` has send(edits, round, name), which answers what was made of them, or null if they were refused; say(words, isBad); menu(qubit, offers); isAlone(isError), which says in
  // which rounds an edit is made; number(words, offered), which asks for one; and ask(question), which asks the server.
  constructor(shown, act) {
    this.#shown = shown;
    this.#act = act;
  }

  // Makes the edits that `edits(state, moment)` answers as editing.js does, and shows what was put in, unless a person went to another
  // moment meanwhile: answers whether they were made. They are worked out once those before them are made, since each edit moves what
  // comes after it: keys may be quicker than the program.
  /** @param {(state: import("./state.js").State, moment: number) => import("./types.js").Made} edits @returns {Promise<boolean>} */
  make(edits) {
    /** @returns {Promise<boolean>} */
    const inTurn = async () => {
      const { edits: wanted, round, shown, name, why } = edits(this.#shown.state, this.#shown.moment);
      if (why) {
        this.#act.say(why, true);
        return false;
      }
      const { moves } = this.#shown;
      const made = await this.#act.send(wanted, round, name);
      if (!made) return false;
      if (shown && this.#shown.moves === moves) {
        const { path, rounds } = afterSplits(shown, made.split_off);
        this.#shown.goToPath(path, rounds);
        this.#shown.select(path, false);
      }
      return true;
    };
    this.#last = this.#last.then(inTurn, inTurn);
    return this.#last;
  }

  // Takes up a tool: it acts on what is chosen, if that is enough for it, and else on what is clicked next. With `isAdded` a gate on what is
  // chosen comes beside what acts there, and does not take its place.
  take(name, isAdded = false) {
    const { chosen } = this.#shown;
    if (name === "TICK") return this.make(({ items }, moment) => putTick(items, moment));
    if (name === "DETECTOR") return this.#detector(false);
    if (name === "MPP") return this.#product();
    if (isPair(name) ? this.#isPaired(name) : isSingle(name) && chosen.length) {
      this.#shown.takeTool("pick");
      return this.put(name, chosen, this.#isAlone(name), isAdded);
    }
    this.#shown.takeTool(name, isPair(name) ? chosen : []);
    if (name !== "pick") this.#act.say(`${titleOf(name)}: ${asked(name, chosen)}; Esc lets go`);
    return undefined;
  }

  // Whether the chosen qubits are pairs as they are: two of them, or those for which the gate is asked for again.
  #isPaired(name) {
    const { chosen, tool, waiting } = this.#shown;
    return chosen.length === 2 || (chosen.length > 0 && chosen.length % 2 === 0 && tool === name && waiting.length === chosen.length);
  }

  // Uses the tool at hand on a qubit; `isTurned` has what waits for it be the target, or if nothing waits chooses one more.
  use(qubit, isTurned) {
    const { tool, waiting } = this.#shown;
    if (isTurned && !waiting.length) return this.#shown.choose(qubit, true);
    if (!isPair(tool)) return this.put(tool, [qubit]);
    if (!waiting.length) return this.#shown.takeTool(tool, [qubit]);
    if (waiting.at(-1) === qubit) return this.#shown.takeTool(tool);
    return this.#pair(waiting, waiting.at(-1), this.#placeOf(qubit), isTurned);
  }

  // Leads the gate at hand from one qubit to another, and so from each that waits if the first is one of them.
  lead(first, second, isTurned) {
    const { waiting } = this.#shown;
    return this.#pair(waiting.includes(first) ? waiting : [first], first, this.#placeOf(second), isTurned);
  }

  #placeOf(qubit) {
    return this.#shown.state.placement.places.get(qubit);
  }

  async #pair(qubits, from, place, isTurned) {
    const { tool, state } = this.#shown;
    const { pairs, missing } = partnersOf(state.placement.places, qubits, from, place);
    if (!pairs.length) return void this.#act.say("none of the chosen has a qubit there", true);
    this.#shown.takeTool(tool);
    const isDone = await this.put(tool, pairs.flatMap((pair) => (isTurned ? pair.reverse() : pair)));
    if (isDone && missing) this.#act.say(`${missing} of the chosen ${missing === 1 ? "has" : "have"} no qubit there`);
  }

  // Uses the tool at hand on a place of the grid, on which a qubit is put; if several qubits wait it shows the way to their partners.
  async useAt(place, isTurned) {
    const { tool, waiting } = this.#shown;
    if (waiting.length > 1) return this.#pair(waiting, waiting.at(-1), place, isTurned);
    const isFirst = isPair(tool) && !waiting.length;
    let qubit = null;
    const isDone = await this.make(({ items, placement }, moment) => {
      const made = editing.putQubits(items, [place], placement);
      [qubit] = made.qubits;
      return isFirst ? made : editing.withQubits(editing.putIn(items, moment, tool, [...waiting, qubit], this.#isAlone(tool)), made);
    });
    if (isDone) this.#shown.takeTool(tool, isFirst ? [qubit] : []);
    return isDone;
  }

  // Puts a gate, measurement or reset on qubits at the end of the moment. What an error flips is then chosen, with its region. With a layer of
  // marks at hand an error is a mark, and no edit.
  async put(name, qubits, alone = this.#isAlone(name), isAdded = false) {
    const { layers, state, moment: now } = this.#shown;
    if (PAULIS.includes(name) && layers.at !== null) {
      layers.put(name, qubits, state.items, now);
      return true;
    }
    const made = await this.make(({ items }, moment) => editing.putIn(items, moment, name, qubits, alone, isAdded));
    if (made && PAULIS.includes(name)) this.#shown.chooseBit([...this.#shown.state.flipped][0] ?? null);
    return made;
  }

  // Whether an edit in a block is made in the round that is seen alone.
  #isAlone(name) {
    return this.#act.isAlone(PAULIS.includes(name));
  }

  // Puts qubits on places, and chooses them.
  async place(places) {
    let qubits = [];
    const isDone = await this.make(({ items, placement }) => {
      const made = editing.putQubits(items, places, placement);
      qubits = made.qubits;
      return qubits.length ? made : { why: "no place is free there" };
    });
    if (isDone) this.#shown.chooseAll(qubits);
  }

  // Puts qubits on other places: `way` makes of their places what moves each of them.
  replace(qubits, way) {
    return this.make(({ items, placement }) => replaceQubits(items, qubits, placement, way(qubits.map((it) => placement.places.get(it)).filter(Boolean))));
  }

  // Shifts a qubit by a step, with all that are chosen if it is one of them.
  shift(qubit, step) {
    return this.replace(this.#chosenWith(qubit), () => shiftBy(step));
  }

  // Puts noise on qubits, of a chance that is asked for.
  async noise(name, qubits) {
    const chance = await this.#act.number(`${name}: the chance of an error`, 0.001, 0, "any");
    return chance !== null && this.make(({ items }, moment) => editing.putNoise(items, moment, name, chance, qubits, this.#isAlone("")));
  }

  // Puts in what was copied.
  paste(lines) {
    return this.make(({ items }, moment) => (lines.length ? editing.putLines(items, moment, lines) : { why: "nothing was copied" }));
  }

  moveTo(qubits, target) {
    return this.make(({ items }, moment) => editing.moveTo(items, moment, qubits, target));
  }

  // Moves the tick that ends a moment into a gap of some moment (ticks.js).
  moveTick(moment, to, gap) {
    return this.make(({ items }) => moveTick(items, moment, to, gap));
  }

  // Moves the tick that ends the moment over the item before it (-1), or the next one (1).
  stepTick(direction) {
    return this.make(({ items }, moment) => stepTick(items, moment, direction));
  }

  // Puts a gate beside what acts on the chosen qubits, by its key; answers whether a key is that of a gate.
  add(letter) {
    const tool = toolOf(letter);
    if (!tool || !(isPair(tool) || isSingle(tool))) return false;
    this.take(tool, true);
    return true;
  }

  // The actions of keys on what is chosen; answers whether there is one.
  key(letter) {
    const { chosen } = this.#shown;
    const tool = toolOf(letter);
    const ofChosen = {
      Delete: () => this.#remove(),
      Backspace: () => this.#remove(),
      o: () => this.#observable(chosen),
      "<": () => this.moveTo(chosen, this.#shown.moment - 1),
      ">": () => this.moveTo(chosen, this.#shown.moment + 1),
    };
    const keys = { ...ofChosen, T: () => this.make(({ items }, moment) => takeTick(items, moment)), D: () => this.#detector(true) };
    if (tool) this.take(tool);
    else if (ofChosen[letter] && !chosen.length) this.#act.say("choose qubits first: click them, or drag a box", true);
    else if (keys[letter]) keys[letter]();
    // With Shift a letter that means nothing else by that is the gate, too.
    else return /^[A-Z]$/.test(letter) && this.add(letter.toLowerCase());
    return true;
  }

  #remove() {
    const { chosen, layers } = this.#shown;
    if (layers.at !== null && layers.takeOut(chosen, this.#shown.moment)) return undefined;
    return this.make(({ items, uses }, moment) => editing.takeOut(items, moment, chosen, this.#isAlone(""), (qubit) => uses.acting.has(qubit)));
  }

  async #observable(chosen) {
    const number = await this.#act.number("observable", 0);
    return number !== null && this.make(({ items }, moment) => putObservable(items, moment, chosen, number));
  }

  #product() {
    const { chosen } = this.#shown;
    if (!chosen.length) return this.#act.say("choose the qubits of the product first: click them with Shift, or drag with Shift", true);
    const offer = (letter) => [`M ${chosen.map((qubit) => `${letter}${qubit}`).join("*")}`.slice(0, 60),
      () => this.make(({ items }, moment) => editing.measureProduct(items, moment, letter, chosen, this.#isAlone("MPP"))), letter.toLowerCase()];
    return this.#act.menu(chosen.at(-1), PAULIS.map(offer));
  }

  #detector(isEach) {
    const { chosen } = this.#shown;
    if (!chosen.length) return this.#act.say("choose qubits whose records the detector compares", true);
    return this.make(({ items, placement }, moment) => {
      // If coordinates are shifted from round to round, each round begins at time 0.
      const time = hasShift(items) ? 0 : nameOf(items, moment).tick;
      return putDetector(items, moment, chosen, { isEach, places: placement.places, time });
    });
  }

  // Makes a detector of the records that the marks of a layer flip, as the program says them.
  async detect(layer) {
    const { layers, state } = this.#shown;
    const { age } = state;
    const { records } = await this.#act.ask({ ask: "detector", marks: layers.told(layer), age });
    const qubit = layers.marks.find((mark) => mark.layer === layer)?.qubit;
    return Boolean(records) && this.make(({ items, placement, age: now }) => (
      now === age ? putDetectorOf(items, records, placement.places.get(qubit)) : { why: "the circuit was changed meanwhile" }));
  }

  // What the menu of a qubit offers.
  offers(qubit, askSign) {
    const offers = PAULIS.map((letter) => [`${letter} here`, () => this.put(letter, [qubit], true), letter.toLowerCase()]);
    if (this.#shown.round) offers.push(...PAULIS.map((letter) => [`${letter} in each round`, () => this.put(letter, [qubit], false)]));
    const others = ["S_DAG", "SQRT_X_DAG", "SQRT_Y_DAG", "C_ZYX", "MY", "RY", "MRX", "MRY", "I"];
    offers.push(...others.map((name) => [name, () => this.put(name, this.#chosenWith(qubit))]));
    const ours = this.#chosenWith(qubit);
    if (ours.length > 1) {
      offers.push(["turn the chosen by a quarter", () => this.replace(ours, turned)], ["mirror them left to right", () => this.replace(ours, (all) => mirrored(all, false))],
        ["mirror them upside down", () => this.replace(ours, (all) => mirrored(all, true))]);
    }
    offers.push(...[...OFFERED, ...(ours.length % 2 ? [] : [OFFERED_FOR_PAIRS])].map((name) => [`${name} …`, () => this.noise(name, ours)]));
    const layer = this.#shown.layers.at ?? this.#shown.layers.used.at(-1) ?? 0;
    offers.push([`${this.#shown.layers.at === null ? "take up" : "let go of"} marks ${layer} (Shift-${layer})`, () => this.#shown.layers.take(layer)]);
    offers.push(["Stabilised by Z?", () => askSign(`Z${qubit}`)], ["Stabilised by X?", () => askSign(`X${qubit}`)]);
    return offers;
  }

  #chosenWith(qubit) {
    return this.#shown.chosen.includes(qubit) ? this.#shown.chosen : [qubit];
  }
}

function asked(name, chosen) {
  if (name === "qubit") return "click where a qubit shall be, or drag over places; with Shift each second one";
  if (isPair(name) && chosen.length > 2) {
    return `click what goes with ${chosen.at(-1)}, or drag from any of them to its partner, and the others go alike; with Shift the other way round`;
  }
  if (isPair(name)) return chosen.length ? `click the qubit that goes with ${chosen[0]}` : "click a qubit and then another, or drag from one to the other";
  return "click a qubit, or a place for one";
}

const hasShift = (items) => items.some((item) => item.name === "SHIFT_COORDS" || (item.items && hasShift(item.items)));
