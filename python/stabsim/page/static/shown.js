// @ts-check
// What this tab shows of the circuit: a moment, the qubits and the detector that are chosen, and the tool at hand; drawn by the views.

import { by } from "./by_id.js";
import { blocksAround, itemAt, pathOf } from "./circuit.js";
import { placesOfCoins } from "./coins.js";
import { Followed } from "./followed.js";
import { acts, qubitsOf } from "./instructions.js";
import { noiseOf } from "./noise.js";
import { momentAfter, pathThere, stillThere } from "./keeping.js";
import { areFaces } from "./knowledge.js";
import { Layers } from "./layers.js";
import { actedOften, endOf, momentAt, momentOf, momentsOf, momentsOfDetectors, nameOf } from "./moments.js";
import { sayNumbers, sayRandom } from "./numbers.js";
import { aboutBit, sayMoment, saySeen } from "./saying.js";
import { sceneOf, timeOf, wiresOfShown } from "./scene.js";

// How long, in milliseconds, a moment is shown before all regions there are asked for.
const PAUSE = 30;
const NONE = [];

export class Shown {
  state = null;
  moment = 0;
  // How often another moment was gone to.
  moves = 0;
  // Qubits in the order in which they were chosen.
  chosen = [];
  tool = "pick";
  // The first qubits of gates on two, whose second ones are waited for.
  waiting = [];
  since = "edit";
  hasFaces = true;
  instructions = [];
  // The qubits on which several items act in the tick, with how many do.
  often = new Map();
  // The noise on each qubit at the moment.
  noise = new Map();
  // The errors of a set that flips an observable unseen, at their places (fault_set.js).
  set = [];
  #views;
  #knowledge;
  #followed;
  #faces = [];
  #neighbours = [];
  #hovered = null;
  // What ends the moment, and how many moments there are.
  #end = null;
  #moments = 0;
  // How often it is learnt, at this time, what the table of faults says.
  #learning = 0;

  // `views` has text, entry, layout, wires, timeline, inspector, history, palette and rounds.
  constructor(views, knowledge) {
    this.#views = views;
    this.#knowledge = knowledge;
    this.layers = new Layers({
      flipsOf: (moment, qubit) => knowledge.flips(moment, qubit), waysOf: (layers) => knowledge.ways(layers, this.state.age), changed: () => this.#showLayers(),
    });
    this.#followed = new Followed(knowledge, {
      changed: () => this.#drawAll(), isRandom: (bit) => this.state.isRandom(bit), placesOfCoins: (numbers) => placesOfCoins(this.state.items, numbers),
    });
  }

  // The detector or observable whose region is shown, as D3 or L0.
  get bit() {
    return this.#followed.bit;
  }

  // Shows what an event changed: another circuit, edits, or no more than bits.
  take(kind) {
    const { state } = this;
    if (kind === "opened" || kind === "edited") {
      this.#knowledge.forget();
      this.#keep(kind === "opened");
      this.#views.text.show(state.items, (first, behind) => this.#flagOf(first, behind));
      this.#showEntry(kind === "opened");
      sayNumbers(state);
      this.#sayLayers();
      this.#look(kind === "opened", true);
      this.chooseBit(this.bit);
    } else {
      this.#views.text.show(state.items, (first, behind) => this.#flagOf(first, behind));
      this.#drawTime(false);
      if (kind === "deterministic") this.#followed.explain();
      sayRandom(state.deterministic);
    }
    if (kind !== "deterministic" && kind !== "written") this.#views.history.show(state.entries, state.position, state.markedAt);
    this.#sayBit();
  }

  // What was chosen stays so if it is still there; of another circuit nothing is.
  #keep(isOther) {
    const { state } = this;
    if (isOther) {
      [this.chosen, this.waiting, this.#faces] = [[], [], []];
      this.layers.letGo();
    } else this.layers.keep(state);
    const moments = momentsOf(state.items);
    // If moments came or went, the one that is shown may have another number.
    const moment = isOther || moments === this.#moments ? this.moment : momentAfter(state.items, this.#end, state.moves);
    const kept = stillThere({ ...this, moment, hovered: this.#hovered, bit: this.bit }, state, moments);
    [this.moment, this.chosen, this.waiting, this.#hovered] = [kept.moment, kept.chosen, kept.waiting, kept.hovered];
    this.#followed.take(kept.bit);
    [this.#neighbours, this.set] = [[], []];
    if (isOther) this.#views.text.letGo();
    else for (const view of [this.#views.text, this.#views.entry]) view.keep(state.items, state.moves);
  }

  goTo(moment) {
    this.moves += 1;
    this.moment = Math.max(0, Math.min(momentsOf(this.state.items) - 1, moment));
    this.#look(false, false);
    this.learn();
  }

  goToPath(path, rounds) {
    this.goTo(momentOf(this.state.items, path, rounds));
  }

  // Chooses a qubit, or with isMore one more, or one less; with null none.
  choose(qubit, isMore = false) {
    if (qubit === null) this.chosen = isMore ? this.chosen : [];
    else if (!isMore) this.chosen = [qubit];
    else if (this.chosen.includes(qubit)) this.chosen = this.chosen.filter((it) => it !== qubit);
    else this.chosen = [...this.chosen, qubit];
    this.#chosenChanged();
  }

  chooseAll(qubits, isMore = false) {
    this.chosen = [...new Set([...(isMore ? this.chosen : []), ...qubits])];
    this.#chosenChanged();
  }

  #chosenChanged() {
    const last = this.chosen.at(-1);
    if (last !== undefined) this.#views.layout.bringIntoSight(last);
    this.#hovered = null;
    this.drawLayout();
    this.#inspect();
    const path = this.#itemOn(last)?.path;
    if (path) this.select(path, false);
  }

  takeTool(name, waiting = []) {
    if (name === this.tool && waiting.join() === this.waiting.join()) return;
    [this.tool, this.waiting] = [name, waiting];
    this.#views.palette.show(name);
    by("picture").classList.toggle("armed", name !== "pick");
    this.drawLayout();
  }

  hover(qubit) {
    this.#hovered = qubit;
    this.#inspect();
  }

  // Chooses the item at a path in the text, and with `goes` shows its moment.
  select(path, goes = true) {
    this.#views.text.select(path);
    this.showItem(path);
    if (goes) this.goTo(momentOf(this.state.items, path));
  }

  // Has the entry line show an item; answers how many rounds the block around it has, or 0.
  showItem(asked) {
    const path = pathThere(this.state.items, asked);
    const count = blocksAround(this.state.items, path).at(-1)?.count ?? 0;
    this.#views.entry.show(path, itemAt(this.state.items, path) ?? null, count);
    return count;
  }

  // After an edit another item may be where the chosen one was; what is being written stays.
  #showEntry(isFresh) {
    const { text, entry } = this.#views;
    if (entry.isWritten && !isFresh) return;
    if (text.selected !== null && (text.item || text.selected === String(this.state.items.length))) this.showItem(pathOf(text.selected));
    else entry.show(null, null, 0);
  }

  // Shows the region of a bit, or with null that of none.
  chooseBit(bit) {
    // What names a bit may be of the circuit before the last edit.
    const done = this.#followed.chooseBit(this.state.isThere(bit) ? bit : null);
    this.learn();
    return done;
  }

  #showLayers() {
    if (!this.state) return;
    this.#sayLayers();
    this.#drawAll();
  }

  #sayLayers() {
    const { layers } = this;
    by("layer").hidden = layers.at === null;
    by("layer").textContent = `marks ${layers.at}`;
    this.#views.inspector.marks(layers, (moment) => nameOf(this.state.items, moment).name);
  }

  // Shows a set of errors, or with an empty one none.
  showSet(set) {
    this.set = set;
    this.#drawAll();
  }

  // The detector beside the chosen one by its number, or the first one from this moment on; null if there is none.
  bitBeside(by_) {
    const number = this.bit?.startsWith("D") ? Number(this.bit.slice(1)) + by_ : momentsOfDetectors(this.state.items).findIndex((moment) => moment >= this.moment);
    return this.state.detectors[number] === undefined ? null : `D${number}`;
  }

  // The table of faults has come.
  known() {
    this.#followed.known();
    this.layers.learn();
    this.learn();
    this.#inspect();
  }

  // Asks for what the table of faults says of this moment: faces of checks, and regions beside the chosen one.
  async learn() {
    this.#learning += 1;
    await this.#learn().finally(() => { this.#learning -= 1; });
  }

  // Whether nothing is about to be asked for.
  get isLearnt() {
    return this.#learning === 0;
  }

  async #learn() {
    const { moment, bit, state } = this;
    const isStale = () => this.moment !== moment || this.bit !== bit || this.state !== state;
    // While time is scrubbed the moments on the way are not asked for.
    await new Promise((settle) => { setTimeout(settle, PAUSE); });
    if (isStale()) return;
    const faces = await this.#knowledge.faces(state, moment);
    const neighbours = bit === null ? [] : await this.#knowledge.neighbours(bit, moment);
    if (isStale()) return;
    // Most often the checks of a moment are those of the one before.
    const isSame = (!faces || areFaces(faces, this.#faces)) && !neighbours.length && !this.#neighbours.length;
    if (faces) this.#faces = faces;
    this.#neighbours = neighbours;
    if (!isSame) this.drawLayout();
  }

  #look(isFresh, isEdited) {
    [this.#end, this.#moments] = [endOf(this.state.items, this.moment), momentsOf(this.state.items)];
    this.instructions = momentAt(this.state.items, this.moment);
    this.often = actedOften(this.state.items, this.moment);
    this.noise = noiseOf(this.instructions);
    this.#views.text.mark(this.instructions.filter(({ item }) => acts(item.name)).map(({ path }) => path));
    this.drawLayout(isFresh);
    this.#drawTime(isEdited);
    this.where = sayMoment(this);
    this.#views.rounds.show(this.round !== null);
    this.#inspect();
    this.#sayBit();
  }

  #drawAll() {
    this.drawLayout();
    this.#drawTime(false);
    this.#sayBit();
  }

  drawLayout(isFresh = false) {
    const { state } = this;
    if (!state) return;
    this.#views.layout.show(this.scene(), isFresh);
    if (this.#views.wires.isOpen) this.#views.wires.show(wiresOfShown(this));
  }

  // What drawing.js draws, with what is chosen.
  scene() {
    return sceneOf(this, this.#followed, { faces: this.hasFaces ? this.#faces : NONE, neighbours: this.#neighbours });
  }

  #drawTime(isEdited) {
    this.#views.timeline.show(timeOf(this, this.#followed, this.#flips()), isEdited);
  }

  #flips() {
    return this.since === "edit" ? this.state.flipped : this.state.marked;
  }

  #kindOf(bit) {
    return this.state.kindOf(bit, this.#flips());
  }

  #flagOf(first, behind) {
    const kinds = this.state.toldBetween(first, behind, this.#flips()).map((number) => this.#kindOf(`D${number}`));
    return ["flipped", "random"].find((kind) => kinds.includes(kind)) ?? null;
  }

  // Shows the faces of checks, or none.
  takeFaces(hasFaces) {
    this.hasFaces = hasFaces;
    by("faces").ariaPressed = String(hasFaces);
    this.drawLayout();
  }

  // Shows the chosen qubits over time, or not.
  takeWires(isOpen) {
    by("wires-there").ariaPressed = String(isOpen);
    this.#views.wires.open(isOpen);
    this.drawLayout();
  }

  showSince(which) {
    this.since = which;
    this.take("deterministic");
  }

  // What acts on a qubit at this moment, {item, path, rounds}.
  #itemOn(qubit) {
    return this.instructions.find(({ item }) => qubitsOf(item).includes(qubit));
  }

  // In which round the moment is: that of what ends it, in which edits are made.
  get round() {
    const { path, rounds } = endOf(this.state.items, this.moment);
    return rounds.length ? { path, rounds } : null;
  }

  // The qubit that is inspected: the one under the pointer, else the one that was chosen last.
  get inspected() {
    return this.#hovered ?? this.chosen.at(-1) ?? null;
  }

  // Says what is known of the qubit under the pointer, else of the one that was chosen last.
  async #inspect() {
    const qubit = this.inspected;
    const { inspector } = this.#views;
    const found = qubit === null ? null : this.#itemOn(qubit);
    const at = qubit === null ? null : this.state.qubitCoordinates[qubit];
    inspector.qubit(qubit === null ? null : {
      qubit, kind: this.state.ancillas.has(qubit) ? "ancilla" : "data", at: at?.length ? at : null, name: found?.item.name, path: found?.path,
      count: this.often.get(qubit), noise: this.noise.get(qubit) ?? [], more: this.#hovered === null ? this.chosen.length - 1 : 0,
    }, this.where);
    const { coins, set } = this.scene();
    saySeen(this.where, qubit, {
      name: found?.item.name, letter: this.#followed.region[this.moment]?.[qubit], hasCoin: coins.has(qubit),
      error: set.find((it) => it.qubit === qubit && it.isHere)?.letter, count: this.often.get(qubit),
      noise: this.noise.get(qubit)?.map(({ words }) => words).join(", "),
    });
    if (qubit === null) return void inspector.errors(null, null);
    const { moment } = this;
    const flips = await this.#knowledge.flips(moment, qubit);
    if (this.moment === moment && qubit === this.inspected) inspector.errors(flips, "not known yet");
    return undefined;
  }

  #sayBit() {
    const { state, bit } = this;
    this.#views.inspector.detector(bit, state, aboutBit(this, this.#followed, bit && this.#kindOf(bit)));
  }
}
