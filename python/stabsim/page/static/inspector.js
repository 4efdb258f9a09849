// @ts-check
// What is chosen, at places that never move: the qubit, what an error there would flip, and the detector.

import { code, element, fillOnce, icon, line, link, quiet, title } from "./boxes.js";
import { findNumbered } from "./circuit.js";
import { saidOften } from "./saying.js";

const MOST_NAMES = 8;
const MOST_COINS = 6;

export class Inspector {
  #boxes;
  #act;
  // Of the detector its declaration, what decides it, and its region: each is drawn anew by itself, so that a button which is being pressed
  // stays while something beside it becomes known.
  #declaration = element("div");
  #decision = element("p");
  #region = element("p");

  // `act` has choose(bit), select(path), goTo(place), which shows what has {moment, path}, and detect(layer), which makes a detector of marks.
  constructor(boxes, act) {
    this.#boxes = boxes;
    this.#act = act;
    this.#region.id = "region";
    boxes.detector.append(this.#declaration, this.#decision, this.#region);
  }

  // `about` has {qubit, kind, at, name, path, count, noise, more}, with the name and the path of what acts on it, and how many items do in the tick if
  // several do, or is null if no qubit is chosen: then `where` says what is shown.
  qubit(about, where) {
    const { qubit, kind, at, name, path, count, noise, more } = about ?? {};
    fillOnce(this.#boxes.qubit, [about, where], () => {
      if (!about) return [title("No qubit chosen"), line(where)];
      const place = at ? ` at (${at.join(", ")})` : "";
      const item = name ? [code(name), " of item ", this.#itemButton(path)] : ["idle here"];
      return [title(`Qubit ${qubit}`, `${kind}${place}${more ? `, and ${more} more` : ""}`), line(where), line(...item), ...(count ? [line(saidOften(count))] : []), ...noise.map((it) => line(code(it.words), " of item ", this.#itemButton(it.path)))];
    });
  }

  // What each Pauli there would flip, {X, Y, Z} of names, or why that is not known; with null for both nothing is said.
  errors(flips, why) {
    if (why === null) return void fillOnce(this.#boxes.errors, [], () => []);
    fillOnce(this.#boxes.errors, [flips, why], () => [title("An error here would flip"), ...["X", "Y", "Z"].map((letter) => {
      const row = document.createElement("p");
      row.className = "error";
      row.dataset.letter = letter;
      row.append(icon(letter, 20, letter.toLowerCase(), letter), ...this.#names(flips?.[letter], why));
      return row;
    })]);
  }

  // The marks of layers, and what those of each flip together; `name(moment)` is what a moment is called.
  marks(layers, name) {
    const shown = layers.used.map((layer) => [layer, layers.marks.filter((mark) => mark.layer === layer), layers.flips(layer)]);
    fillOnce(this.#boxes.marks, [shown, layers.at, layers.used.map((layer) => layers.way(layer)?.why)], () => (shown.length ? [title("Marks flip"), ...shown.map(([layer, marks, flips]) => {
      const said = marks.map(({ letter, qubit, moment }) => `${letter}${qubit} at ${name(moment)}`).join(", ");
      const row = line(link(String(layer), () => layers.take(layer)), " ", ...this.#names(flips, "not known yet"), " ", quiet(said, "span"), " ", link("detector", () => this.#act.detect(layer)), " ", link("clear", () => layers.clear(layer)),
        ...(layers.way(layer)?.why ? [" ", quiet(`Its way: ${layers.way(layer).why}.`, "span")] : []));
      row.dataset.layer = String(layer);
      row.className = layer === layers.at ? "mark-row now" : "mark-row";
      return row;
    })] : []));
  }

  #names(names, why) {
    if (!names) return [quiet(why, "span")];
    if (!names.length) return [quiet("nothing", "span")];
    const shown = names.slice(0, MOST_NAMES).flatMap((name) => [link(name, () => this.#act.choose(name)), " "]);
    return names.length > MOST_NAMES ? [...shown, `and ${names.length - MOST_NAMES} more`] : shown;
  }

  // state: {items, detectors, observables, coordinates}; `kind` says how the bit is drawn (state.js), `region` is what is said of its
  // region, and `coins` where the coins are thrown that decide it (coins.js), or null if that is not known.
  detector(bit, state, { kind, region, coins }) {
    const value = bit && (bit.startsWith("D") ? state.detectors : state.observables)[Number(bit.slice(1))];
    const declared = bit?.startsWith("D") ? declarationOf(Number(bit.slice(1)), state) : null;
    fillOnce(this.#declaration, [bit, declared], () => this.#declared(bit, declared));
    fillOnce(this.#decision, [bit, value, kind, coins], () => (bit === null ? [] : this.#decided(value, kind, coins)));
    this.#decision.className = `bit ${kind}`;
    this.#region.textContent = region;
  }

  #decided(value, kind, coins) {
    const role = { random: "quiet", flipped: "flip", bit1: "one", bit0: "zero" }[kind];
    const said = { random: "random", flipped: `${value}, flipped`, bit1: "1", bit0: "0" }[kind];
    const decided = coins?.length ? [` decided by ${coins.length > 1 ? `${coins.length} coins` : "the coin"}: `, ...this.#coins(coins)] : [` ${said}`];
    return [icon(kind, 12, role), ...decided];
  }

  #declared(bit, declared) {
    if (bit === null) return [title("No detector chosen")];
    if (!declared) return [title(bit, "observable")];
    const { at, path, records } = declared;
    const head = title(bit, `${at}${at ? " · " : ""}item `);
    head.querySelector("small").append(this.#itemButton(path));
    return [head, line(`records ${records.join(" + ") || "none"}`)];
  }

  #coins(coins) {
    const shown = coins.slice(0, MOST_COINS).flatMap((coin, i) => [i ? ", " : "", link(coin.name, () => this.#act.goTo(coin)), ` at tick ${coin.tick}`]);
    return coins.length > MOST_COINS ? [...shown, `, and ${coins.length - MOST_COINS} more`] : shown;
  }

  #itemButton(path) {
    return link(path.join("/"), () => this.#act.select(path));
  }
}

// Where a detector is, the path of its item, and the records of which it is the sum.
function declarationOf(number, { items, coordinates }) {
  const { item, path, records } = findNumbered(items, "detectors", number);
  const at = coordinates[number]?.length ? `at (${coordinates[number].join(", ")})` : "";
  return { at, path, records: item.targets.map((target) => records - Number(/\d+/.exec(target)[0])) };
}
