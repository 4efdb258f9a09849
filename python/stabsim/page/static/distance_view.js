// @ts-check
// The distance of the circuit: the least number of errors that flip an observable and no detector, with such errors.

import { element, fill, fillOnce, icon, line, link, quiet, title } from "./boxes.js";
import { WRONG, placesOfErrors } from "./fault_set.js";

const ABOUT = "How few errors flip an observable unseen? Of the circuit's own noise, else where I marks them, else everywhere";
// Of which errors it is (distance_questions.py), with what is said of these.
const KINDS = { "own noise": "of its own noise", marked: "of errors where I marks them", everywhere: "of errors everywhere" };

export class DistanceView {
  #act;
  // Its button stays while it is said how far the search is, since it may be being pressed.
  #head = element("div", "head");
  #body = element("div");
  // What the server said last (distances.py), and the errors at their places.
  #told = { state: "none" };
  #set = [];

  // `act` has ask(kind), by "" of what the circuit has, end(), show(set), which draws errors, goTo(error), which shows where one is,
  // menu(opener, place, offers), and kinds(), which says of which errors it may be asked, the first those of "".
  constructor(box, act) {
    this.#act = act;
    box.append(this.#head, this.#body);
    this.#draw();
  }

  // Takes what was said of the circuit with these items.
  take(told, items) {
    this.#told = told;
    this.#set = placesOfErrors(items, told.errors);
    this.#draw();
    this.#act.show(this.#set);
  }

  #draw() {
    const { state, first, kind } = this.#told;
    const number = /^distance (\d+)/.exec(first ?? "")?.[1];
    const where = ["running", "found"].includes(state) ? KINDS[kind] : "";
    const isRunning = state === "running";
    fillOnce(this.#head, [number, where, isRunning, this.#set.length > 0], () => [title(`Distance${number ? ` ${number}` : ""}`, where), this.#buttons(isRunning)]);
    fill(this.#body, ...this.#said());
  }

  #buttons(isRunning) {
    const asking = isRunning ? [button("Stop", "stop the search", this.#act.end)] : [button("Compute", ABOUT, () => this.#act.ask("")), " ", this.#choice()];
    return element("span", "", ...(this.#set.length ? [button("Clear", "take the errors off the picture", () => this.#act.show([])), " "] : []), ...asking);
  }

  // What computes it of errors that are chosen.
  #choice() {
    const made = button("▾", "compute it of errors that are chosen", () => this.#act.menu(made, made.getBoundingClientRect(), this.#offers()));
    made.setAttribute("aria-label", "compute it of errors that are chosen");
    made.setAttribute("aria-haspopup", "menu");
    return made;
  }

  #offers() {
    return this.#act.kinds().map((kind) => [kind, () => this.#act.ask(kind)]);
  }

  #said() {
    const { state, first, said, before } = this.#told;
    const earlier = before ? [quiet(`before the last edits: ${before}`)] : [];
    if (state === "running") return [status(said || "it is looked for"), ...earlier];
    if (state === "refused") return [status(said, "bad"), ...earlier];
    if (state !== "found") return [...(said ? [quiet(said)] : []), ...earlier];
    return [this.#set.length ? this.#errors() : status(first.startsWith("none up to") ? first : "no set of errors flips an observable unseen"), ...earlier];
  }

  #errors() {
    const made = line(...this.#set.flatMap((error) => [element("span", "error-of-set", this.#error(error), ` at tick ${error.tick}`), " "]));
    made.setAttribute("role", "status");
    return made;
  }

  #error(error) {
    const [letter] = error.letters.values();
    const mark = letter === WRONG ? icon("measure", 12, "m", "!") : icon(letter, 12, letter.toLowerCase());
    const made = link("", () => {
      this.#act.show(this.#set);
      this.#act.goTo(error);
    });
    made.append(mark, error.name);
    return made;
  }
}

function button(words, title, act) {
  const made = element("button", "ask", words);
  made.title = title;
  made.addEventListener("click", act);
  return made;
}

function status(words, className = "") {
  const made = element("p", className, words);
  made.setAttribute("role", "status");
  return made;
}
