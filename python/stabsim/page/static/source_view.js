// @ts-check
// The circuit as a text that is edited as one. Ctrl-Enter has the circuit become what is written, as one entry of the history.

import { element } from "./boxes.js";
import { by, fieldBy } from "./by_id.js";
import { commandOf } from "./keys.js";

// A longer text is edited item by item.
const MOST_LETTERS = 2_000_000;

export class SourceView {
  #act;
  // What the circuit is that is shown.
  #text = "";

  // `act` has text(), which answers the circuit's; send(text), which answers {refused, explanation} if it was refused; say(words, isBad); save();
  // and leave(), which is called once it is closed.
  constructor(act) {
    this.#act = act;
    fieldBy("source-text").addEventListener("keydown", (event) => this.#key(event));
    by("apply").addEventListener("click", () => this.#apply());
    by("leave").addEventListener("click", () => this.close());
    by("wrap").addEventListener("click", () => this.#wrap());
  }

  get isOpen() {
    return !by("source").hidden;
  }

  toggle() {
    if (this.isOpen) this.close();
    else this.open();
  }

  async open() {
    const text = await this.#act.text();
    if (text.length > MOST_LETTERS) return void this.#act.say("the text is too long to be edited as one", true);
    by("source").hidden = false;
    by("as-text").ariaPressed = "true";
    fieldBy("source-text").value = this.#text = text;
    by("source-said").textContent = "";
    fieldBy("source-text").focus();
    fieldBy("source-text").setSelectionRange(0, 0);
    fieldBy("source-text").scrollTo(0, 0);
  }

  close() {
    by("source").hidden = true;
    by("as-text").ariaPressed = "false";
    this.#act.leave();
  }

  #key(event) {
    if (event.key === "F6") return;
    event.stopPropagation();
    const isSave = commandOf(event) === "save";
    if (event.key === "Escape") this.close();
    else if (isSave || (event.key === "Enter" && (event.ctrlKey || event.metaKey) && !event.repeat)) {
      event.preventDefault();
      if (isSave) this.#save();
      else this.#apply();
    }
  }

  // What is written is applied first, and is not saved if it is refused.
  async #save() {
    if (fieldBy("source-text").value === this.#text || (await this.#apply())) this.#act.save();
  }

  // Answers whether the circuit is what is written.
  async #apply() {
    const { refused, explanation } = await this.#act.send(fieldBy("source-text").value);
    by("source-said").textContent = refused ? (explanation?.split("\n").slice(2).join(" ") || refused) : "";
    if (refused) this.#mark(explanation ?? "");
    else this.close();
    return !refused;
  }

  // Chooses the word at fault: an explanation begins with its line, and the number of that, and has carets below the word.
  #mark(explanation) {
    const [line, carets = ""] = explanation.split("\n");
    const number = /^(\d+): /.exec(line);
    if (!number || !carets.includes("^")) return;
    const lines = fieldBy("source-text").value.split("\n");
    const begin = lines.slice(0, Number(number[1]) - 1).reduce((sum, it) => sum + it.length + 1, 0);
    const from = begin + carets.indexOf("^") - number[0].length;
    fieldBy("source-text").focus();
    fieldBy("source-text").setSelectionRange(from, from + carets.lastIndexOf("^") + 1 - carets.indexOf("^"));
    this.#bringIntoSight(from);
  }

  // Scrolls so that a letter is in the middle: where it is says a mirror of the text in front of it.
  #bringIntoSight(place) {
    const field = fieldBy("source-text");
    const mirror = element("div", field.wrap === "soft" ? "mirror wrapped" : "mirror", field.value.slice(0, place));
    mirror.style.width = field.wrap === "soft" ? `${field.clientWidth}px` : "max-content";
    const mark = element("span", "", "|");
    mirror.append(mark);
    document.body.append(mirror);
    field.scrollTop = mark.offsetTop - field.clientHeight / 2;
    field.scrollLeft = mark.offsetLeft - field.clientWidth / 2;
    mirror.remove();
  }

  #wrap() {
    const isWrapped = by("wrap").ariaPressed !== "true";
    by("wrap").ariaPressed = String(isWrapped);
    fieldBy("source-text").wrap = isWrapped ? "soft" : "off";
  }
}
