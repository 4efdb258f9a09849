// @ts-check
// The history: each edit as a line, with what it flipped.

const MOST_NAMES = 4;

export class HistoryView {
  #place;
  #go;
  #lines = [];
  #shown = [];
  #position = 0;

  // `go(position)` goes back or forward to the state after this many edits.
  constructor(place, go) {
    this.#place = place;
    this.#go = go;
    this.#add("opened", "");
    // What is found out later, above it, may leave it less room.
    new ResizeObserver(() => this.#bringIntoSight()).observe(place);
  }

  // Lines of entries that are shown already stay.
  show(entries, position, markedAt) {
    let same = 0;
    while (same < this.#shown.length && this.#shown[same] === entries[same]) same += 1;
    for (const line of this.#lines.splice(same + 1)) line.remove();
    for (const entry of entries.slice(same)) this.#add(entry.text, saidOf(entry));
    this.#shown = [...entries];
    this.#lines.forEach((line, number) => {
      line.classList.toggle("now", number === position);
      line.classList.toggle("undone", number > position);
      line.classList.toggle("marked", number === markedAt);
      line.firstChild.title = number === position ? "the circuit as it is" : "go to the circuit as it was after this edit";
    });
    // Once the frame is painted, since it has the browser lay out the page.
    this.#position = position;
    requestAnimationFrame(() => setTimeout(() => this.#bringIntoSight()));
  }

  #bringIntoSight() {
    this.#lines[this.#position]?.scrollIntoView({ block: "nearest" });
  }

  #add(text, said) {
    const number = this.#lines.length;
    const line = document.createElement("li");
    const button = document.createElement("button");
    button.textContent = text;
    button.addEventListener("click", () => this.#go(number));
    const told = document.createElement("span");
    told.className = "told";
    told.textContent = said;
    line.append(button, told);
    this.#place.append(line);
    this.#lines.push(line);
  }
}

function saidOf({ changed }) {
  return changed.length > MOST_NAMES ? `${changed.slice(0, MOST_NAMES).join(" ")} and ${changed.length - MOST_NAMES} more` : changed.join(" ");
}
