// @ts-check
// The rows of the text that are in the document. To build and lay out a row takes the browser many times as long as to move it, so that of
// an item which says the same stays, wherever an edit or a scroll has put it.

export class TextRows {
  #list;
  #rows = new Map();

  constructor(list) {
    this.#list = list;
  }

  // The row of which an element is a part, as it was given to `show`.
  rowOf(element) {
    return this.#rows.get(element.closest(".row"));
  }

  // Shows rows, each {item, said, parts, ..}: `said` is all that its parts say, `parts()` makes them, and `place(line)` says where it is.
  show(rows) {
    // An item has two rows if it is the first of an unfolded run: they say other things.
    const isSame = (line, { item, said }) => this.#rows.get(line).item === item && this.#rows.get(line).said === said;
    const shown = new Map();
    for (const [line, { item }] of this.#rows) shown.set(item, [...(shown.get(item) ?? []), line]);
    const lines = rows.map((row) => shown.get(row.item)?.find((line) => isSame(line, row)) ?? lineOf(row));
    const stay = new Set(lines);
    for (const line of this.#rows.keys()) if (!stay.has(line)) line.remove();
    this.#rows = new Map(lines.map((line, i) => [line, rows[i]]));
    let next = this.#list.firstChild;
    lines.forEach((line, i) => {
      rows[i].place(line);
      if (line === next) next = next.nextSibling;
      else this.#list.insertBefore(line, next);
    });
  }
}

function lineOf({ parts }) {
  const line = document.createElement("div");
  line.role = "treeitem";
  line.append(span("path", ""), ...parts());
  return line;
}

export function span(name, text) {
  const element = document.createElement("span");
  element.className = name;
  element.textContent = text;
  return element;
}
