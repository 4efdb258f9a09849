// @ts-check
// What acts on the chosen qubits at a tick, copied as lines of circuit text, and put in at another tick, also of another tab.

import { parse, textOf } from "./circuit.js";
import { actingOn } from "./editing.js";
import { isField } from "./keys.js";
import { nameOf } from "./moments.js";

// The first line of what is copied, by which it is known when it is pasted.
const MARK = "# what acts at tick ";
const MARK_OF_LINES = "# lines of a circuit";

export const isCopied = (text) => text.startsWith(MARK) || text.startsWith(MARK_OF_LINES);

// The items of what was copied, each as text.
export const linesOf = (text) => parse(text).map((item) => textOf(item));

// Whole items as a text that is known when it is pasted.
export const copiedLines = (texts) => `${MARK_OF_LINES}\n${texts.join("\n")}\n`;

// What acts on qubits at a moment as text; "" if nothing does.
export function copied(items, moment, qubits) {
  const lines = actingOn(items, moment, qubits);
  return lines.length ? `${MARK}${nameOf(items, moment).name}\n${lines.join("\n")}\n` : "";
}

// Has Ctrl-C and Ctrl-X copy, and cut, outside of fields; `page` has shown, editor, lines, isInText() and say(words, isBad).
export function takeCopies({ shown, editor, lines, isInText, say }) {
  const textOf_ = () => (isInText() ? lines.copied() : shown.chosen.length ? copied(shown.state.items, shown.moment, shown.chosen) : "");
  const copy = (event) => {
    const isOther = !shown.state || isField(event.target) || !getSelection().isCollapsed;
    const text = isOther ? "" : textOf_();
    if (!text) {
      if (!isOther && !isInText() && shown.chosen.length) say("nothing acts on these qubits here: nothing is copied", true);
      return false;
    }
    event.preventDefault();
    event.clipboardData.setData("text/plain", text);
    say(`copied: ${linesOf(text).join("; ").slice(0, 120)}`);
    return true;
  };
  document.addEventListener("copy", copy);
  document.addEventListener("cut", (event) => copy(event) && (isInText() ? lines.remove() : editor.key("Delete")));
}
