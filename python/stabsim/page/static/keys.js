// @ts-check
// Keys. A key that is held down repeats, and acts once; with Ctrl, Alt or Meta held a letter is a command or nothing.

// The name of a key that is pressed by itself, and "" for any other.
export function keyOf(event) {
  return event.shiftKey ? "" : letterOf(event);
}

// The same; Shift may be held and makes another letter of it.
export function letterOf(event) {
  const isHeld = event.repeat || event.ctrlKey || event.altKey || event.metaKey;
  return isHeld ? "" : event.key;
}

// The letter of a key that is pressed with Alt, by which some systems have it type another character; "" for any other.
export function letterWithAlt({ repeat, ctrlKey, metaKey, altKey, key, code, shiftKey }) {
  if (!altKey || repeat || ctrlKey || metaKey) return "";
  const letter = /^[a-z]$/i.test(key) ? key : /^Key([A-Z])$/.exec(code)?.[1].toLowerCase() ?? "";
  return shiftKey ? letter.toUpperCase() : letter;
}

// The number of a layer that Shift and a digit ask for, or null.
export function layerOf({ code, shiftKey, ctrlKey, altKey, metaKey, repeat }) {
  const digit = /^Digit(\d)$/.exec(code);
  return digit && shiftKey && !(ctrlKey || altKey || metaKey || repeat) ? Number(digit[1]) : null;
}

// What a key asks for together with Ctrl, or with Meta on a Mac: "undo", "redo", "save", "open", "all" or "".
export function commandOf(event) {
  if (event.repeat || event.altKey || !(event.ctrlKey || event.metaKey)) return "";
  const letter = event.key.toLowerCase();
  if (letter === "z") return event.shiftKey ? "redo" : "undo";
  return event.shiftKey ? "" : { y: "redo", s: "save", o: "open", a: "all" }[letter] ?? "";
}

// Keeps a key that is typed into a field from meaning something on the page, except commands and the key that leads to the next pane.
/** @param {KeyboardEvent} event */
export function keepFromPage(event) {
  if (event.key !== "F6" && !commandOf(event)) event.stopPropagation();
}

// Whether an element takes what is typed for itself.
export const isField = (element) => element.matches("textarea, input:not([type='range']), select");

// All keys, for the page that says them.
export const ALL_KEYS = [
  ["[ ]", "the tick before, the next"], ["← ↑ → ↓", "the nearest qubit that way; with Shift one more"],
  ["drag", "choose the qubits in a box; with Shift more"], ["Ctrl-A", "choose all qubits"],
  ["h s x y z", "H, S, a Pauli"], ["X Y C", "√X, √Y, C_XYZ"],
  ["m M, r R, n", "M, MX; R, RX; MR"], ["c v V w", "CX, CZ, CY, SWAP of the chosen two; of others with what is clicked next"],
  ["Alt", "with the key of a gate: put it beside what acts there, whose place it takes else; also Shift, if that is no other gate"], ["p", "measure the product of the chosen"], ["Delete", "take out what acts on them here"],
  ["t T", "a tick put in here, the one that ends this taken out"],
  ["{ }", "that one moved over the item before, over the next; or drag its mark on the timeline"],
  ["< >", "move what acts on them a tick back, on; or drag it to a tick"],
  ["Ctrl-C X V", "copy what acts on them, cut it, put it in at another tick"], [", .", "the detector before, the next"], ["↑ ↓", "on the timeline: the nearest detector that way; with Shift ← → too"],
  ["d D", "a detector of the chosen records; one for each, with the record before"], ["o", "the chosen records go into an observable"], ["/", "look for an item of the text"],
  ["Shift, Ctrl", "in the text and on the timeline: choose several lines, several ticks; with Ctrl lines that are apart"], ["Alt-↑ ↓", "in the text: move the chosen lines"],
  ["Shift-0 … 9", "marks of errors by x y z, in this layer, no part of the circuit"], ["q", "put qubits on the grid"], ["Alt-drag, Alt-arrow", "move the chosen qubits"], ["Enter", "what else there is for a qubit"],
  ["+ - 0", "greater, smaller, all; the wheel zooms"], ["Ctrl-drag", "pan; also by the right button, or Ctrl and an arrow"],
  ["Ctrl-Z Ctrl-Y", "undo, redo"], ["Ctrl-O Ctrl-S", "open, save"],
  ["i a", "in the text: put an item in before, after"], ["F6", "the next pane"],
  ["Page ↑ ↓", "on the timeline: the same tick of another round"], ["Esc", "let go: of a tool, a region, what is chosen"],
];
