// @ts-check
// The tools: what each puts in, and its key. They are drawn from the same table of shapes as the circuit.

import { gates } from "./glyphs.js";
import { iconOf } from "./svg_pen.js";

// The sides of glyphs, so that their letters have 12.5 pixels: two in a box, and one in a smaller disc; and of those without letters.
const SIDE = 24.1;
const INNER = 25.6;
const ICON = 20;
// How far glyphs with letters reach from their middle, in sides.
const REACH = 0.6;

// Each [name, key, title, icon], whose icon is a shape if it is not the gate's own; null draws a line.
const TOOLS = [
  ["pick", "Escape", "choose qubits"], ["qubit", "q", "put qubits on the grid", "data"],
  null,
  ["H", "h"], ["S", "s"], ["X", "x"], ["Y", "y"], ["Z", "z"], ["SQRT_X", "X"], ["SQRT_Y", "Y"], ["C_XYZ", "C"],
  null,
  ["CX", "c", "CX: control, then target", "xtarget"], ["CZ", "v", "CZ", "control"], ["CY", "V", "CY: control, then target", "ytarget"], ["SWAP", "w", "SWAP", "swap"],
  null,
  ["M", "m"], ["R", "r"], ["MX", "M"], ["RX", "R"], ["MR", "n"], ["MPP", "p", "measure the product of the chosen qubits", "factor"],
  null,
  ["TICK", "t", "put a tick in here"], ["DETECTOR", "d", "a detector of the chosen qubits' records; D: one for each, with its record before"],
];

// The name of the tool that a key asks for, if one does.
export function toolOf(key) {
  return TOOLS.find((tool) => tool?.[1] === key && tool[0] !== "pick")?.[0] ?? null;
}

export function titleOf(name) {
  return TOOLS.find((tool) => tool?.[0] === name)?.[2] ?? name;
}

export class Palette {
  #place;
  #buttons = new Map();

  // `take(name, isAdded)` is called for a tool that is chosen, with whether Shift or Alt is held.
  constructor(place, take) {
    this.#place = place;
    for (const tool of TOOLS) place.append(tool ? this.#button(tool, take) : document.createElement("hr"));
    this.show("pick");
  }

  show(name) {
    for (const [tool, button] of this.#buttons) button.ariaChecked = tool === name;
  }

  /** @param {string[]} tool @param {(name: string, isAdded: boolean) => void} take */
  #button([name, key, title = name, icon], take) {
    const button = document.createElement("button");
    button.role = "radio";
    button.dataset.tool = name;
    button.title = `${title} (${key === "Escape" ? "Esc" : key})`;
    button.ariaLabel = title;
    button.setAttribute("aria-keyshortcuts", key);
    button.innerHTML = drawn(name, icon);
    const letter = document.createElement("kbd");
    letter.textContent = key === "Escape" ? "" : key;
    button.append(letter);
    button.addEventListener("click", ({ shiftKey, altKey }) => take(name, shiftKey || altKey));
    this.#buttons.set(name, button);
    return button;
  }
}

function drawn(name, icon) {
  if (name === "pick") return '<svg width="22" height="22" aria-hidden="true"><path d="M6 4v13l3.6-3.2 2.3 5 2-1-2.3-4.9 4.8-.4z" fill="var(--ink)"/></svg>';
  if (name === "TICK") return '<svg width="22" height="22" aria-hidden="true"><path d="M7 4v14M15 4v14" stroke="var(--quiet)" stroke-width="1.5"/><path d="M11 3v16" stroke="var(--accent)" stroke-width="2.5"/></svg>';
  if (name === "MPP") return iconOf("factor", SIDE, "wire", "P", REACH);
  if (name === "DETECTOR") return iconOf("bit1", 15, "one");
  if (icon) return iconOf(icon, ICON, icon === "data" ? "qubit" : "wire");
  const { shape, label, role } = gates[name];
  return iconOf(shape, shape === "mreset" ? INNER : SIDE, role, label, REACH);
}
