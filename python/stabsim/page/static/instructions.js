// @ts-check
// Instructions by the table that the package has too, and the qubits on which they act.

import table from "./instructions.json" with { type: "json" };

export const PAULIS = ["X", "Y", "Z"];

/** @type {[string, {kind: string, aliases?: string[], drawn?: any}][]} */
const ROWS = Object.entries(table.instructions);
const ofKinds = (...kinds) => new Set(ROWS.filter(([, { kind }]) => kinds.includes(kind)).map(([name]) => name));
const GATES = ofKinds("gate");
const PAIRS = ofKinds("controlled gate", "pair gate");
const RESETS = ofKinds("reset", "measurement and reset");
const RECORDED = ofKinds("measurement", "measurement and reset", "product measurement");
const DECLARATIONS = ofKinds("declaration");
const ANNOTATIONS = ofKinds("annotation");
const PRINTED = new Map([...ROWS.flatMap(([name, { aliases = [] }]) => aliases.map((alias) => /** @type {[string, string]} */ ([alias, name]))), ["CORRELATED_ERROR", "E"]]);

// The channels of noise (names.py), by what one of their groups of targets is.
const CHANNELS_OF_ONE = ["X_ERROR", "Y_ERROR", "Z_ERROR", "DEPOLARIZE1", "PAULI_CHANNEL_1"];
const CHANNELS_OF_PAIRS = ["DEPOLARIZE2", "PAULI_CHANNEL_2"];
const CHANNELS_OF_ALL = ["E", "ELSE_CORRELATED_ERROR"];
export const CHANNELS = [...CHANNELS_OF_ONE, ...CHANNELS_OF_PAIRS, ...CHANNELS_OF_ALL];
const NOISE = new Set(CHANNELS);

// All names that the page reads, for completion.
export const NAMES = [...ROWS.map(([name]) => name), ...CHANNELS];
// The marks that draw each gate, with their values.
export const drawn = Object.fromEntries(ROWS.map(([name, row]) => [name, row.drawn]));

// The name by which one is printed.
export const printed = (name) => PRINTED.get(name) ?? name;

// Whether a name is that of an error that is put in, or of what marks errors.
export const isErrorOrMark = (name) => name === "I" || PAULIS.includes(name);
export const isChannel = (name) => NOISE.has(name);
export const isPair = (name) => PAIRS.has(name);
export const isRecorded = (name) => RECORDED.has(name);
export const resets = (name) => RESETS.has(name);
export const isSingle = (name) => GATES.has(name) || RESETS.has(name) || (RECORDED.has(name) && name !== "MPP");
const ACTING = new Set([...GATES, ...PAIRS, ...RESETS, ...RECORDED]);
export const acts = (name) => ACTING.has(name);

const isQubit = (target) => !target.startsWith("rec[");
const qubitOf = (target) => Number(target.replace("!", ""));

// The qubits on which an item acts, in the order of its targets and without records that control it; they are kept with the item.
/** @param {import("./types.js").Item} item @returns {number[]} */
export function qubitsOf(item) {
  if (item.items || !acts(item.name)) return [];
  item.on ??= item.name === "MPP" ? item.targets.flatMap((product) => factorsOf(product).map(({ qubit }) => qubit))
    : item.targets.filter(isQubit).map(qubitOf);
  return item.on;
}

// The factors of a product, each {letter, qubit, isInverted}.
export function factorsOf(product) {
  return product.split("*").map((factor) => {
    const [, not, letter, qubit] = /^(!?)([XYZ])(\d+)$/i.exec(factor) ?? ["", "", "Z", "0"];
    return { letter: letter.toUpperCase(), qubit: Number(qubit), isInverted: not === "!" };
  });
}

// The pairs of targets of a gate on two, as they are written.
export function pairsOf(item) {
  const pairs = [];
  for (let i = 0; i + 1 < item.targets.length; i += 2) pairs.push([item.targets[i], item.targets[i + 1]]);
  return pairs;
}

// What an item does, one target, pair or product after another: {qubits, factors, record}, with the factors of a product, each {label,
// role}, and the record that controls a Pauli, as it is written.
export function actionsOf(item) {
  if (item.name === "MPP") return item.targets.map((product) => productOf(factorsOf(product)));
  if (isPair(item.name)) return pairsOf(item).map((pair) => ({ qubits: pair.filter(isQubit).map(qubitOf), record: pair.find(isRecord) }));
  return qubitsOf(item).map((qubit) => ({ qubits: [qubit] }));
}

function productOf(factors) {
  return {
    qubits: factors.map(({ qubit }) => qubit),
    factors: factors.map(({ letter, isInverted }) => ({ label: `${isInverted ? "!" : ""}${letter}`, role: letter.toLowerCase() })),
  };
}

// A step is a target, a pair, or what declares a detector or adds to an observable.
export function stepsOf(name, targets) {
  if (ANNOTATIONS.has(name) || NOISE.has(name)) return 0;
  if (DECLARATIONS.has(name)) return 1;
  return isPair(name) ? targets / 2 : targets;
}

// The groups of targets of which one can't be taken out without the others, each with its words and its qubits.
export function groupsOf(item) {
  if (NOISE.has(item.name)) return groupsOfChannel(item);
  if (isPair(item.name)) return pairsOf(item).map((pair) => ({ words: pair, qubits: pair.filter(isQubit).map(qubitOf) }));
  if (item.name === "MPP") return item.targets.map((product) => ({ words: [product], qubits: factorsOf(product).map(({ qubit }) => qubit) }));
  return item.targets.map((target) => ({ words: [target], qubits: isQubit(target) ? [qubitOf(target)] : [] }));
}

// They are found once for all items that share their targets (circuit.js).
const channelGroups = new WeakMap();

function groupsOfChannel({ name, targets }) {
  const size = CHANNELS_OF_ALL.includes(name) ? targets.length : CHANNELS_OF_PAIRS.includes(name) ? 2 : 1;
  if (!channelGroups.has(targets)) channelGroups.set(targets, groupsOfSize(targets, size));
  return channelGroups.get(targets);
}

function groupsOfSize(targets, size) {
  return Array.from({ length: Math.ceil(targets.length / size) }, (_, i) => targets.slice(i * size, (i + 1) * size))
    .map((words) => ({ words, qubits: words.map((word) => Number(/\d+/.exec(word)?.[0])) }));
}

// What is in front of an item's targets: its name, with a tag and arguments.
/** @param {import("./types.js").Item} item @returns {string} */
export const headOf = ({ text }) => /^\S+?(?:\[[^\]]*\])?(?:\([^)]*\))?(?=\s|$)/.exec(text)[0];

export const isRecord = (target) => !isQubit(target);

const controlled = new WeakMap();

// Whether records control an item. It is found out once for all items that share their targets (circuit.js).
export function isControlled({ targets }) {
  if (!controlled.has(targets)) controlled.set(targets, targets.some(isRecord));
  return controlled.get(targets);
}

export { qubitOf };
