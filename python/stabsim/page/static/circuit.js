// @ts-check
// A circuit as a tree of items, with the counts that the views ask for.
//
// An item is {text, name, targets} for one line, or {text, count, items, once} for a block. Each has its counts (counts.js), a block
// those of all its rounds, and in `once` those of one; an item that acts may have a `cut` in front of it (cuts.js). A path is the list
// of an item's place in the outermost list, then in the block there, and so on, as the editing session counts them.

import { before, firstReaching, recount, recountPart, share } from "./counts.js";
import { cutList } from "./cuts.js";
import { isRecorded, printed, qubitsOf, resets, stepsOf } from "./instructions.js";

const HEAD = /^([A-Za-z][A-Za-z0-9_]*)(?:\[[^\]]*\])?(?:\(([^)]*)\))?\s*(.*)$/;
// How many edits are counted one by one.
const MOST_SINGLE = 8;

// The items of a circuit's text.
/** @param {string} text @returns {import("./types.js").Item[]} */
export function parse(text) {
  const outermost = [];
  const open = [];
  const known = new Map();
  for (const raw of text.split("\n")) {
    const line = withoutComment(raw).trim();
    if (!line) continue;
    if (line === "}") {
      recount(open.pop());
      continue;
    }
    const item = line.endsWith("{") ? blockOf(line) : lineKnown(line, known);
    (open.at(-1)?.items ?? outermost).push(item);
    if (item.items) open.push(item);
  }
  return outermost;
}

// The items of a whole circuit, cut into moments.
/** @param {string} text @returns {import("./types.js").Item[]} */
export function parseCircuit(text) {
  const items = parse(text);
  cutList(items);
  return items;
}

function withoutComment(line) {
  const at = line.indexOf("#");
  return at < 0 ? line : line.slice(0, at);
}

function blockOf(line) {
  const head = HEAD.exec(line.slice(0, -1).trim());
  return { text: line.slice(0, -1).trim(), count: Number(head[3]), items: [], once: null, cut: false };
}

// Lines of the same text, as those of rounds that are written out, share their targets.
function lineKnown(line, known) {
  const first = known.get(line);
  if (first) return { ...first };
  const item = lineOf(line);
  qubitsOf(item);
  known.set(line, item);
  return item;
}

function lineOf(line) {
  const [, written, , rest] = HEAD.exec(line);
  const name = printed(written.toUpperCase());
  const targets = rest ? wordsOf(rest) : [];
  return {
    text: line,
    name,
    targets,
    cut: false,
    ticks: name === "TICK" ? 1 : 0,
    records: isRecorded(name) ? targets.length : 0,
    detectors: name === "DETECTOR" ? 1 : 0,
    steps: stepsOf(name, targets.length),
    coins: isRecorded(name) || resets(name) ? targets.length : 0,
  };
}

// Words between single spaces, as the session writes them, are cut in half the time.
const wordsOf = (text) => (text.includes("  ") || text.includes("\t") || text.includes("\r") ? text.split(/\s+/) : text.split(" "));

// The item that one line, or one block with its lines, makes.
export function itemOf(text) {
  return parse(text)[0];
}

// The text of an item, each line indented as deep as it is.
/** @param {import("./types.js").Item} item @returns {string} */
export function textOf(item, depth = 0) {
  const margin = "    ".repeat(depth);
  if (!item.items) return margin + item.text;
  const body = item.items.map((inner) => textOf(inner, depth + 1));
  return [`${margin}${item.text} {`, ...body, `${margin}}`].join("\n");
}

// The list that has a path's last place.
const listAt = (items, path) => blocksAround(items, path).at(-1)?.items ?? items;

/** @param {import("./types.js").Item[]} items @param {import("./types.js").Path} path @returns {import("./types.js").Item | undefined} */
export function itemAt(items, path) {
  return listAt(items, path)[path.at(-1)];
}

/** @param {string} text @returns {import("./types.js").Path} */
export const pathOf = (text) => text.split("/").map(Number);

// Makes edits that the session has accepted. Answers for each {kind, at, more, round, before, after}: at which path, how many items its list has
// more, the round of a split, and the items that were and are there; `noted(move)` is called once each is made.
/** @param {import("./types.js").Item[]} items @param {import("./types.js").Edit[]} edits @param {(move: import("./types.js").Move) => void} noted */
export function applyEdits(items, edits, noted) {
  // What is made in a round that is split off would have that counted twice.
  if (edits.length > MOST_SINGLE || (edits.length > 1 && edits[0].kind === "split")) return applyAtOnce(items, edits, noted);
  return edits.map((edit) => {
    const move = applyEdit(items, edit);
    noted(move);
    return move;
  });
}

/** @param {import("./types.js").Item[]} items @param {import("./types.js").Edit} edit @returns {import("./types.js").Move} */
export function applyEdit(items, edit) {
  const count = items.length;
  const move = changeList(items, edit);
  for (const block of blocksAround(items, move.at).reverse()) recount(block);
  // What cuts a block depends on what is before it, so all is cut anew from the outermost list on.
  const [first, end] = cutList(items, move.at[0], move.at[0] + (edit.kind === "split" ? 3 : 1));
  recountPart(items, first, end, items.length - count);
  return move;
}

// Many edits take less time if all is counted once, at the end.
function applyAtOnce(items, edits, noted) {
  const count = items.length;
  // How deep each block is in which something was changed.
  const changed = new Map();
  const moves = edits.map((edit) => {
    blocksAround(items, pathOf(edit.place)).forEach((block, deep) => changed.set(block, deep));
    const move = changeList(items, edit);
    noted(move);
    return move;
  });
  for (const [block] of [...changed].sort(([, one], [, other]) => other - one)) recount(block);
  const places = moves.map(({ at }) => at[0]);
  // What was changed may be as many places further on as all edits together put in.
  const further = moves.reduce((sum, { more }) => sum + Math.max(0, more), 0);
  const [first, end] = cutList(items, Math.min(...places), Math.max(...places) + further + 1);
  recountPart(items, first, end, items.length - count);
  return moves;
}

// Makes an edit in its list, and counts nothing.
function changeList(items, edit) {
  const at = pathOf(edit.place);
  const list = listAt(items, at);
  const place = at.at(-1);
  const [length, before] = [list.length, list[place]];
  if (edit.kind === "insert") list.splice(place, 0, itemOf(edit.item));
  else if (edit.kind === "replace") list.splice(place, 1, itemOf(edit.item));
  else if (edit.kind === "delete") list.splice(place, 1);
  else if (edit.kind === "split") list.splice(place, 1, ...partsOf(list[place], Number(edit.item)));
  return { kind: edit.kind, at, more: list.length - length, round: edit.kind === "split" ? Number(edit.item) : undefined, before, after: list[place] };
}

// The blocks that a block becomes if a round is split off: the rounds before it, that round, and the rounds after it. The longest keeps the items.
function partsOf(block, round) {
  const counts = [round, 1, block.count - round - 1].filter(Boolean);
  const longest = counts.indexOf(Math.max(...counts));
  return counts.map((count, part) => {
    const items = part === longest ? block.items : block.items.map(copyOf);
    share(block.items, items);
    return { ...block, text: block.text.replace(/\d+$/, String(count)), count, items };
  });
}

// A copy of an item; lines share their targets.
const copyOf = (item) => (item.items ? { ...item, items: item.items.map(copyOf) } : { ...item });

// The blocks around a path, the outermost first.
/** @param {import("./types.js").Item[]} items @param {import("./types.js").Path} path @returns {import("./types.js").Item[]} */
export function blocksAround(items, path) {
  const blocks = [];
  let list = items;
  for (const place of path.slice(0, -1)) {
    blocks.push(list[place]);
    list = list[place].items;
  }
  return blocks;
}

// The place of the thing with a number, of a name that is counted (counts.js). Answers {item, path, rounds, records, number}, with the
// round of each block around it, how many records there are before its item, and which of the item's own it is; or null if there are
// fewer.
export function findNumbered(items, name, number) {
  let left = number;
  const path = [];
  const rounds = [];
  let records = 0;
  let list = items;
  for (;;) {
    const sums = before(list);
    const place = firstReaching(sums[name], left + 1);
    if (place === list.length) return null;
    left -= sums[name][place];
    records += sums.records[place];
    const item = list[place];
    path.push(place);
    if (!item.items) return { item, path, rounds, records, number: left };
    const round = Math.floor(left / item.once[name]);
    rounds.push(round);
    left -= round * item.once[name];
    records += round * item.once.records;
    list = item.items;
  }
}

// How many things of a name come before the item at a path, in the given round of each block around it, else in the first.
export function countBefore(items, name, path, rounds = []) {
  let count = 0;
  let list = items;
  path.forEach((place, deep) => {
    count += before(list)[name][Math.min(place, list.length)];
    const item = list[place];
    if (item?.items && deep + 1 < path.length) count += (rounds[deep] ?? 0) * item.once[name];
    list = item?.items ?? [];
  });
  return count;
}

// The round of each block around the item at a path in which the circuit's step of a number is the item's; the first of a block without steps.
export function roundsOfStep(items, path, step) {
  let left = step - countBefore(items, "steps", path);
  return blocksAround(items, path).map((block) => {
    const round = Math.max(0, Math.min(block.count - 1, Math.floor(left / (block.once.steps || 1))));
    left -= round * block.once.steps;
    return round;
  });
}
