// @ts-check
// The edits that tools and keys make of a circuit. Each answers {edits, round, shown}: what the session is asked for, the round
// {place, number} that is split off first, or null, and where what was put in then is, {path, rounds}; or {why} if nothing is
// to be done.

import { itemAt, itemOf } from "./circuit.js";
import { PAULIS, groupsOf, headOf, isChannel, isErrorOrMark, isPair, isSingle, qubitsOf } from "./instructions.js";
import { beginOf, endOf, momentAt, momentsOf, nameOf } from "./moments.js";

const inBlock = ({ rounds }) => rounds.length > 0;

// Where a round of a block is once it is split off: after the rounds before it, if there are any.
export const pathOfRound = (block, round) => [...block.slice(0, -1), block.at(-1) + (round > 0 ? 1 : 0)];

// Whether an edit at a place can be made in its round alone: in a block that is in no other, and has several rounds.
const isAlone = (items, { path, rounds }) => rounds.length === 1 && items[path[0]].count > 1;

// Makes edits those of one round alone, if `alone` says so and their place is in a block.
function inRound(items, edits, where, alone) {
  if (!alone || !isAlone(items, where)) return { edits, round: null, shown: where };
  const [block] = where.path;
  const number = where.rounds[0];
  const moved = (path) => (path[0] === block ? [...pathOfRound([block], number), ...path.slice(1)] : path);
  return {
    edits: edits.map((edit) => ({ ...edit, place: moved(edit.place.split("/").map(Number)).join("/") })),
    round: { place: String(block), number },
    shown: { path: moved(where.path), rounds: [0] },
  };
}

// Puts a gate, measurement or reset on qubits at the end of a moment. What acts on them there, with the others of its pair, makes way, unless
// `isAdded`; an error and a product come beside it. If the same gate is there already, on other qubits, that instruction goes on; an error
// stays by itself.
/**
 * @param {import("./types.js").Item[]} items
 * @param {number} moment
 * @param {string} name
 * @param {number[]} qubits
 * @param {boolean} [alone]
 * @param {boolean} [isAdded]
 * @returns {import("./types.js").Made}
 */
export function putIn(items, moment, name, qubits, alone, isAdded = false) {
  if (!wordsOf(name, qubits)) return { why: `${name} acts on pairs of qubits: choose two` };
  const where = endOf(items, moment);
  const makesWay = !isAdded && name !== "MPP" && !isErrorOrMark(name);
  const there = makesWay ? touching(items, moment, qubits).filter((it) => !isErrorOrMark(it.item.name) && isInList(it, where)) : [];
  const left = withoutSame(there, name, qubits);
  if (!left.length) return { why: `${name} acts there already; with Alt one more is put in` };
  const inWay = there.filter(({ item }) => qubitsOf(item).some((qubit) => left.includes(qubit)));
  const { edits, path } = inPlaceOf(items, moment, where, inWay, { name, qubits: left });
  return inRound(items, edits, { ...where, path }, alone);
}

const isInList = (one, other) => one.path.slice(0, -1).join() === other.path.slice(0, -1).join() && one.rounds.join() === other.rounds.join();

// The qubits on which the same gate, pair by pair, does not act already.
function withoutSame(found, name, qubits) {
  const size = isPair(name) ? 2 : 1;
  const there = new Set(found.filter(({ item }) => item.name === name).flatMap(({ item }) => groupsOf(item).map(({ words }) => words.join(" "))));
  return qubits.filter((_, i) => !there.has(qubits.slice(i - (i % size), i - (i % size) + size).join(" ")));
}

// The edits that put a gate in at the end of a moment and take out what makes way for it, and the path at which it is then. It is put in
// first, so that each place is one of the circuit before.
function inPlaceOf(items, moment, where, inWay, { name, qubits }) {
  const words = wordsOf(name, qubits);
  const taken = lastFirst(inWay).map(({ item, path }) => without(item, path, qubits));
  const gone = inWay.map(({ path }) => path.at(-1)).filter((_, i) => taken[inWay.length - 1 - i].kind === "delete");
  const at = (place) => [...where.path.slice(0, -1), place];
  const now = (place) => at(place - gone.filter((it) => it < place).length);
  const last = lastOf(items, moment, where, gone);
  const before = taken.find(({ place }) => place === at(last).join("/"))?.item ?? (last === null ? "" : itemAt(items, at(last)).text);
  if (before && joinsTo(itemOf(before), name, qubits)) {
    const place = at(last).join("/");
    return { edits: [{ kind: "replace", place, item: `${before} ${words}` }, ...taken.filter((it) => it.place !== place)], path: now(last) };
  }
  // What gives its place up as a whole leaves it to what comes, so that a record stays the same one.
  if (inWay.length === 1 && gone.length) return { edits: [{ kind: "replace", place: taken[0].place, item: `${name} ${words}` }], path: inWay[0].path };
  return { edits: [{ kind: "insert", place: where.path.join("/"), item: `${name} ${words}` }, ...taken], path: now(where.path.at(-1)) };
}

// The place in front of the end of a moment, without those that are taken out; null if what is there is of another moment.
function lastOf(items, moment, where, gone) {
  let place = where.path.at(-1) - 1;
  while (gone.includes(place)) place -= 1;
  return momentAt(items, moment).some((it) => isInList(it, where) && it.path.at(-1) === place) ? place : null;
}

const joinsTo = (item, name, qubits) => item.name === name && !PAULIS.includes(name) && !qubits.some((qubit) => qubitsOf(item).includes(qubit));

function wordsOf(name, qubits) {
  if (isPair(name) && (qubits.length < 2 || qubits.length % 2)) return "";
  return qubits.join(" ");
}

export const isForPairs = isPair;
export const isForSingles = isSingle;

// Measures the product of one letter on each qubit.
export function measureProduct(items, moment, letter, qubits, alone) {
  return putIn(items, moment, "MPP", [qubits.map((qubit) => `${letter}${qubit}`).join("*")], alone);
}

// Puts noise of a chance on qubits at the end of a moment.
/** @param {import("./types.js").Item[]} items @param {number} moment @param {string} name @param {number} chance @param {number[]} qubits @param {boolean} alone */
export function putNoise(items, moment, name, chance, qubits, alone) {
  const where = endOf(items, moment);
  return inRound(items, [{ kind: "insert", place: where.path.join("/"), item: `${name}(${chance}) ${qubits.join(" ")}` }], where, alone);
}

// Takes out what acts on qubits at a moment, with the other qubits of its pair or product; if nothing does, their noise there; and if
// there is none, the places of qubits on which nothing acts at all.
/**
 * @param {import("./types.js").Item[]} items
 * @param {number} moment
 * @param {number[]} qubits
 * @param {boolean} alone
 * @param {(qubit: number) => boolean} isUsed
 * @returns {import("./types.js").Made}
 */
export function takeOut(items, moment, qubits, alone, isUsed) {
  const acting = touching(items, moment, qubits);
  const touched = acting.length ? acting : noiseOn(items, moment, qubits);
  if (!touched.length) return takePlaces(items, qubits.filter((qubit) => !isUsed(qubit)));
  if (new Set(touched.map(({ path, rounds }) => `${path[0]} ${rounds.join("/")}`)).size > 1 && touched.some(inBlock) && alone) {
    return { why: "these are in several rounds: have the edit made in each round" };
  }
  return inRound(items, lastFirst(touched).map(({ item, path }) => without(item, path, qubits)), touched[0], alone);
}

// From the last to the first, so that none moves those that are still to come.
function lastFirst(found) {
  return [...found].sort((a, b) => {
    const deep = a.path.findIndex((place, i) => place !== b.path[i]);
    return deep < 0 ? 0 : b.path[deep] - a.path[deep];
  });
}

function without(item, path, qubits) {
  const left = groupsOf(item).filter((group) => !group.qubits.some((qubit) => qubits.includes(qubit)));
  return changedTo(item, path, left);
}

function changedTo(item, path, groups) {
  const place = path.join("/");
  return groups.length ? { kind: "replace", place, item: `${headOf(item)} ${groups.flatMap(({ words }) => words).join(" ")}` } : { kind: "delete", place };
}

function takePlaces(items, qubits) {
  const edits = [];
  items.forEach((item, place) => {
    if (item.name !== "QUBIT_COORDS") return;
    const left = item.targets.filter((target) => !qubits.includes(Number(target)));
    if (left.length === item.targets.length) return;
    edits.unshift(left.length ? { kind: "replace", place: String(place), item: `${headOf(item)} ${left.join(" ")}` } : { kind: "delete", place: String(place) });
  });
  return edits.length ? { edits, round: null, shown: null } : { why: "nothing acts on these qubits here" };
}

// What acts on qubits at a moment, as the text of items that act on no others than go with them.
export function actingOn(items, moment, qubits) {
  return touching(items, moment, qubits).map(({ item }) => partOf(item, qubits));
}

const touching = (items, moment, qubits) => momentAt(items, moment).filter(({ item }) => qubitsOf(item).some((qubit) => qubits.includes(qubit)));

const noiseOn = (items, moment, qubits) => momentAt(items, moment)
  .filter(({ item }) => isChannel(item.name) && groupsOf(item).some((group) => group.qubits.some((qubit) => qubits.includes(qubit))));

function partOf(item, qubits) {
  const groups = groupsOf(item).filter((group) => group.qubits.some((qubit) => qubits.includes(qubit)));
  return `${headOf(item)} ${groups.flatMap(({ words }) => words).join(" ")}`;
}

// Moves what acts on qubits at a moment to another: to the end of an earlier one, or to the beginning of a later one.
/** @param {import("./types.js").Item[]} items @param {number} moment @param {number[]} qubits @param {number} target @returns {import("./types.js").Made} */
export function moveTo(items, moment, qubits, target) {
  const touched = touching(items, moment, qubits);
  if (!touched.length) return { why: "nothing acts on these qubits here" };
  if (target < 0 || target >= momentsOf(items)) return { why: "there is no such tick" };
  if (target === moment) return { why: "it is at this tick already" };
  const to = target < moment || isCutFrom(items, target) ? endOf(items, target) : beginOf(items, target);
  const isElsewhere = touched.some(({ path, rounds }) => path.slice(0, -1).join() !== to.path.slice(0, -1).join() || rounds.join() !== to.rounds.join());
  if (isElsewhere) return { why: "the tick is not in the same round" };
  const taken = lastFirst(touched).map(({ item, path }) => without(item, path, qubits));
  const put = touched.map(({ item }) => partOf(item, qubits));
  const name = `move ${put[0]}${put.length > 1 ? ` and ${put.length - 1} more` : ""} to tick ${nameOf(items, target).name}`;
  // The later change is made first, so that it moves no place of the other.
  if (target < moment) return { edits: [...taken, ...put.reverse().map((item) => ({ kind: "insert", place: to.path.join("/"), item }))], round: null, shown: to, name };
  const gone = taken.filter(({ kind }) => kind === "delete").length;
  const path = [...to.path.slice(0, -1), to.path.at(-1) - gone];
  return { edits: [...put.reverse().map((item) => ({ kind: "insert", place: to.path.join("/"), item })), ...taken], round: null, shown: { ...to, path }, name };
}

// Whether no TICK is between a moment and the one before it.
const isCutFrom = (items, moment) => itemAt(items, endOf(items, moment - 1).path)?.name !== "TICK";

// Puts lines in at the end of a moment.
export function putLines(items, moment, lines) {
  const where = endOf(items, moment);
  return { edits: [...lines].reverse().map((item) => ({ kind: "insert", place: where.path.join("/"), item })), round: null, shown: where };
}

// Puts qubits on places of the grid: their lines come after those of the qubits before them. If qubits are placed by their gates alone,
// their places are written down too, so that they stay.
export function putQubits(items, places, placement) {
  const qubits = [];
  for (let qubit = 0; qubits.length < places.length; qubit += 1) if (!placement.places.has(qubit)) qubits.push(qubit);
  const first = items.findIndex((item) => item.name !== "QUBIT_COORDS");
  const place = first < 0 ? items.length : first;
  const standing = placement.hasCoordinates ? [] : [...placement.places];
  const edits = [...standing, ...qubits.map((qubit, i) => [qubit, places[i]])].map(([qubit, at], i) => (
    { kind: "insert", place: String(place + i), item: `QUBIT_COORDS(${at.join(", ")}) ${qubit}` }));
  return { edits, round: null, shown: null, qubits };
}

// Puts in what acts on new qubits, and then their places, which come before it.
export function withQubits(acting, { edits }) {
  if (acting.why) return acting;
  const { path, rounds } = acting.shown;
  return { ...acting, edits: [...acting.edits, ...edits], shown: { path: [path[0] + edits.length, ...path.slice(1)], rounds } };
}
