// @ts-check
// What is said of the moment that is shown, of a qubit there, and of a detector. Rounds are counted from 0, as all else is.

import { wide } from "./boxes.js";
import { by } from "./by_id.js";
import { momentsOf, nameOf } from "./moments.js";
import { saidOfRegion } from "./regions.js";
import { roundOf } from "./timeline.js";

// Says at which tick and in which round it is, above the picture and to readers; answers that in words. `shown` has state, moment,
// and instructions.
export function sayMoment({ state: { items }, moment, instructions }) {
  const { name } = nameOf(items, moment);
  const { path, rounds } = roundOf(instructions);
  const block = path.slice(0, rounds.length).reduce((list, place) => (list.items ?? list)[place], items);
  const said = rounds.length ? saidOfRound(path.slice(0, rounds.length), rounds.at(-1), block.count) : "outside blocks";
  by("moment-said").textContent = `tick ${name}`;
  const [round, more] = rounds.length ? said.split(/(?= of block)/) : ["", ""];
  by("round-said").replaceChildren(round, wide(more));
  by("round-said").title = rounds.length ? said : "";
  const slider = by("timeline");
  slider.ariaValueMax = String(momentsOf(items) - 1);
  slider.ariaValueNow = String(moment);
  slider.ariaValueText = `tick ${name}, ${said}`;
  return `tick ${name} · ${said}`;
}

// A round of the block at a path, with which rounds that has.
function saidOfRound(path, round, count) {
  return `round ${round} of block ${path.join("/")}${count > 1 ? `, 0 to ${count - 1}` : ""}`;
}

// Says to readers what is seen of a qubit, or of none: the name of what acts on it, how many items do in its tick if several do, its letter of
// a region, whether its coin decides the chosen bit, its noise, and the letter of an error.
export function saySeen(where, qubit, { name, count, letter, hasCoin, noise, error }) {
  const words = [`qubit ${qubit}`, name ?? "", count ? saidOften(count) : "", letter ? `region ${letter}` : "", hasCoin ? "its coin decides" : "", noise ? `noise ${noise}` : "", error ? `error ${error}` : ""];
  by("seen").textContent = qubit === null ? where : `${words.filter(Boolean).join(", ")}; ${where}`;
}

export const saidOften = (count) => `${count} items act on it in this tick`;

// What is said of a bit beside the picture: {kind, region, coins}. `kind` says how it is drawn (state.js).
export function aboutBit({ state, bit, moment }, { region, why, coins }, kind) {
  if (bit === null) return { kind: "", region: "", coins: null };
  const isRandom = state.isRandom(bit);
  const said = isRandom ? "it is random, so that nothing flips it" : saidOfRegion(bit, region, (it) => nameOf(state.items, it).name, moment);
  return { kind, region: why || said, coins: isRandom ? coins : null };
}
