// @ts-check
// What the parts of the page hand each other, for the check of types alone.

/**
 * How many of each thing an item has, its rounds written out (counts.js).
 * @typedef {{ticks?: number, bounds?: number, records?: number, detectors?: number, steps?: number, coins?: number}} Counts
 *
 * A line of a circuit, or a block with its items (circuit.js). `on` has the qubits on which it acts, once they were asked for.
 * @typedef {Counts & {text: string, cut: boolean, written?: Written, wrapped?: {columns: number, count: number}, name?: string, targets?: string[], on?: number[], count?: number, items?: Item[], once?: Counts}} Item
 *
 * The line that was given for some items that follow each other, of which this is one: how many they are, and which it is.
 * @typedef {{text: string, count: number, part: number}} Written
 *
 * The place of an item in the outermost list, then in the block there, and so on; and the round of each block around it.
 * @typedef {number[]} Path
 * @typedef {{path: Path, rounds: number[]}} Where
 * @typedef {{item: Item, path: Path, rounds: number[]}} Instruction
 *
 * What the session is asked for, and what editing.js answers: edits, the round that is split off first, and where what was put in is then; or
 * why nothing is to be done.
 * @typedef {{kind: string, place: string, item?: string}} Edit
 * @typedef {{edits?: Edit[], round?: {place: string, number: number} | null, shown?: Where | null, name?: string, why?: string, qubits?: number[]}} Made
 *
 * An edit that was made (circuit.js): at which path, how many items its list has more, the round of a split, and the items that were and are there.
 * @typedef {{kind: string, at: Path, more: number, round?: number, before?: Item, after?: Item}} Move
 *
 * A place of the grid, or a spot of a picture.
 * @typedef {[number, number]} Spot
 * @typedef {{places: Map<number, Spot>, box: {left: number, right: number, top: number, bottom: number}, near: number, hasCoordinates: boolean, drawer: number[]}} Placement
 *
 * What is drawn (glyphs.js).
 * @typedef {{path?: any[][], fill?: string, stroke?: string, width?: number, dash?: number[], alpha?: number, hatch?: string, bit?: string, boxes?: number[][],
 *   words?: string, x?: number, y?: number, size?: number, align?: string, weight?: number, mono?: boolean, halo?: string,
 *   glyph?: string, side?: number, role?: string, label?: string, isLate?: boolean}} Element
 *
 * What a menu offers: words, what choosing them does, and perhaps a key that does too.
 * @typedef {[string, () => unknown, string?]} Offer
 */

export {};
