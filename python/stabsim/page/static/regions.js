// @ts-check
// What is said of the detecting region of a bit.

const MOST_LETTERS = 12;

// Says where a region is, as the letters by moments that the server gives, and which letters it has at one moment; `name(moment)` is
// what a moment is called.
export function saidOfRegion(bit, region, name, moment) {
  const moments = Object.keys(region).map(Number);
  if (!moments.length) return `no Pauli at the end of a tick flips ${bit}`;
  const letters = Object.entries(region[moment] ?? {}).map(([qubit, letter]) => `${letter}${qubit}`);
  const more = letters.length > MOST_LETTERS ? ` and ${letters.length - MOST_LETTERS} more` : "";
  const here = letters.length ? letters.slice(0, MOST_LETTERS).join(" ") + more : "nothing here";
  return `region of ${bit}: ${here}; ticks ${name(moments[0])} to ${name(moments.at(-1))}`;
}

// Letters by qubits, as a map; null if there are none.
export const mapOf = (letters) => (letters ? new Map(Object.entries(letters).map(([qubit, letter]) => [Number(qubit), letter])) : null);
