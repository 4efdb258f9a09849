// @ts-check
// Pairs for a gate on two.

const keyOf = ([x, y]) => `${x.toFixed(3)} ${y.toFixed(3)}`;

// The pairs of qubits with those that are from each as a place is from one of them, and how many have none there. `places` has the place
// of each qubit.
export function partnersOf(places, qubits, from, place) {
  const standing = new Map([...places].map(([qubit, place]) => [keyOf(place), qubit]));
  const [across, down] = [0, 1].map((axis) => place[axis] - places.get(from)[axis]);
  const pairs = qubits.filter((qubit) => places.has(qubit)).map((qubit) => {
    const [x, y] = places.get(qubit);
    return [qubit, standing.get(keyOf([x + across, y + down]))];
  }).filter(([qubit, other]) => other !== undefined && other !== qubit);
  return { pairs, missing: qubits.length - pairs.length };
}
