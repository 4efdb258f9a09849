// @ts-check
// Whether the faces of checks can be drawn: where they lie across each other, as those of a torus, they would hide more than they show.

import { hull } from "./glyphs.js";

// How far two faces reach over each other at most, in parts of the distance of neighbouring qubits, if they only touch.
const TOUCH = 0.01;

// Whether no two faces, each {qubits}, lie across each other, with the places of qubits, of which the nearest are `near` apart.
export function areApart(faces, places, near) {
  const rings = faces.map(({ qubits }) => ringOf(qubits.map((qubit) => places.get(qubit)).filter(Boolean))).sort((a, b) => a.left - b.left);
  return rings.every((ring, i) => {
    for (let j = i + 1; j < rings.length && rings[j].left < ring.right; j += 1) if (areAcross(ring, rings[j], TOUCH * near)) return false;
    return true;
  });
}

function ringOf(points) {
  const across = points.map(([x]) => x);
  return { corners: hull(points), left: Math.min(...across), right: Math.max(...across) };
}

// Convex outlines lie across each other if on the normal of each of their edges they do.
function areAcross(one, other, touch) {
  return [...normalsOf(one.corners), ...normalsOf(other.corners)].every((normal) => {
    const [a, b] = [one, other].map(({ corners }) => corners.map(([x, y]) => x * normal[0] + y * normal[1]));
    return Math.min(Math.max(...a) - Math.min(...b), Math.max(...b) - Math.min(...a)) > touch;
  });
}

function normalsOf(corners) {
  return corners.map(([x, y], i) => {
    const [nextX, nextY] = corners[(i + 1) % corners.length];
    const length = Math.hypot(nextX - x, nextY - y) || 1;
    return [(y - nextY) / length, (nextX - x) / length];
  });
}
