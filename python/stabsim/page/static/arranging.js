// @ts-check
// Places for qubits that have none, by the gates between them: those that gates join pull together, and all push apart.

const STEPS = 300;
// For more qubits than these a square is as good, and soon there.
const MOST = 120;
// How strongly all are held together, so that what no gate joins stays in sight.
const GRAVITY = 0.02;

// Pairs [qubit, [x, y]], where near ones are about 1 apart. The same qubits and pairs give the same places.
export function arranged(qubits, joined) {
  const width = Math.ceil(Math.sqrt(qubits.length));
  if (qubits.length > MOST) return qubits.map((qubit, i) => [qubit, [i % width, Math.floor(i / width)]]);
  const numbers = new Map(qubits.map((qubit, i) => [qubit, i]));
  const edges = edgesOf(joined.map(([a, b]) => [numbers.get(a), numbers.get(b)]));
  // On a circle at first, a little uneven, so that nothing is caught between two that push alike.
  const spots = qubits.map((_, i) => {
    const angle = (2 * Math.PI * i) / qubits.length;
    const radius = width * (0.6 + 0.05 * ((i * 7) % 5));
    return [radius * Math.cos(angle), radius * Math.sin(angle)];
  });
  for (let step = 0; step < STEPS; step += 1) move(spots, edges, 0.6 * (1 - step / STEPS) + 0.005);
  const lying = laid(spots);
  const left = Math.min(...lying.map(([x]) => x));
  const top = Math.min(...lying.map(([, y]) => y));
  return qubits.map((qubit, i) => [qubit, [round(lying[i][0] - left), round(lying[i][1] - top)]]);
}

const round = (value) => Math.round(value * 100) / 100;

// Each pair once, without a qubit and itself, or one that has a place of its own.
function edgesOf(pairs) {
  const found = new Map();
  for (const [a, b] of pairs) if (a !== undefined && b !== undefined && a !== b) found.set(`${Math.min(a, b)} ${Math.max(a, b)}`, [a, b]);
  return [...found.values()];
}

function move(spots, edges, most) {
  const pulls = spots.map(([x, y]) => [-x * GRAVITY, -y * GRAVITY]);
  const pull = (i, j, strength) => {
    const [across, down] = [spots[j][0] - spots[i][0], spots[j][1] - spots[i][1]];
    const far = Math.max(0.05, Math.hypot(across, down));
    const by = strength(far) / far;
    pulls[i][0] += across * by;
    pulls[i][1] += down * by;
    pulls[j][0] -= across * by;
    pulls[j][1] -= down * by;
  };
  // Those that are far apart leave each other alone.
  for (let i = 0; i < spots.length; i += 1) for (let j = i + 1; j < spots.length; j += 1) pull(i, j, (far) => (far < 3 ? -1 / far : -3 / far ** 2));
  for (const [i, j] of edges) pull(i, j, (far) => 2 * far * (far - 0.6));
  spots.forEach((spot, i) => {
    const length = Math.hypot(...pulls[i]) || 1;
    const part = Math.min(length, most) / length;
    spot[0] += pulls[i][0] * part;
    spot[1] += pulls[i][1] * part;
  });
}

// Turned so that they reach farther across than down.
function laid(spots) {
  let [xx, xy, yy] = [0, 0, 0];
  for (const [x, y] of spots) {
    xx += x * x;
    xy += x * y;
    yy += y * y;
  }
  const angle = 0.5 * Math.atan2(2 * xy, xx - yy);
  const [cos, sin] = [Math.cos(angle), Math.sin(angle)];
  return spots.map(([x, y]) => [x * cos + y * sin, y * cos - x * sin]);
}
