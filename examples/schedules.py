"""In which order may the checks of a code meet their qubits? Orders are tried one after another by edits of one session.

    PYTHONPATH=python python3 examples/schedules.py

A check's own qubit meets the check's data qubits by CX, one layer after another, and its errors spread to those that it has not met yet. So
the order decides how many errors of circuit-level noise flip the observable unseen: the distance of the circuit. For each order the lines
of CX of all rounds are replaced in an editing session, which says whether the detectors are still the same for all random bits, so that
the checks are measured, and what the distance is. All circuits keep a logical 0.

- Of the rotated surface code of distance 3 all orders of directions are tried: those of the checks of X and those of the checks of Z, side
  by side in four layers.
- Of the colour code of distance 5, with a qubit for each check, the checks of X come first. Each of them has an order of its own: two layers
  are exchanged at some checks at a time, and the best order that is met is kept.

It takes half a minute, and needs Debian's python3-numpy.
"""

import itertools
import random
from collections import Counter
from collections.abc import Iterable, Sequence

import stabsim
from stabsim import codes

Place = tuple[int, int]
# The pairs of CX of a layer.
Layer = list[tuple[int, int]]

# The directions from a check to its data qubits.
CORNERS: tuple[Place, ...] = ((1, 1), (1, -1), (-1, 1), (-1, -1))
AROUND: tuple[Place, ...] = ((2, 0), (1, 1), (-1, 1), (-2, 0), (-1, -1), (1, -1))
# How many orders of the colour code are tried.
TRIED = 600


class Schedule:
    """A circuit in a session, of whose rounds the lines of CX are replaced.

    text: the circuit, whose rounds all have as many lines of CX; places: of each qubit its place; checks: for each letter the qubits of
    its checks.
    """

    def __init__(self, text: str, places: dict[int, Place], checks: dict[str, list[int]]) -> None:
        circuit = stabsim.Circuit(text)
        self.session = circuit.edit()
        self.places, self.checks = places, checks
        self.data = {place: qubit for qubit, place in places.items() if qubit not in {*checks["X"], *checks["Z"]}}
        self.paths = [item.path for item in circuit.walk() if item.name == "CX"]

    def layer(self, letter: str, step: Place) -> Layer:
        """The pairs of CX by which all checks of a letter meet their qubit in one direction."""
        met = [(check, self.data.get((self.places[check][0] + step[0], self.places[check][1] + step[1]))) for check in self.checks[letter]]
        pairs = [(check, qubit) for check, qubit in met if qubit is not None]
        return pairs if letter == "X" else [(qubit, check) for check, qubit in pairs]

    def distance(self, layers: Iterable[Layer], most: int) -> int | None:
        """The distance with other layers, up to a greatest; None if a qubit is in one of them twice or the checks are not measured."""
        lines = []
        for layer in layers:
            qubits = [qubit for pair in layer for qubit in pair]
            if len(set(qubits)) < len(qubits):
                return None
            lines.append(" ".join(["CX", *map(str, qubits)]))
        for path, line in zip(self.paths, itertools.cycle(lines)):
            self.session.replace(path, line)
        if not self.session.deterministic().detectors.all():
            return None
        return self.session.distance(most, everywhere=True).distance


def surface(distance: int) -> Schedule:
    """The rotated surface code."""
    text = codes.surface_code(distance, 2)
    circuit = stabsim.Circuit(text)
    places = {qubit: (int(x), int(y)) for qubit, (x, y) in enumerate(circuit.qubit_coordinates().tolist()) if x == x}
    turned = next(item for item in circuit if item.name == "H").targets
    measured = next(item for item in circuit if item.name == "MR").targets
    checks = {"X": [int(qubit) for qubit in turned], "Z": [int(qubit) for qubit in measured if qubit not in turned]}
    return Schedule(text, places, checks)


def colour(distance: int) -> Schedule:
    """The triangular colour code of hexagons with a qubit for each check of X and of Z."""
    side = distance + distance // 2
    rows = [[(2 * x + y, y) for x in range(side - y)] for y in range(side)]
    faces = [place for y, row in enumerate(rows) for x, place in enumerate(row) if (x + 2 * y) % 3 == 2]
    data = [place for row in rows for place in row if place not in faces]
    matrix = [[int((place[0] - face[0], place[1] - face[1]) in AROUND) for place in data] for face in faces]
    numbers = range(len(data), len(data) + 2 * len(faces))
    checks = {"X": list(numbers[: len(faces)]), "Z": list(numbers[len(faces) :])}
    return Schedule(codes.css_code(matrix, matrix, 2), dict(enumerate([*data, *faces, *faces])), checks)


def exchange(layers: Sequence[Layer], check: int, one: int, other: int) -> None:
    """Exchanges two layers at a check, and at the checks that this makes exchange them too, since they share a qubit with it."""
    pairs = {(*pair, place) for place in (one, other) for pair in layers[place]}
    met, left = {check}, pairs
    moved: set[tuple[int, int, int]] = set()
    while more := {it for it in left if met & set(it[:2])}:
        moved |= more
        left = left - more
        met |= {qubit for it in more for qubit in it[:2]}
    for first, second, place in moved:
        layers[place].remove((first, second))
        layers[one + other - place].append((first, second))


def surface_orders() -> Counter[int]:
    """How many orders there are of each distance, of the surface code of distance 3."""
    schedule = surface(3)
    found: Counter[int] = Counter()
    with schedule.session:
        for of_x, of_z in itertools.product(itertools.permutations(CORNERS), repeat=2):
            distance = schedule.distance([schedule.layer("X", x) + schedule.layer("Z", z) for x, z in zip(of_x, of_z)], 3)
            if distance is not None:
                found[distance] += 1
    return found


def colour_orders(tried: int, seed: int) -> tuple[Counter[int], list[str]]:
    """How many of the orders that are tried have which distance, of the colour code of distance 5, and the layers of the best."""
    schedule = colour(5)
    numbers = random.Random(seed)
    of_x, of_z = ([schedule.layer(letter, step) for step in AROUND] for letter in "XZ")
    found: Counter[int] = Counter()
    best: list[str] = []
    with schedule.session:
        for _ in range(tried):
            distance = schedule.distance(of_x + of_z, 5)
            assert distance is not None, "checks of X come before those of Z, whatever their order"
            if distance > max(found, default=0):
                best = [schedule.session.item(path).rstrip() for path in schedule.paths[: len(AROUND)]]
            found[distance] += 1
            for _ in range(numbers.randint(1, 4)):
                exchange(of_x, numbers.choice(schedule.checks["X"]), *numbers.sample(range(len(AROUND)), 2))
    return found, best


def main() -> None:
    for distance, count in sorted(surface_orders().items()):
        print(f"surface code of distance 3: {count} orders of distance {distance}")
    found, best = colour_orders(TRIED, seed=1)
    for distance, count in sorted(found.items()):
        print(f"colour code of distance 5: {count} of {TRIED} orders of distance {distance}")
    print(f"the first of distance {max(found)}, its checks of X:", *best, sep="\n")


if __name__ == "__main__":
    main()
