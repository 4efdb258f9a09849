"""Tables of errors at random, in the shapes that those of circuits have; circuits that mark these errors; and the least number of errors of
a table that flip an observable and no detector together, of all sets of them."""

from collections.abc import Callable, Iterable, Iterator
from dataclasses import dataclass
from functools import reduce
from operator import xor
from random import Random

import numpy as np

# The most errors of a table: all sets of them are tried.
MOST_ROWS = 16


@dataclass(frozen=True)
class Table:
    """What each error flips: a bit for each detector, the lowest first, and above them one for each observable."""

    detectors: int
    observables: int
    rows: tuple[int, ...]

    def circuit(self) -> str:
        """A circuit that marks an error on each qubit, whose record is in what the error flips."""
        count = len(self.rows)
        qubits = " ".join(map(str, range(count)))
        names = ["DETECTOR"] * self.detectors + [f"OBSERVABLE_INCLUDE({number})" for number in range(self.observables)]
        lines = [f"{name} {qubits}" for name in ("R", "I[X]", "M")] if count else []
        for bit, name in enumerate(names):
            lines.append(" ".join([name, *(f"rec[{error - count}]" for error, row in enumerate(self.rows) if row >> bit & 1)]))
        return "\n".join(lines)

    def is_logical(self, flipped: int, observable: int | None = None) -> bool:
        """Whether what is flipped has no detector, and some observable, or this one."""
        observables = flipped >> self.detectors
        return flipped % (1 << self.detectors) == 0 and (observables != 0 if observable is None else observables >> observable & 1 == 1)

    def flipped(self, errors: Iterable[int]) -> int:
        """What errors flip together."""
        return reduce(xor, (self.rows[error] for error in errors), 0)

    def least(self, observable: int | None = None) -> int | None:
        """The number of errors in the smallest of all sets that flip some observable, or this one, and no detector."""
        sums, sizes = np.zeros(1, np.int64), np.zeros(1, np.int64)
        for row in self.rows:
            sums, sizes = np.concatenate([sums, sums ^ row]), np.concatenate([sizes, sizes + 1])
        observables = sums >> self.detectors
        is_logical = (sums % (1 << self.detectors) == 0) & (observables != 0 if observable is None else observables >> observable & 1 == 1)
        return int(sizes[is_logical].min()) if is_logical.any() else None


def bits(numbers: Iterable[int]) -> int:
    """A bit for each number that is there an odd number of times."""
    return reduce(xor, (1 << number for number in numbers), 0)


def observed(dice: Random, detectors: int, rows: Iterable[int], chance: float) -> Table:
    """These errors, most without those that flip no detector. One flips an observable, and each other one each observable by a chance."""
    kept = [row for row in rows if row or dice.random() < 0.05]
    observables = dice.randint(1, 3)
    above = [bits(detectors + it for it in range(observables) if dice.random() < chance) for _ in kept]
    if kept:
        above[dice.randrange(len(kept))] |= 1 << detectors
    return Table(detectors, observables, tuple(map(xor, kept, above)))


def cycles(dice: Random) -> Table:
    """A ring of edges between detectors, and some across, of which few flip an observable."""
    detectors = dice.randint(3, 10)
    ring = [bits([it, (it + 1) % detectors]) for it in range(detectors)]
    across = [bits(dice.sample(range(detectors), 2)) for _ in range(dice.randint(0, MOST_ROWS - detectors))]
    return observed(dice, detectors, ring + across, dice.choice([0, 1 / 16]))


def sparse(dice: Random) -> Table:
    """Errors that flip few detectors, near each other or not."""
    detectors, count, reach = dice.randint(4, 12), dice.randint(6, MOST_ROWS), dice.choice([3, 4, 12])
    places = [(dice.randrange(detectors), dice.choice([1, 2, 2, 3, 3, 4])) for _ in range(count)]
    rows = [bits((start + dice.randrange(reach)) % detectors for _ in range(number)) for start, number in places]
    return observed(dice, detectors, rows, dice.choice([0, 1 / 12, 1 / 4]))


def dense(dice: Random) -> Table:
    """Errors that flip each detector by one chance."""
    detectors, count, chance = dice.randint(4, 12), dice.randint(6, MOST_ROWS), dice.choice([0.3, 0.5, 0.7])
    return observed(dice, detectors, [bits(it for it in range(detectors) if dice.random() < chance) for _ in range(count)], dice.choice([0, 1 / 4]))


def repeated(dice: Random) -> Table:
    """The same errors in each round, of which some are left out or flip another observable, and those that reach over an end are left out or
    cut off there."""
    width, rounds, kinds, observables = dice.randint(1, 3), dice.randint(3, 6), dice.randint(2, 4), dice.randint(1, 2)
    end, gaps, others, cut = width * rounds, dice.choice([0, 1 / 12]), dice.choice([0, 1 / 12]), dice.random() < 0.5
    shapes = [[dice.randrange(width * dice.choice([2, 2, 3])) for _ in range(dice.randint(1, 4))] for _ in range(kinds)]
    above = [dice.choice([0, 0, dice.randrange(1, 1 << observables)]) for _ in range(kinds)]
    above[dice.randrange(kinds)] = 1
    rows = []
    for start in range(-width, end, width):
        for shape, flips in zip(shapes, above):
            kept = bits(it + start for it in shape if 0 <= it + start < end)
            if kept and dice.random() >= gaps and (cut or all(0 <= it + start < end for it in shape)):
                rows.append(kept | (flips ^ (dice.random() < others)) << end)
    return Table(end, observables, tuple(rows[:MOST_ROWS]))


def beside(dice: Random) -> Table:
    """A small table, and some of its errors on other detectors and observables; and sums of an error of each."""
    width, observables, count = dice.randint(3, 5), dice.randint(1, 2), dice.randint(4, 6)
    one = [bits(dice.randrange(width) for _ in range(dice.choice([1, 2, 2, 3]))) for _ in range(count)]
    above = [dice.choice([0, 0, 0, dice.randrange(1, 1 << observables)]) if row else 0 for row in one]
    first = [row | flips << 2 * width for row, flips in zip(one, above)]
    second = [row << width | flips << 2 * width + observables for row, flips in zip(one, above) if dice.random() < 0.8]
    sums = [dice.choice(first) ^ dice.choice(second) for _ in range(dice.randint(0, 4)) if second]
    return Table(2 * width, 2 * observables, tuple(first + second + sums))


def united(dice: Random) -> Table:
    """Errors that flip one or two detectors, and sums of two or three of them, of which some flip an observable by themselves."""
    detectors, count = dice.randint(4, 8), dice.randint(3, 7)
    parts = observed(dice, detectors, [bits(dice.sample(range(detectors), dice.randint(1, 2))) for _ in range(count)], 1 / 8)
    sums = [reduce(xor, dice.choices(parts.rows, k=dice.randint(2, 3))) for _ in range(dice.randint(2, 9))]
    above = [bits(detectors + it for it in range(parts.observables) if dice.random() < 1 / 8) for _ in sums]
    rows = [*parts.rows, *(row ^ flips for row, flips in zip(sums, above) if row % (1 << detectors))]
    return Table(detectors, parts.observables, tuple(row for row in rows if dice.random() < 0.8))


def side_by_side(dice: Random) -> Table:
    """Classes of detectors, and errors that flip some of several."""
    return dice.choice([beside, united])(dice)


SHAPES: dict[str, Callable[[Random], Table]] = {
    "cycles": cycles, "sparse": sparse, "dense": dense, "repeated": repeated, "side by side": side_by_side,
}


def tables(shape: str, part: int, count: int) -> Iterator[Table]:
    """This many tables of a shape, the same for each part each time, with their errors in any order."""
    for number in range(count):
        dice = Random(f"{shape} {part} {number}")
        table = SHAPES[shape](dice)
        yield Table(table.detectors, table.observables, tuple(dice.sample(table.rows, len(table.rows))))
