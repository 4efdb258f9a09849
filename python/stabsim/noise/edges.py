"""Mechanisms of three or four detectors as mechanisms of one or two, all at once: most that are taken apart are such."""

from dataclasses import dataclass

import numpy as np
from numpy.typing import NDArray

from stabsim.formats.combining import rows_of, starts_of

Numbers = NDArray[np.int64]
Masks = NDArray[np.uint64]
Block = tuple[int, ...]

# How three or four detectors fall into ones and pairs, the first detector first. Of ways that are as likely the first is taken.
PARTITIONS: dict[int, tuple[tuple[Block, ...], ...]] = {
    3: (((0,), (1, 2)), ((0, 1), (2,)), ((0,), (1,), (2,)), ((0, 2), (1,))),
    4: (((0, 1), (2, 3)), ((0,), (1,), (2, 3)), ((0, 2), (1, 3)), ((0, 3), (1, 2)), ((0,), (1, 2), (3,)), ((0, 1), (2,), (3,)),
        ((0,), (1,), (2,), (3,)), ((0, 2), (1,), (3,)), ((0,), (1, 3), (2,)), ((0, 3), (1,), (2,))),
}
# Observables are bits of a word.
MOST_OBSERVABLES = 64


@dataclass(frozen=True)
class Mechanisms:
    """Some mechanisms: numbers: int64 (some,); detectors: int64 (some, 1 to 4), ascending; observables: uint64 (some,), a bit for each."""

    numbers: Numbers
    detectors: Numbers
    observables: Masks


class Edges:
    """Mechanisms of one or two detectors, by these.

    weights: float64 (mechanisms,), less the logarithms of the chances of all mechanisms.
    """

    def __init__(self, ones: Mechanisms, twos: Mechanisms, weights: NDArray[np.float64], detectors: int) -> None:
        self.width = detectors
        keys = np.append(self.keys_of(ones.detectors), self.keys_of(twos.detectors))
        numbers = np.append(ones.numbers, twos.numbers)
        order = np.lexsort((numbers, keys))
        self.numbers = numbers[order]
        self.observables = np.append(ones.observables, twos.observables)[order]
        self.weights = weights[self.numbers]
        self.keys, counts = np.unique(keys, return_counts=True)
        self.starts = starts_of(counts)

    def keys_of(self, detectors: Numbers) -> Numbers:
        """A number for each one or two detectors, int64 (some, 1 or 2)."""
        first = detectors[:, 0] * (self.width + 1)
        return first if detectors.shape[1] == 1 else first + 1 + detectors[:, 1]

    def ways(self, some: Mechanisms, partition: tuple[Block, ...]) -> tuple[Numbers, Numbers]:
        """All ways to flip the detectors of mechanisms by edges that fall on them as a partition does, and which also flip the observables:
        the place of each way's mechanism, int64 (ways,), and its edges by their places, int64 (ways, blocks)."""
        places = np.arange(len(some.numbers))
        edges = np.zeros((len(places), 0), dtype=np.int64)
        for block in partition:
            keys = self.keys_of(some.detectors[places][:, block])
            at = np.minimum(np.searchsorted(self.keys, keys), len(self.keys) - 1)
            is_there = self.keys[at] == keys
            of_way, its = rows_of(at[is_there], self.starts, np.arange(len(self.numbers)))
            chosen = np.flatnonzero(is_there)[of_way]
            places, edges = places[chosen], np.column_stack([edges[chosen], its])
        flipped = np.bitwise_xor.reduce(self.observables[edges], axis=1)
        is_right = flipped == some.observables[places]
        return places[is_right], edges[is_right]


def likeliest(some: Mechanisms, edges: Edges) -> dict[int, tuple[int, ...]]:
    """The likeliest edges that together flip what mechanisms of three or four detectors flip, by the number of each that has such."""
    if not len(edges.numbers) or not len(some.numbers):
        return {}
    size = some.detectors.shape[1]
    places, weights, parts = [], [], []
    for partition in PARTITIONS[size]:
        its, chosen = edges.ways(some, partition)
        total = np.zeros(len(its))
        for column in chosen.T:
            total += edges.weights[column]
        places.append(its)
        weights.append(total)
        parts.append(np.pad(edges.numbers[chosen], ((0, 0), (0, size - len(partition))), constant_values=-1))
    owners = np.concatenate(places)
    order = np.lexsort((np.concatenate(weights), owners))
    best = order[np.diff(owners[order], prepend=-1) != 0]
    rows = np.concatenate(parts)[best]
    numbers = some.numbers[owners[best]].tolist()
    return {number: tuple(part for part in row if part >= 0) for number, row in zip(numbers, rows.tolist())}
