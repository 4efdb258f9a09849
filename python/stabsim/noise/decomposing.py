"""Error mechanisms that flip more than two detectors, each as several that flip one or two: what decoders by matching want."""

from dataclasses import dataclass
from typing import NamedTuple

import numpy as np
from numpy.typing import NDArray

from stabsim import checking
from stabsim.errors import NotDecomposed
from stabsim.formats.combining import columns_of, rows_of, starts_of
from stabsim.noise.edges import MOST_OBSERVABLES, Edges, Mechanisms, likeliest

# For each mechanism the numbers of those that flip the same together: its own, if it is not taken apart.
Numbered = tuple[tuple[int, ...], ...]

# Detectors, ascending.
Detectors = tuple[int, ...]

# Some detectors of a mechanism are left to be flipped. By what is flipped of the observables so far, as a number in base 2: how
# unlikely the likeliest mechanisms are that do so, and which they are.
Ways = dict[int, tuple[float, tuple[int, ...]]]


@dataclass(frozen=True, eq=False)
class Parts:
    """What each mechanism of a decomposed model is written as: parts that flip the same together, one or more.

    starts: int64 (mechanisms + 1,): mechanism i has the parts starts[i] to starts[i + 1]. indptr: int64 (parts + 1,), and indices: int64
    (flips,): what each part flips, as an ErrorModel has it of mechanisms. `parts[i]` is a list of arrays, a part each.
    """

    starts: NDArray[np.int64]
    indptr: NDArray[np.int64]
    indices: NDArray[np.int64]

    @classmethod
    def of_mechanisms(cls, numbered: Numbered, indptr: NDArray[np.int64], indices: NDArray[np.int64]) -> "Parts":
        """Parts that are mechanisms, whose numbers are given, of a model with these."""
        parts = np.array([part for its in numbered for part in its], dtype=np.int64)
        columns = columns_of(parts, indptr, indices)
        return cls(starts_of(np.array([len(its) for its in numbered], dtype=np.int64)), starts_of(np.diff(indptr)[parts]), columns)

    def of(self, mechanisms: NDArray[np.int64]) -> "Parts":
        """The parts of some mechanisms."""
        counts = np.diff(self.starts)[mechanisms]
        parts = columns_of(mechanisms, self.starts, np.arange(len(self.indptr) - 1))
        columns = columns_of(parts, self.indptr, self.indices)
        return Parts(starts_of(counts), starts_of(np.diff(self.indptr)[parts]), columns)

    def __len__(self) -> int:
        return len(self.starts) - 1

    def __getitem__(self, mechanism: int) -> list[NDArray[np.int64]]:
        mechanism = checking.place("mechanism", mechanism, len(self))
        return [self.indices[self.indptr[part] : self.indptr[part + 1]] for part in range(self.starts[mechanism], self.starts[mechanism + 1])]


class Edge(NamedTuple):
    """A mechanism that flips one or two detectors, and these observables; weight: less the logarithm of its chance."""

    number: int
    observables: int
    weight: float


ByDetectors = dict[Detectors, list[Edge]]


@dataclass(frozen=True)
class Table:
    """All mechanisms: weights: float64 (mechanisms,), less the logarithms of their chances; indptr, indices: what they flip, as an
    ErrorModel has it; detectors: how many there are; sizes: int64 (mechanisms,), how many detectors each flips."""

    weights: NDArray[np.float64]
    indptr: NDArray[np.int64]
    indices: NDArray[np.int64]
    detectors: int
    sizes: NDArray[np.int64]

    def split(self, number: int) -> tuple[Detectors, int]:
        """The detectors that a mechanism flips, and its observables as a number in base 2."""
        flipped = self.indices[self.indptr[number] : self.indptr[number + 1]].tolist()
        size = int(self.sizes[number])
        return tuple(flipped[:size]), sum(1 << (it - self.detectors) for it in flipped[size:])

    def of_size(self, size: int) -> Mechanisms:
        """The mechanisms of this many detectors, if there are few enough observables."""
        numbers = np.flatnonzero(self.sizes == size)
        detectors = self.indices[self.indptr[numbers][:, None] + np.arange(size)]
        of_row, columns = rows_of(numbers, self.indptr, self.indices)
        is_observable = columns >= self.detectors
        masks = np.zeros(len(numbers), dtype=np.uint64)
        bits = np.left_shift(np.uint64(1), (columns[is_observable] - self.detectors).astype(np.uint64))
        np.bitwise_xor.at(masks, of_row[is_observable], bits)
        return Mechanisms(numbers, detectors, masks)


def parts_of(chances: NDArray[np.float64], indptr: NDArray[np.int64], indices: NDArray[np.int64], detectors: int,
             ignore_failures: bool) -> Numbered:
    """For each mechanism those that it is written as. One that flips more than two detectors is taken apart: into mechanisms of one
    or two detectors, no detector twice, which add up to its detectors and observables, and whose chances have the greatest product.

    chances, indptr, indices: the mechanisms, as an ErrorModel has them. If there are no such parts stabsim.NotDecomposed is raised, or
    with ignore_failures the mechanism stays whole.
    """
    with np.errstate(divide="ignore"):
        table = Table(-np.log(chances), indptr, indices, detectors, detectors_of(indptr, indices, detectors))
    found: dict[int, tuple[int, ...]] = {}
    least = 3
    if indices.max(initial=-1) < detectors + MOST_OBSERVABLES:
        edges = Edges(table.of_size(1), table.of_size(2), table.weights, detectors)
        found = likeliest(table.of_size(3), edges) | likeliest(table.of_size(4), edges)
        least = 5
    found |= ways_of_each(table, np.flatnonzero(table.sizes >= least).tolist())
    failed = [number for number in np.flatnonzero(table.sizes > 2).tolist() if number not in found]
    if failed and not ignore_failures:
        flipped = indices[indptr[failed[0]] : indptr[failed[0] + 1]].tolist()
        words = " ".join(f"D{it}" if it < detectors else f"L{it - detectors}" for it in flipped)
        raise NotDecomposed(f"{len(failed)} mechanisms flip more than two detectors, and no others together flip the same; the first is "
                            f"{words}. With ignore_decomposition_failures such mechanisms stay whole.")
    return tuple(found.get(number, (number,)) for number in range(len(chances)))


def ways_of_each(table: Table, numbers: list[int]) -> dict[int, tuple[int, ...]]:
    """The likeliest parts of mechanisms of any size, one after another, of each that has such."""
    found = {}
    edges: ByDetectors = {}
    for number in np.flatnonzero((table.sizes == 1) | (table.sizes == 2)).tolist() if numbers else ():
        seen, observables = table.split(number)
        edges.setdefault(seen, []).append(Edge(number, observables, float(table.weights[number])))
    for number in numbers:
        seen, observables = table.split(number)
        way = ways_of(seen, edges).get(observables)
        if way:
            found[number] = way[1]
    return found


def detectors_of(indptr: NDArray[np.int64], indices: NDArray[np.int64], detectors: int) -> NDArray[np.int64]:
    """How many detectors each mechanism flips, int64 (mechanisms,)."""
    passed = starts_of((indices < detectors).astype(np.int64))
    counts: NDArray[np.int64] = np.diff(passed[indptr])
    return counts


def ways_of(detectors: Detectors, edges: ByDetectors) -> Ways:
    """The likeliest ways to flip these detectors, each once, by edges."""
    # By how many detectors are left, and by which. The least one that is left is flipped next, so no set of edges comes twice.
    states: list[dict[Detectors, Ways]] = [{} for _ in range(len(detectors) + 1)]
    states[-1][detectors] = {0: (0.0, ())}
    for some in states[:0:-1]:
        for left, ways in some.items():
            for edge, rest in next_edges(left, edges):
                keep_likeliest(states[len(rest)].setdefault(rest, {}), ways, edge)
    return states[0].get((), {})


def next_edges(left: Detectors, edges: ByDetectors) -> list[tuple[Edge, Detectors]]:
    """The edges that flip the least of these detectors, perhaps with another of them, by their numbers, and what each leaves."""
    first, others = left[0], left[1:]
    found = [(edge, others) for edge in edges.get((first,), ())]
    for place, other in enumerate(others):
        pair = edges.get((first, other))
        if pair:
            rest = others[:place] + others[place + 1 :]
            found += [(edge, rest) for edge in pair]
    if len(found) > 1:
        found.sort()
    return found


def keep_likeliest(kept: Ways, ways: Ways, edge: Edge) -> None:
    """Adds each way with an edge more, unless one that is as likely is there."""
    for observables, (weight, numbers) in ways.items():
        now = observables ^ edge.observables
        if now not in kept or weight + edge.weight < kept[now][0]:
            kept[now] = (weight + edge.weight, (*numbers, edge.number))
