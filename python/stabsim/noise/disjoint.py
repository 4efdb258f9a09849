"""Noise as it is, disjoint errors too: what shots are drawn from if independent errors don't make it.

Of a channel that no independent errors make, as of heralded errors, at most one error happens each time. So the times of the channel are
groups of errors, of each of which at most one is drawn, and what it flips is added up with what independent errors flip.
"""

from collections.abc import Iterator, Sequence
from dataclasses import dataclass, replace

import numpy as np
from numpy.typing import NDArray

from stabsim.formats.combining import Chances, Numbers, combined, starts_of
from stabsim.noise import drawing
from stabsim.noise.marking import Source
from stabsim.noise.sourced import Rows, errors_of

Bits = NDArray[np.bool_]
# What `errors_of` gives of a source.
Flips = tuple[Chances, Numbers, Numbers]
# Errors in a group that one of them comes of, with the numbers of their pairs.
Run = list[Flips]


@dataclass(frozen=True, eq=False)
class Disjoint:
    """Errors in groups, of each of which at most one happens.

    chances: float64 (errors,); starts: int64 (groups + 1,): group g has the errors starts[g] to starts[g + 1]; indptr: int64 (errors + 1,),
    and indices: int64 (flips,): what each error flips, as an ErrorModel has it of mechanisms.
    """

    chances: Chances
    starts: Numbers
    indptr: Numbers
    indices: Numbers

    def events(self, shots: int, seed: int, first_shot: int) -> Iterator[tuple[Numbers, Numbers]]:
        """What happens in these shots, block by block: pairs of an error, and of a shot as it is counted from the first."""
        totals = np.add.reduceat(self.chances, self.starts[:-1])
        of_group = np.repeat(np.arange(len(totals)), np.diff(self.starts))
        # Which part of its group's chance the errors up to each have, counted on from group to group.
        parts = np.cumsum(self.chances) - np.repeat(starts_of_sums(totals), np.diff(self.starts))
        ends = of_group + parts / totals[of_group]
        for groups, places, words in drawing.events_with_words(np.minimum(totals, 1.0), shots, seed, first_shot):
            errors = np.searchsorted(ends, groups + drawing.parts_of(words), side="right")
            # A part may be rounded up to the whole.
            yield np.clip(errors, self.starts[groups], self.starts[groups + 1] - 1), places


@dataclass(frozen=True, eq=False)
class Noise:
    """Independent errors, and disjoint ones: chances, indptr and indices are as those of an ErrorModel; width: how many bits there are."""

    chances: Chances
    indptr: Numbers
    indices: Numbers
    disjoint: Disjoint
    width: int

    def sample(self, shots: int, seed: int, first_shot: int) -> Bits:
        """What is flipped in shots first_shot, first_shot + 1 .. of a seed, bool (shots, width)."""
        drawn = drawing.flips(self.chances, self.indptr, self.indices, self.width, shots, seed, first_shot)
        for errors, places in self.disjoint.events(shots, seed, first_shot):
            drawing.flip(drawn, errors, places, self.disjoint.indptr, self.disjoint.indices)
        return drawn

    def with_more(self, chances: Chances, indptr: Numbers, indices: Numbers) -> "Noise":
        """The same with more independent errors, as a CSR matrix."""
        return replace(self, chances=np.append(self.chances, chances), indptr=np.append(self.indptr, self.indptr[-1] + indptr[1:]),
                       indices=np.append(self.indices, indices))

    def arrays(self) -> tuple[NDArray[np.generic], ...]:
        """All that it has."""
        its = self.disjoint
        return self.chances, self.indptr, self.indices, its.chances, its.starts, its.indptr, its.indices


def starts_of_sums(totals: Chances) -> Chances:
    """How much there is in front of each of some numbers."""
    return np.append(0.0, np.cumsum(totals)[:-1])


def noise_of(sources: Sequence[Source], table: Rows) -> Noise | None:
    """The noise of sources, by what X and Z of each mark flip; None if all of them are independent."""
    if all(source.place is None for source in sources):
        return None
    flips = [errors_of(source, table) for source in sources]
    alone = [its for source, its in zip(sources, flips) if source.place is None]
    runs: list[Run] = []
    for source, its in zip(sources, flips):
        if source.place == 0:
            runs.append([])
        if source.place is not None:
            runs[-1].append(its)
    counts = starts_of(np.array([len(chances) for chances, _, _ in alone], dtype=np.int64))
    joined = combined(*together([(chances, sets + first, columns) for (chances, sets, columns), first in zip(alone, counts)]))
    return Noise(joined.chances, joined.indptr, joined.indices, disjoint_of(runs), table.num_detectors + table.num_observables)


def disjoint_of(runs: Sequence[Run]) -> Disjoint:
    """Groups of runs of errors, each with one of every error for each of its times."""
    sizes = np.repeat([len(run) for run in runs], [len(run[0][0]) for run in runs]).astype(np.int64)
    starts = starts_of(sizes)
    parts, group = [], 0
    for run in runs:
        firsts = starts[group : group + len(run[0][0])]
        parts += [(chances, firsts[sets] + place, columns) for place, (chances, sets, columns) in enumerate(run)]
        group += len(firsts)
    chances = np.concatenate([np.stack([its[0] for its in run], axis=1).ravel() for run in runs])
    _, sets, columns = together(parts)
    order = np.argsort(sets, kind="stable")
    return Disjoint(chances, starts, starts_of(np.bincount(sets, minlength=len(chances))), columns[order])


def together(parts: Sequence[Flips]) -> Flips:
    """Errors one after another."""
    nothing = np.zeros(0, dtype=np.int64)
    return (np.concatenate([np.zeros(0), *(chances for chances, _, _ in parts)]), np.concatenate([nothing, *(sets for _, sets, _ in parts)]),
            np.concatenate([nothing, *(columns for _, _, columns in parts)]))
