"""Mechanisms of an error model of which some errors flip something else: renewed in their order."""

from dataclasses import dataclass, replace
from typing import TYPE_CHECKING

import numpy as np
from numpy.typing import NDArray

from stabsim.formats.combining import Numbers, columns_of, odd_chances, order_of, starts_of
from stabsim.noise.causes import Causes, Sources
from stabsim.noise.flipped import Bits
from stabsim.noise.known_lines import KnownLines

if TYPE_CHECKING:
    from stabsim.noise.models import ErrorModel

# How many rows without a mechanism a model gets at most before it is made anew.
MOST_NEW = 4000
NONE: Numbers = np.zeros(0, dtype=np.int64)


@dataclass
class Renewal:
    """What errors flip now, as mechanisms of a model: those that it has, and rows of others, counted on after them.

    indptr, indices: the rows of the others, as a CSR matrix without its first 0; places: in front of which mechanism of the model each is in
    the order of what is flipped; mechanisms: int64 (errors,), -1 of one that flips nothing.
    """

    model: "ErrorModel"
    mechanisms: Numbers
    indptr: Numbers
    indices: Numbers
    places: Numbers

    @classmethod
    def of_rows(cls, model: "ErrorModel", indptr: Numbers, indices: Numbers) -> "Renewal | None":
        """Of the rows of errors; None if there are too many that the model does not have."""
        lengths = np.diff(indptr)
        some = np.flatnonzero(lengths)
        first, number = rows_apart(lengths[some], indices)
        rows = some[first]
        places, is_known = places_of_rows(model, lengths[rows], columns_of(rows, indptr, indices))
        new = np.flatnonzero(~is_known)
        if len(new) > MOST_NEW:
            return None
        words = words_of_rows(lengths[rows[new]], columns_of(rows[new], indptr, indices), int(lengths.max(initial=1)))
        new = new[np.argsort(words)]
        known = places.copy()
        known[new] = len(model) + np.arange(len(new))
        mechanisms = np.full(len(lengths), -1, dtype=np.int64)
        mechanisms[some] = known[number]
        others = rows[new]
        return cls(model, mechanisms, np.cumsum(lengths[others]), columns_of(others, indptr, indices), places[new])

    def model_of(self, mechanisms: Numbers, gone: Numbers, sources: Sources, known: KnownLines) -> "ErrorModel":
        """The model of a text of these lines, with these sources; mechanisms: of all their errors, as those of this; gone: those that errors left."""
        model, count = self.model, len(self.model) + len(self.indptr)
        is_renewed = np.zeros(count + 1, dtype=np.bool_)
        is_renewed[gone], is_renewed[self.mechanisms], is_renewed[-1] = True, True, False
        errors = np.flatnonzero(is_renewed[mechanisms])
        errors = errors[order_of(mechanisms[errors], count)]
        begins = np.flatnonzero(np.diff(mechanisms[errors], prepend=-1))
        chances = np.append(model.chances, np.zeros(len(self.indptr)))
        chances[is_renewed[:-1]] = -1.0
        causes = Causes(sources, mechanisms.astype(np.int32), known)
        chances[mechanisms[errors[begins]]] = odd_chances(causes.chances_of(errors), begins)
        # New rows go where they are in the order of what is flipped; mechanisms that no error makes any more go.
        is_made = chances >= 0
        if count == len(model) and is_made.all():
            return replace(model, chances=chances, causes=causes)
        order = np.insert(np.arange(len(model)), self.places, np.arange(len(model), count))
        order = order[is_made[order]]
        rank = np.full(count + 1, -1, dtype=np.int32)
        rank[order] = np.arange(len(order))
        indptr = np.append(model.indptr, model.indptr[-1] + self.indptr)
        indices = columns_of(order, indptr, np.append(model.indices, self.indices))
        return replace(model, chances=chances[order], causes=replace(causes, mechanisms=rank[mechanisms]),
                       indptr=starts_of(np.diff(indptr)[order]), indices=indices)


def renumbered(model: "ErrorModel", mechanisms: Numbers, columns: Numbers, detectors: int) -> tuple["ErrorModel", Numbers]:
    """A model in which what is flipped has other numbers, without mechanisms that flip something which is no more; and the mechanism of each
    error then, -1 of one that flips nothing, or flipped that. columns: the number of each detector and observable now, ascending, -1 of one
    that is no more; detectors: how many there are now."""
    lost = mechanisms_with(model, columns < 0)
    if not len(lost):
        return replace(model, indices=columns[model.indices], num_detectors=detectors), mechanisms
    is_kept = np.ones(len(model), dtype=np.bool_)
    is_kept[lost] = False
    kept = np.flatnonzero(is_kept)
    rank = np.full(len(model) + 1, -1, dtype=np.int64)
    rank[kept] = np.arange(len(kept))
    indices = columns_of(kept, model.indptr, model.indices)
    found = replace(model, chances=model.chances[kept], indptr=starts_of(np.diff(model.indptr)[kept]), indices=columns[indices],
                    num_detectors=detectors)
    return found, rank[mechanisms]


def mechanisms_with(model: "ErrorModel", is_meant: Bits) -> Numbers:
    """The mechanisms that flip something that is meant, each as often as it does."""
    if not is_meant.any():
        return NONE
    return np.searchsorted(model.indptr, np.flatnonzero(is_meant[model.indices]), side="right") - 1


def rows_apart(lengths: Numbers, columns: Numbers) -> tuple[Numbers, Numbers]:
    """Rows that are not empty, one after another: one row of each kind, and for each row which kind it is of."""
    starts = starts_of(lengths)
    # Rows of different keys differ, and almost all rows that differ have different keys.
    mixed = (columns.astype(np.uint64) + np.uint64(1)) * np.uint64(0x9E3779B97F4A7C15)
    mixed = (mixed ^ (mixed >> np.uint64(29))) * np.uint64(0xBF58476D1CE4E5B9)
    sums = np.append(np.uint64(0), np.cumsum(mixed ^ (mixed >> np.uint64(32))))
    _, first, number = np.unique(sums[starts[1:]] - sums[starts[:-1]], return_index=True, return_inverse=True)
    like = first[number]
    if not np.array_equal(lengths, lengths[like]) or not np.array_equal(columns, columns_of(like, starts, columns)):
        _, first, number = np.unique(words_of_rows(lengths, columns, int(lengths.max(initial=1))), return_index=True, return_inverse=True)
    return first, number


def places_of_rows(model: "ErrorModel", lengths: Numbers, columns: Numbers) -> tuple[Numbers, Bits]:
    """For each row that is not empty the first mechanism that flips it, or else what comes after it in the order of what is flipped, and
    whether it does. lengths, columns: of the rows, one after another."""
    begins, firsts = model.indices[model.indptr[:-1]], columns[starts_of(lengths)[:-1]]
    is_first = np.zeros(model.num_detectors + model.num_observables, dtype=np.bool_)
    is_first[firsts] = True
    near = np.flatnonzero(is_first[begins])
    # Mechanisms that flip the same two first of all are side by side.
    theirs, wanted = first_two(model.indptr[near], model.indptr[near + 1], model.indices), first_two(*ends_of(lengths), columns)
    low, high = np.searchsorted(theirs, wanted), np.searchsorted(theirs, wanted, side="right")
    some = np.flatnonzero(np.cumsum(np.bincount(low, minlength=len(near) + 1) - np.bincount(high, minlength=len(near) + 1)))
    its = near[some]
    width = int(max(lengths.max(initial=1), (model.indptr[its + 1] - model.indptr[its]).max(initial=1)))
    known = words_of_rows(model.indptr[its + 1] - model.indptr[its], columns_of(its, model.indptr, model.indices), width)
    rows = words_of_rows(lengths, columns, width)
    found = np.searchsorted(known, rows)
    is_known = np.append(known, b"")[found] == rows
    places = low + found - np.searchsorted(some, low) - np.searchsorted(begins[near], firsts) + np.searchsorted(begins, firsts)
    return places, is_known


def ends_of(lengths: Numbers) -> tuple[Numbers, Numbers]:
    """Where rows of these lengths begin and end, one after another."""
    starts = starts_of(lengths)
    return starts[:-1], starts[1:]


def first_two(begins: Numbers, ends: Numbers, indices: Numbers) -> Numbers:
    """The first two columns of rows that begin and end at these places as a number, which is the greater the later a row is in their order."""
    second = np.where(ends - begins > 1, indices[np.minimum(begins + 1, len(indices) - 1)] + 1, 0) if len(begins) else begins
    found: Numbers = (indices[begins] << 32) + second
    return found


def words_of_rows(lengths: Numbers, columns: Numbers, width: int) -> NDArray[np.bytes_]:
    """Rows of columns, one after another, as words in the same order, with space for this many columns each."""
    letters = np.zeros((len(lengths), width), dtype=">u4")
    letters[np.repeat(np.arange(len(lengths)), lengths), np.arange(len(columns)) - np.repeat(starts_of(lengths)[:-1], lengths)] = columns + 1
    return letters.view(f"S{4 * width}").ravel()
