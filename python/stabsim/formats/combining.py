"""Sets that are added modulo 2, and equal ones joined: the arithmetic of error mechanisms on CSR arrays."""

from typing import NamedTuple

import numpy as np
from numpy.typing import NDArray

Numbers = NDArray[np.int64]
Chances = NDArray[np.float64]
# How many entries a run of rows that follow each other has at least, on average, for runs to be taken one by one.
ENTRIES_OF_RUN = 32


class Joined(NamedTuple):
    """Errors of which those that flip the same are one mechanism, in the order of what is flipped.

    chances: float64 (mechanisms,); indptr: int64 (mechanisms + 1,), and indices: int64 (flips,): what each flips, as a CSR matrix;
    mechanisms: int64 (errors,), the mechanism of each error, -1 of one that flips nothing.
    """

    chances: Chances
    indptr: Numbers
    indices: Numbers
    mechanisms: Numbers


def rows_of(rows: Numbers, indptr: Numbers, indices: Numbers) -> tuple[Numbers, Numbers]:
    """The entries of some rows of a CSR matrix: for each entry the place of its row among those asked for, and its column."""
    return np.repeat(np.arange(len(rows)), indptr[rows + 1] - indptr[rows]), columns_of(rows, indptr, indices)


def columns_of(rows: Numbers, indptr: Numbers, indices: Numbers) -> Numbers:
    """The columns of the entries of some rows of a CSR matrix."""
    if not len(rows):
        return indices[:0]
    # Rows that follow each other there are taken together.
    cuts = np.flatnonzero(np.diff(rows) != 1) + 1
    firsts, lasts = indptr[rows[np.append(0, cuts)]], indptr[rows[np.append(cuts, len(rows)) - 1] + 1]
    if len(cuts) < int((lasts - firsts).sum()) // ENTRIES_OF_RUN:
        return np.concatenate([indices[first:last] for first, last in zip(firsts.tolist(), lasts.tolist())])
    starts = starts_of(lasts - firsts)
    columns: Numbers = indices[np.arange(starts[-1]) + np.repeat(firsts - starts[:-1], lasts - firsts)]
    return columns


def starts_of(lengths: Numbers) -> Numbers:
    """The indptr of a CSR matrix whose rows have these lengths, int64 (rows + 1,)."""
    starts = np.zeros(len(lengths) + 1, dtype=np.int64)
    np.cumsum(lengths, out=starts[1:])
    return starts


def order_of(numbers: Numbers, most: int) -> Numbers:
    """The order of numbers from 0 to this one, equal ones as they come: by their digits of 16 bits, which takes a third of the time of a sort."""
    order, bits = np.argsort(numbers.astype(np.uint16), kind="stable"), 16
    while most >> bits:
        order, bits = order[np.argsort((numbers[order] >> bits).astype(np.uint16), kind="stable")], bits + 16
    return order


def odd(sets: Numbers, columns: Numbers, width: int) -> tuple[Numbers, Numbers]:
    """Of pairs of a set and a column those that come an odd number of times, ascending."""
    keys = sets * width + columns
    if (np.diff(keys) > 0).all():
        # They are ascending as they are, so none comes twice.
        return sets, columns
    keys, counts = np.unique(keys, return_counts=True)
    keys = keys[counts % 2 == 1]
    return keys // max(width, 1), keys % max(width, 1)


def combined(chances: Chances, sets: Numbers, columns: Numbers) -> Joined:
    """Errors joined that flip the same.

    chances: of each error; sets, columns: pairs, ascending, of an error and what it flips. Errors that flip nothing are left out.
    """
    indptr = starts_of(np.bincount(sets, minlength=len(chances)))
    places = places_in_order(indptr, columns)
    some = np.flatnonzero(np.diff(indptr))
    # Errors one after another as they are ordered, equal ones in the order in which they came.
    ordered = some[np.argsort(places[some], kind="stable")]
    begins = np.flatnonzero(np.diff(places[ordered], prepend=-1))
    mechanisms = np.full(len(chances), -1, dtype=np.int64)
    mechanisms[ordered] = np.repeat(np.arange(len(begins)), np.diff(begins, append=len(ordered)))
    firsts = ordered[begins]
    joined = odd_chances(chances[ordered], begins)
    return Joined(joined, starts_of(indptr[firsts + 1] - indptr[firsts]), columns_of(firsts, indptr, columns), mechanisms)


def places_in_order(indptr: Numbers, columns: Numbers) -> Numbers:
    """The place of each row of a CSR matrix among all rows in the order of their entries, as words in a dictionary, int64 (rows,). Equal
    rows have the place of the first of them."""
    lengths = np.diff(indptr)
    places = np.zeros(len(lengths), dtype=np.int64)
    # Rows that are equal up to some entry share a place. By their next entry they are distinguished, until they end or each is alone.
    active = np.arange(len(lengths))
    width = int(columns.max(initial=0)) + 2
    entry = 0
    while len(active):
        going = lengths[active] > entry
        following = np.zeros(len(active), dtype=np.int64)
        following[going] = columns[indptr[active[going]] + entry] + 1
        keys = places[active] * width + following
        order = np.argsort(keys, kind="stable")
        keys = keys[order]
        active, going = active[order], going[order]
        is_new = np.diff(keys, prepend=-1) != 0
        is_group = np.diff(keys // width, prepend=-1) != 0
        at = np.arange(len(active))
        begins = np.maximum.accumulate(np.where(is_new, at, 0))
        places[active] += begins - np.maximum.accumulate(np.where(is_group, at, 0))
        is_alone = is_new & np.append(is_new[1:], True)
        active = active[going & ~is_alone]
        entry += 1
    return places


def odd_chances(chances: Chances, begins: Numbers) -> Chances:
    """The chance that an odd number of independent events happens, of each of several runs of events that begin at these places."""
    lengths = np.diff(begins, append=len(chances))
    totals = np.zeros(len(begins), dtype=np.float64)
    # Runs by their length, so that those that have one more event are the last.
    longest = int(lengths.max(initial=0))
    by_length = order_of(lengths, longest)
    ascending = lengths[by_length]
    for place in range(longest):
        runs = by_length[int(np.searchsorted(ascending, place, side="right")) :]
        added = chances[begins[runs] + place]
        totals[runs] = totals[runs] * (1 - added) + added * (1 - totals[runs])
    return totals
