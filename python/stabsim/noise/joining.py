"""Errors of a circuit's noise joined to mechanisms: those that flip the same are one.

Most errors flip what others do. So each has a number, the sum modulo 2 of random ones of the bits that it flips, and what is flipped is looked up
for one error of each number alone. A second number of 64 bits shows that errors with the same first one flip the same, except by a chance of 2**-64.
"""

from collections.abc import Sequence

import numpy as np
from numpy.typing import NDArray

from stabsim.formats.combining import Joined, Numbers, columns_of, odd_chances, places_in_order, rows_of, starts_of
from stabsim.noise.marking import Source
from stabsim.noise.sourced import Rows, by_source, marks_of, rows_of_errors

Keys = NDArray[np.uint64]


def joined_errors(sources: Sequence[Source], table: Rows) -> Joined:
    """The mechanisms of the errors of sources, in the order of what they flip. Errors are counted source by source, each in all of its times."""
    firsts = starts_of(np.array([source.times() for source in sources], dtype=np.int64))
    starts, errors = groups_of(sources, table)
    # The first error of each group, ascending, stands for it.
    groups = np.argsort(errors[starts[:-1]])
    indptr, indices = rows_of_errors(by_source(sources, errors[starts[groups]], firsts), table)
    ordered = np.argsort(places_in_order(indptr, indices), kind="stable")
    # What flips nothing is no mechanism.
    ordered = ordered[np.diff(indptr)[ordered] > 0]
    group, its = rows_of(groups[ordered], starts, errors)
    mechanisms = np.full(len(errors), -1, dtype=np.int64)
    mechanisms[its] = group
    chances = np.repeat(np.array([source.chance for source in sources], dtype=np.float64), np.diff(firsts))
    flips = columns_of(ordered, indptr, indices)
    begins = np.flatnonzero(np.diff(group, prepend=-1))
    return Joined(odd_chances(chances[its], begins), starts_of(np.diff(indptr)[ordered]), flips, mechanisms)


def groups_of(sources: Sequence[Source], table: Rows) -> tuple[Numbers, Numbers]:
    """Errors that flip the same as the rows of a CSR matrix, each row ascending."""
    stream = 0
    while True:
        keys, others = (keys_of(sources, table, it) for it in (stream, stream + 1))
        errors = np.argsort(keys, kind="stable")
        is_new = np.diff(keys[errors], prepend=np.uint64(0)) != 0
        is_new[:1] = True
        starts = np.append(np.flatnonzero(is_new), len(errors))
        if np.array_equal(np.repeat(others[errors[starts[:-1]]], np.diff(starts)), others[errors]):
            return starts, errors
        stream += 2


def keys_of(sources: Sequence[Source], table: Rows, stream: int) -> Keys:
    """A number for each error: the sum of those of what it flips, by a stream of random numbers."""
    of_bits = np.random.Philox(key=stream).random_raw(table.num_detectors + table.num_observables)
    sums = np.append(np.uint64(0), np.bitwise_xor.accumulate(of_bits[table.indices]))
    of_lines = sums[table.indptr[1:]] ^ sums[table.indptr[:-1]]
    of_x, of_z = of_lines[::2], of_lines[1::2]
    of_letters = {"I": np.zeros(len(of_x), dtype=np.uint64), "X": of_x, "Z": of_z, "Y": of_x ^ of_z}
    found = [np.zeros(0, dtype=np.uint64)]
    for source, marks in zip(sources, marks_of(sources)):
        found.append(np.bitwise_xor.reduce([of_letters[letter][marks[:, place]] for place, letter in enumerate(source.letters)], axis=0))
    return np.concatenate(found)
