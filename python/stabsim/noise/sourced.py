"""What the errors of a circuit's noise flip, by the table of faults of the circuit with marks."""

import functools
from collections.abc import Iterable, Iterator, Sequence
from typing import Protocol

import numpy as np
from numpy.typing import NDArray

from stabsim.formats.combining import Chances, Numbers, odd, rows_of, starts_of
from stabsim.noise.marking import Marks, Source

# Which of a mark's two lines of a table each letter is made of.
SECOND = {"I": (), "X": (0,), "Y": (0, 1), "Z": (1,)}


class Rows(Protocol):
    """What X and Z of each mark flip, one after the other, as a CSR matrix of this many columns."""

    @property
    def indptr(self) -> NDArray[np.int64]: ...

    @property
    def indices(self) -> NDArray[np.int64]: ...

    @property
    def num_detectors(self) -> int: ...

    @property
    def num_observables(self) -> int: ...


def errors_of(source: Source, table: Rows) -> tuple[Chances, Numbers, Numbers]:
    """The errors of a source: the chance of each, and pairs, ascending, of an error and what it flips."""
    count = source.times()
    return np.full(count, source.chance), *flips_of([(source, np.arange(count))], table)


def rows_of_errors(several: Sequence[tuple[Source, Numbers]], table: Rows) -> tuple[Numbers, Numbers]:
    """What some of the errors of sources flip, as a CSR matrix."""
    errors, columns = flips_of(several, table)
    return starts_of(np.bincount(errors, minlength=sum(len(some) for _, some in several))), columns


def flips_of(several: Sequence[tuple[Source, Numbers]], table: Rows) -> tuple[Numbers, Numbers]:
    """Pairs, ascending, of an error and what it flips, of some of the errors of sources, counted one after another."""
    lines, errors, first = [np.zeros(0, dtype=np.int64)], [np.zeros(0, dtype=np.int64)], 0
    for marks, some, letters in by_channel(several):
        number, place, second = lines_of_letters(letters)
        lines.append((2 * marks[some].T[place] + second).ravel())
        errors.append((np.arange(first, first + len(some)) + len(some) * number).ravel())
        first += len(some) * len(letters)
    of_row, columns = rows_of(np.concatenate(lines), table.indptr, table.indices)
    return odd(np.concatenate(errors)[of_row], columns, table.num_detectors + table.num_observables)


def by_channel(several: Iterable[tuple[Source, Numbers]]) -> Iterator[tuple[Marks, Numbers, tuple[str, ...]]]:
    """The marks of channels in all rounds, with which errors are meant, and the letters of sources of the same channel of which the same are."""
    run: list[str] = []
    source, some = None, np.zeros(0, dtype=np.int64)
    for its, errors in several:
        if source is None or its.marks is not source.marks or its.blocks != source.blocks or errors is not some:
            if source is not None:
                yield source.all_marks(), some, tuple(run)
            source, some, run = its, errors, []
        run.append(its.letters)
    if source is not None:
        yield source.all_marks(), some, tuple(run)


@functools.lru_cache(maxsize=1024)
def lines_of_letters(letters: tuple[str, ...]) -> tuple[Numbers, Numbers, Numbers]:
    """The lines of a mark's X and Z that letters are made of: columns with the number of the letters, and with 0 of X, which is an even line of
    a table, and 1 of Z, which is the odd one after it; between them the place of each among the marks."""
    found = [(number, place, second) for number, its in enumerate(letters) for place, letter in enumerate(its) for second in SECOND[letter]]
    number, place, second = np.array(found, dtype=np.int64).reshape(-1, 3).T
    return number[:, None], place, second[:, None]


def marks_of(sources: Iterable[Source]) -> Iterator[Marks]:
    """The marks of each source in all rounds, counted once for errors of the same channel, which have the same."""
    last: Source | None = None
    for source in sources:
        if last is None or source.marks is not last.marks or source.blocks != last.blocks:
            marks, last = source.all_marks(), source
        yield marks


def errors_at(sources: Sequence[Source], is_meant: NDArray[np.bool_]) -> list[Numbers]:
    """Which errors of each source are at a mark that is meant, the same array for sources of one channel."""
    found: list[Numbers] = []
    last = None
    for marks in marks_of(sources):
        found.append(found[-1] if marks is last else np.flatnonzero(is_meant[marks.T].any(axis=0)))
        last = marks
    return found


def by_source(sources: Sequence[Source], errors: Numbers, firsts: Numbers) -> list[tuple[Source, Numbers]]:
    """Errors, ascending, by the sources that they are of, as each counts its own; firsts: the first error of each, and how many there are."""
    bounds = np.searchsorted(errors, firsts).tolist()
    return [(source, errors[low:high] - first) for source, first, low, high in zip(sources, firsts.tolist(), bounds, bounds[1:]) if low < high]
