"""Parities of records that no coin decides: those that are local, and those that detectors and observables declare."""

import functools
import operator
from collections.abc import Iterable, Iterator, Sequence
from dataclasses import dataclass
from typing import NamedTuple

import numpy as np
from numpy.typing import NDArray

from stabsim.questions.coins import CoinTable
from stabsim.text.reading import Block, Item
from stabsim.text.sizes import Sizes, observable_of, sizes_of

Records = frozenset[int]


class Parity(NamedTuple):
    """Some records whose parity is the same for all random bits.

    records: tuple of int, ascending, from 0; value: bool, the parity. is_logical: whether it may be an observable, as `missing_detectors`
    says.

    >>> import stabsim
    >>> stabsim.Circuit("MX 0 !0").missing_detectors()
    [Parity(records=(0, 1), value=True, is_logical=False)]
    """

    records: tuple[int, ...]
    value: bool
    is_logical: bool = False


@dataclass(frozen=True)
class SameDistribution:
    """Whether two circuits give the same distribution of records; it is true if they do.

    same: bool. parity: tuple of int, if not, records whose parity differs; first, second: what it is in each, True, False, or None if
    coins decide it.

    >>> import stabsim
    >>> found = stabsim.Circuit("M 0 1").same_distribution(stabsim.Circuit("M 0\\nMX 1"))
    >>> bool(found), found.parity, found.first, found.second
    (False, (1,), False, None)
    """

    same: bool
    parity: tuple[int, ...] = ()
    first: bool | None = None
    second: bool | None = None

    def __bool__(self) -> bool:
        return self.same


class Independent:
    """Records whose columns are independent, as sums of some, with which others are found to depend on them.

    rows: by the length of a vector that vector, and the records whose columns add up to it. having: by record the rows that had it.
    """

    def __init__(self) -> None:
        self.rows: dict[int, tuple[int, set[int]]] = {}
        self.having: dict[int, set[int]] = {}

    def rest(self, record: int, column: int) -> tuple[int, set[int]]:
        """What is left of a record's column without those that it depends on, and the records of which that is the sum."""
        vector, together = column, {record}
        while vector and vector.bit_length() in self.rows:
            other, its = self.rows[vector.bit_length()]
            vector ^= other
            together ^= its
        return vector, together

    def add(self, rows: set[int], records: set[int]) -> None:
        """Adds records to some rows."""
        for row in rows:
            self.rows[row][1].symmetric_difference_update(records)
        for record in records if rows else ():
            self.having[record] = self.having.get(record, set()) ^ rows

    def drop(self, lengths: Iterable[int]) -> None:
        """Drops the vectors of these lengths, which no later column has."""
        for length in lengths:
            self.rows.pop(length, None)


def local_parities(columns: Iterable[int], fixed: int | None = None, later: Sequence[int] | None = None) -> list[Records]:
    """The parities that no coin decides, as a basis: for each record that those before it determine one that ends with it and begins as
    late as any can.

    columns: for each record the coins that flip it, as digits of a number. The last records whose columns are independent are kept; a
    record that depends on them makes a parity with some, of which the first is then given up. fixed: a place from which on nothing is
    given up, so that what is there is made of what is before it. later: for each record how many coins flip one after it, if just the
    digits of these are the lowest; the rest is forgotten.
    """
    kept = Independent()
    found = []
    for record, column in enumerate(columns):
        vector, together = kept.rest(record, column)
        if vector:
            kept.rows[vector.bit_length()] = (vector, set())
            kept.add({vector.bit_length()}, together)
        else:
            found.append(frozenset(together))
        if not vector and (fixed is None or record < fixed):
            kept.add(kept.having.get(min(together), set()) & kept.rows.keys(), together)
        if later is not None and record:
            kept.drop(range(later[record] + 1, later[record - 1] + 1))
    return found


def known_parities(items: Iterable[Item]) -> tuple[list[Records], list[Records]]:
    """The records of each detector, and those of each observable that has any."""
    detectors: list[Records] = []
    observables: dict[int, Records] = {}
    for observable, records in declared(items, 0):
        if observable is None:
            detectors.append(records)
        else:
            observables[observable] = observables.get(observable, frozenset()) ^ records
    return detectors, list(observables.values())


def declared(items: Iterable[Item], before: int) -> Iterator[tuple[int | None, Records]]:
    """For each detector None and its records, for each part of an observable its number and records; before: how many records are there."""
    for item in items:
        its = sizes_of(item.items if isinstance(item, Block) else (item,))
        if isinstance(item, Block):
            rounds = range(item.repeat) if its.detectors or its.observables else ()
            for number in rounds:
                yield from declared(item.items, before + number * its.records)
        elif item.name in ("DETECTOR", "OBSERVABLE_INCLUDE"):
            records: Records = frozenset()
            for target in item.targets:
                records ^= {before + int(target[4:-1])}
            yield (None if item.name == "DETECTOR" else observable_of(item)), records
        before = Sizes(records=before).before(its, item.repeat or 1).records


def compared(first: CoinTable, second: CoinTable) -> SameDistribution:
    """What `Circuit.same_distribution` answers: each parity that no coin of one decides must be the same in the other."""
    if first.num_records != second.num_records:
        raise ValueError(f"{first.num_records} records and {second.num_records} have no distribution in common")
    tables = [(table.columns(table.num_records), table.constants()) for table in (first, second)]
    for columns, _ in tables:
        for records in sorted(local_parities(columns), key=lambda it: (len(it), max(it))):
            values = [value_of(records, *table) for table in tables]
            if values[0] != values[1]:
                return SameDistribution(False, tuple(sorted(records)), *values)
    return SameDistribution(True)


def value_of(records: Records, columns: Sequence[int], constants: NDArray[np.bool_]) -> bool | None:
    """The parity of some records, or None if coins decide it."""
    coins = functools.reduce(operator.xor, (columns[record] for record in records), 0)
    return None if coins else bool(constants[list(records)].sum() % 2)


def detector_lines(parities: Iterable[Parity | Iterable[int]], records: int) -> str:
    """A DETECTOR line for each parity, after this many records."""
    lines = []
    for parity in parities:
        its = parity.records if isinstance(parity, Parity) else tuple(parity)
        if not all(0 <= record < records for record in its):
            raise ValueError(f"{list(its)} are not all records of the circuit, which has {records}, counted from 0")
        lines.append(" ".join(["DETECTOR", *(f"rec[{record - records}]" for record in its)]) + "\n")
    return "".join(lines)
