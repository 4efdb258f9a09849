"""Gauge detectors, which coins decide: what coins flip are errors of chance a half, as Stim's `allow_gauge_detectors` has it.

Any basis of what coins flip makes the same distribution. In this one each row has a detector of its own, which stands for the coin: the sum
of another detector with those of the rows that flip it is the same for all coins, and an error is taken to flip that sum. Of a row's own
detector no error is said: with the row it makes what the coin makes anyhow.
"""

from collections.abc import Iterable, Sequence
from dataclasses import replace
from typing import TYPE_CHECKING

import numpy as np

from stabsim.errors import Refused
from stabsim.formats.combining import starts_of
from stabsim.noise.flipped import Flipped
from stabsim.questions.asked import Asked
from stabsim.text.reading import items_of
from stabsim.text.record_sums import sums_of

if TYPE_CHECKING:
    from stabsim.noise.models import ErrorModel

# The rows of a basis, by the detector that each has of its own.
Basis = dict[int, set[int]]


def gauges_of(text: str) -> Basis:
    """A basis of what the coins of a circuit flip, as sets of detectors. Raises Refused, 18 NotDeterministic, if coins decide an observable."""
    table = Asked(text).coins()
    first, end = table.num_records, table.num_records + table.num_detectors
    found: Basis = {}
    for row in range(len(table)):
        flipped = table.flipped(row)
        if (flipped >= end).any():
            observable = int(flipped[flipped >= end][0]) - end
            raise Refused(18, "NotDeterministic", None, f"observable {observable} is not the same for all coins, and gauges are detectors alone")
        add_to(found, {int(it) - first for it in flipped[flipped >= first]})
    return found


def add_to(basis: Basis, row: set[int]) -> None:
    """Adds a row to a basis, if it is none of its sums."""
    for own in row & basis.keys():
        row = row ^ basis[own]
    if not row:
        return
    own = min(row)
    for other in [it for it in basis if own in basis[it]]:
        basis[other] ^= row
    basis[own] = row


def table_with_gauges(lines: Sequence[str], basis: Basis, detectors: int, observables: int) -> Flipped:
    """What marks of lines flip: a gauge detector is flipped where its sum with those that stand for coins is."""
    sums = {detector: {detector, *(own for own, row in basis.items() if detector in row)}
            for detector in set().union(*basis.values()) - basis.keys()}
    table = Flipped.of([*lines, *lines_of_sums("\n".join(lines), sums.values())], detectors + len(sums), observables, sure_only=True)
    # The sums are declared after all detectors, and are the gauge detectors' now.
    place = np.concatenate([np.arange(detectors), np.fromiter(sums, np.int64, len(sums)), detectors + np.arange(observables)])
    rows, indices = np.repeat(np.arange(len(table.indptr) - 1), np.diff(table.indptr)), place[table.indices]
    return Flipped(table.indptr, indices[np.lexsort((indices, rows))], detectors, observables)


def lines_of_sums(text: str, sums: Iterable[set[int]]) -> list[str]:
    """A detector for each sum of detectors, after all of a text."""
    added = sums_of(items_of(text))
    records: dict[int, set[int]] = {}
    for detector, record in added.of_detectors.tolist():
        records.setdefault(detector, set()).symmetric_difference_update({record})
    lines = []
    for detectors in sums:
        total = set[int]()
        for detector in detectors:
            total ^= records.get(detector, set())
        lines.append(" ".join(["DETECTOR", *(f"rec[{record - added.records}]" for record in sorted(total))]))
    return lines


def with_gauges(model: "ErrorModel", basis: Basis) -> "ErrorModel":
    """A model with a mechanism of chance a half for each row of a basis."""
    rows = [sorted(row) for row in basis.values()]
    chances, indptr = np.full(len(rows), 0.5), starts_of(np.array([len(row) for row in rows], dtype=np.int64))
    indices = np.array([it for row in rows for it in row], dtype=np.int64)
    noise = model.noise.with_more(chances, indptr, indices) if model.noise else None
    return replace(model, chances=np.append(model.chances, chances), indptr=np.append(model.indptr, model.indptr[-1] + indptr[1:]),
                   indices=np.append(model.indices, indices), noise=noise).joined()
