"""Which records each detector and observable of a circuit adds up."""

from collections.abc import Iterable
from dataclasses import dataclass, field

import numpy as np

from stabsim.formats.combining import Numbers
from stabsim.text.reading import Block, Instruction, Item
from stabsim.text.sizes import observable_of, records_of


@dataclass
class Sums:
    """What some items add up.

    records, detectors: how many there are. of_detectors, of_observables: int64 (pairs, 2), a detector or an observable and a record that
    it adds, both counted from these items on: a record before them is negative.
    """

    records: int = 0
    detectors: int = 0
    of_detectors: Numbers = field(default_factory=lambda: np.zeros((0, 2), dtype=np.int64))
    of_observables: Numbers = field(default_factory=lambda: np.zeros((0, 2), dtype=np.int64))

    def rounds(self, count: int) -> "Sums":
        """What a block of these items adds up."""
        # A block that adds up nothing may have any number of rounds.
        rounds = np.arange(count if len(self.of_detectors) + len(self.of_observables) else 0)[:, None, None]
        of_detectors = self.of_detectors + rounds * np.array([self.detectors, self.records])
        of_observables = self.of_observables + rounds * np.array([0, self.records])
        return Sums(count * self.records, count * self.detectors, of_detectors.reshape(-1, 2), of_observables.reshape(-1, 2))


def sums_of(items: Iterable[Item]) -> Sums:
    """What items add up, one after another."""
    parts = []
    records = detectors = 0
    for item in items:
        part = sums_of(item.items).rounds(item.repeat) if isinstance(item, Block) else sums_of_one(item)
        part.of_detectors += np.array([detectors, records])
        part.of_observables += np.array([0, records])
        parts.append(part)
        records, detectors = records + part.records, detectors + part.detectors
    nothing = Sums()
    return Sums(records, detectors, np.concatenate([nothing.of_detectors, *(part.of_detectors for part in parts)]),
                np.concatenate([nothing.of_observables, *(part.of_observables for part in parts)]))


def sums_of_one(item: Instruction) -> Sums:
    """What one instruction adds up."""
    if item.name == "DETECTOR":
        return Sums(detectors=1, of_detectors=pairs_of(0, item))
    if item.name == "OBSERVABLE_INCLUDE":
        return Sums(of_observables=pairs_of(observable_of(item), item))
    return Sums(records=records_of(item))


def pairs_of(number: int, item: Instruction) -> Numbers:
    """A number with each of the records that an instruction looks back to."""
    return np.array([(number, -int(target[5:-1])) for target in item.targets], dtype=np.int64).reshape(-1, 2)


def observable_records(items: Iterable[Item]) -> dict[int, set[int]]:
    """For each observable that adds up records, which these are, counted from 0; one that comes twice is left out."""
    found: dict[int, set[int]] = {}
    for observable, record in sums_of(items).of_observables.tolist():
        found.setdefault(observable, set()).symmetric_difference_update({record})
    return found
