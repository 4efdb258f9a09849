"""A circuit whose resets make records too, so that parities of records show at which resets their detecting regions begin."""

import itertools
from collections.abc import Iterable, Iterator
from dataclasses import dataclass, field

from stabsim.text.names import ANNOTATIONS, MEASUREMENTS, RESETS
from stabsim.text.reading import Block, Instruction, Item
from stabsim.text.sizes import sizes_of

# How the state that a reset makes, or its opposite, is made at random, and then measured.
RANDOM = {"R": ("RX", "M"), "RX": ("R", "MX"), "RY": ("R", "MY")}


@dataclass
class Recorded:
    """A circuit in which a reset makes its state or the opposite one, at random, and a record says which.

    lines: its text. moments: for each of its records how many instructions of the circuit are in front of what makes it.
    places: for each record of the circuit which of these it is. The others are of resets: first one for each qubit, of its state before
    the circuit.
    """

    lines: list[str] = field(default_factory=list)
    moments: list[int] = field(default_factory=list)
    places: list[int] = field(default_factory=list)

    def add_reset(self, name: str, qubit: str, moment: int) -> None:
        """A reset of one qubit."""
        prepared, measured = RANDOM[name]
        self.lines.append(f"{prepared} {qubit}\n{measured} {qubit}\n")
        self.moments.append(moment)

    def add_measurement(self, name: str, target: str, moment: int) -> None:
        """A measurement of one target, and the reset that may be a part of it."""
        is_reset = name.startswith("MR")
        self.lines.append(f"{name.replace('R', '')} {target}\n")
        self.places.append(len(self.moments))
        self.moments.append(moment)
        if is_reset:
            self.add_reset(name[1:], target.lstrip("!"), moment)

    def add(self, item: Instruction, moment: int) -> None:
        """An instruction."""
        if item.name in ANNOTATIONS:
            return
        if item.name not in (*RESETS, *MEASUREMENTS):
            self.lines.append(" ".join([item.name, *map(self.placed, item.targets)]) + "\n")
            return
        add_one = self.add_reset if item.name in RESETS else self.add_measurement
        for target in item.targets:
            add_one(item.name, target, moment)

    def placed(self, target: str) -> str:
        """A target of a gate; a record of the circuit as the one that it is here."""
        return f"rec[{self.places[int(target[4:-1])] - len(self.moments)}]" if target.startswith("rec[") else target


def recorded(items: Iterable[Item], qubits: int) -> Recorded:
    """The circuit of these items with records of resets; qubits: how many it has."""
    found = Recorded()
    for qubit in range(qubits):
        found.add_reset("R", str(qubit), 0)
    for moment, item in enumerate(written_out(items)):
        found.add(item, moment)
    return found


def written_out(items: Iterable[Item]) -> Iterator[Instruction]:
    """The instructions, with those of a block in each of its rounds; a block without steps may have any number of these, and is left out."""
    for item in items:
        if isinstance(item, Block):
            yield from itertools.chain.from_iterable(written_out(item.items) for _ in range(item.repeat if sizes_of(item.items).steps else 0))
        else:
            yield item
