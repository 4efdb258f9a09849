"""How much there is of a circuit, counted from its items with blocks written out."""

import re
from collections.abc import Iterable
from dataclasses import dataclass

from stabsim.errors import Refused
from stabsim.text import names
from stabsim.text.reading import Block, Instruction, Item, Parts, items_of, lines_like

QUBIT = re.compile(r"(?<!\d)\d+")
# Lines that are a TICK, or may open or close a block.
TICKING = re.compile(r"^(?:[ \t\r]*TICK|[^{}\n]*[{}]).*", re.MULTILINE | re.IGNORECASE)


@dataclass(frozen=True)
class Sizes:
    """How many qubits, steps, records, detectors, observables and ticks there are: of qubits and observables, one more than the greatest
    number that is named."""

    qubits: int = 0
    steps: int = 0
    records: int = 0
    detectors: int = 0
    observables: int = 0
    ticks: int = 0

    def before(self, later: "Sizes", rounds: int) -> "Sizes":
        """With this many rounds of others after it."""
        return Sizes(max(self.qubits, later.qubits), self.steps + rounds * later.steps, self.records + rounds * later.records,
                     self.detectors + rounds * later.detectors, max(self.observables, later.observables), self.ticks + rounds * later.ticks)


def sizes_of(items: Iterable[Item]) -> Sizes:
    """The sizes of items. Raises Refused at an instruction that the program does not read."""
    sizes = Sizes()
    for item in items:
        if isinstance(item, Block):
            sizes = sizes.before(sizes_of(item.items), item.repeat)
        else:
            sizes = sizes.before(sizes_of_one(item), 1)
    return sizes


def sizes_of_one(item: Instruction) -> Sizes:
    """The sizes of one instruction."""
    if item.name not in names.READ:
        raise Refused(1, "UnsupportedName", item.line, f"{item.name} is not read; stabsim.from_stim reads all of Stim's instructions.")
    if item.name == "DETECTOR":
        return Sizes(steps=1, detectors=1)
    if item.name == "OBSERVABLE_INCLUDE":
        return Sizes(steps=1, observables=observable_of(item) + 1)
    return Sizes(most_of(item.targets) + 1, steps_of(item), records_of(item), ticks=int(item.name == "TICK"))


def observable_of(item: Instruction) -> int:
    """The number of an observable."""
    numbers = item.numbers()
    if len(numbers) != 1 or numbers[0] < 0 or numbers[0] % 1:
        raise Refused(2, "BadArguments", item.line, "OBSERVABLE_INCLUDE wants the number of its observable.")
    return int(numbers[0])


def most_of(targets: Iterable[str]) -> int:
    """The greatest qubit that targets name, -1 if they name none."""
    return max((int(number) for target in targets if not target.startswith("rec[") for number in QUBIT.findall(target)), default=-1)


def ticks_in(text: str) -> int:
    """How many TICKs a text has that the program has judged."""
    return sizes_of(items_of(lines_like(text, TICKING))).ticks


def steps_of(item: Instruction) -> int:
    """How many steps an instruction has: one for each target or pair, and one if it declares a detector or observable."""
    if item.name in names.ANNOTATIONS:
        return int(item.name in names.DECLARATIONS)
    return len(item.targets) // (2 if item.name in names.TWO_QUBITS else 1)


def records_of(item: Instruction | Parts) -> int:
    """How many records an instruction makes."""
    return len(item.targets) if item.name in names.MEASUREMENTS else 0
