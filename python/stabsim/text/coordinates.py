"""Coordinates of detectors and qubits, by Stim's rules, of a text that the program has judged: within its limits a block that has
detectors has few enough rounds to be written out.

SHIFT_COORDS adds its numbers to those of each later DETECTOR and QUBIT_COORDS, coordinate by coordinate, as far as these have any. A block does so in each of its rounds. Of a qubit that is placed several times the last place counts.
"""

import functools
import re
from collections.abc import Iterable, Sequence
from dataclasses import dataclass, field

import numpy as np
from numpy.typing import NDArray

from stabsim.text.reading import Block, Item

# What begins a line that places something, or opens or closes a block: its name, arguments and targets, or a bracket.
PLACING = re.compile(
    r"^[ \t\r]*(?:(DETECTOR|QUBIT_COORDS|SHIFT_COORDS|REPEAT)\b(?:\[[^\]\n]*\])?(?:[ \t\r]*\(([^)\n]*)\))?([^#\n]*)|(\}))",
    re.IGNORECASE | re.MULTILINE)


@dataclass
class Places:
    """What some items place, if nothing is shifted before them.

    detectors: float64 (detectors, width) each, nan if a detector has no coordinate; rows: the coordinates of the detectors after
    those; qubits: the coordinates of each qubit; shift: float64 (k,), by how much what follows is shifted.
    """

    detectors: list[NDArray[np.float64]] = field(default_factory=list)
    rows: list[list[float]] = field(default_factory=list)
    qubits: dict[int, NDArray[np.float64]] = field(default_factory=dict)
    shift: NDArray[np.float64] = field(default_factory=lambda: np.zeros(0))

    def add(self, name: str, numbers: list[float], targets: Iterable[str]) -> None:
        """Places what one instruction places."""
        if name == "DETECTOR":
            self.rows.append(moved(numbers, self.shift) if len(self.shift) else numbers)
        elif name == "QUBIT_COORDS":
            place = shifted(np.array([numbers]), self.shift)[0]
            self.qubits.update((int(target), place) for target in targets)
        elif name == "SHIFT_COORDS":
            self.shift = sum_of(self.shift, np.array(numbers))

    def add_block(self, body: "Places", count: int) -> None:
        """Places what a block's body does, in each round by one more of its shifts."""
        if found := body.parts():
            once = shifted(joined(found), self.shift)
            shifts = np.arange(count)[:, None, None] * body.shift
            self.parts().append(shifted(np.tile(once, (count, 1, 1)), shifts).reshape(count * len(once), once.shape[1]))
        last = sum_of(self.shift, (count - 1) * body.shift)
        self.qubits.update((qubit, shifted(place[None], last)[0]) for qubit, place in body.qubits.items())
        self.shift = sum_of(self.shift, count * body.shift)

    def parts(self) -> list[NDArray[np.float64]]:
        """All detectors so far."""
        if self.rows:
            self.detectors.append(array_of(self.rows))
            self.rows = []
        return self.detectors


def places_of(items: Iterable[Item]) -> Places:
    """What items place, one after another."""
    places = Places()
    for item in items:
        if isinstance(item, Block):
            places.add_block(places_of(item.items), item.repeat)
        elif item.name in ("DETECTOR", "QUBIT_COORDS", "SHIFT_COORDS"):
            places.add(item.name, item.numbers(), item.targets)
    return places


def moved(numbers: list[float], shift: NDArray[np.float64]) -> list[float]:
    """Coordinates with a shift added, as far as there are any."""
    return [number + by for number, by in zip(numbers, shift.tolist())] + numbers[len(shift):]


def array_of(rows: Sequence[Sequence[float]]) -> NDArray[np.float64]:
    """Rows as an array, filled up by nan to the width of the widest."""
    width = max(map(len, rows), default=0)
    return np.array([row if len(row) == width else [*row, *[np.nan] * (width - len(row))] for row in rows], dtype=np.float64).reshape(len(rows), width)


def sum_of(left: NDArray[np.float64], right: NDArray[np.float64]) -> NDArray[np.float64]:
    """The sum of coordinates; those that one side lacks are 0."""
    total = np.zeros(max(len(left), len(right)))
    total[: len(left)] += left
    total[: len(right)] += right
    return total


def shifted(places: NDArray[np.float64], shift: NDArray[np.float64]) -> NDArray[np.float64]:
    """Places (.., k) with the shift (.., l) added, as far as they have coordinates."""
    moved = places.copy()
    width = min(moved.shape[-1], shift.shape[-1])
    moved[..., :width] += shift[..., :width]
    return moved


def joined(parts: list[NDArray[np.float64]]) -> NDArray[np.float64]:
    """Places one after another, filled up by nan to the width of the widest."""
    width = max((part.shape[1] for part in parts), default=0)
    filled = np.full((sum(len(part) for part in parts), width), np.nan)
    start = 0
    for part in parts:
        filled[start : start + len(part), : part.shape[1]] = part
        start += len(part)
    return filled


def coordinates_of(text: str) -> Places:
    """What a circuit's text places. Lines that place nothing are not looked at."""
    opened = [(1, Places())]
    for name, arguments, rest, closes in PLACING.findall(text):
        if closes:
            count, body = opened.pop()
            opened[-1][1].add_block(body, count)
        elif name.upper() == "REPEAT":
            opened.append((int(rest.strip(" \t\r{")), Places()))
        else:
            opened[-1][1].add(name.upper(), numbers_of(arguments), rest.split())
    return opened[0][1]


# Detectors of rounds that are written out have the same numbers, and a shift between them.
@functools.lru_cache(maxsize=8192)
def numbers_of(arguments: str) -> list[float]:
    return [float(it) for it in arguments.split(",")] if arguments.strip() else []


def detector_coordinates(text: str) -> NDArray[np.float64]:
    """The coordinates of each detector of a text, float64 (detectors, width), nan if a detector has none."""
    return detector_rows(coordinates_of(text))


def qubit_coordinates(text: str, qubits: int) -> NDArray[np.float64]:
    """The coordinates of the first qubits of a text, float64 (qubits, width), nan if a qubit has none."""
    return qubit_rows(coordinates_of(text), qubits)


def detector_rows(places: Places) -> NDArray[np.float64]:
    """A row for each detector that is placed, or has no place."""
    return joined(places.parts())


def qubit_rows(places: Places, qubits: int) -> NDArray[np.float64]:
    """A row for each of the first qubits."""
    width = max((len(place) for place in places.qubits.values()), default=0)
    filled = np.full((qubits, width), np.nan)
    for qubit, place in places.qubits.items():
        filled[qubit, : len(place)] = place
    return filled
