"""Where qubits are drawn: by their coordinates, or if they have none in rows."""

import math
from collections.abc import Iterable
from dataclasses import dataclass

import numpy as np
from numpy.typing import NDArray

from stabsim.diagrams.elements import Point

# The most qubits in one row if none has coordinates.
MOST_IN_ROW = 12
# How far apart neighbours are, and how wide the margins, in pixels.
PITCH = 58.0
LEAST_PITCH = 14.0
MOST_SIDE = 1600.0
MARGIN = 50.0


@dataclass(frozen=True)
class Places:
    """Where each qubit is, in pixels from the upper left corner of a picture of this size; pitch: how far apart neighbours are."""

    at: dict[int, Point]
    width: float
    height: float
    pitch: float

    @property
    def side(self) -> float:
        """The side of a glyph."""
        return max(3.0, min(40.0, self.pitch * 0.54))

    def moved(self, across: float, down: float) -> "Places":
        """The same, moved to the right and down."""
        return Places({qubit: (x + across, y + down) for qubit, (x, y) in self.at.items()}, self.width, self.height, self.pitch)


def places_of(coordinates: NDArray[np.float64], used: Iterable[int]) -> Places:
    """The places of qubits that have coordinates, float64 (qubits, width) with nan if there are none, or that are used."""
    given = {qubit: (float(row[0]), float(row[1]) if len(row) > 1 and not math.isnan(row[1]) else 0.0)
             for qubit, row in enumerate(coordinates) if len(row) and not math.isnan(row[0])}
    given = apart(given)
    homeless = sorted(set(used) - set(given))
    below = max((y for _, y in given.values()), default=-1.0) + 1
    left = min((x for x, _ in given.values()), default=0.0)
    in_row = MOST_IN_ROW if given or len(homeless) <= MOST_IN_ROW else math.ceil(math.sqrt(len(homeless)))
    for place, qubit in enumerate(homeless):
        given[qubit] = (left + place % in_row, below + place // in_row)
    return scaled(given)


def apart(given: dict[int, Point]) -> dict[int, Point]:
    """Qubits of one place, as of several layers, a little beside each other."""
    taken: dict[Point, int] = {}
    found = {}
    for qubit, (x, y) in given.items():
        count = taken.get((x, y), 0)
        taken[x, y] = count + 1
        found[qubit] = (x + 0.3 * count, y + 0.3 * count)
    return found


def scaled(given: dict[int, Point]) -> Places:
    """Places in pixels, so that neighbours have room and the picture stays within its greatest size."""
    if not given:
        return Places({}, 2 * MARGIN, 2 * MARGIN, PITCH)
    spots = np.array(list(given.values()))
    near = nearest(spots)
    low, high = spots.min(axis=0), spots.max(axis=0)
    most = max(float((high - low).max()), near)
    scale = max(min(PITCH / near, MOST_SIDE / most), LEAST_PITCH / near)
    pixels = (spots - low) * scale + MARGIN
    width, height = (float(side) for side in (high - low) * scale + 2 * MARGIN)
    return Places({qubit: (float(x), float(y)) for qubit, (x, y) in zip(given, pixels)}, width, height, near * scale)


def nearest(spots: NDArray[np.float64]) -> float:
    """The least distance of two spots that are apart."""
    least = math.inf
    ordered = spots[np.argsort(spots[:, 0])]
    for place, spot in enumerate(ordered):
        behind = ordered[place + 1 :]
        behind = behind[: int(np.searchsorted(behind[:, 0], spot[0] + min(least, 1e9)))]
        far = np.hypot(*(behind - spot).T)
        least = min(least, float(far[far > 0].min(initial=math.inf)))
    return 1.0 if math.isinf(least) else least
