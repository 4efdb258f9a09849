"""Bits, coordinates and names as tabs are told them."""

import numpy as np
from numpy.typing import NDArray

import stabsim


def line_of(bits: NDArray[np.bool_]) -> str:
    """Bits as characters 0 and 1."""
    return (bits.astype(np.uint8) + ord("0")).tobytes().decode("ascii")


def lists_of(places: NDArray[np.float64]) -> list[list[float]]:
    """Coordinates, a list for each row, without what is nan."""
    rows: list[list[float]] = places.tolist()
    return [[number for number in row if number == number] for row in rows] if np.isnan(places).any() else rows


def names_of(changed: stabsim.Changed) -> list[str]:
    """What changed, as `D3` for detectors and `L0` for observables."""
    return [f"D{number}" for number in changed.detectors] + [f"L{number}" for number in changed.observables]


def place_of(name: str) -> tuple[str, int]:
    """Detectors before observables, each by number."""
    return name[0], int(name[1:])
