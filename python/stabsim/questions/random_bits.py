"""Which coins decide a detector or an observable, as `deterministic --explain` writes them."""

import re
from dataclasses import dataclass
from typing import NamedTuple

import numpy as np
from numpy.typing import NDArray

COIN = re.compile(r"c(\d+)@([\d/]+)")
# A detector's coordinates in brackets are those of its line, without shifts.
LINE = re.compile(r"([DL]\d+) ([\d/]+)(?: \([^)]*\))?((?: c\d+@[\d/]+)+)")


class DecidingCoin(NamedTuple):
    """A coin that decides a bit: number: int, among all coins; path: str, of the measurement or reset whose outcome it is.

    >>> import stabsim
    >>> stabsim.Circuit("MX 0\\nOBSERVABLE_INCLUDE(0) rec[-1]").explain()[0].coins
    (DecidingCoin(number=0, path='0'),)
    """

    number: int
    path: str


@dataclass(frozen=True)
class RandomBit:
    """A detector or an observable that is not the same for all random bits.

    name: str, as D37 or L0; path: str, of its item, of an observable the first that adds to it; coordinates: tuple of float; coins: a
    tuple of DecidingCoin, those that decide it.

    >>> import stabsim
    >>> [bit] = stabsim.Circuit("R 0\\nMX 0\\nDETECTOR(4, 0) rec[-1]").explain()
    >>> bit.name, bit.path, bit.coordinates, bit.coins
    ('D0', '2', (4.0, 0.0), (DecidingCoin(number=1, path='1'),))
    >>> print(bit)
    D0 of item 2 is decided by item 1
    """

    name: str
    path: str
    coordinates: tuple[float, ...]
    coins: tuple[DecidingCoin, ...]

    def __str__(self) -> str:
        paths = list(dict.fromkeys(coin.path for coin in self.coins))
        return f"{self.name} of item {self.path} is decided by item{'s' * (len(paths) > 1)} {', '.join(paths)}"


def coins_of(text: str) -> tuple[DecidingCoin, ...]:
    """The coins of a text such as `c12@12 c40@66/3`."""
    return tuple(DecidingCoin(int(number), path) for number, path in COIN.findall(text))


def bit_of(line: str, coordinates: NDArray[np.float64]) -> RandomBit:
    """The bit of a line such as `D37 69 (1, 3, 2) c12@12 c40@66/3`; coordinates: float64 (detectors, width) with shifts, nan if a
    detector has none."""
    found = LINE.fullmatch(line)
    if not found:
        raise ValueError(f"{line!r} says of no bit what decides it")
    name, path, coins = found.groups()
    row = coordinates[int(name[1:])] if name[0] == "D" else np.zeros(0)
    return RandomBit(name, path, tuple(row[~np.isnan(row)].tolist()), coins_of(coins))
