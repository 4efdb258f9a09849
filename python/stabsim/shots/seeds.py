"""Seeds of shots: one that is drawn afresh if none is given, and arrays that keep the seed of their shots."""

import secrets
from typing import Any, Generic, TypeVar

import numpy as np
from numpy.typing import NDArray

from stabsim import checking

Scalar = TypeVar("Scalar", bound=np.generic)


class Seeded(np.ndarray[Any, np.dtype[Scalar]], Generic[Scalar]):
    """An array of shots, bool or of packed bits uint8, that keeps their seed.

    seed: int, by which the same call gives the same bits. are_flips: whether a decoder may take them for what was flipped: False of parities
    of detectors of which some is 1 without noise. Parts of the array keep both; what is computed of it is a plain array.

    >>> import numpy
    >>> import stabsim
    >>> c = stabsim.Circuit("H 0 1 2 3\\nM 0 1 2 3\\n")
    >>> drawn = c.sample(1000)
    >>> numpy.array_equal(drawn, c.sample(1000, seed=drawn.seed))
    True
    """

    seed: int
    are_flips: bool

    def __array_finalize__(self, other: object) -> None:
        self.seed = getattr(other, "seed", 0)
        self.are_flips = getattr(other, "are_flips", True)

    def __array_wrap__(self, array: NDArray[Any], context: object = None, return_scalar: bool = False) -> Any:
        return array.view(np.ndarray)[()]

    def __reduce__(self) -> tuple[Any, ...]:
        reduced: tuple[Any, ...] = tuple(super().__reduce__())
        return (*reduced[:2], (reduced[2], self.seed, self.are_flips))

    def __setstate__(self, state: Any) -> None:
        super().__setstate__(state[0])
        self.seed, self.are_flips = state[1:]


SeededBits = Seeded[np.bool_]
SeededBytes = Seeded[np.uint8]


def drawn_seed(seed: int | None) -> int:
    """A seed that is given, or a fresh one in 0..2**64."""
    return secrets.randbits(64) if seed is None else checking.seed("seed", seed)


def seeded(bits: NDArray[Scalar], seed: int, are_flips: bool = True) -> Seeded[Scalar]:
    """An array with the seed of its shots."""
    found = bits.view(Seeded)
    found.seed, found.are_flips = seed, are_flips
    return found
