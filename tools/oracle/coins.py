"""The coins of a seed: coin t of shot s is the lowest bit of word t of stream s of ChaCha8."""

from collections.abc import Callable
from functools import lru_cache

import numpy as np
from numpy.typing import NDArray

CONSTANTS = (0x61707865, 0x3320646E, 0x79622D32, 0x6B206574)
ROUNDS = ((0, 4, 8, 12), (1, 5, 9, 13), (2, 6, 10, 14), (3, 7, 11, 15),
          (0, 5, 10, 15), (1, 6, 11, 12), (2, 7, 8, 13), (3, 4, 9, 14))
# How many blocks of 16 words are made together.
BLOCKS = 16


def quarter(x: NDArray[np.uint32], a: int, b: int, c: int, d: int) -> None:
    for to, of, other, places in ((a, b, d, 16), (c, d, b, 12), (a, b, d, 8), (c, d, b, 7)):
        x[to] += x[of]
        sum_ = x[other] ^ x[to]
        x[other] = sum_ << places | sum_ >> (32 - places)


@lru_cache(100)
def coins_of_blocks(seed: int, shot: int, first: int) -> list[int]:
    """The coins of blocks from one on: of a key of the seed's two words and zeros, the block's number and the shot."""
    start = np.zeros((16, BLOCKS), np.uint32)
    for place, word in enumerate((*CONSTANTS, seed & 0xFFFFFFFF, seed >> 32)):
        start[place] = word
    start[12] = np.arange(first, first + BLOCKS)
    start[14], start[15] = shot & 0xFFFFFFFF, shot >> 32
    x = start.copy()
    for _ in range(4):
        for places in ROUNDS:
            quarter(x, *places)
    return [int(coin) for coin in ((x + start) & 1).T.ravel()]


def coins_of_seed(seed: int, shot: int) -> Callable[[int], int]:
    """Each coin of a shot by its number."""
    return lambda number: coins_of_blocks(seed, shot, number // (16 * BLOCKS) * BLOCKS)[number % (16 * BLOCKS)]
