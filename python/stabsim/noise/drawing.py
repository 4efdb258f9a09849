"""Drawing which error mechanisms happen, so that a shot is the same whatever other shots are drawn with it.

Shots are drawn in blocks of 1,024. A block has a stream of its own of numpy's Philox, whose key is the seed and whose counter begins
with the block's number, so a block is drawn whole or not at all, by whoever wants shots of it. Its raw words are taken, which stay the
same from one numpy to the next: the numbers that numpy makes of them need not.
"""

from collections.abc import Iterator

import numpy as np
from numpy.typing import NDArray

from stabsim.formats import combining

BLOCK = 1024


def flips(chances: NDArray[np.float64], indptr: NDArray[np.int64], indices: NDArray[np.int64], width: int,
          shots: int, seed: int, first_shot: int) -> NDArray[np.bool_]:
    """What is flipped in shots first_shot, first_shot + 1 .. of a seed, as a bool array (shots, width)."""
    drawn = np.zeros((shots, width), dtype=np.bool_)
    for mechanisms, places in events(chances, shots, seed, first_shot):
        flip(drawn, mechanisms, places, indptr, indices)
    return drawn


def events(chances: NDArray[np.float64], shots: int, seed: int, first_shot: int) -> Iterator[tuple[NDArray[np.int64], NDArray[np.int64]]]:
    """What happens in these shots, block by block: pairs of a mechanism, and of a shot as it is counted from the first."""
    for block in blocks_of(shots, seed, first_shot):
        mechanisms, places = happened(chances, words_of(seed, block, 0))
        places += block * BLOCK - first_shot
        is_wanted = (places >= 0) & (places < shots)
        yield mechanisms[is_wanted], places[is_wanted]


def events_with_words(chances: NDArray[np.float64], shots: int, seed: int,
                      first_shot: int) -> Iterator[tuple[NDArray[np.int64], NDArray[np.int64], NDArray[np.uint64]]]:
    """The same of other random words than those of `events`, with a further one for each pair."""
    for block in blocks_of(shots, seed, first_shot):
        words = words_of(seed, block, 2)
        mechanisms, places = happened(chances, words)
        more = words.random_raw(len(mechanisms))
        places += block * BLOCK - first_shot
        is_wanted = (places >= 0) & (places < shots)
        yield mechanisms[is_wanted], places[is_wanted], more[is_wanted]


def blocks_of(shots: int, seed: int, first_shot: int) -> range:
    """The blocks that shots are in."""
    if shots < 0 or first_shot < 0 or not 0 <= seed < 2**64:
        raise ValueError("shots are 0 or more, and a seed is from 0 to 2**64 - 1")
    return range(first_shot // BLOCK, -(-(first_shot + shots) // BLOCK))


def parts_of_shots(shots: int, first_shot: int, most: int) -> Iterator[tuple[int, int]]:
    """The first of each part of some shots, and how many it has: parts end at multiples of some number."""
    end = first_shot + shots
    for block in range(first_shot // most, -(-end // most)):
        first = max(first_shot, block * most)
        yield first, min(end, (block + 1) * most) - first


def words_of(seed: int, block: int, stream: int) -> np.random.Philox:
    """A stream of random words of a block."""
    return np.random.Philox(key=seed, counter=[0, 0, block, stream])


def flip(drawn: NDArray[np.bool_], mechanisms: NDArray[np.int64], places: NDArray[np.int64], indptr: NDArray[np.int64],
         indices: NDArray[np.int64]) -> None:
    """Flips what mechanisms flip in the shots at these places."""
    of_row, columns = combining.rows_of(mechanisms, indptr, indices)
    drawn[combining.odd(places[of_row], columns, drawn.shape[1])] ^= True


def happened(chances: NDArray[np.float64], words: np.random.Philox) -> tuple[NDArray[np.int64], NDArray[np.int64]]:
    """Which mechanisms happen in which shots of a block: pairs of a mechanism and a shot's place in the block, from 0.

    How many shots pass until a mechanism happens next is a geometric number, so what does not happen takes no drawing.
    """
    left = np.flatnonzero(chances > 0)
    places = np.full(len(chances), -1, dtype=np.int64)
    found = []
    while len(left):
        places[left] += geometric(words.random_raw(len(left)), chances[left])
        left = left[places[left] < BLOCK]
        found.append((left, places[left]))
    mechanisms = np.concatenate([np.zeros(0, dtype=np.int64), *(pair[0] for pair in found)])
    return mechanisms, np.concatenate([np.zeros(0, dtype=np.int64), *(pair[1] for pair in found)])


def parts_of(words: NDArray[np.uint64]) -> NDArray[np.float64]:
    """Random words as numbers from 0 on, below 1."""
    return np.minimum(words * 2.0**-64, 1 - 2.0**-53)


def geometric(words: NDArray[np.uint64], chances: NDArray[np.float64]) -> NDArray[np.int64]:
    """How many shots it takes until something of a chance happens, by a random word of 64 bits each; at most two blocks of shots.

    It takes more than m with chance (1 - chance)**m. A part of the word's range is taken for that, and the logarithm gives m.
    """
    parts = parts_of(words)
    with np.errstate(divide="ignore", over="ignore"):
        shots = np.log1p(-parts) / np.log1p(-chances)
    # A number past the block is as good as any other such, and none may be so large that a sum overflows.
    passed: NDArray[np.int64] = np.minimum(shots, 2 * BLOCK).astype(np.int64)
    return passed + 1
