"""Rows of tables that the program writes: the steps in front, a path, a letter with a number, and the bits that are flipped."""

from typing import NamedTuple

import numpy as np
from numpy.typing import NDArray

from stabsim.formats.combining import starts_of
from stabsim.formats.formats import Kinds, ones_in
from stabsim.formats.words import SPACE, numbers_in, words_in, words_in_lines


class Rows(NamedTuple):
    """Rows such as `1207 3/0/2 X17 D24 D31 L0`: steps: int64 (rows,); paths: str (rows,); letters: str (rows,), and numbers: int64 (rows,): of
    the third word; indptr: int64 (rows + 1,), and indices: int64 (flips,): the bits of each row, as a CSR matrix."""

    steps: NDArray[np.int64]
    paths: NDArray[np.str_]
    letters: NDArray[np.str_]
    numbers: NDArray[np.int64]
    indptr: NDArray[np.int64]
    indices: NDArray[np.int64]


def rows_of(written: bytes, kinds: Kinds) -> Rows:
    """The rows of lines; kinds: how many bits there are of each kind, one kind after another. What follows three words is as in dets."""
    data = np.frombuffer(written, dtype=np.uint8)
    starts, ends, lines, is_first = words_in_lines(data, SPACE)
    step = np.flatnonzero(is_first)
    path, letter = step + 1, step + 2
    is_flip = ~is_first
    is_flip[path] = is_flip[letter] = False
    indptr = starts_of(np.bincount(lines[is_flip], minlength=len(step)))
    indices = ones_in(data, starts[is_flip], ends[is_flip], lines[is_flip], kinds)
    return Rows(numbers_in(data, starts[step], ends[step]), words_in(data, starts[path], ends[path]),
                words_in(data, starts[letter], starts[letter] + 1), numbers_in(data, starts[letter] + 1, ends[letter]), indptr, indices)
