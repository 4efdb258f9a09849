"""The words of lines, all at once: where they are, and the numbers among them."""

from typing import NamedTuple

import numpy as np
from numpy.typing import NDArray

Bytes = NDArray[np.uint8]
Numbers = NDArray[np.int64]

LINE_END, SPACE, COMMA, ZERO = ord("\n"), ord(" "), ord(","), ord("0")


class Words(NamedTuple):
    """The words of some lines: where each begins and ends, int64 (words,), in which line it is, and whether it is the first there."""

    starts: Numbers
    ends: Numbers
    lines: Numbers
    is_first: NDArray[np.bool_]


def words_in_lines(data: Bytes, separator: int) -> Words:
    """The words of lines, each of which ends in a line end; between them a separator is."""
    ends = np.flatnonzero((data == separator) | (data == LINE_END))
    is_last = data[ends] == LINE_END
    starts = np.append(0, ends[:-1] + 1)[: len(ends)]
    return Words(starts, ends, np.cumsum(is_last) - is_last, np.append(True, is_last[:-1])[: len(ends)])


def numbers_in(data: Bytes, starts: Numbers, ends: Numbers) -> Numbers:
    """The numbers whose digits are from starts to ends, int64 (words,): digit by digit, of all words at once."""
    numbers = np.zeros(len(starts), dtype=np.int64)
    lengths = ends - starts
    for place in range(int(lengths.max(initial=0))):
        there = np.flatnonzero(lengths > place)
        numbers[there] = 10 * numbers[there] + (data[starts[there] + place] - np.int64(ZERO))
    return numbers


def words_in(data: Bytes, starts: Numbers, ends: Numbers) -> NDArray[np.str_]:
    """The words from starts to ends, str (words,): letter by letter, of all words at once."""
    lengths = ends - starts
    width = int(lengths.max(initial=1))
    letters = np.zeros((len(starts), width), dtype=np.uint32)
    for place in range(width):
        there = np.flatnonzero(lengths > place)
        letters[there, place] = data[starts[there] + place]
    # Four bytes are a letter of numpy's str, which ends at zeros.
    return letters.view(f"<U{width}")[:, 0]
