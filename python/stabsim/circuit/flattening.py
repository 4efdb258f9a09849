"""A circuit with its blocks written out and its coordinates shifted, as Stim's `flattened`."""

from collections.abc import Iterable, Iterator
from dataclasses import replace

import numpy as np
from numpy.typing import NDArray

from stabsim.noise.noise_placing import number_text
from stabsim.text.coordinates import moved, sum_of
from stabsim.text.reading import Block, Instruction, Item

# How many instructions a circuit may have that is written out.
MOST_INSTRUCTIONS = 1 << 21


def instructions_in(items: Iterable[Item]) -> int:
    """How many instructions items have, with blocks written out."""
    return sum(item.repeat * instructions_in(item.items) if isinstance(item, Block) else 1 for item in items)


def flattened(items: Iterable[Item]) -> list[Instruction]:
    """The instructions of items, a block round by round, with the shifts of SHIFT_COORDS added to their coordinates. Raises ValueError if
    there are too many."""
    every = tuple(items)
    count = instructions_in(every)
    if count > MOST_INSTRUCTIONS:
        raise ValueError(f"the circuit has {count} instructions once its blocks are written out: {MOST_INSTRUCTIONS} are the most")
    return list(shifted(written_out(every)))


def written_out(items: Iterable[Item]) -> Iterator[Instruction]:
    """The instructions of items, a block round by round."""
    for item in items:
        if isinstance(item, Block):
            for _ in range(item.repeat):
                yield from written_out(item.items)
        else:
            yield item


def shifted(items: Iterable[Instruction]) -> Iterator[Instruction]:
    """Instructions without SHIFT_COORDS, whose numbers are added to those of what is placed after it."""
    shift: NDArray[np.float64] = np.zeros(0)
    for item in items:
        if item.name == "SHIFT_COORDS":
            shift = sum_of(shift, np.array(item.numbers()))
        elif item.name in ("DETECTOR", "QUBIT_COORDS") and shift.any():
            yield replace(item, arguments=tuple(map(number_text, moved(item.numbers(), shift))))
        else:
            yield item
