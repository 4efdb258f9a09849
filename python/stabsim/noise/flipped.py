"""What X and Z of each mark of a text flip, asked of the program: regions at a cut, and rows of errors."""

from collections.abc import Sequence
from dataclasses import dataclass

import numpy as np
from numpy.typing import NDArray

from stabsim import program
from stabsim.formats.combining import Numbers
from stabsim.formats.formats import LONG

Bits = NDArray[np.bool_]
# The letter on each qubit: of a region or a product.
Letters = dict[int, str]


@dataclass(frozen=True)
class Flipped:
    """What X and Z of each mark of a text flip, one after the other, as a CSR matrix."""

    indptr: Numbers
    indices: Numbers
    num_detectors: int
    num_observables: int

    @classmethod
    def of(cls, lines: Sequence[str], detectors: int, observables: int, sure_only: bool = False) -> "Flipped":
        """Asks the program; sure_only: leaves out what coins decide, which else is refused."""
        written = program.run(["faults", "--out_format", "r8", *["--deterministic_only"] * sure_only], "\n".join([*lines, ""]))
        return cls(*rows_of_lengths(written, detectors + observables), detectors, observables)

    def pairs(self, first: int, count: int) -> tuple[Numbers, Numbers]:
        """Of this many marks from one on, pairs, ascending, of a line and what it flips."""
        bounds = self.indptr[2 * first : 2 * (first + count) + 1]
        return np.repeat(np.arange(2 * count), np.diff(bounds)), self.indices[bounds[0] : bounds[-1]]

    def marks_that_flip(self, is_meant: Bits) -> Bits:
        """Which marks flip, by X or Z, something that is meant."""
        found = np.zeros(len(self.indptr) - 1, dtype=np.bool_)
        found[np.searchsorted(self.indptr, np.flatnonzero(is_meant[self.indices]), side="right") - 1] = True
        return np.logical_or(found[::2], found[1::2])

    def regions(self, qubits: int, entries: Numbers) -> dict[int, dict[int, Letters]]:
        """The letters of regions by the place in time of a mark on all of this many qubits, and by what has the region. Just the Paulis that
        anticommute with the letters flip it. entries: by which of the indices."""
        found: dict[int, dict[int, Letters]] = {}
        rows = np.searchsorted(self.indptr, entries, side="right") - 1
        for row, bit in zip(rows.tolist(), self.indices[entries].tolist()):
            place, fault = divmod(row, 2 * qubits)
            letters = found.setdefault(place, {}).setdefault(bit, {})
            # X, which comes first of its qubit, meets a letter Z or Y, and Z a letter X or Y.
            letters[fault // 2] = "Y" if fault // 2 in letters else "ZX"[fault % 2]
        return found


def rows_of_lengths(written: bytes, width: int) -> tuple[Numbers, Numbers]:
    """Rows of this many bits in r8, as those of a CSR matrix: each byte counts zeros, after which a 1 comes, except after 255 of them; so it does
    after each row."""
    zeros = np.frombuffer(written, dtype=np.uint8)
    is_one = zeros != LONG
    # After 255 zeros no 1 comes, so no byte counts more.
    places = np.cumsum(zeros + is_one, dtype=np.int64)[is_one] - 1
    columns = places - places // (width + 1) * (width + 1)
    is_end = columns == width
    after = np.flatnonzero(is_end)
    assert len(after) * (width + 1) == (places[-1] + 1 if len(places) else 0), "each row has as many bits as there are detectors and observables"
    return np.append(0, after - np.arange(len(after))), columns[~is_end]
