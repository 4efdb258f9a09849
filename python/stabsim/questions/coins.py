"""Which bits each coin decides, as arrays: `stabsim coins` writes them."""

from dataclasses import dataclass

import numpy as np
from numpy.typing import NDArray

from stabsim import checking
from stabsim.questions.table_rows import rows_of


@dataclass(frozen=True)
class CoinTable:
    """For each coin that decides an outcome the bits that it flips. A run's bits are those of coins 0, exclusive or the rows of the coins
    that are 1.

    steps: int64 (coins,), how many steps are in front once blocks are written out; paths: str (coins,), the path of its item;
    numbers: int64 (coins,), its number among all coins.
    indptr: int64 (coins + 1,), and indices: int64 (flips,): row i flips indices[indptr[i]:indptr[i + 1]], ascending, where a record is its
    number, detectors are counted on after the records, and observables after the detectors.
    num_records, num_detectors, num_observables: int, how many of each the circuit has.

    >>> import stabsim
    >>> table = stabsim.Circuit("H 0\\nCX 0 1\\nM 0\\nX 1\\nM 1\\nDETECTOR rec[-1]").coins()
    >>> table.paths.tolist(), table.numbers.tolist(), table.dense().astype(int).tolist(), table.constants().astype(int).tolist()
    (['2'], [0], [[1, 1, 1]], [0, 1, 1])
    """

    steps: NDArray[np.int64]
    paths: NDArray[np.str_]
    numbers: NDArray[np.int64]
    indptr: NDArray[np.int64]
    indices: NDArray[np.int64]
    num_records: int
    num_detectors: int
    num_observables: int
    bits: NDArray[np.bool_]

    def __len__(self) -> int:
        return len(self.steps)

    def __repr__(self) -> str:
        return f"<stabsim.CoinTable: {len(self)} coins, {self.num_records} records, {self.num_detectors} detectors, {self.num_observables} observables>"

    def constants(self) -> NDArray[np.bool_]:
        """The bits of coins 0, bool (records + detectors + observables,)."""
        return self.bits

    def flipped(self, row: int) -> NDArray[np.int64]:
        """What the coin of a row flips, int64 (flips,)."""
        row = checking.place("row", row, len(self))
        return self.indices[self.indptr[row] : self.indptr[row + 1]]

    def dense(self) -> NDArray[np.bool_]:
        """The table as a bool array (coins, records + detectors + observables)."""
        table = np.zeros((len(self), len(self.bits)), dtype=np.bool_)
        table[np.repeat(np.arange(len(self)), np.diff(self.indptr)), self.indices] = True
        return table

    def columns(self, count: int) -> list[int]:
        """For each of the first bits the coins that flip it, as a number whose binary digit i is that of row i."""
        found = [0] * count
        rows = np.repeat(np.arange(len(self)), np.diff(self.indptr))
        for row, place in zip(rows.tolist(), self.indices.tolist()):
            if place < count:
                found[place] |= 1 << row
        return found


def table_of(lines: bytes, widths: tuple[int, int, int], bits: NDArray[np.bool_]) -> CoinTable:
    """The table of the lines that the program writes of coins, as `17 3/0 c12 M4 M9 D2 L0`; widths: how many records, detectors and
    observables there are; bits: those of coins 0."""
    records, detectors, observables = widths
    rows = rows_of(lines, {"M": records, "D": detectors, "L": observables})
    return CoinTable(rows.steps, rows.paths, rows.numbers, rows.indptr, rows.indices, records, detectors, observables, bits)
