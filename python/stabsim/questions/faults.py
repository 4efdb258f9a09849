"""The table of single faults of a circuit, as arrays."""

from dataclasses import dataclass

import numpy as np
from numpy.typing import NDArray

from stabsim import checking
from stabsim.questions.table_rows import rows_of


@dataclass(frozen=True)
class FaultTable:
    """Which detectors and observables each single fault flips; docs/use/faults.md says which faults there are.

    steps: int64 (faults,), how many steps are in front of the fault once blocks are written out.
    paths: str (faults,), the path of its item.
    paulis: str (faults,), X or Z.
    qubits: int64 (faults,).
    indptr: int64 (faults + 1,), and indices: int64 (flips,): fault i flips indices[indptr[i]:indptr[i + 1]], ascending, where
    a detector is its number, and an observable is `num_detectors` and its number.
    num_detectors, num_observables: int, how many of each the circuit has.
    everywhere: whether all faults were asked for, and not those at marks alone.

    >>> import stabsim
    >>> table = stabsim.Circuit("R 0 1\\nCX 0 1\\nM 0 1\\nDETECTOR rec[-1]\\nDETECTOR rec[-2]").faults(everywhere=True)
    >>> table.dense().shape, table.paths[0], table.flipped(0).tolist()
    ((16, 2), '0', [0, 1])
    """

    steps: NDArray[np.int64]
    paths: NDArray[np.str_]
    paulis: NDArray[np.str_]
    qubits: NDArray[np.int64]
    indptr: NDArray[np.int64]
    indices: NDArray[np.int64]
    num_detectors: int
    num_observables: int
    everywhere: bool = False

    def __len__(self) -> int:
        return len(self.steps)

    def __repr__(self) -> str:
        marks = "" if len(self) or self.everywhere else "; no place is marked by I, and everywhere=True asks for all places"
        return f"<stabsim.FaultTable: {len(self)} faults, {self.num_detectors} detectors, {self.num_observables} observables{marks}>"

    def flipped(self, fault: int) -> NDArray[np.int64]:
        """What a fault flips, int64 (flips,): detectors, and observables counted on after them."""
        fault = checking.place("fault", fault, len(self))
        return self.indices[self.indptr[fault] : self.indptr[fault + 1]]

    def dense(self) -> NDArray[np.bool_]:
        """The table as a bool array (faults, detectors + observables)."""
        table = np.zeros((len(self), self.num_detectors + self.num_observables), dtype=np.bool_)
        table[np.repeat(np.arange(len(self)), np.diff(self.indptr)), self.indices] = True
        return table


def table_of(lines: bytes, detectors: int, observables: int, everywhere: bool) -> FaultTable:
    """The table of the lines that the program writes of faults, as `1207 3/0/2 X17 D24 D31 L0`."""
    return FaultTable(*rows_of(lines, {"D": detectors, "L": observables}), detectors, observables, everywhere)
