"""States as amplitudes, which the matrices of gates change, to compare the oracle's strings with."""

from collections.abc import Sequence
from itertools import product as all_of

import numpy as np
from oracle.matrices import GATES, Matrix, of_letters
from oracle.states import Factors, SignedRows

# The mean of a string that stabilises with neither sign is 0, up to what rounding leaves.
NOTHING = 1e-6


class Amplitudes:
    """The 2^n amplitudes of n qubits that begin as zeros, with an axis for each qubit."""

    def __init__(self, n: int) -> None:
        self.n = n
        self.amplitudes = np.zeros([2] * n, complex)
        self.amplitudes.flat[0] = 1

    def after(self, matrix: Matrix, qubits: Sequence[int]) -> Matrix:
        """The amplitudes after a matrix on some qubits."""
        few = len(qubits)
        made = np.tensordot(matrix.reshape([2] * 2 * few), self.amplitudes, (range(few, 2 * few), qubits))
        return np.moveaxis(made, range(few), qubits)

    def gate(self, name: str, qubits: tuple[int, ...]) -> None:
        self.amplitudes = self.after(GATES[name], qubits)

    def flip(self, letter: str, qubit: int, outcome: int) -> None:
        if outcome:
            self.gate(letter, (qubit,))

    def sign(self, letters: str) -> int | None:
        mean = np.vdot(self.amplitudes, self.after(of_letters(letters), range(self.n))).real
        return None if abs(mean) < NOTHING else int(mean < 0)

    def measure(self, factors: Factors, coin: int) -> tuple[int, bool]:
        found = dict((qubit, letter) for letter, qubit in factors)
        letters = "".join(found.get(qubit, "I") for qubit in range(self.n))
        sign = self.sign(letters)
        outcome = coin if sign is None else sign
        part = self.amplitudes + (-1) ** outcome * self.after(of_letters(letters), range(self.n))
        self.amplitudes = part / np.linalg.norm(part)
        return outcome, sign is None

    def reduced_rows(self) -> SignedRows:
        strings = ["".join(it) for it in all_of("IXYZ", repeat=self.n)][1:]
        signs = {letters: sign for letters in strings if (sign := self.sign(letters)) is not None}
        bits = {letters: [it in "XY" for it in letters] + [it in "ZY" for it in letters] for letters in signs}
        leads = sorted({it.index(True) for it in bits.values()})
        alone = {tuple(lead for lead in leads if it[lead]): letters for letters, it in bits.items()}
        return [(signs[alone[lead,]], alone[lead,]) for lead in leads]
