"""Gates as matrices, by the rotations that their names say, up to a phase; and which strings of letters a gate makes of others."""

from functools import cache, reduce
from itertools import product as all_of
from typing import Any

import numpy as np
from numpy.typing import NDArray

Matrix = NDArray[Any]


ROWS = {"I": ((1, 0), (0, 1)), "X": ((0, 1), (1, 0)), "Y": ((0, -1j), (1j, 0)), "Z": ((1, 0), (0, -1))}
LETTERS = {letter: np.array(rows, complex) for letter, rows in ROWS.items()}


def of_letters(letters: str) -> Matrix:
    """The matrix of a letter for each qubit."""
    return reduce(np.kron, (LETTERS[letter] for letter in letters))


def rotation(letters: str, quarters: int) -> Matrix:
    """A rotation about a product of letters by quarters of a full turn: 1 is its square root, and 2 the product itself."""
    factor, product = 1j**quarters, of_letters(letters)
    return ((1 + factor) * np.eye(len(product)) + (1 - factor) * product) / 2


def about_all(turn: int) -> Matrix:
    """A third of a turn about the axis between X, Y and Z: forward it sends X to Y, Y to Z and Z to X."""
    made: Matrix = LETTERS["I"] - 1j * turn * (LETTERS["X"] + LETTERS["Y"] + LETTERS["Z"])
    return made / 2


def controlled(control: str, letter: str) -> Matrix:
    """The second letter if the first qubit is in the state of -1 of the first letter."""
    one = LETTERS["I"]
    return (np.kron(one + LETTERS[control], one) + np.kron(one - LETTERS[control], LETTERS[letter])) / 2


GATES = {
    **LETTERS, "H": (LETTERS["X"] + LETTERS["Z"]) / 2**0.5, "S": rotation("Z", 1), "S_DAG": rotation("Z", -1),
    "SQRT_X": rotation("X", 1), "SQRT_X_DAG": rotation("X", -1), "SQRT_Y": rotation("Y", 1), "SQRT_Y_DAG": rotation("Y", -1),
    "C_XYZ": about_all(1), "C_ZYX": about_all(-1),
    "CX": controlled("Z", "X"), "CY": controlled("Z", "Y"), "CZ": controlled("Z", "Z"), "SWAP": np.eye(4, dtype=complex)[[0, 2, 1, 3]],
}


@cache
def image(name: str, letters: str) -> tuple[int, str]:
    """The sign, 1 for minus, and the letters of what a gate makes of letters on its qubits."""
    gate = GATES[name]
    made = gate @ of_letters(letters) @ gate.conj().T
    strings = ["".join(it) for it in all_of("IXYZ", repeat=len(letters))]
    return next((sign, it) for it in strings for sign in (0, 1) if np.allclose(made, (-1) ** sign * of_letters(it)))
