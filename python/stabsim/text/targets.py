"""Targets of instructions: which qubits they name, and products multiplied out."""

import re
from collections.abc import Callable, Iterable
from typing import TypeVar

Group = TypeVar("Group")

RECORD = re.compile(r"rec\[-\d+\]")
# Python reads no numbers of over 4,300 digits, and no qubit has as many; the program reads them if they are zeros.
LONG_NUMBER = re.compile(r"\d{4001}", re.ASCII)
MEASURED = re.compile(r"!?\d+", re.ASCII)
PAULI = re.compile(r"[XYZxyz]\d+", re.ASCII)
FACTOR = re.compile(r"(!?)([XYZ])(\d{1,4000})", re.ASCII | re.IGNORECASE)
# Letters as pairs of exponents, of X and of Z, and back.
EXPONENTS = {"X": (1, 0), "Y": (1, 1), "Z": (0, 1)}
LETTERS = {pair: letter for letter, pair in EXPONENTS.items()}

# A letter on each of several qubits.
Product = dict[int, str]


def qubits_of(target: str) -> set[int]:
    """The qubits of a measured target: of a product those of its factors."""
    return {int(number) for number in re.findall(r"\d{1,4000}", target)}


def apart(groups: Iterable[Group], qubits: Callable[[Group], set[int]]) -> list[list[Group]]:
    """Groups of targets in runs in which no qubit comes twice, so that what is done to a run can be done step by step."""
    runs: list[list[Group]] = []
    seen: set[int] = set()
    for group in groups:
        if not runs or qubits(group) & seen:
            runs.append([])
            seen = set()
        runs[-1].append(group)
        seen |= qubits(group)
    return runs


def multiplied(target: str) -> tuple[bool, Product] | None:
    """A product as whether it is negative and its letters; None if it is misspelt, or its factors make an operator with a factor of i,
    which can't be measured. A qubit whose letters cancel has none."""
    negative, quarter, exponents = False, 0, dict[int, tuple[int, int]]()
    for factor in target.split("*"):
        found = FACTOR.fullmatch(factor)
        if not found:
            return None
        negative ^= found[1] == "!"
        qubit, (x, z) = int(found[3]), EXPONENTS[found[2].upper()]
        before_x, before_z = exponents.get(qubit, (0, 0))
        # Y is i times X times Z; Z in front of X changes places with it, which makes a factor of -1.
        after = (before_x ^ x, before_z ^ z)
        quarter += (before_x & before_z) + (x & z) + 2 * (before_z & x) - (after[0] & after[1])
        exponents[qubit] = after
    if quarter % 2:
        return None
    return negative ^ (quarter % 4 == 2), {qubit: LETTERS[pair] for qubit, pair in exponents.items() if any(pair)}


def text_of_product(negative: bool, letters: Product) -> str:
    """A product as a target of MPP."""
    return "!" * negative + "*".join(f"{letter}{qubit}" for qubit, letter in letters.items())
