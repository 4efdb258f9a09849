"""Runs of unrolled steps over signed strings that stabilise the state of any number of qubits, with strings that undo them.

An outcome and a sign may be sums: bit 0 is the part that is known, and each other bit says whether a symbol, as a coin, is in it. So a
parity is deterministic if and only if no coin is in it."""

from collections.abc import Callable, Iterable, Sequence
from functools import cache
from typing import Any

from . import matrices, numbers
from .numbers import Step
from .reading import Items

# Letters, each with the qubit that it is on.
Factors = Sequence[tuple[str, int]]
# Signs, 1 for minus, and a letter for each qubit.
SignedRows = list[tuple[int, str]]

# A letter that flips the outcome of a measurement of a letter.
FLIPS = {"X": "Z", "Y": "X", "Z": "X"}
LETTER_OF_DIGIT = str.maketrans("0123", "IXZY")
# How many steps, each by the number of qubits, a run has at most.
MOST_WORK = 400_000


class TooLarge(Exception):
    """A run that the oracle would not end."""


class String:
    """i^phase times the product of X^x Z^z over the qubits, with the sum `sign`; x and z have a bit for each qubit."""

    def __init__(self, x: int = 0, z: int = 0, phase: int = 0, sign: int = 0) -> None:
        self.x, self.z, self.phase, self.sign = x, z, phase % 4, sign

    def times(self, other: "String") -> "String":
        # Each Z of the left that passes an X of the right flips the sign.
        swaps = (self.z & other.x).bit_count()
        return String(self.x ^ other.x, self.z ^ other.z, self.phase + other.phase + 2 * swaps, self.sign ^ other.sign)

    def anticommutes(self, other: "String") -> bool:
        return ((self.x & other.z).bit_count() + (self.z & other.x).bit_count()) % 2 == 1

    def negative(self) -> int:
        """The sum that is 1 if the sign of its letters is -."""
        phase = (self.phase - (self.x & self.z).bit_count()) % 4
        assert phase in (0, 2)
        return self.sign ^ phase // 2

    def bits(self, n: int) -> int:
        """The bits of x and then those of z, the first of which that is 1 is its lead."""
        return self.x | self.z << n

    def letters(self, n: int) -> str:
        # A decimal digit for each qubit.
        digits = int(f"{self.x:b}") + 2 * int(f"{self.z:b}")
        return f"{digits:0{n}}"[::-1].translate(LETTER_OF_DIGIT)


def first_bit(number: int) -> int:
    """The place of the lowest bit that is 1."""
    return (number & -number).bit_length() - 1


def string_of(factors: Factors, sign: int = 0) -> String:
    product = String(sign=sign)
    for letter, qubit in factors:
        product = product.times(String((letter in "XY") << qubit, (letter in "ZY") << qubit, int(letter == "Y")))
    return product


@cache
def images(name: str, qubits: tuple[int, ...]) -> list[tuple[int, str, String]]:
    """What a gate makes of X and of Z on each of its qubits."""
    found = []
    for at, qubit in enumerate(qubits):
        for letter in "XZ":
            sign, letters = matrices.image(name, "I" * at + letter + "I" * (len(qubits) - at - 1))
            found.append((qubit, letter, string_of(list(zip(letters, qubits)), sign)))
    return found


def sent(row: String, mask: int, made_of: Iterable[tuple[int, str, String]]) -> String:
    """The row with its letters on some qubits replaced by their images."""
    made = String(row.x & ~mask, row.z & ~mask, row.phase, row.sign)
    for qubit, letter, image in made_of:
        if (row.x if letter == "X" else row.z) >> qubit & 1:
            made = made.times(image)
    return made


class Rows:
    """The stabilisers of n qubits that begin as zeros, and after them for each a string that anticommutes with it alone."""

    def __init__(self, n: int) -> None:
        self.n = n
        self.rows = [string_of([(letter, qubit)]) for letter in "ZX" for qubit in range(n)]

    def gate(self, name: str, qubits: tuple[int, ...]) -> None:
        made_of, mask = images(name, qubits), sum(1 << qubit for qubit in qubits)
        self.rows = [sent(row, mask, made_of) if (row.x | row.z) & mask else row for row in self.rows]

    def flip(self, letter: str, qubit: int, outcome: int) -> None:
        """Applies a letter if the outcome is 1."""
        flipped = string_of([(letter, qubit)])
        for row in self.rows:
            if row.anticommutes(flipped):
                row.sign ^= outcome

    def known(self, measured: String) -> int:
        """The outcome of a string that commutes with all stabilisers."""
        product = String()
        for row, other in zip(self.rows, self.rows[self.n :]):
            if other.anticommutes(measured):
                product = product.times(row)
        assert (product.x, product.z) == (measured.x, measured.z)
        return product.negative()

    def sign(self, factors: Factors) -> int | None:
        """Whether a product of letters stabilises with + (0), with - (1), or with neither."""
        string = string_of(factors)
        return None if any(row.anticommutes(string) for row in self.rows[: self.n]) else self.known(string)

    def measure(self, factors: Factors, coin: int) -> tuple[int, bool]:
        """Measures a product of letters: its outcome, and whether the coin decided."""
        measured = string_of(factors)
        free = next((place for place, row in enumerate(self.rows[: self.n]) if row.anticommutes(measured)), None)
        if free is None:
            return self.known(measured), False
        old = self.rows[free]
        self.rows = [row.times(old) if row.anticommutes(measured) else row for row in self.rows]
        self.rows[free], self.rows[self.n + free] = String(measured.x, measured.z, measured.phase, coin), old
        return coin, True

    def reduced_rows(self) -> SignedRows:
        """By ascending lead the sign and the letters of the member whose first 1 is there and which has 0 at every other lead."""
        by_lead: dict[int, String] = {}
        for row in self.rows[: self.n]:
            while (lead := first_bit(row.bits(self.n))) in by_lead:
                row = row.times(by_lead[lead])
            by_lead[lead] = row
        leads = sum(1 << lead for lead in by_lead)
        # Those of later leads have no other lead already.
        for lead in sorted(by_lead, reverse=True):
            while others := by_lead[lead].bits(self.n) & leads & ~(1 << lead):
                by_lead[lead] = by_lead[lead].times(by_lead[first_bit(others)])
        return [(row.negative(), row.letters(self.n)) for _, row in sorted(by_lead.items())]


class Run:
    """The run of unrolled steps from a state, as of `Rows`, with each coin by its number."""

    def __init__(self, state: Any, observables: int, steps: Iterable[Step], coin: Callable[[int], int]) -> None:
        self.state = state
        self.coin = coin
        self.records: list[int] = []
        self.free: list[bool] = []
        self.detectors: list[int] = []
        self.observables = [0] * observables
        for step in steps:
            self.carry_out(step)

    def measure(self, factors: Factors, inverted: int, recorded: bool, resets: bool) -> None:
        outcome, is_random = self.state.measure(factors, self.coin(len(self.free)))
        self.free.append(is_random)
        if recorded:
            self.records.append(outcome ^ inverted)
        if resets:
            [(letter, qubit)] = factors
            self.state.flip(FLIPS[letter], qubit, outcome)

    def parity(self, lookbacks: Iterable[int]) -> int:
        sum_ = 0
        for lookback in lookbacks:
            sum_ ^= self.records[-lookback]
        return sum_

    def carry_out(self, step: Step) -> None:
        kind, *rest = step
        if kind == "gate":
            self.state.gate(rest[0], tuple(rest[1:]))
        elif kind == "controlled":
            self.state.flip(rest[0], rest[2], self.records[-rest[1]])
        elif kind == "letter":
            self.state.flip(*rest)
        elif kind == "measure":
            self.measure(*rest)
        elif kind == "detector":
            self.detectors.append(self.parity(rest[0]))
        else:
            self.observables[rest[0]] ^= self.parity(rest[1])

    def bits(self) -> list[int]:
        """The detectors and then the observables."""
        return self.detectors + self.observables


def refuse_if_large(items: Items, qubits: int) -> None:
    if numbers.summary(items)[0] * max(qubits, 8) > MOST_WORK:
        raise TooLarge


def run_of(items: Items, qubits: int, coin: Callable[[int], int]) -> Run:
    """The run of items on this many qubits. `TooLarge` if it would take long."""
    refuse_if_large(items, qubits)
    return Run(Rows(qubits), numbers.observables(items), numbers.unroll(items), coin)


def rows_text(state: Rows) -> bytes:
    """The reduced rows, one a line."""
    return "".join("+-"[sign] + letters.replace("I", "_") + "\n" for sign, letters in state.reduced_rows()).encode()
