"""Distances: the errors of a circuit, and the smallest sets of them that flip an observable and no detector, of up to `MOST_ERRORS`."""

from collections import Counter
from collections.abc import Iterator, Sequence
from dataclasses import dataclass
from functools import reduce
from itertools import combinations, product as all_of
from math import prod
from operator import xor

from . import numbers
from .numbers import Step
from .reading import Items
from .states import FLIPS
from .sums import Placed, Sums

# How many errors the largest sets that are tried have.
MOST_ERRORS = 4
# The letters of X and Z that a letter is the product of.
PARTS = {"X": "X", "Y": "XZ", "Z": "Z"}


@dataclass(frozen=True)
class Error:
    """What goes wrong at once: how many steps are in front of it, the path of its item, its name, and the letters that are put in."""

    before: int
    path: str
    name: str
    letters: tuple[Placed, ...]


def error_of(path: str, placed: Sequence[Placed]) -> Error:
    """The error of letters that go wrong at once."""
    return Error(placed[0][0], path, "*".join(f"{letter}{qubit}" for _, letter, qubit in placed), tuple(placed))


def letters_at(path: str, letters: str, before: int, qubit: int) -> list[Error]:
    """Each letter at a place."""
    return [error_of(path, [(before, letter, qubit)]) for letter in letters]


def products_at(path: str, letters: str, first: tuple[int, int], second: tuple[int, int]) -> Iterator[Error]:
    """Each product of two letters at two places, of which one letter may be none; without Y, products of one kind alone."""
    for one, other in all_of(f"I{letters}", repeat=2):
        if one == other == "I" or ("Y" not in letters and {"X", "Z"} <= {one, other}):
            continue
        placed = [(before, letter, qubit) for letter, (before, qubit) in ((one, first), (other, second)) if letter != "I"]
        yield error_of(path, placed)


def wrong_record(path: str, number: int, step: int, letter: str, qubit: int, resets: bool) -> Error:
    """The record of a number by itself: a letter flips the outcome, and is taken back after it unless the qubit is reset."""
    flip = FLIPS[letter]
    back = () if resets else ((step + 1, flip, qubit),)
    return Error(step, path, f"M{number}", ((step, flip, qubit), *back))


def errors_at(path: str, letters: str, number: int, records: int, step: Step) -> Iterator[Error]:
    """The errors at a step of this number, with this many records in front."""
    qubits = numbers.qubits_of(step)
    before = qubits if numbers.records_of(step) else []
    resets = step[0] == "measure" and step[4]
    after = [] if before and not resets else qubits
    for qubit in before:
        yield from letters_at(path, letters, number, qubit)
    if before:
        yield wrong_record(path, records, number, step[1][0][0], before[0], resets)
    if step[0] == "gate" and len(qubits) == 2:
        yield from products_at(path, letters, *((number + 1, qubit) for qubit in after))
    else:
        yield from (it for qubit in after for it in letters_at(path, letters, number + 1, qubit))


def errors_everywhere(items: Items, letters: str) -> Iterator[Error]:
    records = 0
    for number, (path, step) in enumerate(numbers.placed_steps(items)):
        yield from errors_at(path, letters, number, records, step)
        records += numbers.records_of(step)


def errors_marked(items: Items, letters: str) -> Iterator[Error]:
    """The errors at the targets of each `I`, as its tag says."""
    number = 0
    for path, operation in numbers.unrolled(items):
        if operation.name == "I":
            places, left = list(enumerate(operation.targets, number)), letters
            if operation.tag == b"pairs":
                for first, second in zip(places[::2], places[1::2]):
                    yield from products_at(path, letters, first, second)
                places = places[len(places) & ~1:]
            elif operation.tag in (b"X", b"Y", b"Z", b"XZ"):
                left = "".join(letter for letter in operation.tag.decode() if letter in letters)
            for before, qubit in places:
                yield from letters_at(path, left, before, qubit)
        number += len(numbers.steps_of(operation))


def parts_of(error: Error) -> list[Error]:
    """The X and the Z of each letter of an error, each an error by itself; a wrong record has none."""
    if error.name.startswith("M"):
        return []
    return [error_of(error.path, [(before, part, qubit)]) for before, letter, qubit in error.letters for part in PARTS[letter]]


class Distance:
    """The errors of a circuit, what each flips, and the smallest number of them that are unseen, if it is at most `MOST_ERRORS`.

    Of letters everywhere, or at marked places; `graphlike`: only of errors that flip at most two detectors, after any other gave way to
    its parts; with an `observable`, of sets that flip this one; `deterministic_only`: of deterministic bits, or else `NotDeterministic` if
    a bit is not.
    """

    def __init__(self, items: Items, everywhere: bool, letters: str, graphlike: bool, observable: int | None = None,
                 deterministic_only: bool = False) -> None:
        self.graphlike, self.observable = graphlike, observable
        self.of_all = " of all errors everywhere" if everywhere else " of all marked errors"
        errors = list((errors_everywhere if everywhere else errors_marked)(items, letters))
        parts = [part for error in errors for part in parts_of(error)]
        placed = list({it: None for error in errors + parts for it in error.letters})
        self.sums = Sums(items, placed)
        if not deterministic_only:
            self.sums.need_deterministic()
        flips = {letter: sum(flip << bit for bit, flip in enumerate(self.sums.flipped(number))) for number, letter in enumerate(placed)}
        rows = {error: reduce(xor, (flips[letter] for letter in error.letters)) for error in errors + parts}
        # All errors, of which some flip more than two detectors, also as parts; and those that are searched.
        self.table = [it for error in errors for it in ([error] if not graphlike or self.is_graphlike(rows[error]) else parts_of(error))]
        self.all_rows = rows
        self.rows = {error: rows[error] for error in self.table if not graphlike or self.is_graphlike(rows[error])}
        flipping = sorted(set(self.rows.values()) - {0})
        of_sizes = ([it for it in combinations(flipping, size) if self.is_unseen(reduce(xor, it))] for size in range(1, MOST_ERRORS + 1))
        least: list[tuple[int, ...]] = next((sets for sets in of_sizes if sets), [])
        self.least = len(least[0]) if least else None
        # A least set has no two errors that flip the same, and each of them may be any of those that do.
        alike = Counter(rows[error] for error in self.table)
        self.count = sum(prod(alike[row] for row in chosen) for chosen in least)

    def detectors(self, row: int) -> int:
        """How many detectors a row has."""
        return (row & ((1 << len(self.sums.paths)) - 1)).bit_count()

    def is_graphlike(self, row: int) -> bool:
        return self.detectors(row) <= 2

    def is_unseen(self, row: int) -> bool:
        """Whether a row has an observable that is asked for, and no detector."""
        is_asked = row > 0 if self.observable is None else row >> len(self.sums.paths) + self.observable & 1 == 1
        return is_asked and self.detectors(row) == 0

    def line(self, error: Error) -> str:
        """The line of an error."""
        named = [self.sums.name(bit) for bit in range(len(self.sums.bits)) if self.all_rows[error] >> bit & 1]
        return " ".join([str(error.before), error.path, error.name, *named])

    def lines(self) -> str:
        """The lines of all errors, in order."""
        return "".join(f"{self.line(error)}\n" for error in self.table)

    def are_unseen(self, lines: Sequence[str]) -> bool:
        """Whether these are lines of errors that are unseen together."""
        known = {self.line(error): row for error, row in self.rows.items()}
        return all(line in known for line in lines) and self.is_unseen(reduce(xor, (known[line] for line in lines), 0))

    def wrong_count(self, answer: bytes, most: int | None) -> str | None:
        """The same with the line of how many least sets there are after it: of more errors than all sets are tried of, there are some."""
        *before, line, _ = answer.decode().split("\n")
        count = int(line.removeprefix("count ")) if line.startswith("count ") else None
        is_right = count is not None and (count > 0 if self.least is None and len(before) > 1 else count == self.count * (len(before) > 1))
        return self.wrong("".join(f"{it}\n" for it in before).encode(), most) if is_right else f"{line!r}, but of {self.least} errors there are {self.count} sets"

    def wrong(self, answer: bytes, most: int | None) -> str | None:
        """What is wrong of what the command `distance` wrote of up to this many errors, if anything is."""
        first, *lines = answer.decode().split("\n")[:-1]
        of_which = " of graph-like errors" if self.graphlike else ""
        for_one = "" if self.observable is None else f" for L{self.observable}"
        is_least = len(lines) == self.least or self.least is None and len(lines) > MOST_ERRORS
        rights = {
            f"none{of_which}{for_one}": not lines and self.least is None,
            f"none up to {most}{of_which}{for_one}": not lines and most is not None and (self.least is None or self.least > most),
            f"distance {len(lines)}{of_which or self.of_all}{for_one}":
                is_least and len(lines) <= (most or len(lines)) and self.are_unseen(lines),
        }
        return None if rights.get(first) else f"{first!r} with {lines}, but the least number of errors that are unseen is {self.least}"
