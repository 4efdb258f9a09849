"""A circuit with noise as one without, in which `I` marks each qubit that an error may meet, and the channels on these marks."""

from collections.abc import Iterator, Sequence
from dataclasses import dataclass, replace
from typing import NamedTuple

import numpy as np
from numpy.typing import NDArray

from stabsim.errors import UnsupportedNoise
from stabsim.noise.channels import LETTERS, ONE, TWO, Errors, depolarising, independent
from stabsim.text.names import CHANNELS, ELSE, FIRST, FLIPS, MEASUREMENTS
from stabsim.text.reading import Block, Instruction, Item, headed
from stabsim.text.targets import apart, qubits_of

Marks = NDArray[np.int64]

# A letter that anticommutes with each: put in front of a measurement it turns the outcome over, and after the measurement it undoes that.
OTHER = {"X": "Z", "Y": "X", "Z": "X"}


class Source(NamedTuple):
    """One independent error of one instruction, each time that it is met.

    letters: a Pauli for each of the marks of one time, as XI; chance: float; marks: int64 (times, len(letters)), the numbers of the
    marks among all of the circuit, as they are met in the first round of all blocks; line, name: of the instruction; targets: of all
    times one after another, the qubit of each mark, or of a wrong record, is_record, what is measured each time; blocks: of each block
    around it, the innermost first, how many rounds it has, and how many marks later each of them is; place: of errors of which at most one
    happens each time, and which were taken for independent ones, the number of this one, from 0.
    """

    letters: str
    chance: float
    marks: Marks
    line: int
    name: str
    targets: tuple[str, ...]
    is_record: bool = False
    blocks: tuple[tuple[int, int], ...] = ()
    place: int | None = None

    def within(self, rounds: int, each: int) -> "Source":
        """It in a block more, of this many rounds, each of which has this many marks."""
        blocks = (*self.blocks, (rounds, each))
        return Source(self.letters, self.chance, self.marks, self.line, self.name, self.targets, self.is_record, blocks, self.place)

    def times(self) -> int:
        """How often it is met in all rounds."""
        times = len(self.marks)
        for rounds, _ in self.blocks:
            times *= rounds
        return times

    def all_marks(self) -> Marks:
        """The marks of all rounds, int64 (times, len(letters)): as many as the circuit has steps, so it is judged before."""
        marks = self.marks
        for rounds, each in self.blocks:
            marks = (each * np.arange(rounds, dtype=np.int64)[:, None, None] + marks).reshape(-1, len(self.letters))
        return marks


@dataclass(frozen=True)
class Marked:
    """A circuit with marks.

    text: without noise; sources: the errors; approximated: the lines whose disjoint errors were taken for independent ones.
    """

    text: str
    sources: list[Source]
    approximated: tuple[int, ...]


class Marker:
    """Writes the marked circuit, one item after another."""

    def __init__(self, approximate: bool) -> None:
        self.approximate = approximate
        self.approximated: set[int] = set()
        self.lines: list[str] = []

    def items(self, items: Sequence[Item], first: int) -> tuple[list[Source], int]:
        """Writes items, whose first mark has this number, and answers their errors and the number of the next mark."""
        sources: list[Source] = []
        for run in runs_of(items):
            head = run[0]
            if isinstance(head, Block):
                found, first = self.block(head, first)
            elif head.name == FIRST:
                found, first = self.chain([it for it in run if isinstance(it, Instruction)], first)
            else:
                found, first = self.instruction(head, first)
            sources += found
        return sources, first

    def block(self, block: Block, first: int) -> tuple[list[Source], int]:
        """Writes a block. Its errors come again in each round, as many marks later as a round has."""
        self.lines.append(f"{headed('REPEAT', block.tag)} {block.repeat} {{")
        sources, end = self.items(block.items, first)
        self.lines.append("}")
        each = end - first
        again = [it.within(block.repeat, each) for it in sources]
        return again, first + each * block.repeat

    def instruction(self, item: Instruction, first: int) -> tuple[list[Source], int]:
        """Writes one instruction."""
        if item.name in CHANNELS:
            return self.channel(item, first)
        if item.name in MEASUREMENTS and item.arguments:
            return self.measurement(item, first)
        if item.name == "I":
            # Its marks would be taken for those of noise. It does nothing, and so does TICK.
            self.lines.append("TICK")
        else:
            self.lines.append(str(item))
        return [], first

    def channel(self, item: Instruction, first: int) -> tuple[list[Source], int]:
        """Writes a mark for each target of a channel."""
        each = 2 if item.name.endswith("2") else 1
        count = len(item.targets)
        if not count:
            return [], first
        self.lines.append(" ".join(["I", *item.targets]))
        marks = (first + np.arange(count, dtype=np.int64)).reshape(-1, each)
        errors, is_disjoint = self.errors(item)
        return sources_of(errors, is_disjoint, Source("", 0.0, marks, item.line, item.name, item.targets)), first + count

    def errors(self, item: Instruction) -> tuple[Errors, bool]:
        """The independent errors of a channel, and whether they are disjoint ones that are taken for such."""
        chances, letters = item.numbers(), ONE if item.name.endswith("1") else TWO
        if item.name in FLIPS:
            return {FLIPS[item.name]: chances[0]}, False
        if item.name.startswith("DEPOLARIZE"):
            found = depolarising(chances[0], int(item.name[-1]))
            if found is not None:
                return found, False
            if not self.approximate:
                raise UnsupportedNoise(item.line, f"{item.name}({item.arguments[0]}) is stronger than full depolarising")
            chances = [chances[0] / len(letters)] * len(letters)
        return self.independent_of(dict(zip(letters, chances)), [item])

    def independent_of(self, disjoint: Errors, items: list[Instruction]) -> tuple[Errors, bool]:
        """The independent errors that make disjoint ones of some lines, or these themselves if they may be taken for such, and which it is."""
        found = independent(disjoint)
        if found is not None:
            return found, False
        if not self.approximate:
            raise UnsupportedNoise(items[-1].line, "no independent errors were found that make this noise; with "
                                                   "approximate_disjoint_errors its disjoint errors are taken for independent ones")
        self.approximated |= {item.line for item in items}
        return disjoint, True

    def chain(self, items: list[Instruction], first: int) -> tuple[list[Source], int]:
        """Writes a mark for each qubit of an error on several, and of those after it that may happen if none before them did."""
        errors = [paulis_of(item) for item in items]
        qubits = list(dict.fromkeys(qubit for error in errors for qubit in error))
        disjoint: Errors = {}
        none_yet = 1.0
        for item, error in zip(items, errors):
            [chance] = item.numbers()
            letters = "".join(LETTERS[error.get(qubit, 0)] for qubit in qubits)
            disjoint[letters] = disjoint.get(letters, 0.0) + chance * none_yet
            none_yet *= 1 - chance
        if not qubits:
            return [], first
        disjoint.pop("I" * len(qubits), None)
        self.lines.append(" ".join(["I", *qubits]))
        marks = (first + np.arange(len(qubits), dtype=np.int64))[None]
        found, is_disjoint = self.independent_of(disjoint, items)
        one = Source("", 0.0, marks, items[0].line, items[0].name, tuple(qubits))
        return sources_of(found, is_disjoint, one), first + len(qubits)

    def measurement(self, item: Instruction, first: int) -> tuple[list[Source], int]:
        """Writes a measurement whose record may be wrong: as if a Pauli in front of it turned the outcome over, and the same
        after it undid that. A reset after the outcome forgets it by itself."""
        [chance] = item.numbers()
        is_reset = item.name.startswith("MR")
        sources: list[Source] = []
        for targets in apart(item.targets, qubits_of):
            marks = [mark_of(item.name, target) for target in targets]
            line = " ".join(["I", *(qubit for _, qubit in marks)])
            self.lines.append(line)
            self.lines.append(str(replace(item, arguments=(), targets=tuple(targets))))
            count = len(marks)
            if not is_reset:
                self.lines.append(line)
            for i, (letter, _) in enumerate(marks):
                around = [first + i] if is_reset else [first + i, first + count + i]
                sources.append(Source(letter * len(around), chance, np.array([around], dtype=np.int64), item.line, item.name,
                                      (targets[i],), is_record=True))
            first += count if is_reset else 2 * count
        return joined(sources) if chance else [], first


def sources_of(errors: Errors, is_disjoint: bool, one: Source) -> list[Source]:
    """A source for each error that has a chance, which has all else of one that is given."""
    some = [(letters, chance) for letters, chance in errors.items() if chance]
    return [one._replace(letters=letters, chance=chance, place=place if is_disjoint else None) for place, (letters, chance) in enumerate(some)]


def joined(sources: list[Source]) -> list[Source]:
    """The errors of the same letters as one, in the order of their marks."""
    found = []
    for letters in sorted({source.letters for source in sources}):
        alike = [source for source in sources if source.letters == letters]
        targets = tuple(target for source in alike for target in source.targets)
        found.append(alike[0]._replace(marks=np.concatenate([source.marks for source in alike]), targets=targets))
    return found


def runs_of(items: Sequence[Item]) -> Iterator[list[Item]]:
    """Items one by one, except that an error on several qubits comes with those that follow it and may happen if it did not."""
    run: list[Item] = []
    for item in items:
        is_else = isinstance(item, Instruction) and item.name == ELSE
        if run and not (is_else and isinstance(run[0], Instruction) and run[0].name == FIRST):
            yield run
            run = []
        run.append(item)
    if run:
        yield run


def paulis_of(item: Instruction) -> dict[str, int]:
    """The letter on each qubit of an error on several, as a number in LETTERS; those of one qubit are multiplied."""
    found: dict[str, int] = {}
    for target in item.targets:
        qubit = str(int(target[1:]))
        found[qubit] = found.get(qubit, 0) ^ LETTERS.index(target[0].upper())
    return found


def mark_of(name: str, target: str) -> tuple[str, str]:
    """A letter and a qubit that turn over the outcome of a measured target: of a product, those of its first factor."""
    factor = target.split("*")[0].lstrip("!")
    letter = factor[:1].upper() if name == "MPP" else name[-1] if name[-1] in "XYZ" else "Z"
    return OTHER.get(letter, "X"), factor.lstrip("XYZxyz")


def marked(items: Sequence[Item], approximate: bool) -> Marked:
    """The circuit of items with noise, with marks; approximate takes disjoint errors for independent ones if need be."""
    marker = Marker(approximate)
    sources, _ = marker.items(items, 0)
    lines = "".join(line + "\n" for line in marker.lines)
    return Marked(lines, sources, tuple(sorted(marker.approximated)))
