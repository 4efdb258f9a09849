"""The ways of Paulis through a circuit, as the program propagates them: what they are on each qubit at the end of each moment, and which records
they flip."""

from collections.abc import Iterator, Sequence
from dataclasses import dataclass
from typing import Any

import numpy as np
from numpy.typing import NDArray

import stabsim
from stabsim.page.at_once import Node, Opened, nodes_of
from stabsim.page.noise import CHANNEL
from stabsim.text import moments
from stabsim.text.reading import Instruction, items_of
from stabsim.text.sizes import steps_of

# A line at the end of each moment.
PLACE = "# moment"
# How many letters at the ends of moments there are at most; all are left out if there would be more.
MOST_LETTERS = 1_000_000
# How many records are named at most.
MOST_NAMES = 8
# The product of letters has the bits of X and of Z in which they differ.
BITS = {"X": 1, "Z": 2, "Y": 3}
LETTERS = {bits: letter for letter, bits in BITS.items()}


@dataclass(frozen=True)
class Mark:
    """A letter on a qubit in front of the item at a path, in this round of each block around it."""

    letter: str
    qubit: int
    path: tuple[int, ...]
    rounds: tuple[int, ...] = ()


def mark_of(message: dict[str, Any]) -> Mark:
    """A mark as a tab sends it; ValueError if it is none."""
    letter = message["letter"]
    if letter not in moments.PAULIS:
        raise ValueError("no mark")
    return Mark(letter, int(message["qubit"]), tuple(map(int, message["path"])), tuple(map(int, message["rounds"])))


@dataclass(frozen=True)
class Ways:
    """What marks come to.

    records: the numbers of the records that they flip; letters: for each moment at which there are some the letter on each qubit, or None if there are
    too many; why: why something is left out, or nothing.
    """

    records: tuple[int, ...]
    letters: dict[int, dict[int, str]] | None
    why: str = ""


class MomentEnds:
    """A list of items and of the ends of moments, with how many steps and ends come before each item."""

    def __init__(self, nodes: Sequence[Node]) -> None:
        self.steps_before: list[int] = []
        self.ends_before: list[int] = []
        # Whether a moment ends in front of an item. What is put in there is in that moment.
        self.ends_there: set[int] = set()
        self.inside: dict[int, MomentEnds] = {}
        self.steps: int
        steps, ends = 0, [np.zeros(0, dtype=np.int64)]
        count, there = 0, False
        for node in nodes:
            if node == PLACE:
                there = True
                ends.append(np.array([steps]))
                count += 1
                continue
            self.add(node, steps, count, there)
            there = False
            if isinstance(node, Opened):
                body, rounds = self.inside[len(self.steps_before) - 1], rounds_of(node)
                ends.append((steps + body.steps * np.arange(rounds)[:, None] + body.ends).ravel())
                steps, count = steps + rounds * body.steps, count + rounds * len(body.ends)
            else:
                steps += steps_in(node)
        self.add(None, steps, count, there)
        self.steps = steps
        # How many steps are before the end of each moment.
        self.ends: NDArray[np.int64] = np.concatenate(ends)

    def add(self, node: Node | None, steps: int, ends: int, there: bool) -> None:
        """Notes what is before an item, or before the end of the list."""
        place = len(self.steps_before)
        self.steps_before.append(steps)
        self.ends_before.append(ends)
        if there:
            self.ends_there.add(place)
        if isinstance(node, Opened):
            self.inside[place] = MomentEnds(node.nodes)

    def before(self, path: Sequence[int], rounds: Sequence[int]) -> tuple[int, int]:
        """How many steps and ends of moments are before what is put in front of the item at a path in a round."""
        steps, ends = self.steps_before[path[0]], self.ends_before[path[0]]
        if len(path) == 1:
            return steps, ends - (path[0] in self.ends_there)
        body = self.inside[path[0]]
        inner = body.before(path[1:], rounds[1:])
        return steps + rounds[0] * body.steps + inner[0], ends + rounds[0] * len(body.ends) + inner[1]


def rounds_of(block: Opened) -> int:
    return int(block.head.removesuffix("{").split()[-1])


def steps_in(line: str) -> int:
    """How many steps the instruction of a line has: noise has none."""
    return 0 if CHANNEL.match(line) else sum(steps_of(item) for item in items_of(line) if isinstance(item, Instruction))


def bits_of(pauli: str) -> dict[int, int]:
    """The letters of a string such as X3*Z4, by qubit; there is none in 1."""
    return {} if pauli == "1" else {int(factor[1:]): BITS[factor[0]] for factor in pauli.split("*")}


def spans(body: MomentEnds, mark: Mark, way: stabsim.Way) -> Iterator[tuple[int, int, dict[int, int]]]:
    """From which moment's end up to which the string of a mark is which one."""
    steps, first = body.before(mark.path, mark.rounds)
    strings = [(steps, {mark.qubit: BITS[mark.letter]}), *((turn.steps, bits_of(turn.pauli)) for turn in way.turns)]
    ends = [first, *(int(np.searchsorted(body.ends, turn.steps)) for turn in way.turns), len(body.ends)]
    for (_, string), begin, end in zip(strings, ends, ends[1:]):
        yield max(begin, first), end, string


def ways_of(text: str, layers: Sequence[Sequence[Mark]]) -> list[Ways]:
    """The ways of the marks of some layers, each by itself, in a circuit as a session writes it."""
    body = MomentEnds(nodes_of(moments.marked(text, PLACE).split("\n")))
    marked = max((mark.qubit for marks in layers for mark in marks), default=-1)
    circuit = stabsim.Circuit(text)
    if marked >= circuit.numbers().qubits:
        # It does nothing, and names the qubit.
        circuit = stabsim.Circuit(f"{text}I {marked}\n")
    return [way_of_marks(body, circuit, marks) for marks in layers]


def way_of_marks(body: MomentEnds, circuit: stabsim.Circuit, marks: Sequence[Mark]) -> Ways:
    """What marks come to together: Paulis are multiplied, and records are flipped by an odd number of them."""
    there: dict[int, dict[int, int]] = {}
    records: set[int] = set()
    count = 0
    for mark in marks:
        steps, _ = body.before(mark.path, mark.rounds)
        way = circuit.propagate(f"{mark.letter}{mark.qubit}", after=steps)
        records ^= set(way.records)
        for begin, end, string in spans(body, mark, way):
            count += (end - begin) * len(string)
            if count > MOST_LETTERS:
                break
            for moment in range(begin, end):
                letters = there.setdefault(moment, {})
                for qubit, bits in string.items():
                    letters[qubit] = letters.get(qubit, 0) ^ bits
    if count > MOST_LETTERS:
        return Ways(tuple(sorted(records)), None, "the circuit is too long for it to be drawn")
    named = {moment: {qubit: LETTERS[bits] for qubit, bits in letters.items() if bits} for moment, letters in there.items()}
    return Ways(tuple(sorted(records)), {moment: letters for moment, letters in named.items() if letters})


def detector_of(text: str, marks: Sequence[Mark]) -> tuple[int, ...]:
    """The records that marks flip, if their sum is deterministic; ValueError if it is not, or if there are none."""
    [way] = ways_of(text, [marks])
    if not way.records:
        raise ValueError("the marks flip no record")
    made = stabsim.Circuit(text)
    last = made.numbers().records
    said = "DETECTOR " + " ".join(f"rec[{record - last}]" for record in way.records)
    if not stabsim.Circuit(f"{text}{said}\n").deterministic().detectors[-1]:
        more = f" and {len(way.records) - MOST_NAMES} more" if len(way.records) > MOST_NAMES else ""
        names_said = " ".join(f"M{record}" for record in way.records[:MOST_NAMES])
        raise ValueError(f"the records that the marks flip, {names_said}{more}, are random together: no detector is made of them")
    return way.records
