"""What a Pauli on each qubit at the end of each moment would flip."""

import dataclasses
import itertools
import re
from collections.abc import Iterator
from typing import Any

import numpy as np

import stabsim
from stabsim.noise.flipped import Flipped, Letters
from stabsim.noise.pauli_observables import flipped_with_paulis
from stabsim.page.noise import quiet
from stabsim.text import moments
from stabsim.text.reading import Line, lines_of

# Lines, and blocks each as its head, its rounds and what is in it.
Key = tuple[Any, ...]

# What takes the place of a mark until the circuit's own are taken away: a comment that no circuit of a session has.
PLACE = "# mark"
# What leaves the table of faults as it is.
WITHOUT_TRACE = frozenset((*moments.PAULIS, "QUBIT_COORDS", "SHIFT_COORDS"))


@dataclasses.dataclass(frozen=True)
class MomentFaults:
    """The faults X and Z on each of `qubits` qubits, moment by moment, with what they flip, over all detectors and then all observables."""

    qubits: int
    flipped: Flipped

    @classmethod
    def of_circuit(cls, text: str) -> "MomentFaults":
        """The table of a circuit; raises stabsim.Refused if its marks would be too many steps."""
        has = stabsim.Circuit(text).numbers()
        if not has.qubits:
            return cls(0, Flipped(np.zeros(1, dtype=np.int64), np.zeros(0, dtype=np.int64), has.detectors, has.observables))
        written = text_with_marks(text, "I " + " ".join(map(str, range(has.qubits))))
        return cls(has.qubits, flipped_with_paulis(written, True, lambda lines: Flipped.of(lines, has.detectors, has.observables, sure_only=True)))

    def flips(self, moment: int, qubit: int) -> dict[str, list[str]]:
        """What X, Y and Z on a qubit at the end of a moment flip, as `D3` and `L0`."""
        if not 0 <= qubit < self.qubits or not 0 <= moment < self.moments:
            return {}
        first = 2 * (moment * self.qubits + qubit)
        bounds = self.flipped.indptr[first : first + 3].tolist()
        by_x, by_z = (set(self.flipped.indices[low:high].tolist()) for low, high in itertools.pairwise(bounds))
        return {letter: list(map(self.name, sorted(its))) for letter, its in (("X", by_x), ("Y", by_x ^ by_z), ("Z", by_z))}

    @property
    def moments(self) -> int:
        return (len(self.flipped.indptr) - 1) // (2 * self.qubits) if self.qubits else 0

    def region(self, bit: str) -> dict[int, Letters]:
        """The detecting region of a detector or observable, as `D3` or `L0`: at the end of each moment at which it has letters, the
        letter on each qubit."""
        place = self.place(bit)
        regions = self.flipped.regions(self.qubits, np.flatnonzero(self.flipped.indices == place))
        return {moment: its[place] for moment, its in regions.items()}

    def slice(self, moment: int) -> dict[str, Letters]:
        """The detecting regions at the end of a moment: for each detector and observable that has letters there, the letter on each
        qubit."""
        if not 0 <= moment < self.moments:
            return {}
        first, end = self.flipped.indptr[[2 * self.qubits * moment, 2 * self.qubits * (moment + 1)]]
        return {self.name(bit): its for bit, its in self.flipped.regions(self.qubits, np.arange(first, end)).get(moment, {}).items()}

    def name(self, place: int) -> str:
        return f"D{place}" if place < self.flipped.num_detectors else f"L{place - self.flipped.num_detectors}"

    def place(self, name: str) -> int:
        """The place of a bit among all; ValueError if the name is none."""
        if not re.fullmatch(r"[DL]\d+", name):
            raise ValueError(f"{name} is no detector and no observable")
        return int(name[1:]) + (self.flipped.num_detectors if name[0] == "L" else 0)


def text_with_marks(text: str, mark: str) -> str:
    """A circuit without noise, with a mark at the end of each moment, and no other: an `I` of its own does nothing, and would have rows
    too. It cuts moments all the same, as each gate does."""
    lines = lines_of(moments.marked(quiet(text), PLACE))
    return "\n".join(line.text for line in lines if not is_idle(line)).replace(PLACE, mark)


def key_of(text: str) -> Key:
    """What the table of a circuit depends on: its text with the marks of moments, without Paulis, which change no fault, and without
    coordinates; a round that is split off a block is of the block still."""
    marked = text_with_marks(text, PLACE)
    kept = (line.text.strip() for line in lines_of(marked) if line.parts is None or line.parts.name not in WITHOUT_TRACE)
    return (*folded(kept), str(qubits_of(text)))


def folded(lines: Iterator[str]) -> Key:
    """Lines up to the end of a block, with each block in them as its head, its rounds and its lines; blocks of the same lines that follow
    each other are one."""
    found: list[Any] = []
    for line in lines:
        if line == "}":
            break
        if not line.endswith("{"):
            found.append(line)
            continue
        head, count = line.removesuffix("{").rsplit(maxsplit=1)
        rounds, inside = int(count), folded(lines)
        if found and isinstance(found[-1], tuple) and (found[-1][0], found[-1][2]) == (head, inside):
            rounds += found.pop()[1]
        found.append((head, rounds, inside))
    return tuple(found)


def qubits_of(text: str) -> int:
    return stabsim.Circuit(text).num_qubits


def is_idle(line: Line) -> bool:
    """Whether a line is an `I`; most aren't by their first letter."""
    return line.content.startswith(("I", "i")) and line.parts is not None and line.parts.name == "I"
