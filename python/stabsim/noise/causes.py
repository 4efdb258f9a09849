"""Which part of a circuit's noise makes a mechanism of its error model."""

import functools
from collections.abc import Sequence
from dataclasses import dataclass, replace
from typing import NamedTuple

import numpy as np
from numpy.typing import NDArray

from stabsim.formats.combining import Chances, Numbers, starts_of
from stabsim.noise.known_lines import KnownLines
from stabsim.noise.marking import Source
from stabsim.noise.placing import placed
from stabsim.questions.circuit_errors import CircuitError
from stabsim.text.profile import profile_of
from stabsim.text.reading import Item, items_of, walk


class Cause(NamedTuple):
    """One error of one line of a circuit's noise.

    line: int, counted from 1, and name: str, of the instruction; error: str, Paulis as `X3*Z5`, or of a wrong record `record of 3`;
    chance: float, of this error by itself; rounds: of each block around the line, the outermost first, in which round it is, from 0.

    >>> import stabsim
    >>> model = stabsim.error_model("R 0\\nREPEAT 2 {\\nX_ERROR(0.1) 0\\n}\\nM 0\\nDETECTOR rec[-1]\\n")
    >>> model.explain(0)[1]
    Cause(line=3, name='X_ERROR', error='X0', chance=0.1, rounds=(1,))
    """

    line: int
    name: str
    error: str
    chance: float
    rounds: tuple[int, ...]


@dataclass(frozen=True, eq=False)
class Sources:
    """The errors of a circuit by instruction, one after another.

    its: the sources, of which lines and marks may be those of the circuit before edits; lines: int64 (sources,), the line of each, ascending;
    times: int64 (sources,), how often it is met; chances: float64 (sources,).
    """

    its: tuple[Source, ...]
    lines: Numbers
    times: Numbers
    chances: Chances

    @classmethod
    def of(cls, its: Sequence[Source]) -> "Sources":
        """Of sources as they are."""
        lines, times = np.array([(it.line, it.times()) for it in its], dtype=np.int64).reshape(len(its), 2).T
        return cls(tuple(its), lines, times, np.array([it.chance for it in its], dtype=np.float64))

    @functools.cached_property
    def firsts(self) -> Numbers:
        """The first error of each source, and how many there are of all, int64 (sources + 1,)."""
        return starts_of(self.times)

    def some(self, begin: int, end: int) -> "Sources":
        """Some of them, one after another."""
        return Sources(self.its[begin:end], self.lines[begin:end], self.times[begin:end], self.chances[begin:end])

    def edited(self, begin: int, end: int, new: "Sources", lines: int) -> "Sources":
        """With others in the place of some; those after them are this many lines further down."""
        return Sources((*self.its[:begin], *new.its, *self.its[end:]), np.concatenate([self.lines[:begin], new.lines, self.lines[end:] + lines]),
                       np.concatenate([self.times[:begin], new.times, self.times[end:]]),
                       np.concatenate([self.chances[:begin], new.chances, self.chances[end:]]))

    def are_like(self, begin: int, end: int, others: "Sources") -> bool:
        """Whether some of them have the same errors as others, with any chances."""
        letters = all(it.letters == its.letters for it, its in zip(self.its[begin:end], others.its))
        return letters and np.array_equal(self.times[begin:end], others.times)


@dataclass(frozen=True, eq=False)
class Causes:
    """Which errors of a circuit each mechanism is made of.

    sources: the errors by instruction; mechanisms: int32 (errors,), the mechanism of each error, in the order of the sources and of all of
    their times, -1 of one that flips nothing; known: the lines of the circuit's text, which was judged.
    """

    sources: Sources
    mechanisms: NDArray[np.int32]
    known: KnownLines

    @property
    def text(self) -> str:
        """The circuit's text."""
        return self.known.text

    @functools.cached_property
    def items(self) -> tuple[Item, ...]:
        """The items of the circuit with its noise."""
        return profile_of(self.text)[0].noisy.items()

    @functools.cached_property
    def paths(self) -> dict[int, str]:
        """For each line of an item of the user's the path of that."""
        return {item.line: item.path for item in walk(items_of(self.text))}

    def chances_of(self, errors: Numbers) -> Chances:
        """The chances of errors with these numbers."""
        found: Chances = self.sources.chances[np.searchsorted(self.sources.firsts, errors, side="right") - 1]
        return found

    def renumbered(self, mechanisms: NDArray[np.int64]) -> "Causes":
        """The same of a model that has mechanisms of other numbers, which are given for each."""
        return replace(self, mechanisms=np.where(self.mechanisms < 0, -1, mechanisms[self.mechanisms]).astype(np.int32))

    def of(self, mechanism: int) -> list[Cause]:
        """The errors that make a mechanism, by their lines."""
        found = [cause_of(source, rounds, at) for source, rounds, at in self.times_of(mechanism)]
        return sorted(found, key=lambda cause: (cause.line, cause.rounds, cause.error))

    def error_of(self, mechanism: int) -> CircuitError:
        """One of the errors that make a mechanism, the first: at the path of its item of noise, with steps and records as they are counted
        without noise."""
        errors = (replace(placed(self.items, *its), path=self.paths[its[0].line]) for its in self.times_of(mechanism))
        return min(errors, key=lambda error: (error.steps, str(error)))

    def times_of(self, mechanism: int) -> list[tuple[Source, list[int], int]]:
        """The errors that make a mechanism: of which source, in which rounds of the blocks around it, and which of its times in these."""
        errors = np.flatnonzero(self.mechanisms == mechanism)
        found = []
        for error, number in zip(errors.tolist(), (np.searchsorted(self.sources.firsts, errors, side="right") - 1).tolist()):
            source = self.sources.its[number]._replace(line=int(self.sources.lines[number]))
            shape = (*(count for count, _ in reversed(source.blocks)), len(source.marks))
            *rounds, at = map(int, np.unravel_index(error - int(self.sources.firsts[number]), shape))
            found.append((source, rounds, at))
        return found


def cause_of(source: Source, rounds: list[int], at: int) -> Cause:
    """One of all times of a source."""
    if source.is_record:
        error = f"record of {source.targets[at]}"
    else:
        each = len(source.letters)
        qubits = source.targets[at * each : (at + 1) * each]
        error = "*".join(letter + qubit for letter, qubit in zip(source.letters, qubits) if letter != "I")
    return Cause(source.line, source.name, error, source.chance, tuple(rounds))
