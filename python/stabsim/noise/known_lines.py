"""The lines of a circuit's text, and what is known of each: after an edit it is looked up for the new lines alone."""

import functools
import itertools
from collections.abc import Callable, Collection, Iterator, Sequence
from functools import cached_property
from typing import NamedTuple, TypeVar

import numpy as np

from stabsim.formats.combining import Numbers, starts_of
from stabsim.noise.flipped import Flipped
from stabsim.noise.line_facts import ALWAYS_QUIET, Counts, facts_of, quiet
from stabsim.noise.line_runs import runs_apart

# What is known of lines, one after another.
Known = TypeVar("Known", list[str | None], Numbers)
# The columns of facts.
RECORDS, DETECTORS, MARKS, REACH, ROUNDS, FED_BACK, SHIFT = range(7)


class Around(NamedTuple):
    """A block: the line that begins it, the one that ends it, and how many rounds it has."""

    begin: int
    end: int
    rounds: int


class KnownLines:
    """The lines of a text as a session prints it, without comments."""

    def __init__(self, text: str) -> None:
        self.text = text
        # What the marks flip of its texts with few rounds of a block, by where that begins, and of how many rounds, qubits and observables.
        self.tables: dict[tuple[int, ...], Flipped] = {}

    @cached_property
    def lines(self) -> list[str]:
        """The lines; after the last line end an empty one."""
        return self.text.split("\n")

    @cached_property
    def quiet(self) -> list[str | None]:
        """What each line is without noise and signs, with its end; None of one that needs a qubit of its own."""
        return list(map(quiet_line, self.lines))

    @cached_property
    def facts(self) -> Numbers:
        """`Facts` of each line, int64 (lines, 7)."""
        return table_of(self.lines)

    def edited(self, text: str | None, first: int, gone: int, new: Sequence[str]) -> "KnownLines":
        """The lines of a text, if that is known, in which these are in the place of as many as are gone from a first one on."""
        last = first + gone
        lines = [*self.lines[:first], *new, *self.lines[last:]]
        found = KnownLines("\n".join(lines) if text is None else text)
        found.lines = lines
        # What is known of lines that are alike is as it was.
        runs = [(first + old.start, first + old.stop, new[its.start : its.stop]) for old, its in runs_apart(self.lines[first:last], new)]
        if "quiet" in vars(self):
            found.quiet = [*itertools.chain.from_iterable(parts_of(self.quiet, runs, lambda its: list(map(quiet_line, its))))]
        if "facts" in vars(self):
            found.facts = np.concatenate([*parts_of(self.facts, runs, table_of)])
        return found

    @cached_property
    def records_before(self) -> Numbers:
        """How many records come before each line, and of all, rounds after the first of a block not counted."""
        return starts_of(self.facts[:, 0])

    @cached_property
    def blocks(self) -> list[Around]:
        """All blocks, as they begin."""
        found: list[Around] = []
        opened: list[int] = []
        for place in np.flatnonzero(self.facts[:, ROUNDS]).tolist():
            rounds = int(self.facts[place, ROUNDS])
            if rounds > 0:
                opened.append(len(found))
                found.append(Around(place, place, rounds))
            else:
                at = opened.pop()
                found[at] = found[at]._replace(end=place)
        return found

    @cached_property
    def depths(self) -> Numbers:
        """In how many blocks the place in front of each line is, and that after all, int64 (lines + 1,)."""
        return starts_of(np.sign(self.facts[:, ROUNDS]))

    def around(self, place: int) -> list[Around]:
        """The blocks that are open in front of a line, the outermost first."""
        return [it for it in self.blocks if it.begin < place <= it.end]

    def outermost(self, place: int) -> Around:
        """The outermost block that is open in front of a line, or if there is none one of one round, which is none of the lines."""
        return next(iter(self.around(place)), Around(place, place - 1, 1))

    @cached_property
    def made(self) -> tuple[Numbers, Numbers]:
        """How often each line comes, blocks written out; and how many records, detectors and marks come before each, int64 (lines + 1, 3)."""
        times = np.ones(len(self.lines), dtype=np.int64)
        for block in self.blocks:
            times[block.begin + 1 : block.end] *= block.rounds
        return times, np.concatenate([np.zeros((1, 3), dtype=np.int64), np.cumsum(times[:, None] * self.facts[:, :3], axis=0)])

    def counts(self, first: int, end: int) -> Counts:
        """How much some lines of one list make, blocks written out."""
        times, before = self.made
        return Counts(*((before[end] - before[first]) // times[first]).tolist()) if first < end else Counts(0, 0)

    def reach(self, first: int, end: int) -> int:
        """How many records in front of some lines they name at most."""
        before = self.records_before[first:end] - self.records_before[first]
        return int((self.facts[first:end, REACH] - before).max(initial=0))

    def cut(self, end: int, records: int, at: int) -> int:
        """The place of a cut in the outermost list, in front of a line or further back, from which on this many records are made before another
        line of that list, rounds after the first of a block not counted."""
        before = self.records_before
        cut = min(int(np.searchsorted(before, before[end] - records, side="right")) - 1, at, end)
        return self.outermost(max(cut, 0)).begin

    def detector_numbers(self, first: int, end: int) -> Numbers:
        """The numbers of the detectors that lines of one list declare: a row for each round of the blocks around it, int64 (rounds, detectors)."""
        around = self.around(first)
        bounds = [0, *(place for it in around for place in (it.begin, it.begin + 1)), first]
        count = self.counts(first, end).detectors
        numbers = sum(self.counts(*its).detectors for its in zip(bounds[::2], bounds[1::2])) + np.arange(count, dtype=np.int64)[None]
        for block in reversed(around):
            each = self.counts(block.begin + 1, block.end).detectors
            numbers = (each * np.arange(block.rounds)[:, None, None] + numbers).reshape(block.rounds * len(numbers), count)
        return numbers

    def quiet_text(self, first: int, end: int, declared: Collection[int] | None = None) -> str:
        """Some lines without noise and signs; declared: which of them declare or place something, all without it. ValueError as of `quiet`."""
        some = [line for line in self.quiet[first:end] if line is not None]
        if len(some) < end - first:
            raise ValueError("the whole text would be looked at")
        if declared is not None:
            some = [line for place, line in enumerate(some, start=first) if place in declared or not line.startswith(ALWAYS_QUIET)]
        return "".join(some)

    def picked(self, first: int, end: int, *columns: int) -> list[str]:
        """Those of some lines of which one of these facts is not 0."""
        return [self.lines[place] for place in (first + np.flatnonzero(self.facts[first:end, columns].any(axis=1))).tolist()]

    def is_fed_back(self, first: int = 0, end: int | None = None) -> bool:
        """Whether records control gates in some lines."""
        return bool(self.facts[first:end, FED_BACK].any())


@functools.lru_cache(maxsize=1 << 16)
def quiet_line(line: str) -> str | None:
    """`KnownLines.quiet` of a line."""
    try:
        return "".join(f"{it}\n" for it in quiet(line))
    except ValueError:
        return None


def parts_of(before: Known, runs: Sequence[tuple[int, int, Sequence[str]]], made: Callable[[Sequence[str]], Known]) -> Iterator[Known]:
    """What is known of all lines, of some after the other, if in the place of each run, from a line to another, others are; made: what is known
    of these."""
    done = 0
    for begin, end, lines in runs:
        yield before[done:begin]
        yield made(lines)
        done = end
    yield before[done:]


def table_of(lines: Sequence[str]) -> Numbers:
    """`Facts` of each line."""
    return np.array(list(map(facts_of, lines)), dtype=np.int64).reshape(len(lines), 7)
