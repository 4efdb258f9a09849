"""Lines of a circuit with marks, and their errors."""

from collections.abc import Collection, Iterator, Sequence
from typing import NamedTuple

import numpy as np

from stabsim.formats.combining import Numbers
from stabsim.noise.known_lines import MARKS, ROUNDS, KnownLines
from stabsim.noise.line_facts import marked_line
from stabsim.noise.marking import Source


class Piece(NamedTuple):
    """Lines with marks, their errors, and how many marks they have in all rounds of their blocks."""

    text: str
    sources: Sequence[Source]
    marks: int

    @classmethod
    def of(cls, known: KnownLines, first: int, end: int, mark: int, declared: Collection[int] | None = None, rounds: int | None = None,
           noisy: Numbers | None = None) -> "Piece":
        """Of some lines, whose first mark has this number. Blocks that begin in them end there. declared: which of them declare or place
        something, all without it; rounds: of the block that the first of them begins, its own without it; noisy: those that get marks, all
        without it."""
        parts, sources, last, done = list[str](), list[Source](), mark, first
        # Of each open block its rounds, its first mark, and how many sources come before it.
        opened: list[tuple[int, int, int]] = []
        some = places_of(known, first, end, noisy)
        for place, its_rounds in zip(some.tolist(), known.facts[some, ROUNDS].tolist()):
            parts.append(known.quiet_text(done, place + (its_rounds < 0), declared))
            done = place + 1
            if not its_rounds:
                text, errors, marks = marked_line(known.lines[place])
                parts.append(text)
                sources += placed(errors, place + 1, last)
                last += marks
            elif its_rounds > 0:
                opened.append((its_rounds if place > first or rounds is None else rounds, last, len(sources)))
                parts.append(f"REPEAT {opened[-1][0]} {{\n")
            else:
                times, begin, before = opened.pop()
                sources[before:] = [it.within(times, last - begin) for it in sources[before:]]
                last = begin + times * (last - begin)
        return cls("".join([*parts, known.quiet_text(done, end, declared)]), sources, last - mark)


def places_of(known: KnownLines, first: int, end: int, noisy: Numbers | None) -> Numbers:
    """Which of some lines begin or end blocks, or have marks, and are noisy if it is said which are."""
    if noisy is None:
        return first + np.flatnonzero(known.facts[first:end, (MARKS, ROUNDS)].any(axis=1))
    return np.union1d(noisy[known.facts[noisy, MARKS] > 0], first + np.flatnonzero(known.facts[first:end, ROUNDS]))


def placed(sources: Sequence[Source], line: int, mark: int) -> Iterator[Source]:
    """The errors of a line that is alone, if it has this number, and its first mark another one."""
    last = None
    for it in sources:
        if it.marks is not last:
            last, marks = it.marks, it.marks + mark
        yield Source(it.letters, it.chance, marks, line, it.name, it.targets, it.is_record, it.blocks, it.place)
