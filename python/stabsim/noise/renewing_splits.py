"""An error model after blocks were split, or made one again: steps are as they were, so each error flips what it did, in another order."""

import itertools
import math
from dataclasses import dataclass
from typing import TYPE_CHECKING

import numpy as np

from stabsim.formats.combining import Numbers
from stabsim.noise.causes import Causes, Sources
from stabsim.noise.changed_lines import Change
from stabsim.noise.marking import Source
from stabsim.noise.renewal import NONE, Renewal
from stabsim.noise.several_changes import Blocks, groups_of, text_between

if TYPE_CHECKING:
    from stabsim.noise.models import ErrorModel


def renewed_split(model: "ErrorModel", causes: Causes, change: Change, chances_stay: bool = False) -> "ErrorModel | None":
    """The model of a text in which blocks are split, or are one, that were not before it; None if something else changed too. What makes a
    mechanism is added in the order of errors, on which the last bits of its chance depend: they are not made anew if chances_stay."""
    if text_between(change) not in (change.before.text, change.after.text):
        return None
    sources, mechanisms, done = causes.sources, causes.mechanisms.astype(np.int64), 0
    moved, other = [NONE], [NONE]
    for old, new in groups_of(change):
        part = Rounds.of(causes.sources, mechanisms, old, new, int(change.before.depths[old[0].begin]))
        firsts, more = causes.sources.firsts, len(sources.its) - len(causes.sources.its)
        sources = sources.edited(part.begin + more, part.end + more, part.sources(), len(new) * part.lines - len(old) * part.lines)
        other.append(part.moved())
        moved += [mechanisms[done : firsts[part.begin]], other[-1]]
        done = firsts[part.end]
    moved.append(mechanisms[done:])
    gone = NONE if chances_stay else np.concatenate(other)
    return Renewal(model, NONE, NONE, NONE, NONE).model_of(np.concatenate(moved), gone, sources, change.after)


@dataclass(frozen=True)
class Rounds:
    """Blocks of the same lines, with the same rounds in all as others that are in their place now.

    before, mechanisms: of all errors before; begin, end: which of the sources theirs are; level: how many blocks are around them.
    """

    before: Sources
    mechanisms: Numbers
    begin: int
    end: int
    old: Blocks
    new: Blocks
    level: int

    @classmethod
    def of(cls, before: Sources, mechanisms: Numbers, old: Blocks, new: Blocks, level: int) -> "Rounds":
        """Of the blocks before and now."""
        begin, end = np.searchsorted(before.lines, [old[0].begin + 1, old[-1].end + 1]).tolist()
        return cls(before, mechanisms, begin, end, old, new, level)

    @property
    def lines(self) -> int:
        """How many lines each block has."""
        return self.old[0].end - self.old[0].begin + 1

    @property
    def each(self) -> int:
        """How many sources each block has."""
        return (self.end - self.begin) // len(self.old)

    def sources(self) -> Sources:
        """The sources now."""
        before, end = self.before, self.begin + self.each
        lines, times = before.lines[self.begin : end] - self.old[0].begin, before.times[self.begin : end] // self.old[0].rounds
        its = [self.with_rounds(it, block.rounds) for block in self.new for it in before.its[self.begin : end]]
        return Sources(tuple(its), np.concatenate([block.begin + lines for block in self.new]),
                       np.concatenate([block.rounds * times for block in self.new]), np.tile(before.chances[self.begin : end], len(self.new)))

    def with_rounds(self, source: Source, rounds: int) -> Source:
        """A source, if the block has this many rounds."""
        blocks, place = list(source.blocks), len(source.blocks) - 1 - self.level
        blocks[place] = (rounds, blocks[place][1])
        return source._replace(blocks=tuple(blocks))

    def moved(self) -> Numbers:
        """The mechanisms of their errors now."""
        ends = itertools.accumulate((block.rounds for block in self.new), initial=0)
        found = [self.by_rounds(number) for number in range(self.each)]
        return np.concatenate([NONE, *(its[:, begin:end].ravel() for begin, end in itertools.pairwise(ends) for its in found)])

    def by_rounds(self, number: int) -> Numbers:
        """The mechanisms of a source of each block: by the rounds of what is around them, by theirs, and by the errors in one."""
        its, firsts = [], self.before.firsts
        for block, place in zip(self.old, range(self.begin + number, self.end, self.each)):
            blocks = self.before.its[place].blocks
            around = math.prod(rounds for rounds, _ in blocks[len(blocks) - self.level :])
            its.append(self.mechanisms[firsts[place] : firsts[place + 1]].reshape(around, block.rounds, -1))
        return np.concatenate(its, axis=1)
