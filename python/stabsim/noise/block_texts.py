"""The texts before and after an edit in a block, cut at the block and at the edit, and how detectors of the one are numbered in the other."""

import itertools
from collections.abc import Sequence
from dataclasses import dataclass
from difflib import SequenceMatcher
from functools import cached_property

import numpy as np

from stabsim.formats.combining import Numbers
from stabsim.noise.changed_lines import Change, without_targets
from stabsim.noise.known_lines import DETECTORS, KnownLines
from stabsim.noise.line_facts import DECLARING, Counts
from stabsim.noise.line_runs import runs_apart
from stabsim.noise.pieces import Piece


@dataclass(frozen=True)
class BlockText:
    """A text with a block in its outermost list.

    begin, end: the line that the block begins at, and the one after it; own: which lines in it are of the edit, with all of the blocks in it
    that they are in, as runs: beside these the text before the edit and the one after it differ in detectors and observables alone.
    """

    lines: KnownLines
    begin: int
    end: int
    own: Sequence[range]

    @cached_property
    def each(self) -> Counts:
        """What a round makes."""
        return self.lines.counts(self.begin + 1, self.end - 1)

    @cached_property
    def around(self) -> tuple[int, int]:
        """How many detectors are declared in front of the block and after it."""
        return self.lines.counts(0, self.begin).detectors, self.lines.counts(self.end, len(self.lines.lines)).detectors

    def declared(self) -> tuple[list[str], list[str]]:
        """The lines in the block, and those after it, that declare detectors."""
        return self.lines.picked(self.begin + 1, self.end - 1, DETECTORS), self.lines.picked(self.end, len(self.lines.lines), DETECTORS)

    def detectors(self, rounds: int) -> int:
        """How many detectors there are if the block has this many rounds."""
        return sum(self.around) + rounds * self.each.detectors

    @cached_property
    def least(self) -> int | None:
        """How many rounds it takes until no lookback goes from the last of them or from below beyond the first; None if none are enough."""
        reach = max(self.lines.reach(self.begin + 1, self.end - 1), self.lines.reach(self.end, len(self.lines.lines)))
        if not self.each.records:
            return None if reach else 1
        return 1 - -reach // self.each.records

    @cached_property
    def cuts(self) -> list[int]:
        """The lines at which pieces in the block begin, and the one after the last of them."""
        return [self.begin + 1, *(cut for run in self.own for cut in (run.start, run.stop)), self.end - 1]

    def marks(self, is_whole: bool) -> list[int]:
        """How many marks each of the pieces has, those in the block in one round."""
        inside = [self.lines.counts(first, last).marks for first, last in itertools.pairwise(self.cuts)]
        outside = [self.lines.counts(*its).marks if is_whole else 0 for its in ((0, self.begin), (self.end, len(self.lines.lines)))]
        return [outside[0], *inside, outside[1]]

    def pieces(self, qubits: int, rounds: int, is_whole: bool) -> list[Piece]:
        """In front of the block, in it in turn lines that are kept and those of the edit, and after the block, with marks, as those of all of
        this many qubits come first in each round; is_whole: whether there are marks outside of the block."""
        noisy = None if is_whole else np.zeros(0, dtype=np.int64)
        found = [Piece.of(self.lines, 0, self.begin, 0, noisy=noisy)]
        mark = found[0].marks + qubits
        for first, last in itertools.pairwise(self.cuts):
            found.append(Piece.of(self.lines, first, last, mark))
            mark += found[-1].marks
        each = mark - found[0].marks
        return [*found, Piece.of(self.lines, self.end, len(self.lines.lines), found[0].marks + each * rounds, noisy=noisy)]


def texts_of(change: Change) -> tuple[BlockText, BlockText, int] | None:
    """The texts before and after an edit in a block, and how many rounds that has; None if it is in none, or changes more than declarations
    below it."""
    around, again = change.before.around(change.first), change.after.around(change.first)
    if not around:
        return None
    ends = around[0].end + 1, again[0].end + 1
    below = [[line for line in its[end - change.first :] if not is_declared(line)] for its, end in zip((change.old, change.new), ends)]
    if below[0] != below[1]:
        return None
    own = own_lines(change, ends)
    texts = [BlockText(known, around[0].begin, end, its) for known, end, its in zip((change.before, change.after), ends, own)]
    return texts[0], texts[1], around[0].rounds


def own_lines(change: Change, ends: tuple[int, int]) -> tuple[list[range], list[range]]:
    """Which lines of a block before and after an edit are of it, beside declarations, as runs; ends: the lines after the block."""
    # Blocks within it are taken whole.
    begins = [known.around(change.first)[1:2] for known in (change.before, change.after)]
    first = min([change.first, *(it.begin for its in begins for it in its)])
    bounds, places = [], []
    for known, changed, end in zip((change.before, change.after), (change.old_end, change.new_end), ends):
        last = min(changed, end - 1)
        bounds.append(max([last, *(it.end + 1 for it in known.around(last)[1:2])]))
        places.append([at for at in range(first, bounds[-1]) if not is_declared(known.lines[at])])
    runs = runs_of(*([known.lines[at] for at in its] for known, its in zip((change.before, change.after), places)))
    found: tuple[list[range], list[range]] = [], []
    for its, end, own, which in zip(places, bounds, zip(*runs), (0, 1)):
        # Declarations around a run go with it.
        found[which].extend(range(its[run.start - 1] + 1 if run.start else first, its[run.stop] if run.stop < len(its) else end) for run in own)
    return found


def runs_of(old: Sequence[str], new: Sequence[str]) -> list[tuple[range, range]]:
    """The runs of lines between those that both have alike; all lines, if blocks are among them."""
    if any(line.endswith(("{", "}")) for line in (*old, *new)):
        return [(range(len(old)), range(len(new)))]
    return list(runs_apart(old, new))


def is_declared(line: str) -> bool:
    """Whether a line is of a detector or an observable, which have no errors."""
    return line.lstrip().startswith(DECLARING)


def columns_of_rounds(old: BlockText, new: BlockText, rounds: int, observables: int) -> Numbers:
    """The number in the new text of each detector and observable of the old one, -1 of one that is no more, if the block has this many rounds."""
    above, each = new.around[0], new.each.detectors
    (inner, outer), (inner_after, outer_after) = old.declared(), new.declared()
    own = same_detectors(inner, inner_after, old.each.detectors, each)
    below = same_detectors(outer, outer_after, old.around[1], new.around[1])
    inside = np.where(own < 0, -1, above + each * np.arange(rounds)[:, None] + own).ravel()
    after = np.where(below < 0, -1, above + each * rounds + below)
    return np.concatenate([np.arange(above), inside, after, new.detectors(rounds) + np.arange(observables)])


def same_detectors(old: Sequence[str], new: Sequence[str], before: int, after: int) -> Numbers:
    """For each detector that these lines declare, in blocks each round, which of the new lines' is taken for it, ascending, -1 for none; before,
    after: how many there are of each."""
    if before == after:
        return np.arange(before)
    found = np.full(before, -1, dtype=np.int64)
    heads, others = ([without_targets(line) for line in lines] for lines in (old, new))
    if (len(heads), len(others)) == (before, after):
        for at, again, size in SequenceMatcher(None, heads, others, autojunk=False).get_matching_blocks():
            found[at : at + size] = np.arange(again, again + size)
    return found
