"""An error model after an edit in a block: what errors flip in few of its rounds is asked of the program, and other rounds are as these.

What errors in a round flip follows from the regions at its end alone. If at the begins of the first two of few rounds regions are the same,
with detectors of a round later at the second, then rounds that were in front of them would be as the first, with detectors of rounds before.
So of all rounds of the text the last ones are these few, and all others are as the first of them; and what comes before the block flips what
it flips in front of few rounds. No lookback may go from the last of them, or from below, beyond the first: what is named there is no region.

The program is asked about few rounds of the text from before the edit too. Errors flip something else at the marks where these two differ.
Outside of the block there are marks only if regions in front of it are others than before, or what is declared is, or names other records.
"""

import functools
import itertools
from collections.abc import Sequence
from concurrent.futures import ThreadPoolExecutor
from dataclasses import dataclass, replace
from functools import cached_property
from typing import TYPE_CHECKING

import numpy as np

from stabsim.errors import Refused
from stabsim.formats.combining import Numbers, columns_of, rows_of, starts_of
from stabsim.noise.block_texts import BlockText, columns_of_rounds, texts_of
from stabsim.noise.causes import Causes, Sources
from stabsim.noise.changed_lines import Change, coordinates_in, observables_in, placing
from stabsim.noise.flipped import Bits, Flipped
from stabsim.noise.marking import Source
from stabsim.noise.pieces import Piece
from stabsim.noise.renewal import Renewal, renumbered
from stabsim.noise.sourced import errors_at, rows_of_errors

if TYPE_CHECKING:
    from stabsim.noise.models import ErrorModel

# How many rounds are asked for, one after the other, if regions differ.
FEW = (3, 6)
# The most errors that get other rows.
MOST_ASKED = 60_000


@functools.lru_cache(maxsize=4)
def flipped(text: str, detectors: int, observables: int) -> Flipped:
    """What the marks of a text flip. The text from before an edit is most often that from after the one before it."""
    return Flipped.of([text], detectors, observables)


@dataclass(frozen=True)
class Few:
    """A text in which the block has few rounds, with marks, in each round marks of all qubits first, and what they flip.

    marks: how many each piece has, one in front of the block, in it in turn what is kept and what is of the edit, and one after the block, which
    has none, as that in front of the block, if the text is not marked as a whole;
    rounds: how many the block has; qubits: how many there are; detectors: how many a round declares; pieces: of the text after the edit.
    """

    table: Flipped
    marks: Sequence[int]
    rounds: int
    qubits: int
    detectors: int
    pieces: Sequence[Piece] = ()

    @classmethod
    def of(cls, text: BlockText, rounds: int, qubits: int, observables: int, is_whole: bool, is_before: bool = False) -> "Few":
        """Asks the program; is_before: if it was not asked for the last edit."""
        key, marks = (text.begin, rounds, qubits, observables, int(is_whole)), text.marks(is_whole)
        if is_before and key in text.lines.tables:
            return cls(text.lines.tables[key], marks, rounds, qubits, text.each.detectors)
        mark = " ".join(["I", *map(str, range(qubits))])
        outside, *inside, after = pieces = text.pieces(qubits, rounds, is_whole)
        block = "".join([f"REPEAT {rounds} {{\n{mark}\n", *(piece.text for piece in inside), "}\n"])
        table = flipped("".join([outside.text, block, after.text]), text.detectors(rounds), observables)
        text.lines.tables[key] = table
        return cls(table, marks, rounds, qubits, text.each.detectors, pieces)

    @property
    def first(self) -> int:
        """The first mark of the block."""
        return self.marks[0]

    @property
    def each(self) -> int:
        """How many marks a round has."""
        return self.qubits + sum(self.marks[1:-1])

    @cached_property
    def kept(self) -> Numbers:
        """The marks that are not the edit's, which are one after another the same in both texts."""
        counts = [self.qubits, *self.marks[1:-1]]
        inside = np.flatnonzero(np.repeat([place < 2 or place % 2 == 1 for place in range(len(counts))], counts))
        end = self.first + self.rounds * self.each
        block = self.first + self.each * np.arange(self.rounds)[:, None] + inside
        return np.concatenate([np.arange(self.first), block.ravel(), np.arange(end, end + self.marks[-1])])

    def is_periodic(self) -> bool:
        """Whether regions at the begins of the first two rounds are the same, with detectors of a round later at the second."""
        (lines, columns), (again, later) = (self.table.pairs(self.first + at, self.qubits) for at in (0, self.each))
        moved = np.where(later < self.table.num_detectors, later - self.detectors, later)
        return np.array_equal(lines, again) and np.array_equal(columns, moved)

    def begins_as(self, old: "Few", columns: Numbers) -> bool:
        """Whether regions in front of the block are those of an old text, whose detectors and observables have these numbers now."""
        (lines, before), (again, now) = (its.table.pairs(its.first, self.qubits) for its in (old, self))
        return np.array_equal(lines, again) and np.array_equal(columns[before], now)

    def rows(self) -> tuple[Numbers, Numbers]:
        """What X and Z of each mark that is kept flip, one after the other: how much each does, and all of it."""
        if 2 * len(self.kept) == len(self.table.indptr) - 1:
            return np.diff(self.table.indptr), self.table.indices
        rows = np.stack([2 * self.kept, 2 * self.kept + 1], axis=1).ravel()
        return np.diff(self.table.indptr)[rows], columns_of(rows, self.table.indptr, self.table.indices)

    def sources(self, rounds: int) -> list[list[Source]]:
        """The errors of each piece, if the block has this many rounds."""
        outside, *inside, after = (list(piece.sources) for piece in self.pieces)
        return [outside, *([it.within(rounds, self.each) for it in its] for its in inside), after]

    @cached_property
    def own_sources(self) -> list[list[Source]]:
        """The same of the rounds that it has."""
        return self.sources(self.rounds)

    def marks_that_differ(self, old: "Few", columns: Numbers) -> Bits:
        """Which marks flip something else than in an old text, whose detectors and observables have these numbers now."""
        (lengths_before, before), (lengths, after) = old.rows(), self.rows()
        found, is_other, before = np.zeros(len(self.table.indptr) // 2, dtype=np.bool_), lengths != lengths_before, columns[before]
        if is_other.any():
            # Of rows that are as long as before the columns are compared one by one.
            before, after = before[np.repeat(~is_other, lengths_before)], after[np.repeat(~is_other, lengths)]
        ends = np.cumsum(np.where(is_other, 0, lengths))
        is_other[np.searchsorted(ends, np.flatnonzero(before != after), side="right")] = True
        found[self.kept] = is_other[::2] | is_other[1::2]
        return found


@dataclass(frozen=True)
class Rows:
    """What errors flip that flip something else, or are new, in all rounds of the block: errors by their numbers after the edit, and a CSR
    matrix."""

    errors: Numbers
    indptr: Numbers
    indices: Numbers

    @classmethod
    def of(cls, few: Few, rounds: int, several: Sequence[Sequence[Numbers]], firsts: Numbers) -> "Rows | None":
        """Of some errors of the sources of each piece; None if there are too many. rounds: of the block; firsts: the first error of each source
        after the edit."""
        sources, some = joined(few.own_sources), [it for its in several for it in its]
        number = np.repeat(np.arange(len(sources)), [len(its) for its in some])
        piece = np.repeat(np.arange(len(several)), [len(its) for its in several])[number]
        in_block, more = (piece > 0) & (piece < len(several) - 1), rounds - few.rounds
        each = np.array([source.times() for source in sources], dtype=np.int64)[number] // np.where(in_block, few.rounds, 1)
        errors = np.concatenate([np.zeros(0, dtype=np.int64), *some])
        # Errors of the first round come in all rounds that are as it is, and those of others as much later as there are more rounds.
        is_first = in_block & (errors < each)
        count = np.where(is_first, more + 1, 1)
        if count.sum() > MOST_ASKED:
            return None
        row = np.repeat(np.arange(len(errors)), count)
        later = np.where(is_first[row], np.arange(len(row)) - starts_of(count)[row], more * (piece > 0)[row])
        indptr, indices = rows_of_errors(list(zip(sources, some)), few.table)
        of_row, columns = rows_of(row, indptr, indices)
        columns = columns + few.detectors * np.where(columns < few.table.num_detectors, later[of_row], more)
        moved = errors[row] + np.where(in_block, each, 0)[row] * later
        return cls(firsts[number[row]] + moved, starts_of(np.diff(indptr)[row]), columns)


@dataclass(frozen=True)
class Edit:
    """An edit in a block of which few rounds of the texts before and after were asked for; rounds: how many it has; texts: both; is_whole: whether
    there are marks outside of the block."""

    change: Change
    texts: tuple[BlockText, BlockText]
    rounds: int
    is_whole: bool
    old: Few
    new: Few

    @classmethod
    def of(cls, change: Change, texts: tuple[BlockText, BlockText], rounds: int, few: int, qubits: int, observables: int, is_whole: bool) -> "Edit":
        """Asks the program about both texts at once."""
        with ThreadPoolExecutor(1) as thread:
            old = thread.submit(Few.of, texts[0], few, qubits, observables, is_whole, True)
            new = Few.of(texts[1], few, qubits, observables, is_whole)
        return cls(change, texts, rounds, is_whole, old.result(), new)

    @cached_property
    def columns(self) -> Numbers:
        """Those of `columns_of_rounds`, of these few."""
        return columns_of_rounds(*self.texts, self.new.rounds, self.new.table.num_observables)

    def leaves_others(self) -> bool:
        """Whether errors outside of the block flip what they did, or there are marks for them."""
        return self.is_whole or self.new.begins_as(self.old, self.columns)

    def says_all(self) -> bool:
        """Whether other rounds are as these."""
        return self.new.rounds == self.rounds or self.old.is_periodic() and self.new.is_periodic()

    def renewed(self, model: "ErrorModel", causes: Causes) -> "ErrorModel | None":
        """The model in which errors flip what they flip now; None if they are not those from before the edit, or if too many flip others."""
        asked = self.new.sources(self.rounds)
        # Where the errors of each piece begin, before the edit and after it.
        starts_before = np.array([0, *np.searchsorted(causes.sources.lines, np.array(self.texts[0].cuts) + 1), len(causes.sources.its)])
        first, last = starts_before[[0, -1] if self.is_whole else [1, -2]].tolist()
        sources = causes.sources.edited(first, last, Sources.of(joined(asked)), len(self.change.new) - len(self.change.old))
        starts = np.cumsum([0, len(asked[0]) or first, *map(len, asked[1:-1]), len(asked[-1]) or len(causes.sources.its) - last])
        pieces = enumerate(zip(*(itertools.pairwise(its.tolist()) for its in (starts_before, starts))))
        if not all(is_own(number, asked) or causes.sources.are_like(begin, end, sources.some(*its)) for number, ((begin, end), its) in pieces):
            return None
        firsts, parts = sources.firsts[starts], causes.sources.firsts[starts_before]
        rows = Rows.of(self.new, self.rounds, self.errors(), sources.firsts[first:])
        if rows is None:
            return None
        mechanisms = causes.mechanisms.astype(np.int64)
        if not np.array_equal(self.columns, np.arange(len(self.columns))):
            columns = columns_of_rounds(*self.texts, self.rounds, model.num_observables)
            model, mechanisms = renumbered(model, mechanisms, columns, self.texts[1].detectors(self.rounds))
        renewal = Renewal.of_rows(model, rows.indptr, rows.indices)
        if renewal is None:
            return None
        its = np.split(mechanisms, parts[1:-1])
        left = its[2:-1:2]
        for number in range(2, len(its) - 1, 2):
            its[number] = np.full(firsts[number + 1] - firsts[number], -1)
        mechanisms = np.concatenate(its)
        gone = np.concatenate([*left, mechanisms[rows.errors]])
        mechanisms[rows.errors] = renewal.mechanisms
        found = renewal.model_of(mechanisms, gone, sources, self.change.after)
        return found if placing(self.change.old) == placing(self.change.new) else replace(found, coordinates=coordinates_in(self.change.after))

    def errors(self) -> list[list[Numbers]]:
        """Which errors of the sources of each piece flip something else in few rounds, or are new."""
        pieces = self.new.own_sources
        others = iter(errors_at(joined(of_kept(pieces)), self.new.marks_that_differ(self.old, self.columns)))
        return [[np.arange(source.times()) if is_own(number, pieces) else next(others) for source in its] for number, its in enumerate(pieces)]


def is_own(number: int, pieces: Sequence[object]) -> bool:
    """Whether a piece is of the edit."""
    return number % 2 == 0 and 0 < number < len(pieces) - 1


def of_kept(pieces: Sequence[list[Source]]) -> list[list[Source]]:
    """The errors of pieces that are not of the edit."""
    return [its for number, its in enumerate(pieces) if not is_own(number, pieces)]


def joined(pieces: Sequence[list[Source]]) -> list[Source]:
    """The errors of pieces one after another."""
    return [source for its in pieces for source in its]


def renewed_block(model: "ErrorModel", causes: Causes, change: Change, qubits: int) -> "ErrorModel | None":
    """The model of a text, from that of the text before an edit in a block; None if it is in none, or if few rounds don't say what it does."""
    found = texts_of(change)
    if found is None:
        return None
    old, new, rounds = found
    if observables_in(change.old) != observables_in(change.new) and observables_in(change.before.lines) != observables_in(change.after.lines):
        return None
    least = max(rounds if its.least is None else its.least for its in (old, new))
    is_whole = not change.leaves_names
    for few in sorted({min(max(least, its), rounds) for its in FEW}):
        try:
            edit = Edit.of(change, (old, new), rounds, few, qubits, model.num_observables, is_whole)
            if edit.says_all() and not edit.leaves_others():
                edit = Edit.of(change, (old, new), rounds, few, qubits, model.num_observables, True)
        except Refused:
            # Whether coins decide something in all rounds too is found with all of them.
            return None
        if edit.says_all():
            return edit.renewed(model, causes)
    return None
