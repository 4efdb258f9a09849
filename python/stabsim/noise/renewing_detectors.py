"""An error model after an edit of detectors alone, in a block too: all errors flip of the others what they did, by shifted numbers.

A detector is the records that it names, counted from where the edit begins. Of those that are new, the program is asked what errors flip them
from a cut on, a place in the outermost list so far back that no region of theirs begins in front of it, as marks on all qubits there show:
then no error further back flips them. The program reads the text from there on alone, so no lookback in it goes further back.

Of a block around the edit a few rounds are asked for. If no region of the last of them begins in front of the block, and it names no record
there, later rounds are as that one: what flips their detectors is what flips its own, as many rounds later.
"""

import itertools
from collections.abc import Sequence
from dataclasses import dataclass, replace
from difflib import SequenceMatcher
from functools import cached_property
from typing import TYPE_CHECKING

import numpy as np
from numpy.typing import NDArray

from stabsim.errors import Refused
from stabsim.formats.combining import Chances, Numbers, odd, rows_of, starts_of
from stabsim.noise.causes import Causes, Sources
from stabsim.noise.changed_lines import Change, is_detector
from stabsim.noise.flipped import Flipped
from stabsim.noise.known_lines import ROUNDS, SHIFT, Around
from stabsim.noise.line_facts import LOOKBACK, quiet_lines, records_of_line
from stabsim.noise.pieces import Piece
from stabsim.noise.renewal import NONE, Renewal, mechanisms_with, renumbered
from stabsim.noise.sourced import errors_at, flips_of
from stabsim.text.coordinates import detector_coordinates

if TYPE_CHECKING:
    from stabsim.noise.models import ErrorModel

# How many times as many records as the new detectors may name are made from a cut on, before all of the text is looked at.
FURTHER = (2, 8)
# How many rounds of a block are asked for at least.
FEWEST_ROUNDS = 3


@dataclass(frozen=True)
class Declared:
    """An edit of detectors: which of those that its old lines declared are no more, and which of those that its new lines declare are new;
    reach: how many records before the edit these may name."""

    change: Change
    gone: Sequence[int]
    new: Sequence[int]
    reach: int

    @classmethod
    def of(cls, change: Change) -> "Declared | None":
        """The edit; None if it is of something else too, or of blocks."""
        others = [[line for line in lines if not is_detector(line)] for lines in (change.old, change.new)]
        if others[0] != others[1] or any("{" in line or "}" in line for line in others[0]):
            return None
        before, after = records_named(change.old), records_named(change.new)
        same = SequenceMatcher(None, before, after, autojunk=False).get_matching_blocks()
        gone = set(range(len(before))).difference(*(range(it.a, it.a + it.size) for it in same))
        new = set(range(len(after))).difference(*(range(it.b, it.b + it.size) for it in same))
        return cls(change, sorted(gone), sorted(new), -min((min(after[it], default=0) for it in new), default=0))

    @cached_property
    def numbers_before(self) -> Numbers:
        """The numbers of all detectors that the old lines declared, a row for each round, int64 (rounds, detectors)."""
        return self.change.before.detector_numbers(self.change.first, self.change.old_end)

    @cached_property
    def numbers(self) -> Numbers:
        """The same of the new lines."""
        return self.change.after.detector_numbers(self.change.first, self.change.new_end)

    @cached_property
    def new_numbers(self) -> Numbers:
        """The numbers of those that are new, ascending."""
        return self.numbers[:, self.new].ravel()

    @cached_property
    def around(self) -> Around:
        """The outermost block around the edit after it, or the edit itself, as a block of one round that begins and ends outside of it."""
        return self.change.after.outermost(self.change.first)._replace(end=self.change.after.outermost(self.change.new_end).end)

    @cached_property
    def new_each_round(self) -> int:
        """How many detectors of each of these rounds are new."""
        return len(self.new_numbers) // self.around.rounds

    def few_rounds(self) -> int:
        """How many of these rounds it takes until new detectors name no record in front of the block; all, if records control gates."""
        block, known = (self.around.begin + 1, self.around.end), self.change.after
        if self.around.rounds <= FEWEST_ROUNDS or known.is_fed_back(*block):
            return self.around.rounds
        return min(self.around.rounds, max(FEWEST_ROUNDS, 1 - -self.reach // max(known.counts(*block).records, 1)))

    def columns(self, detectors: int, observables: int) -> tuple[Numbers, int]:
        """The number of each detector and observable after the edit, -1 of one that is no more; and how many detectors there are."""
        after = detectors + self.numbers.size - self.numbers_before.size
        is_kept, is_known = np.ones(detectors + observables, dtype=np.bool_), np.ones(after + observables, dtype=np.bool_)
        is_kept[self.numbers_before[:, self.gone]] = False
        is_known[self.new_numbers] = False
        columns = np.full(len(is_kept), -1, dtype=np.int64)
        columns[is_kept] = np.flatnonzero(is_known)
        return columns, after

    def coordinates(self, before: Chances, columns: Numbers, detectors: int) -> Chances:
        """The coordinates of all detectors, from those before the edit."""
        its, known = self.change, self.change.after
        shifts = [known.picked(0, its.first, ROUNDS, SHIFT), known.picked(its.new_end, len(known.lines), ROUNDS, SHIFT)]
        own = detector_coordinates("\n".join([*shifts[0], *its.new, *shifts[1]]))
        found = np.full((detectors, max(before.shape[1], own.shape[1])), np.nan)
        kept = np.flatnonzero(columns[: len(before)] >= 0)
        found[columns[kept], : before.shape[1]] = before[kept]
        found[self.numbers.ravel()] = np.nan
        found[self.numbers.ravel(), : own.shape[1]] = own
        return found[:, : int(np.flatnonzero(~np.isnan(found).all(axis=0)).max(initial=-1)) + 1]

    def moved(self, sources: Sources) -> Sources:
        """Sources of the text before the edit by their lines after it."""
        first, lines = self.change.first, sources.lines.copy()
        lines[lines > self.change.old_end] += len(self.change.new) - len(self.change.old)
        before, after = ([first + 1 + at for at, line in enumerate(its) if not is_detector(line)] for its in (self.change.old, self.change.new))
        inside = np.flatnonzero((sources.lines > first) & (sources.lines <= self.change.old_end))
        lines[inside] = np.array(after, dtype=np.int64)[np.searchsorted(before, sources.lines[inside])]
        return replace(sources, lines=lines)


def records_named(lines: Sequence[str]) -> list[tuple[int, ...]]:
    """The records that each detector names an odd number of times, ascending, counted from the first line on."""
    found, records = [], 0
    for line in quiet_lines(lines):
        if is_detector(line):
            named: set[int] = set()
            for lookback in LOOKBACK.findall(line):
                named ^= {records - int(lookback)}
            found.append(tuple(sorted(named)))
        records += records_of_line(line)
    return found


def renewed_detectors(model: "ErrorModel", causes: Causes, change: Change, qubits: int) -> "ErrorModel | None":
    """The model of a text, from that of the text before an edit of detectors; None if more was edited, or the program refuses a new one."""
    edit = Declared.of(change)
    if edit is None:
        return None
    asked = Flips.of(edit, causes, qubits)
    if asked is None:
        return None
    columns, detectors = edit.columns(model.num_detectors, model.num_observables)
    errors, rows = asked.rows(model, causes.mechanisms, columns, detectors)
    model, mechanisms = renumbered(model, causes.mechanisms.astype(np.int64), columns, detectors)
    renewal = Renewal.of_rows(model, *rows)
    if renewal is None:
        return None
    gone = mechanisms[errors]
    mechanisms[errors] = renewal.mechanisms
    found = renewal.model_of(mechanisms, gone, edit.moved(causes.sources), change.after)
    return replace(found, coordinates=edit.coordinates(model.coordinates, columns, detectors))


@dataclass(frozen=True)
class Flips:
    """What errors flip of the detectors that are new: pairs of an error and what it flips."""

    errors: Numbers
    columns: Numbers

    @classmethod
    def of(cls, edit: Declared, causes: Causes, qubits: int) -> "Flips | None":
        """Asks the program; None if it refuses one of them."""
        if not edit.new:
            return cls(NONE, NONE)
        for rounds, times in itertools.product(sorted({edit.few_rounds(), edit.around.rounds}), FURTHER):
            cut = edit.change.before.cut(edit.around.begin, times * edit.reach, edit.around.begin)
            found = cls.asked(edit, causes, Part(cut, rounds), qubits)
            if found is not None or not cut and rounds == edit.around.rounds:
                return found
        return cls.asked(edit, causes, Part(0, edit.around.rounds), qubits)

    @classmethod
    def asked(cls, edit: Declared, causes: Causes, part: "Part", qubits: int) -> "Flips | None":
        """The same of a part of the text; None if a region of theirs may begin in front of it, or one of its last round in front of the block."""
        sources, block_mark, table = part.table(edit, qubits)
        if table is None or part.cut and len(table.pairs(0, qubits)[0]):
            return None
        last_round = (part.rounds - 1) * edit.new_each_round
        if part.rounds < edit.around.rounds and (table.pairs(block_mark, qubits)[1] >= last_round).any():
            return None
        start = int(np.searchsorted(causes.sources.lines, part.cut + 1))
        times = np.where(sources.lines > edit.around.begin, sources.times // part.rounds * edit.around.rounds, sources.times)
        if not causes.sources.are_like(start, start + len(times), replace(sources, times=times)):
            return None
        several = errors_at(sources.its, table.marks_that_flip(np.ones(table.num_detectors, dtype=np.bool_)))
        places, columns = flips_of(list(zip(sources.its, several)), table)
        number = np.repeat(np.arange(len(several)), [len(its) for its in several])[places]
        each = (sources.times // part.rounds)[number]
        found = np.concatenate([NONE, *several])[places] + causes.sources.firsts[start + number]
        # What later rounds do, of the last one's.
        last, later = np.flatnonzero(columns >= last_round), np.arange(1, edit.around.rounds - part.rounds + 1)[:, None]
        found = np.concatenate([found, (found[last] + later * each[last]).ravel()])
        return cls(found, edit.new_numbers[np.concatenate([columns, (columns[last] + later * edit.new_each_round).ravel()])])

    def rows(self, model: "ErrorModel", mechanisms: NDArray[np.int32], columns: Numbers, detectors: int) -> tuple[Numbers, tuple[Numbers, Numbers]]:
        """Which errors flip something else, and the rows of what they flip as a CSR matrix. model, mechanisms: from before the edit."""
        lost, is_other = mechanisms_with(model, columns < 0), np.zeros(len(model) + 1, dtype=np.bool_)
        is_other[lost] = True
        errors = np.union1d(np.flatnonzero(is_other[mechanisms]) if len(lost) else NONE, self.errors)
        some = np.flatnonzero(mechanisms[errors] >= 0)
        of_row, before = rows_of(mechanisms[errors[some]].astype(np.int64), model.indptr, model.indices)
        stays = columns[before] >= 0
        places = np.concatenate([some[of_row[stays]], np.searchsorted(errors, self.errors)])
        places, flips = odd(places, np.concatenate([columns[before[stays]], self.columns]), detectors + model.num_observables)
        return errors, (starts_of(np.bincount(places, minlength=len(errors))), flips)


@dataclass(frozen=True)
class Part:
    """A part of the text: from a cut to the end of the edit, or of the outermost block around it, which has this many rounds there."""

    cut: int
    rounds: int

    def table(self, edit: Declared, qubits: int) -> tuple[Sources, int, Flipped | None]:
        """Its errors; the first mark of those of all qubits in front of the block; and what those marks, marks of all qubits at the cut, which
        are the first, and those of its errors flip of the detectors that are new: None if the program refuses the text."""
        change, known = edit.change, edit.change.after
        places = [change.first + at for at, line in enumerate(change.new) if is_detector(line)]
        declared = {places[it] for it in edit.new}
        mark = " ".join(["I", *map(str, range(qubits))])
        before = Piece.of(known, self.cut, edit.around.begin, qubits, declared)
        block_mark = qubits + before.marks
        rounds = self.rounds if edit.around.begin < change.first else None
        inside = Piece.of(known, edit.around.begin, edit.around.end + 1, block_mark + qubits, declared, rounds)
        try:
            table = Flipped.of([mark, before.text, mark, inside.text], self.rounds * edit.new_each_round, 0)
        except Refused:
            table = None
        return Sources.of([*before.sources, *inside.sources]), block_mark, table
