"""An error model after edits of the circuit itself: which errors flip something else, asked of the program.

At a cut, a place between two lines of the outermost list, the program says of X and Z on each qubit which detectors and observables they
flip, which is the region of each there. If at a cut in front of an edit all regions are as they were, errors before it flip what they did,
as far as what is declared from the edit on names no records before the cut, and no record controls a gate. Between the cut and the edit
those errors flip something else that flip, or flipped, something whose region just in front of the edit is another.
"""

import itertools
import re
from concurrent.futures import ThreadPoolExecutor
from dataclasses import dataclass, replace
from functools import cached_property
from typing import TYPE_CHECKING

import numpy as np

from stabsim.formats.combining import Numbers, columns_of
from stabsim.noise.causes import Causes, Sources
from stabsim.noise.changed_lines import Change, coordinates_in, observables_in, placing
from stabsim.noise.flipped import Bits, Flipped
from stabsim.noise.known_lines import DETECTORS, REACH, ROUNDS
from stabsim.noise.line_facts import Counts, quiet_lines
from stabsim.noise.pieces import Piece
from stabsim.noise.renewal import Renewal, mechanisms_with, renumbered
from stabsim.noise.sourced import by_source, errors_at, rows_of_errors

if TYPE_CHECKING:
    from stabsim.noise.models import ErrorModel

NUMBER = re.compile(r"\d+")
# How many errors are asked for again, if that is not half of all or less, and how often the cut is moved further back.
MOST_ASKED = 60_000
MOST_CUTS = 3
# How many lines, and how many instructions with noise on either side of the edit, are looked at first.
LINES_BEFORE, NOISE_AROUND = 20, 3


@dataclass(frozen=True)
class Edit:
    """An edit of the circuit: its lines with all of the blocks that they are in.

    qubits: how many there are; detectors, observables: how many there were.
    """

    change: Change
    qubits: int
    detectors: int
    observables: int

    @cached_property
    def counts(self) -> tuple[Counts, Counts]:
        """What the lines make that the edit took out, and those that it put in."""
        its = self.change
        return its.before.counts(its.first, its.old_end), its.after.counts(its.first, its.new_end)

    @cached_property
    def detectors_above(self) -> int:
        """How many detectors are declared before the edit."""
        return self.change.before.counts(0, self.change.first).detectors

    @cached_property
    def detectors_after(self) -> int:
        """How many detectors there are after it."""
        return self.detectors + self.counts[1].detectors - self.counts[0].detectors

    def columns(self, old: Numbers) -> Numbers:
        """What was flipped, by its numbers after the edit, -1 of a detector that is no more."""
        gone, come = (its.detectors for its in self.counts)
        if gone == come:
            return old
        moved = np.where(old < self.detectors_above, old, old + come - gone)
        return np.where((old >= self.detectors_above) & (old < self.detectors_above + gone), -1, moved)

    @cached_property
    def looks(self) -> tuple[list[int], int] | None:
        """What is declared from the edit on and may look at records before it in another way, by its numbers after the edit, and how many
        records before the edit may be meant. None if a block does so."""
        its, known = self.change, self.change.after
        reach = max(its.before.reach(its.first, its.old_end), known.reach(its.first, its.new_end))
        if self.counts[0].records == self.counts[1].records:
            return [], reach
        below = known.facts[its.new_end :]
        records = known.records_before[its.new_end : -1] - known.records_before[its.new_end]
        far = np.flatnonzero(below[:, REACH] > records)
        if not len(far):
            return [], reach
        # In a block each round is counted once here, so nothing is overlooked.
        if below[:, ROUNDS].any():
            return None
        reach = max(reach, int((below[far, REACH] - records[far]).max()) - min(count.records for count in self.counts))
        numbers = self.detectors_above + self.counts[1].detectors + np.cumsum(below[:, DETECTORS]) - 1
        added = observables_in([known.lines[its.new_end + at] for at in far.tolist()])
        return [*numbers[far[below[far, DETECTORS] > 0]].tolist(), *(self.detectors_after + it for it in added)], reach

    def declared(self) -> list[int]:
        """What the new lines declare, and what observables they add to, by its numbers."""
        first = self.detectors_above
        return [*range(first, first + self.counts[1].detectors), *(self.detectors_after + it for it in observables_in(self.change.new))]


@dataclass(frozen=True)
class Asked:
    """What the program says of an edit and a cut in front of it.

    cut: the line that it is in front of; old, new: of the texts before and after the edit, the marks at the cut first, and those in front of
    the edit after them, of the new text from new_edit on; between, added: the errors of the new text from the cut to the edit, and those of
    its new lines.
    """

    cut: int
    old: Flipped
    new: Flipped
    new_edit: int
    between: Sources
    added: Sources

    @classmethod
    def of(cls, edit: Edit, cut: int) -> "Asked":
        """Asks the program about both texts at once."""
        change, mark = edit.change, " ".join(["I", *map(str, range(edit.qubits))])
        first, known = change.first, change.before
        above, below = known.quiet_text(0, cut), change.after.quiet_text(change.new_end, len(change.after.lines))
        between = Piece.of(known, cut, first, edit.qubits)
        number = edit.qubits + between.marks
        added = Piece.of(change.after, first, change.new_end, number + edit.qubits)
        old_lines = [above, mark, known.quiet_text(cut, first), mark, known.quiet_text(first, change.old_end), below]
        with ThreadPoolExecutor(1) as thread:
            old = thread.submit(Flipped.of, old_lines, edit.detectors, edit.observables)
            new = Flipped.of([above, mark, between.text, mark, added.text, below], edit.detectors_after, edit.observables)
        return cls(cut, old.result(), new, number, Sources.of(between.sources), Sources.of(added.sources))

    def is_as_before(self, edit: Edit) -> bool:
        """Whether all regions at the cut are as they were; in front of all lines nothing could be another."""
        lines, columns = self.old.pairs(0, edit.qubits)
        found = self.new.pairs(0, edit.qubits)
        return self.cut == 0 or np.array_equal(lines, found[0]) and np.array_equal(edit.columns(columns), found[1])

    def others(self, edit: Edit) -> Bits:
        """What may have another region in front of the edit, or look at other records before it, bool (detectors + observables,), by its
        numbers after the edit."""
        width = edit.detectors_after + edit.observables
        lines, old = self.old.pairs(edit.qubits, edit.qubits)
        columns = edit.columns(old)
        again = self.new.pairs(self.new_edit, edit.qubits)
        found = np.zeros(width, dtype=np.bool_)
        is_there = columns >= 0
        found[np.setxor1d(lines[is_there] * width + columns[is_there], again[0] * width + again[1]) % width] = True
        assert edit.looks, "an edit without them is made anew"
        found[[*edit.looks[0], *edit.declared()]] = True
        return found


class Renewing:
    """A model whose errors are looked at, by the sources that they are of, and an edit."""

    def __init__(self, model: "ErrorModel", causes: Causes, edit: Edit) -> None:
        self.model, self.causes, self.edit = model, causes, edit
        self.lines = causes.sources.lines - 1
        self.firsts = causes.sources.firsts
        self.begin, self.end = np.searchsorted(self.lines, [edit.change.first, edit.change.old_end]).tolist()

    def errors_from(self, cut: int) -> int:
        """How many errors there were from a cut to the end of the edit."""
        return int(self.firsts[self.end] - self.firsts[np.searchsorted(self.lines, cut)])

    def first_cut(self) -> int:
        """A place from which on is all that flipped a detector which errors beside the edit flipped."""
        near = self.causes.mechanisms[self.near()]
        columns = columns_of(near[near >= 0].astype(np.int64), self.model.indptr, self.model.indices)
        is_meant = np.zeros(self.edit.detectors + self.edit.observables, dtype=np.bool_)
        is_meant[columns[columns < self.edit.detectors]] = True
        is_meant[self.edit.detectors_above : self.edit.detectors_above + self.edit.counts[0].detectors] = True
        errors = np.flatnonzero(np.append(self.flip(is_meant), False)[self.causes.mechanisms[: self.firsts[self.begin]]])
        if not len(errors):
            return max(self.edit.change.first - LINES_BEFORE, 0)
        return max(int(self.lines[np.searchsorted(self.firsts, errors[0], side="right") - 1]) - NOISE_AROUND, 0)

    def near(self) -> Numbers:
        """Errors on the edit's qubits in instructions around it."""
        change = self.edit.change
        qubits = {qubit for line in quiet_lines([*change.old, *change.new]) if not line.startswith("DETECTOR") for qubit in NUMBER.findall(line)}
        around = np.unique(self.lines)
        place = int(np.searchsorted(around, change.first))
        meant = np.isin(self.lines, around[max(place - NOISE_AROUND, 0) : place + NOISE_AROUND])
        found, sources = [np.zeros(0, dtype=np.int64)], self.causes.sources.its
        # The errors of a channel have the same targets.
        for _, run in itertools.groupby(np.flatnonzero(meant).tolist(), lambda it: (id(sources[it].targets), self.lines[it])):
            its = list(run)
            source = sources[its[0]]
            is_on = np.array([it in qubits for it in source.targets]).reshape(len(source.marks), -1).any(axis=1)
            found.append((self.firsts[its][:, None] + np.flatnonzero(np.tile(is_on, source.times() // len(is_on)))).ravel())
        return np.concatenate(found)

    def flip(self, is_meant: Bits) -> Bits:
        """Which mechanisms flip something that is meant, by the numbers of the model."""
        found = np.zeros(len(self.model), dtype=np.bool_)
        found[mechanisms_with(self.model, is_meant)] = True
        return found

    def with_rows(self, asked: Asked) -> "ErrorModel | None":
        """The model with what errors flip now."""
        start = int(np.searchsorted(self.lines, asked.cut))
        if not self.causes.sources.are_like(start, self.begin, asked.between):
            return None
        others = asked.others(self.edit)
        errors = self.errors_that_differ(asked, start, others)
        parts = [(source, np.arange(source.times())) for source in asked.added.its]
        rows = rows_of_errors([*by_source(asked.between.its, errors, asked.between.firsts), *parts], asked.new)
        return self.renewed(asked, errors + self.firsts[start], rows)

    def errors_that_differ(self, asked: Asked, start: int, others: Bits) -> Numbers:
        """The errors between the cut and the edit that flip, or flipped, something of others, counted from the cut on."""
        now = [first + its for first, its in zip(asked.between.firsts.tolist(), errors_at(asked.between.its, asked.new.marks_that_flip(others)))]
        columns = self.edit.columns(np.arange(self.edit.detectors + self.edit.observables))
        before = self.flip((columns < 0) | others[columns])
        mechanisms = self.causes.mechanisms[self.firsts[start] : self.firsts[self.begin]]
        found: Numbers = np.unique(np.concatenate([*now, np.flatnonzero(np.append(before, False)[mechanisms])]))
        return found

    def renewed(self, asked: Asked, errors: Numbers, rows: tuple[Numbers, Numbers]) -> "ErrorModel | None":
        """The model in which these errors and the new ones flip these rows."""
        first, change = int(self.firsts[self.begin]), self.edit.change
        model, mechanisms = self.renumbered()
        renewal = Renewal.of_rows(model, *rows)
        if renewal is None:
            return None
        above, below = mechanisms[:first].copy(), mechanisms[self.firsts[self.end] :]
        gone = np.concatenate([above[errors], mechanisms[first : self.firsts[self.end]]])
        above[errors] = renewal.mechanisms[: len(errors)]
        sources = self.causes.sources.edited(self.begin, self.end, asked.added, len(change.new) - len(change.old))
        found = renewal.model_of(np.concatenate([above, renewal.mechanisms[len(errors) :], below]), gone, sources, change.after)
        return found if placing(change.old) == placing(change.new) else replace(found, coordinates=coordinates_in(change.after))

    def renumbered(self) -> tuple["ErrorModel", Numbers]:
        """`renumbered` of the model, with detectors numbered as after the edit."""
        mechanisms = self.causes.mechanisms.astype(np.int64)
        if self.edit.counts[0].detectors == self.edit.counts[1].detectors:
            return self.model, mechanisms
        columns = self.edit.columns(np.arange(self.edit.detectors + self.edit.observables))
        return renumbered(self.model, mechanisms, columns, self.edit.detectors_after)


def renewed_circuit(model: "ErrorModel", causes: Causes, change: Change, qubits: int) -> "ErrorModel | None":
    """The model of a text, from that of the text before an edit of the circuit; None if it is not seen how, or if too much is another."""
    edit = Edit(change.with_blocks(), qubits, model.num_detectors, model.num_observables)
    if observables_in(edit.change.old) != observables_in(edit.change.new) or edit.looks is None:
        return None
    renewing = Renewing(model, causes, edit)
    # A region begins further back than the records that its detector names, by about as much.
    cut = edit.change.before.cut(edit.change.first, 2 * edit.looks[1], renewing.first_cut())
    for _ in range(MOST_CUTS):
        # If most errors are asked for again, it is as well to make the model anew.
        if renewing.errors_from(cut) > max(MOST_ASKED, len(causes.mechanisms) // 2):
            return None
        asked = Asked.of(edit, cut)
        if asked.is_as_before(edit):
            return renewing.with_rows(asked)
        cut = edit.change.before.outermost(max(0, 2 * cut - edit.change.first - LINES_BEFORE)).begin
    return None
