"""Which lines of a circuit's text an edit changed."""

import itertools
import re
from collections.abc import Sequence
from dataclasses import dataclass, replace
from functools import cached_property
from typing import NamedTuple

from stabsim.formats.combining import Chances
from stabsim.noise.known_lines import DETECTORS, ROUNDS, SHIFT, KnownLines
from stabsim.noise.line_facts import DECLARING, facts_of, quiet_lines
from stabsim.noise.line_runs import runs_apart
from stabsim.text.carrying import alike
from stabsim.text.coordinates import detector_coordinates

# A channel that acts after others is of another line too.
CHAINED = "ELSE_CORRELATED_ERROR"
PLACING = ("DETECTOR", "SHIFT_COORDS")
OBSERVABLE = re.compile(r"[ \t]*OBSERVABLE_INCLUDE[^(]*\(\s*(\d+)")


class Run(NamedTuple):
    """Lines before an edit, and others after it that are in their place; stay: whether regions do, as no line has another part in them."""

    old: range
    new: range
    stay: bool


@dataclass(frozen=True)
class Change:
    """Which lines of a text are others: from `first` on there were `old`, and now there are `new`, each with spacing around it; before, after:
    all lines there were, and all there are."""

    first: int
    old: Sequence[str]
    new: Sequence[str]
    before: KnownLines
    after: KnownLines

    @property
    def old_end(self) -> int:
        """The line after the old ones."""
        return self.first + len(self.old)

    @property
    def new_end(self) -> int:
        """The line after the new ones."""
        return self.first + len(self.new)

    @cached_property
    def runs(self) -> list[Run]:
        """The runs of lines that are others, by their places in the texts; empty if blocks begin or end in some."""
        found = list[Run]()
        for old, new in runs_apart(self.old, self.new):
            lines, others = self.old[old.start : old.stop], self.new[new.start : new.stop]
            if any(facts_of(line).rounds for line in (*lines, *others)):
                return []
            here, there = (range(self.first + it.start, self.first + it.stop) for it in (old, new))
            found.append(Run(here, there, quiet_lines(lines) == quiet_lines(others)))
        return found

    @property
    def leaves_names(self) -> bool:
        """Whether what is declared, also in a block of the edit, is what it was, and names the records that it named."""
        lines = [(self.before.lines[old.start : old.stop], self.after.lines[new.start : new.stop]) for old, new, _ in self.runs]
        if any(line.lstrip().startswith(DECLARING) for its in lines for line in itertools.chain(*its)):
            return False
        return bool(lines) and all(records_in(old) == records_in(new) for old, new in lines)

    def with_blocks(self) -> "Change":
        """The change with all of the outermost block that it begins in, and of that in which it ends."""
        first = self.before.outermost(self.first).begin
        old_end, new_end = self.before.outermost(self.old_end).end + 1, self.after.outermost(self.new_end).end + 1
        return replace(self, first=first, old=self.before.lines[first:old_end], new=self.after.lines[first:new_end])


def change_of(before: KnownLines, text: str) -> Change:
    """The lines that changed, from the first one to the last."""
    old = before.text
    begin = old.rfind("\n", 0, alike(old, text, 1)) + 1
    end = min(alike(old, text, -1), len(old) - begin, len(text) - begin)
    old_end, new_end = len(old) - end, len(text) - end
    # Lines are taken whole.
    if old_end > begin and old[old_end - 1] != "\n" or new_end > begin and text[new_end - 1] != "\n":
        more = (old.find("\n", old_end) + 1 or len(old)) - old_end
        old_end, new_end = old_end + more, new_end + more
    first, gone, new = old.count("\n", 0, begin), old.count("\n", begin, old_end), text[begin:new_end].split("\n")[:-1]
    return Change(first, before.lines[first : first + gone], new, before, before.edited(text, first, gone, new))


def records_in(lines: Sequence[str]) -> int:
    """How many records lines make, in one round of blocks."""
    return sum(facts_of(line).records for line in lines)


def coordinates_in(known: KnownLines) -> Chances:
    """The coordinates of all detectors of a text."""
    return detector_coordinates("\n".join(known.picked(0, len(known.lines), DETECTORS, ROUNDS, SHIFT)))


def is_detector(line: str) -> bool:
    """Whether a line declares a detector."""
    return line.lstrip().startswith("DETECTOR")


def observables_in(lines: Sequence[str]) -> set[int]:
    """The observables that lines add to."""
    return {int(found[1]) for line in lines if (found := OBSERVABLE.match(line))}


def without_targets(line: str) -> str:
    """A line that places or declares without the records that it names."""
    return line.partition(" rec[")[0]


def placing(lines: Sequence[str]) -> list[str]:
    """What places detectors in lines: coordinates, their shifts, and blocks."""
    return [without_targets(line) for line in lines if line.lstrip().startswith(PLACING) or line.endswith(("{", "}"))]
