"""The part of a circuit in which lookbacks may name records that edits move: from the first item that they touch to the last one that looks back
past them. In front of it stands one measurement with as many records as are looked back to."""

import bisect
import functools
import itertools
from collections.abc import Sequence
from dataclasses import dataclass

from stabsim.noise.known_lines import KnownLines
from stabsim.noise.line_facts import reach_of
from stabsim.page.edits import Edit


@dataclass(frozen=True)
class Nearby:
    """A part of a circuit.

    text: of the measurement and the part's items; before: how many items of the circuit are in front of the part, and of which a path in it
    has one, the measurement; detectors: how many of them are in front of it.
    """

    text: str
    before: int
    detectors: int

    def inwards(self, path: str) -> str:
        """The path in the part of an item of the circuit."""
        return moved(path, 1 - self.before)

    def outwards(self, path: str) -> str:
        """The path in the circuit of an item of the part."""
        return moved(path, self.before - 1)

    def bit(self, name: str) -> str:
        """The name in the circuit of a detector or an observable of the part."""
        return f"D{int(name[1:]) + self.detectors}" if name.startswith("D") else name


def nearby(circuit: str, edits: Sequence[Edit]) -> Nearby:
    """The part of a circuit that edits may touch. IndexError if they are past its end."""
    outline = outline_of(circuit)
    lines, begins = outline.lines, outline.begins
    first, end = touched(edits, len(begins) - 1)
    reach = max([outline.reaches[first], *(reach_of(edit.item) for edit in edits)])
    # One item more for each that is past the edits, until no lookback reaches back to them.
    end = min(max(end, bisect.bisect_left(outline.records, outline.records[end] + reach)), len(begins) - 1)
    measured = " ".join(["M", *["0"] * min(outline.records[first], reach)])
    return Nearby("\n".join([measured, *lines[begins[first] : begins[end]], ""]), first, outline.detectors[first])


@dataclass(frozen=True)
class Outline:
    """The lines of a circuit.

    begins: at which of them each item of its outermost list begins, and the end; reaches: how far the lookbacks go of each item and those after it;
    records, detectors: how many there are in front of each, and in all.
    """

    lines: list[str]
    begins: list[int]
    reaches: list[int]
    records: list[int]
    detectors: list[int]


@functools.lru_cache(maxsize=1)
def outline_of(circuit: str) -> Outline:
    """The outline of a circuit, kept until that of another is asked for."""
    lines, begins, _ = lines_and_begins(circuit)
    items = [lines[first:end] for first, end in itertools.pairwise(begins)]
    reaches = [reach_of("\n".join(item)) for item in reversed(items)]
    records, detectors, _ = KnownLines("\n".join(lines)).made[1][begins].T.tolist()
    return Outline(lines, begins, list(itertools.accumulate(reaches, max, initial=0))[::-1], records, detectors)


@functools.lru_cache(maxsize=2)
def lines_and_begins(circuit: str) -> tuple[list[str], list[int], list[int]]:
    """The lines of a circuit, as a session writes it, and at which of them each item of its outermost list begins, and the end: lines in blocks
    are indented; and how many letters are in front of each line, and of the end."""
    lines = circuit.removesuffix("\n").split("\n") if circuit else []
    begins = [*(place for place, line in enumerate(lines) if line and line[0] not in " }"), len(lines)]
    return lines, begins, list(itertools.accumulate((len(line) + 1 for line in lines), initial=0))


def touched(edits: Sequence[Edit], count: int) -> tuple[int, int]:
    """The first and the end of those items of an outermost list of `count` that edits may touch."""
    places = [int(edit.place.split("/")[0]) for edit in edits]
    # After those that are deleted each place is one of a later item.
    return min(places), min(max(places) + len(edits), count)


def moved(path: str, by: int) -> str:
    """A path whose first number is greater by this."""
    first, slash, rest = path.partition("/")
    return f"{int(first) + by}{slash}{rest}"
