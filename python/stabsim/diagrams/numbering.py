"""Numbers of ticks, records and detectors that grow with the rounds of blocks, as words: `3+8k`."""

from dataclasses import dataclass, field, replace

from stabsim.text.sizes import Sizes

# The names of the rounds of blocks, the outermost first.
LETTERS = "kjihgfedcba"


@dataclass(frozen=True)
class Growing:
    """A number and by how much it grows with each round of each block around it."""

    first: int = 0
    each: tuple[tuple[str, int], ...] = ()

    def plus(self, more: int) -> "Growing":
        return replace(self, first=self.first + more)

    def within(self, letter: str, each: int) -> "Growing":
        """The same in a block whose rounds are counted by a letter."""
        return replace(self, each=(*self.each, (letter, each))) if each else self

    @property
    def text(self) -> str:
        """As it is written: rounds are counted from 0."""
        parts = [f"{'' if each == 1 else each}{letter}" for letter, each in self.each]
        return "+".join([str(self.first), *parts]).replace("+-", "-")


@dataclass(frozen=True)
class Numbering:
    """What comes before a place: ticks, records and detectors, in how many blocks."""

    ticks: Growing = field(default_factory=Growing)
    records: Growing = field(default_factory=Growing)
    detectors: Growing = field(default_factory=Growing)
    depth: int = 0

    @property
    def letter(self) -> str:
        """What counts the rounds of a block here."""
        return LETTERS[min(self.depth, len(LETTERS) - 1)]

    def behind(self, once: Sizes, rounds: int) -> "Numbering":
        """What comes before a place after this many rounds."""
        return replace(self, ticks=self.ticks.plus(rounds * once.ticks), records=self.records.plus(rounds * once.records),
                       detectors=self.detectors.plus(rounds * once.detectors))

    def within(self, once: Sizes, rounds: int) -> "Numbering":
        """What comes before the items of a block of several rounds."""
        if rounds == 1:
            return replace(self, depth=self.depth + 1)
        return Numbering(self.ticks.within(self.letter, once.ticks), self.records.within(self.letter, once.records),
                         self.detectors.within(self.letter, once.detectors), self.depth + 1)
