"""A circuit as its text and the items of that: what circuits with noise and without it have in common."""

import functools
import pathlib
import re
from collections.abc import Iterator
from os import PathLike
from typing import TYPE_CHECKING, Self, overload

from stabsim import checking, program
from stabsim.errors import Refused
from stabsim.text.reading import NUMBER, Block, Item, closed_text, indented, items_of, walk
from stabsim.text.sizes import ticks_in

if TYPE_CHECKING:
    from stabsim.questions.asked import Numbers

LEADING_ZEROS = re.compile(r"(?<!\d)0+(?=\d)")

# What an item says.
Said = tuple[object, ...]


class Written:
    """What has a circuit's text. It is equal to another of its class if both have the same items, in whatever letters and lines these are
    written: comments, blank lines, other names, letters of either case and leading zeros don't count.

    >>> import stabsim
    >>> stabsim.Circuit("cnot 0 01 # a pair") == stabsim.Circuit("CX 0 1\\n") != stabsim.Circuit("CX 1 0")
    True
    """

    text: str

    if TYPE_CHECKING:
        # What the program says of it.
        def numbers(self) -> Numbers: ...

        # Another of its class.
        def of_text(self, text: str) -> Self: ...

    def __str__(self) -> str:
        return self.text

    def to_file(self, path: str | PathLike[str]) -> None:
        """Writes the text to a file, in the place of what it has.

        >>> import os, tempfile
        >>> import stabsim
        >>> with tempfile.TemporaryDirectory() as folder:
        ...     stabsim.Circuit("M 0").to_file(os.path.join(folder, "circuit.stim"))
        ...     stabsim.Circuit.from_file(os.path.join(folder, "circuit.stim")).text
        'M 0'
        """
        pathlib.Path(checking.file_name("path", path)).write_bytes(program.bytes_of(self.text))

    @functools.cached_property
    def items(self) -> tuple[Item, ...]:
        """The instructions and blocks of the outermost list. Raises stabsim.Refused if a line is misshapen or a block is not closed."""
        return items_of(self.text)

    def __iter__(self) -> Iterator[Item]:
        return iter(self.items)

    def __len__(self) -> int:
        return len(self.items)

    @overload
    def __getitem__(self, place: int) -> Item: ...

    @overload
    def __getitem__(self, place: slice) -> Self: ...

    def __getitem__(self, place: int | slice) -> Item | Self:
        """An item of the outermost list, or of a slice a circuit of its items, without comments.

        >>> import stabsim
        >>> c = stabsim.Circuit("H 0  # first\\nCX 0 1\\nM 0 1")
        >>> print(c[1], c[:2], c[-1].targets, sep="; ")
        CX 0 1; H 0
        CX 0 1
        ; ('0', '1')
        """
        if isinstance(place, slice):
            return self.of_text("".join(f"{item}\n" for item in self.items[place]))
        is_from_end = isinstance(place, int) and -len(self) <= place < 0
        return self.items[checking.place("place", place + len(self) if is_from_end else place, len(self))]

    def __bool__(self) -> bool:
        return True

    def walk(self) -> Iterator[Item]:
        """All items, each block in front of its own.

        >>> import stabsim
        >>> c = stabsim.Circuit("R 0\\nREPEAT 3 {\\n    X 0\\n    M 0\\n}\\n")
        >>> [item.path for item in c.walk() if item.name == "M"]
        ['1/1']
        """
        return walk(self.items)

    def __eq__(self, other: object) -> bool:
        if not isinstance(other, Written) or type(other) is not type(self):
            return NotImplemented
        return self.text == other.text or self.content == other.content

    def __hash__(self) -> int:
        return hash(self.content)

    @functools.cached_property
    def content(self) -> tuple[Said, ...] | str:
        """What each item says, a block in front of its own; or the text, if that has no items since a line of it is misshapen."""
        try:
            return tuple(map(said_by, self.walk()))
        except Refused:
            return self.text

    @property
    def num_qubits(self) -> int:
        """One more than the greatest qubit that is named; 0 if none is."""
        return self.numbers().qubits

    @property
    def num_records(self) -> int:
        """How many records a run makes, with blocks written out, as are the next three."""
        return self.numbers().records

    @property
    def num_detectors(self) -> int:
        """How many detectors there are."""
        return self.numbers().detectors

    @property
    def num_observables(self) -> int:
        """One more than the greatest observable that is named; 0 if none is."""
        return self.numbers().observables

    @functools.cached_property
    def num_ticks(self) -> int:
        """How many TICKs there are."""
        # The program judges the circuit, and doesn't count them.
        self.numbers()
        return ticks_in(self.text)

    def __add__(self, other: Self) -> Self:
        """This circuit, and then another. Lookbacks of the other may reach into this one."""
        if type(other) is not type(self):
            return NotImplemented
        return self.of_text(closed_text(self.text) + closed_text(other.text))

    def __mul__(self, count: int) -> Self:
        """The circuit as a block of this many rounds; 1 and 0 rounds need no block."""
        count = checking.whole("count", count)
        if count < 2:
            return self.of_text(closed_text(self.text) * count)
        return self.of_text(f"REPEAT {count} {{\n{indented(closed_text(self.text))}}}\n")

    __rmul__ = __mul__


def said_by(item: Item) -> Said:
    """What an item says, as something to compare; a block says how many items are in it."""
    if isinstance(item, Block):
        return item.name, item.tag, item.repeat, len(item.items)
    return item.name, item.tag, tuple(map(number_of, item.arguments)), tuple(map(printed, item.targets))


def number_of(argument: str) -> float | str:
    """An argument as a number; one that is none as it is."""
    return float(argument) if NUMBER.fullmatch(argument) else argument


def printed(target: str) -> str:
    """A target as the program prints it."""
    if target.isdigit() and target[0] != "0":
        return target
    without_zeros = LEADING_ZEROS.sub("", target)
    return without_zeros if target.startswith(("rec", "sweep")) else without_zeros.upper()
