"""The one reader of circuit text in the package: lines, and the instructions and blocks that they make.

It cuts a text as the program does. The program judges whether names, arguments and targets are right.
"""

import functools
import re
from collections.abc import Collection, Iterable, Iterator
from dataclasses import dataclass, replace
from typing import NamedTuple

from stabsim.errors import Refused
from stabsim.text.names import ALIASES

SPACING = " \t\r"
# How many digits the count of a block may have, and how deep blocks may be nested.
MOST_DIGITS = 18
MOST_DEPTH = 16
# How many bytes a circuit's text may have, and so characters.
MOST_CHARACTERS = 16_777_216
# The spacing in front, a name, a tag, arguments, and the rest of a line. The program allows no spacing in front of the arguments.
PARTS = re.compile(r"([ \t\r]*)([A-Za-z][A-Za-z0-9_]*)(\[[^\]]*\])?([ \t\r]*\([^)]*\))?(.*)", re.DOTALL)
WORD = re.compile(r"[^ \t\r]+")
NUMBER = re.compile(r"[+-]?(\d+\.?\d*|\.\d+)([eE][+-]?\d+)?", re.ASCII)
# Lines that may open or close a block.
BRACED = re.compile(r"^[^{}\n]*[{}].*", re.MULTILINE)


class Parts(NamedTuple):
    """What a line says: its name as it is printed, its tag without brackets, its arguments and targets as they are written."""

    name: str
    tag: str
    arguments: tuple[str, ...]
    targets: tuple[str, ...]


class Line(NamedTuple):
    """A line with its number, counted from 1: its text as it is written, and its content, without comment and spacing around it."""

    number: int
    text: str
    content: str

    @property
    def opens(self) -> bool:
        """Whether it opens a block."""
        return self.content.endswith("{")

    @property
    def closes(self) -> bool:
        """Whether it closes a block."""
        return self.content == "}"

    @property
    def parts(self) -> Parts | None:
        """What it says; None if it closes a block, is blank, or has no name in front."""
        return parts_of(self.content)

    def without_arguments(self) -> str:
        """Its text, comment and all, without arguments and their brackets."""
        cut = PARTS.match(self.text)
        return cut[1] + cut[2] + (cut[3] or "") + cut[5] if cut else self.text

    @property
    def indentation(self) -> str:
        """The spacing in front of its content."""
        return self.text[: len(self.text) - len(self.text.lstrip(SPACING))]


@dataclass(frozen=True, slots=True)
class Instruction:
    """One instruction of a circuit.

    line: int, its line in the text, from 1; name: str, as it is printed, so CX for CNOT; tag: str, without its brackets; arguments and
    targets: tuples of str, as they are written; path: str, its place as edits count it, as `3/0/2`. Its text is `str(it)`.

    >>> import stabsim
    >>> [measured] = stabsim.Circuit("MZ[last] 3 !4")
    >>> measured.name, measured.tag, measured.targets, measured.path
    ('M', 'last', ('3', '!4'), '0')
    """

    line: int
    name: str
    tag: str = ""
    arguments: tuple[str, ...] = ()
    targets: tuple[str, ...] = ()
    path: str = ""

    @property
    def repeat(self) -> None:
        """None: it is no block."""
        return None

    @property
    def items(self) -> tuple["Item", ...]:
        """The items in it: none."""
        return ()

    def numbers(self) -> list[float]:
        """The arguments as numbers; raises Refused if one is none.

        >>> import stabsim
        >>> stabsim.Circuit("DETECTOR(1, 2.5)").items[0].numbers()
        [1.0, 2.5]
        """
        if not all(map(NUMBER.fullmatch, self.arguments)):
            raise Refused(2, "BadArguments", self.line, f"({', '.join(self.arguments)}) are not all numbers.")
        return [float(argument) for argument in self.arguments]

    def __str__(self) -> str:
        brackets = f"({', '.join(self.arguments)})" if self.arguments else ""
        return " ".join([headed(self.name, self.tag) + brackets, *self.targets])


@dataclass(frozen=True, slots=True)
class Block:
    """A block of a circuit: REPEAT with its count and items.

    line: int, the line that opens it; end: int, the line that closes it; repeat: int, how many rounds it has; tag: str, without its
    brackets; items: a tuple of Instruction and Block; path: str, its place as edits count it. Its text is `str(it)`.

    >>> import stabsim
    >>> block = (5 * stabsim.Circuit("M 0")).items[0]
    >>> block.name, block.repeat, block.items[0].path
    ('REPEAT', 5, '0/0')
    """

    line: int
    repeat: int
    tag: str = ""
    items: tuple["Item", ...] = ()
    path: str = ""
    end: int = 0

    @property
    def name(self) -> str:
        """REPEAT."""
        return "REPEAT"

    @property
    def arguments(self) -> tuple[str, ...]:
        """None."""
        return ()

    @property
    def targets(self) -> tuple[str, ...]:
        """Its count, as a target."""
        return (str(self.repeat),)

    def __str__(self) -> str:
        body = indented("".join(f"{item}\n" for item in self.items))
        return f"{headed('REPEAT', self.tag)} {self.repeat} {{\n{body}}}"


Item = Instruction | Block


def headed(name: str, tag: str) -> str:
    """A name with its tag in brackets, if it has one."""
    return f"{name}[{tag}]" if tag else name


def indented(text: str) -> str:
    """A text one block deeper."""
    return re.sub(r"^(?=[^\n])", "    ", text, flags=re.MULTILINE)


@functools.lru_cache(maxsize=8192)
def parts_of(content: str) -> Parts | None:
    """The parts of a line's content, which may open a block; None if no name is in front."""
    found = PARTS.match(content.removesuffix("{"))
    if not found:
        return None
    _, name, tag, brackets, rest = found.groups(default="")
    arguments = brackets.strip(SPACING)[1:-1].strip(SPACING)
    given = tuple([argument.strip(SPACING) for argument in arguments.split(",")]) if arguments else ()
    name = name.upper()
    return Parts(ALIASES.get(name, name), tag[1:-1], given, tuple(WORD.findall(rest)))


def content_of(line: str) -> str:
    """A line without its comment and the spacing around it."""
    return line.split("#", 1)[0].strip(SPACING)


def lines_of(text: str) -> Iterator[Line]:
    """The lines of a text, blank ones too."""
    for number, line in enumerate(text.split("\n"), start=1):
        yield Line(number, line, content_of(line))


def lines_like(text: str, pattern: re.Pattern[str]) -> Iterator[Line]:
    """The lines that a pattern finds, which takes far less time than to look at each line of a text."""
    number, start = 1, 0
    for found in pattern.finditer(text):
        number += text.count("\n", start, found.start())
        start = found.start()
        yield Line(number, found[0], content_of(found[0]))


@dataclass(slots=True)
class Opened:
    """A list of items that is being read: of a block, or the outermost one."""

    line: int
    repeat: int
    tag: str
    path: str
    items: list[Item]
    count: int = 0

    def next_path(self) -> str:
        """The path of the next item in it."""
        place = self.count
        self.count += 1
        return f"{self.path}/{place}" if self.path else str(place)


def items_of(text: str | Iterable[Line], only: tuple[str, ...] = ()) -> tuple[Item, ...]:
    """The items of a text or of lines, blocks with theirs. Raises Refused if a line is misshapen or a block is not closed, or if the
    text is longer than a circuit may be.

    only: read only instructions whose names begin with one of these; the others are counted in paths, and left out.
    """
    if isinstance(text, str) and len(text) > MOST_CHARACTERS:
        raise Refused(14, "TooLong", None, f"The text has more than {MOST_CHARACTERS} bytes.")
    opened = [Opened(0, 1, "", "", [])]
    for line in lines_of(text) if isinstance(text, str) else text:
        if line.opens:
            opened.append(block_of(line, opened[-1].next_path()))
        elif line.closes:
            if len(opened) == 1:
                raise Refused(5, "BadBlock", line.number)
            closed = opened.pop()
            opened[-1].items.append(Block(closed.line, closed.repeat, closed.tag, tuple(closed.items), closed.path, line.number))
        elif line.content:
            path = opened[-1].next_path()
            if not only or line.content.upper().startswith(only):
                opened[-1].items.append(instruction_of(line, path))
    if len(opened) > 1:
        raise Refused(5, "BadBlock", opened[-1].line)
    return tuple(opened[0].items)


def instruction_of(line: Line, path: str) -> Instruction:
    """The instruction of a line."""
    parts = line.parts
    if parts is None:
        raise Refused(11, "BadLine", line.number)
    return Instruction(line.number, *parts, path)


def block_of(line: Line, path: str) -> Opened:
    """The block that a line opens."""
    parts = line.parts
    if path.count("/") == MOST_DEPTH:
        raise Refused(10, "TooDeep", line.number)
    if parts is None or parts.name != "REPEAT" or len(parts.targets) != 1:
        raise Refused(5, "BadBlock", line.number)
    [count] = parts.targets
    if not is_number(count):
        raise Refused(3, "BadTarget", line.number)
    if len(count) > MOST_DIGITS or not int(count):
        raise Refused(5, "BadBlock", line.number)
    return Opened(line.number, int(count), parts.tag, path, [])


def is_number(word: str) -> bool:
    """Whether a word is a number of decimal digits."""
    return word.isascii() and word.isdigit()


def closed_text(text: str) -> str:
    """A text with an end of its last line. Raises Refused if its blocks are not closed, since what is put after it would be in them."""
    items_of(lines_like(text, BRACED))
    return text if text.endswith("\n") or not text else text + "\n"


def walk(items: Iterable[Item]) -> Iterator[Item]:
    """Items, each block in front of its own."""
    for item in items:
        yield item
        if isinstance(item, Block):
            yield from walk(item.items)


def without(items: Iterable[Item], names: Collection[str]) -> Iterator[Item]:
    """Items except instructions of some names, in blocks too."""
    for item in items:
        if isinstance(item, Block):
            yield replace(item, items=tuple(without(item.items, names)))
        elif item.name not in names:
            yield item


def lines_at(text: str, path: str) -> tuple[int, int]:
    """The line, counted from 0, at which the item at a path begins, and that at which the next one would. The path may be the one
    after a list's last item; then both are the line at which an item would be put in. ValueError if there is no such path."""
    items, end = items_of(text), len(text.removesuffix("\n").split("\n")) if text else 0
    *outer, last = map(int, path.split("/"))
    for place in outer:
        block = items[place] if place < len(items) else None
        if not isinstance(block, Block):
            raise ValueError(f"there is no block on the way to {path}")
        items, end = block.items, block.end - 1
    if last > len(items):
        raise ValueError(f"there is no item {path}")
    if last == len(items):
        return end, end
    item = items[last]
    return item.line - 1, item.end if isinstance(item, Block) else item.line
