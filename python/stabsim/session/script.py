"""Lines of an edit script: what may be sent so that exactly one reply comes."""

import re
from collections.abc import Iterable, Sequence

from stabsim import checking, program
from stabsim.errors import Refused
from stabsim.text.reading import Line, lines_of

MOST_LINE_BYTES = 65_536
SPACING = " \t\r\n"
PATH = re.compile(r"\d+(/\d+)*")

# A place in a circuit: the number of an item, or numbers that lead into blocks, also as text such as 3/0/2.
Path = int | str | Sequence[int]


def path_text(path: Path) -> str:
    """A path as it is written."""
    if not isinstance(path, str):
        path = "/".join(str(checking.whole("path", it)) for it in ([path] if not isinstance(path, Iterable) else path))
    if not PATH.fullmatch(path):
        raise ValueError(f"path is {checking.shown(path)}: give a number, or numbers that lead into blocks, as 3/0/2")
    return path


def item_text(text: str) -> str:
    """The text of an item that a user gave; TypeError or ValueError if it is none, or has nothing in it."""
    if not any(line.content for line in lines_of(checking.of_kind("text", text, str, "an instruction or a whole block, as 'X 0'"))):
        raise ValueError(f"text is {checking.shown(text)}: give one instruction on one line, or one whole block")
    return checking.encodable("text", text)


def edit_lines(words: str, item: str) -> bytes:
    """An edit that puts an item in: its words, and the item's text, which is one line or one whole block.

    A text of several lines is taken as a block's, up to the line that closes it. Any line after that would be a command of
    its own, so a text that is not exactly one item is refused here.
    """
    text = f"{words} {item.strip(SPACING)}"
    lines = list(lines_of(text))
    if len(lines) > 1:
        if is_too_long(lines[0]):
            raise Refused(14, "TooLong")
        if closing_line(lines) != len(lines):
            raise ValueError("the text is not one instruction on one line, and not one whole block: put items in one by one")
    elif lines[0].opens:
        raise ValueError("the block is not closed")
    return program.bytes_of(text + "\n")


def closing_line(lines: list[Line]) -> int | None:
    """The number of the line at which the block that the first line opens is closed; None if it opens none, or none closes it."""
    opened = 0
    for line in lines:
        # A line over its limit neither opens nor closes.
        if not is_too_long(line):
            opened += line.opens - line.closes
        if opened == 0:
            return line.number if line is not lines[0] else None
    return None


def is_too_long(line: Line) -> bool:
    """Whether a script may not have such a line."""
    return len(program.bytes_of(line.text)) > MOST_LINE_BYTES


def delete_line(path: str) -> bytes:
    """The line of a script that takes an item out."""
    return f"delete {path}\n".encode()
