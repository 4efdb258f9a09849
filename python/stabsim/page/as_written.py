"""A circuit as it was written: its text keeps the lines that were given, with comments and gates that the program reads as others."""

import difflib
import functools
import os.path
import re
from collections.abc import Iterable, Iterator, Sequence
from dataclasses import dataclass

from stabsim.text import names
from stabsim.text.profile import Copy, profile_of
from stabsim.text.reading import SPACING, Instruction, Line, content_of, lines_of, parts_of

# A line as a session writes it, which most are: a name in capitals, tag, arguments and targets, or what opens or closes a block.
PLAIN = re.compile(r"[A-Z][A-Z0-9_]*(?:\[[^\]]*\])?(?:\([^(), ]+(?:, [^(), ]+)*\))?(?: [^ \ta-z]+| rec\[-\d+\])*(?: \{)?|\}")
NAME = re.compile(r"\w*")
# By how much a session indents what is in a block.
INDENT = 4


@dataclass(frozen=True)
class Piece:
    """Lines of a circuit from one on, of which there are `size`; `origin` is the line that was given for all of them, or 0, and `near` the one
    that was given for the first and perhaps others, or 0."""

    first: int
    size: int
    near: int = 0
    origin: int = 0


@dataclass(frozen=True)
class Given:
    """A text that was given, and the lines that a session reads in its place.

    text: as it was given; copy: what is read, with the given line from which each of its lines comes.
    """

    text: str
    copy: Copy

    @classmethod
    def of_read(cls, text: str) -> "Given":
        """A text that the program reads as it is."""
        lines = text.split("\n")
        return cls(text, Copy(lines, list(range(1, len(lines) + 1))))

    @functools.cached_property
    def lines(self) -> list[Line]:
        """The given lines."""
        return list(lines_of(self.text.removesuffix("\n"))) if self.text else []

    @functools.cached_property
    def said(self) -> list[tuple[str, int, str]]:
        """The lines that the program reads and that say something: each as a session writes it, the given line, and its text."""
        return [(plain(content), origin, line) for line, origin in zip(self.copy.lines, self.copy.origins) if (content := content_of(line))]

    @functools.cached_property
    def runs(self) -> dict[int, tuple[int, int]]:
        """For each given line the first of the lines in `said` that come from it, and how many they are."""
        found: dict[int, tuple[int, int]] = {}
        for place, (_, origin, _) in enumerate(self.said):
            first, count = found.get(origin, (place, 0))
            found[origin] = (first, count + 1)
        return found

    def is_rewritten(self, origin: int) -> bool:
        """Whether others are read in the place of a given line."""
        first, count = self.runs[origin]
        return count != 1 or self.line(origin) != self.said[first][2]

    def line(self, origin: int) -> str:
        """A given line."""
        return self.lines[origin - 1].text

    @functools.cached_property
    def depths(self) -> dict[int, int]:
        """In how many blocks each given line is that says something."""
        found: dict[int, int] = {}
        depth = 0
        for key, origin, _ in self.said:
            depth -= key == "}"
            found.setdefault(origin, depth)
            depth += key.endswith("{")
        return found

    def line_in_place(self, origin: int, now: str) -> str:
        """A given line in the place of a session's: indented as that is, if it is in more or fewer blocks than it was."""
        indentation = now[:len(now) - len(now.lstrip(SPACING))]
        return self.line(origin) if len(indentation) == INDENT * self.depths[origin] else indentation + self.line(origin).strip(SPACING)

    def is_loose(self, origin: int) -> bool:
        """Whether a given line is a comment, is blank, or does nothing."""
        return origin not in self.runs

    def pieces(self, now: Sequence[str]) -> Iterator[Piece]:
        """The lines of a circuit, as a session writes it, in pieces that were given as one line, and single ones that were not."""
        was_at = matched([key for key, *_ in self.said], [line.strip() for line in now])
        place = 0
        while place < len(now):
            at = was_at[place]
            near = 0 if at is None else self.said[at][1]
            first, size = self.runs.get(near, (0, 0))
            piece = Piece(place, size, near, near) if size and was_at[place:place + size] == [*range(first, first + size)] else Piece(place, 1, near)
            yield piece
            place += piece.size

    @functools.cached_property
    def has_rewritten(self) -> bool:
        """Whether the program reads others in the place of some given line."""
        return any(map(self.is_rewritten, self.runs))

    def written(self, circuit: str) -> str:
        """A circuit, as a session writes it, with the given lines in the place of those that are as they were."""
        now = circuit.split("\n")[:-1]
        pieces = list(self.pieces(now))
        text = self.text_of(now, pieces)
        # A known record has a qubit of its own, which another circuit may need: then no line stays that is read as others.
        if self.has_rewritten and plain_lines(text) != [line.strip() for line in now]:
            return self.text_of(now, [it for piece in pieces for it in (self.apart(piece) if piece.origin and self.is_rewritten(piece.origin) else [piece])])
        return text

    def apart(self, piece: Piece) -> list[Piece]:
        """The lines of a piece as single ones."""
        return [Piece(piece.first + number, 1, piece.near) for number in range(piece.size)]

    def text_of(self, now: Sequence[str], pieces: Iterable[Piece]) -> str:
        """The text of some pieces, with comments and blank lines between them."""
        found: list[str] = []
        done = 0
        for piece in pieces:
            found += self.loose(done, piece.near)
            found.append(self.line_in_place(piece.origin, now[piece.first]) if piece.origin else now[piece.first])
            done = max(done, piece.near)
        found += self.loose(done, len(self.lines) + 1)
        return "".join(f"{line}\n" for line in found)

    def loose(self, done: int, origin: int) -> list[str]:
        """The comments and blank lines after one given line and before another."""
        return [line.text for line in self.lines[done:max(0, origin - 1)] if self.is_loose(line.number)]

    def shown(self, circuit: str) -> list[tuple[str, int, str]]:
        """Of each run of items that the program reads in the place of one given line: the path of the first, how many they are, and the line."""
        if not self.has_rewritten:
            return []
        now = circuit.split("\n")[:-1]
        paths = paths_of(now)
        return [(paths[piece.first], piece.size, content_of(self.line(piece.origin))) for piece in self.pieces(now)
                if piece.origin and self.is_rewritten(piece.origin)]


def plain_lines(text: str) -> list[str]:
    """The lines that are read of a text, as a session writes them."""
    return [plain(content) for line in profile_of(text)[0].noisy.lines if (content := content_of(line))]


def name_of(line: str) -> str:
    """The name of an instruction as a session writes it."""
    return NAME.match(line)[0]  # type: ignore[index] # it matches anything


def plain(content: str) -> str:
    """A line without its comment as a session writes it."""
    if PLAIN.fullmatch(content) and name_of(content) not in names.ALIASES:
        return content
    parts = parts_of(content)
    if parts is None:
        return content
    targets = (target if target.startswith("rec") else target.upper() for target in parts.targets)
    return str(Instruction(0, parts.name, parts.tag, parts.arguments, tuple(targets))) + (" {" if content.endswith("{") else "")


def matched(before: list[str], after: list[str]) -> list[int | None]:
    """For each line of one text the place of the same line in the text before it, or None; they come in the same order."""
    first = len(os.path.commonprefix([before, after]))
    end = len(os.path.commonprefix([before[first:][::-1], after[first:][::-1]]))
    found: list[int | None] = [*range(first), *[None] * (len(after) - first - end), *range(len(before) - end, len(before))]
    middle = difflib.SequenceMatcher(None, before[first:len(before) - end], after[first:len(after) - end])
    for was, now, size in middle.get_matching_blocks():
        found[first + now:first + now + size] = range(first + was, first + was + size)
    return found


def paths_of(lines: Sequence[str]) -> list[str]:
    """The paths of items by the lines of a circuit as a session writes it; of a line that ends a block that of what comes after it in the
    block, where nothing is."""
    found = []
    path = [0]
    for line in lines:
        content = line.strip()
        found.append("/".join(map(str, path)))
        if content == "}":
            path.pop()
            path[-1] += 1
        elif content.endswith("{"):
            path.append(0)
        else:
            path[-1] += 1
    return found
