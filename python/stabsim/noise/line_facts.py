"""What lines of a circuit's text are without noise, and how much they make, each looked up once."""

import functools
import re
from collections.abc import Sequence
from typing import NamedTuple

from stabsim.noise.marking import Marker, Source
from stabsim.text.names import FED_BACK
from stabsim.text.profile import made_of
from stabsim.text.reading import Line, content_of, items_of, parts_of
from stabsim.text.sizes import records_of

# What has no part in regions, except that I would be taken for a mark: gates that change signs alone, and what does nothing.
WITHOUT_PART = frozenset(("I", "X", "Y", "Z", "TICK", "QUBIT_COORDS"))
# Lines that have no noise, and are as they are without it.
ALWAYS_QUIET = ("DETECTOR", "OBSERVABLE_INCLUDE", "SHIFT_COORDS")
DECLARING = ("DETECTOR", "OBSERVABLE_INCLUDE")
LOOKBACK = re.compile(r"rec\[-(\d+)\]")


class Counts(NamedTuple):
    """How many records and detectors lines make, and how many marks their noise has."""

    records: int
    detectors: int
    marks: int = 0


class Facts(NamedTuple):
    """What is known of one line: how many records and detectors it makes, and how many marks its noise has; how far its lookbacks go; how many
    rounds the block has that it begins, -1 if it ends one; and whether a record controls its gate, or it shifts coordinates."""

    records: int = 0
    detectors: int = 0
    marks: int = 0
    reach: int = 0
    rounds: int = 0
    is_fed_back: bool = False
    is_shift: bool = False


@functools.lru_cache(maxsize=1 << 16)
def facts_of(line: str) -> Facts:
    """The facts of a line."""
    content = content_of(line)
    if content.endswith(("{", "}")):
        opening = parts_of(content)
        return Facts(rounds=int(opening.targets[0]) if opening else -1)
    if content.startswith(ALWAYS_QUIET):
        return Facts(detectors=int(content.startswith("DETECTOR")), reach=reach_of(content), is_shift=content.startswith("SHIFT_COORDS"))
    parts = parts_of(content)
    if parts is None:
        return Facts()
    is_fed_back = parts.name in FED_BACK and "rec[" in content
    try:
        return Facts(sum(map(records_of_line, quiet(line))), marks=marked_line(line)[2], is_fed_back=is_fed_back)
    except ValueError:
        # It makes a record of each of its targets, by a qubit of its own; its marks are not known.
        return Facts(len(parts.targets), marks=1, is_fed_back=is_fed_back)


@functools.lru_cache(maxsize=1 << 14)
def marked_line(written: str) -> tuple[str, Sequence[Source], int]:
    """A line as if it were alone: with marks, its errors, and how many marks it has. ValueError as of `quiet`."""
    line, marker = Line(0, written, content_of(written)), Marker(False)
    assert line.parts, "a line of noise is an instruction"
    made = map(content_of, made_of(line, line.parts, "", no_qubit).noisy)
    sources, marks = marker.items(items_of(Line(0, it, it) for it in made), 0)
    return "".join(f"{it}\n" for it in marker.lines), sources, marks


@functools.lru_cache(maxsize=1 << 16)
def quiet(written: str) -> tuple[str, ...]:
    """The lines with a part in regions that a line becomes, without noise and signs. ValueError if it needs a qubit of its own, or is refused."""
    content = content_of(written)
    if content.startswith(ALWAYS_QUIET):
        return (content,)
    line = Line(0, content, content)
    if line.parts is None or line.opens or line.closes:
        return (content,) if content else ()
    made = [line] if line.parts.name in WITHOUT_PART else [Line(0, it, content_of(it)) for it in made_of(line, line.parts, "", no_qubit).circuit]
    return tuple(it.content.replace("!", "") for it in made if it.parts and it.parts.name not in WITHOUT_PART)


def no_qubit() -> int:
    """A known record takes a qubit that the whole text names nowhere."""
    raise ValueError("the whole text would be looked at")


def quiet_lines(lines: Sequence[str]) -> list[str]:
    """The same of several lines."""
    return [it for line in lines for it in quiet(line)]


@functools.lru_cache(maxsize=1 << 16)
def records_of_line(line: str) -> int:
    """How many records one line makes."""
    parts = parts_of(content_of(line))
    return records_of(parts) if parts else 0


@functools.lru_cache(maxsize=1 << 16)
def reach_of(line: str) -> int:
    """How far the lookbacks of a line go, 0 if it has none."""
    return max(map(int, LOOKBACK.findall(line)), default=0)
