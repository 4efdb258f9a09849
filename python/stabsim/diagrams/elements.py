"""What a picture is made of: paths, words and glyphs, in pixels with y downwards. Colours are names of the page's colours.css."""

import math
from collections.abc import Sequence
from dataclasses import dataclass

Point = tuple[float, float]


@dataclass(frozen=True)
class Path:
    """A line or a face.

    commands: as SVG writes them, one text each; fill, stroke: names of colours, or none; dash: lengths; hatch: X, Y or Z, whose pattern
    lies over the fill; alpha: how opaque it is.
    """

    commands: tuple[str, ...]
    fill: str = ""
    stroke: str = ""
    width: float = 1.0
    dash: tuple[float, ...] = ()
    hatch: str = ""
    alpha: float = 1.0


@dataclass(frozen=True)
class Words:
    """A line of text; anchor: start, middle or end; halo: the colour of a rim that sets it off, or none."""

    text: str
    x: float
    y: float
    size: float = 11.0
    fill: str = "ink"
    anchor: str = "middle"
    weight: int = 400
    is_mono: bool = False
    halo: str = ""


@dataclass(frozen=True)
class Glyph:
    """A shape of shapes.json with its label; side: its box; role: a key of the table's roles."""

    shape: str
    x: float
    y: float
    side: float
    role: str
    label: str = ""


Element = Path | Words | Glyph


def number(value: float) -> str:
    """A number as it is written: of two decimals, no more than it needs."""
    return f"{round(value, 2) + 0.0:.2f}".rstrip("0").rstrip(".")


def point_text(point: Point) -> str:
    return f"{number(point[0])} {number(point[1])}"


def moved(point: Point) -> str:
    return "M" + point_text(point)


def lined(point: Point) -> str:
    return "L" + point_text(point)


def arc(radius: float, end: Point) -> str:
    """A part of a circle, clockwise, of at most half of it."""
    return f"A{number(radius)} {number(radius)} 0 0 1 {point_text(end)}"


def line(*points: Point) -> tuple[str, ...]:
    """Straight from point to point."""
    return (moved(points[0]), *map(lined, points[1:]))


def polygon(points: Sequence[Point]) -> tuple[str, ...]:
    return (*line(*points), "Z")


def circle(middle: Point, radius: float) -> tuple[str, ...]:
    x, y = middle
    return (moved((x + radius, y)), arc(radius, (x - radius, y)), arc(radius, (x + radius, y)), "Z")


def box(corner: Point, width: float, height: float, radius: float) -> tuple[str, ...]:
    """A box with round corners; its corner is the upper left one."""
    (left, top), (right, bottom) = corner, (corner[0] + width, corner[1] + height)
    return (
        moved((left, top + radius)), arc(radius, (left + radius, top)), lined((right - radius, top)), arc(radius, (right, top + radius)),
        lined((right, bottom - radius)), arc(radius, (right - radius, bottom)), lined((left + radius, bottom)),
        arc(radius, (left, bottom - radius)), "Z",
    )


def outline(points: Sequence[Point], margin: float) -> tuple[str, ...]:
    """The hull of points, a margin around it, with round corners."""
    ring = hull(points)
    if len(ring) == 1:
        return circle(ring[0], margin)
    commands: list[str] = []
    for place, corner in enumerate(ring):
        before, after = ring[place - 1], ring[(place + 1) % len(ring)]
        start, end = beside(before, corner, corner, margin), beside(corner, after, corner, margin)
        commands += [lined(start) if commands else moved(start)]
        if len(ring) == 2:
            # Half a circle around each end, in two parts so that its direction is clear.
            commands.append(arc(margin, along(before, corner, corner, margin)))
        commands.append(arc(margin, end))
    return (*commands, "Z")


def direction(start: Point, end: Point) -> Point:
    """From one point towards another, of length 1."""
    across, down = end[0] - start[0], end[1] - start[1]
    length = math.hypot(across, down) or 1.0
    return across / length, down / length


def beside(start: Point, end: Point, at: Point, far: float) -> Point:
    """On the left hand of who goes from one point to another, at a distance from a third."""
    across, down = direction(start, end)
    return at[0] + down * far, at[1] - across * far


def along(start: Point, end: Point, at: Point, far: float) -> Point:
    """At a distance from a point, the way from one to another goes."""
    across, down = direction(start, end)
    return at[0] + across * far, at[1] + down * far


def middle_of(points: Sequence[Point]) -> Point:
    return sum(x for x, _ in points) / len(points), sum(y for _, y in points) / len(points)


def hull(points: Sequence[Point]) -> list[Point]:
    """The corners of the hull of points, clockwise as y goes down."""
    ordered = sorted(set(points))
    if len(ordered) < 3:
        return ordered
    return half_hull(ordered) + half_hull(ordered[::-1])


def half_hull(ordered: Sequence[Point]) -> list[Point]:
    """One side of a hull, without its last corner."""
    chain: list[Point] = []
    for point in ordered:
        while len(chain) > 1 and turn(chain[-2], chain[-1], point) <= 1e-6:
            chain.pop()
        chain.append(point)
    return chain[:-1]


def turn(start: Point, middle: Point, end: Point) -> float:
    """Positive if one turns clockwise, as y goes down."""
    return (middle[0] - start[0]) * (end[1] - start[1]) - (middle[1] - start[1]) * (end[0] - start[0])
