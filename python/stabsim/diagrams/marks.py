"""What gates, qubits and numbers look like: the marks of the page's shapes.json on their spots. The page's marks.js draws by the same
table."""

import math
from collections.abc import Callable, Mapping, Sequence
from dataclasses import dataclass, field
from typing import Any

from stabsim.diagrams.elements import Element, Glyph, Path, Point, Words, circle, line, middle_of, outline
from stabsim.diagrams.shapes import table

# Values of marks by the names that the table gives them.
Values = Mapping[str, Any]
Mark = Mapping[str, Any]
ANCHORS = {"left": "start", "right": "end"}


@dataclass
class Drawn:
    """Elements under and over the qubits."""

    under: list[Element] = field(default_factory=list)
    over: list[Element] = field(default_factory=list)

    def add(self, other: "Drawn") -> None:
        self.under += other.under
        self.over += other.over


@dataclass
class Spots:
    """Where the qubits of an action are, in pixels, their middle, and the side of a glyph."""

    points: list[Point]
    side: float
    middle: Point = (0.0, 0.0)

    def __post_init__(self) -> None:
        self.middle = middle_of(self.points)

    def at(self, name: str, across: float = 0, down: float = 0) -> Point:
        """The first point, the second, or the middle, with an offset in sides."""
        x, y = self.middle if name == "middle" else self.points[("first", "second").index(name)]
        return x + across * self.side, y + down * self.side

    def length(self, given: Sequence[float]) -> float:
        """A part of the side, between the least and the greatest, in pixels."""
        part, least, most = given
        return max(least, min(most, part * self.side))


@dataclass(frozen=True)
class Valued:
    """A mark with its values."""

    mark: Mark
    values: Values

    def __getitem__(self, name: str) -> Any:
        """A field of the mark; if it begins with $, the value of that name."""
        given = self.mark.get(name, "")
        if isinstance(given, str) and given.startswith("$"):
            return self.values.get(given[1:], "")
        return given

    def beside(self, spots: Spots, at: Point) -> Point:
        """A spot, as far beside it as the mark is."""
        (across, down), (right, below) = self.mark.get("by", (0, 0)), self.mark.get("step", (0, 0))
        before = self.values.get("before", 0)
        return at[0] + (across + before * right) * spots.side, at[1] + (down + before * below) * spots.side - self.mark.get("lift", 0)


def marks_of(name: str, values: Values, points: Sequence[Point], side: float, each: Sequence[Values] = ()) -> Drawn:
    """What marks of a name draw on points; each: values of single points."""
    found = Drawn()
    spots = Spots(list(points), side)
    for mark in table()["marks"][name]:
        if not is_drawn(mark, spots):
            continue
        layer = found.under if mark.get("layer") == "under" else found.over
        on = mark.get("on", "")
        if on == "each":
            for number, at in enumerate(spots.points):
                layer += DRAWN[mark["draw"]](valued(mark, {**values, **(each[number] if each else {})}), spots, at)
        else:
            layer += DRAWN[mark["draw"]](valued(mark, values), spots, spots.at(on) if on else spots.middle)
    return found


def valued(mark: Mark, values: Values) -> Valued:
    """A mark with its values, and with the colours of its role."""
    solid, soft, edge, _ = table()["roles"].get(values.get("role"), ("", "", "", ""))
    return Valued(mark, {"solid": solid, "soft": soft, "edge": edge, **values})


def is_drawn(mark: Mark, spots: Spots) -> bool:
    """Whether there is room for a mark."""
    least = mark.get("from", 0)
    if not isinstance(least, list) and spots.side < least:
        return False
    clear = mark.get("clear", 0) * spots.side
    return not clear or all(math.dist(point, spots.middle) > clear for point in spots.points)


def draw_glyph(mark: Valued, spots: Spots, at: Point) -> list[Element]:
    side = spots.length(mark["side"]) if mark["side"] else spots.side
    return [Glyph(mark["shape"], *mark.beside(spots, at), side, mark["role"], mark["label"])]


def draw_words(mark: Valued, spots: Spots, at: Point) -> list[Element]:
    return [Words(mark["words"], *mark.beside(spots, at), spots.length(mark["size"]), mark["fill"], ANCHORS.get(mark["align"], "middle"),
                  mark["weight"] or 400, bool(mark["mono"]), mark["halo"])]


def draw_circle(mark: Valued, spots: Spots, at: Point) -> list[Element]:
    return [Path(circle(mark.beside(spots, at), spots.length(mark["radius"])), fill=mark["fill"])]


def draw_line(mark: Valued, spots: Spots, at: Point) -> list[Element]:
    ends = spots.at(*mark["from"]), spots.at(*mark["to"])
    return [Path(line(*ends), stroke=mark["stroke"], width=spots.length(mark["width"]), dash=tuple(mark["dash"]))]


def draw_outline(mark: Valued, spots: Spots, at: Point) -> list[Element]:
    path = outline(spots.points, spots.length(mark["margin"]))
    if mark["fill"]:
        return [Path(path, fill=mark["fill"], alpha=mark["alpha"])]
    return [Path(path, stroke=mark["stroke"], width=spots.length(mark["width"]))]


def move_inwards(mark: Valued, spots: Spots, at: Point) -> list[Element]:
    """Moves the points towards their middle; it draws nothing."""
    moved = []
    for x, y in spots.points:
        across, down = spots.middle[0] - x, spots.middle[1] - y
        way = min(mark["most"], mark["part"] * spots.side / (math.hypot(across, down) or 1.0))
        moved.append((x + across * way, y + down * way))
    spots.points = moved
    return []


# How each kind of mark is drawn.
DRAWN: dict[str, Callable[[Valued, Spots, Point], list[Element]]] = {
    "glyph": draw_glyph, "words": draw_words, "circle": draw_circle, "line": draw_line, "outline": draw_outline, "inwards": move_inwards,
}
