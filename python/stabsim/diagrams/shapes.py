"""The shapes of glyphs, what draws a gate, and the colours, which the page has too: its files shapes.json, instructions.json and colours.css."""

import functools
import json
import pathlib
import re
from collections.abc import Callable
from dataclasses import dataclass
from typing import Any

from stabsim.diagrams.elements import Glyph, Path, Point, Words, box, circle, line, polygon
from stabsim.text import names

STATIC = pathlib.Path(__file__).resolve().parents[1] / "page" / "static"
COLOUR = re.compile(r"--([\w-]+): (#[0-9a-f]{6})")


@functools.cache
def table() -> dict[str, Any]:
    """The table of shapes, marks and roles."""
    found: dict[str, Any] = json.loads((STATIC / "shapes.json").read_text(encoding="utf-8"))
    return found


# The marks that draw each gate, with their values.
GATES: dict[str, dict[str, str]] = {name: row["drawn"] for name, row in names.TABLE.items() if "drawn" in row}


@functools.cache
def palettes() -> tuple[dict[str, str], dict[str, str]]:
    """The colours of the light and of the dark theme by their names."""
    light, dark = (STATIC / "colours.css").read_text(encoding="utf-8").split(':root[data-theme="dark"]')
    first = dict(COLOUR.findall(light))
    return first, first | dict(COLOUR.findall(dark))


def families() -> dict[str, str]:
    """The families of letters, `sans` and `mono`."""
    return dict(re.findall(r"--(sans|mono): ([^;]+);", (STATIC / "colours.css").read_text(encoding="utf-8")))


def elements_of(glyph: Glyph) -> list[Path | Words]:
    """The paths and words of a glyph: less of it if it is small, as glyphs.js does on the page."""
    level = level_of(glyph)
    solid, soft, edge, on = table()["roles"][glyph.role]
    if level == "dot":
        return [Path(circle((glyph.x, glyph.y), 1.4), fill=solid)]
    width = max(1.0, min(1.6, glyph.side / 14))
    paints = {
        "solid": Paint(solid), "fill": Paint(soft), "paper": Paint("sheet"), "on": Paint(on), "edge": Paint(edge, width),
        "ink": Paint(edge, width * 1.25),
    }
    found: list[Path | Words] = []
    shape = table()["shapes"][glyph.shape]
    for kind, *numbers, paint in shape.get(level, shape["full"]):
        found += DRAWN[kind](glyph, numbers, paints[paint])
    return found


@dataclass(frozen=True)
class Paint:
    """A colour: of a face, or with a width of a stroke."""

    colour: str
    width: float = 0.0


def level_of(glyph: Glyph) -> str:
    """How much is drawn of a glyph: `full`, its `far` shape, or a `dot`."""
    levels = table()["levels"]
    if glyph.side < levels["mark"]:
        return "dot"
    sizes = [part[3] for part in table()["shapes"][glyph.shape]["full"] if part[0] == "label"]
    has_room = not glyph.label or all(words_on(glyph.label, glyph.side * size) for size in sizes)
    return "full" if glyph.side >= levels["full"] and has_room else "far"


def words_on(label: str, side: float) -> tuple[str, float] | None:
    """The words for a label on a glyph of this side, and their size: shorter ones if there is no room for its own, and none if there is none for
    those. The more letters they have, the smaller they are."""
    letters = table()["letters"]
    for words in filter(None, (label, table()["brief"].get(label))):
        more = min(len(words), len(letters["part"])) - 1
        size = side * letters["part"][more]
        if size >= letters["room"][more]:
            return words, max(letters["least"], min(letters["most"], size))
    return None


def at(glyph: Glyph, x: float, y: float) -> Point:
    """A point of a glyph's box in pixels."""
    return glyph.x + x * glyph.side / 2, glyph.y + y * glyph.side / 2


def painted(commands: tuple[str, ...], paint: Paint) -> list[Path | Words]:
    return [Path(commands, stroke=paint.colour, width=paint.width) if paint.width else Path(commands, fill=paint.colour)]


def draw_circle(glyph: Glyph, numbers: list[float], paint: Paint) -> list[Path | Words]:
    x, y, radius = numbers
    return painted(circle(at(glyph, x, y), radius * glyph.side / 2), paint)


def draw_line(glyph: Glyph, numbers: list[float], paint: Paint) -> list[Path | Words]:
    return painted(line(at(glyph, *numbers[:2]), at(glyph, *numbers[2:])), paint)


def draw_box(glyph: Glyph, numbers: list[float], paint: Paint) -> list[Path | Words]:
    x, y, width, height, corner = numbers
    half = glyph.side / 2
    return painted(box(at(glyph, x, y), width * half, height * half, corner * half), paint)


def draw_polygon(glyph: Glyph, numbers: list[float], paint: Paint) -> list[Path | Words]:
    return painted(polygon([at(glyph, x, y) for x, y in zip(numbers[::2], numbers[1::2])]), paint)


def draw_label(glyph: Glyph, numbers: list[float], paint: Paint) -> list[Path | Words]:
    x, y, part = numbers
    said = words_on(glyph.label, glyph.side * part)
    return [Words(said[0], *at(glyph, x, y), said[1], paint.colour, weight=600)] if said else []


# How each kind of part is drawn.
DRAWN: dict[str, Callable[[Glyph, list[float], Paint], list[Path | Words]]] = {
    "circle": draw_circle, "line": draw_line, "box": draw_box, "poly": draw_polygon, "label": draw_label,
}
