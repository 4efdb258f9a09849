"""The matching graph: detectors where their coordinates are, and a line for each error that flips one or two of them."""

import math
from dataclasses import dataclass, field

import numpy as np
from numpy.typing import NDArray

from stabsim.diagrams.elements import Element, Path, Point, Words, circle, direction, line
from stabsim.questions.faults import FaultTable

MARGIN, TITLE_HEIGHT = 46.0, 26.0
# How far apart neighbours are, in pixels, and the longest side of the picture.
PITCH, MOST_SIDE = 64.0, 1500.0
# How far a step of time and of the second coordinate moves a detector that has three, as parts of one to the right.
TIME, DEEP = (0.0, -1.15), (0.46, 0.3)
NAMES_FROM = 26.0


@dataclass
class Edges:
    """Errors that flip the same one or two detectors: kinds: what makes them, as `X`, `Z` or ``; observables: what they flip, each once."""

    kinds: set[str] = field(default_factory=set)
    observables: set[frozenset[int]] = field(default_factory=set)


@dataclass(frozen=True)
class Graph:
    """Edges by their detectors, which are two, or one; more: how many errors flip more, and unseen: how many flip observables and no
    detector."""

    edges: dict[tuple[int, ...], Edges]
    more: int
    unseen: int


def graph_of(rows: list[tuple[str, NDArray[np.int64]]], detectors: int) -> Graph:
    """The graph of errors: what makes each, and what it flips, observables counted on after the detectors."""
    edges: dict[tuple[int, ...], Edges] = {}
    more, unseen = set(), set()
    for kind, flipped in rows:
        ends = tuple(flipped[flipped < detectors].tolist())
        observables = frozenset((flipped[flipped >= detectors] - detectors).tolist())
        if len(ends) in (1, 2):
            edge = edges.setdefault(ends, Edges())
            edge.kinds.add(kind)
            edge.observables.add(observables)
        elif ends:
            more.add((ends, observables))
        elif observables:
            unseen.add(observables)
    return Graph(edges, len(more), len(unseen))


def rows_of_faults(table: FaultTable) -> list[tuple[str, NDArray[np.int64]]]:
    """The rows of a table of faults with their letters."""
    return [(str(table.paulis[fault]), table.flipped(fault)) for fault in range(len(table))]


def spots_of(coordinates: NDArray[np.float64], ticks: list[int]) -> list[Point]:
    """Where each detector is drawn, in steps: by its coordinates, of which the third is time and goes upwards, or, if it has none, by its
    tick and its place among those of that tick."""
    spots: list[Point] = []
    width = coordinates.shape[1]
    peers: dict[int, int] = {}
    for detector, tick in enumerate(ticks):
        known = [] if not width else coordinates[detector][~np.isnan(coordinates[detector])].tolist()
        if len(known) >= 3:
            x, y, time = known[:3]
            spots.append((x + DEEP[0] * y + TIME[0] * time, DEEP[1] * y + 2 * TIME[1] * time))
        elif len(known) == 2:
            spots.append((known[0], -known[1]))
        else:
            place = peers[tick] = peers.get(tick, -1) + 1
            spots.append((float(place) if not known else known[0], -float(tick)))
    return apart(spots)


def apart(spots: list[Point]) -> list[Point]:
    """Detectors of one place, as of the two letters of one face, a little beside each other."""
    taken: dict[Point, int] = {}
    found = []
    for x, y in spots:
        count = taken[x, y] = taken.get((x, y), -1) + 1
        found.append((x + 0.4 * count, y + 0.25 * count))
    return found


def drawn_graph(graph: Graph, coordinates: NDArray[np.float64], ticks: list[int]) -> tuple[list[Element], float, float]:
    """The picture of a graph, and its size."""
    points, width, height, pitch = scaled(spots_of(coordinates, ticks))
    middle = (width / 2, height / 2)
    ways = {ends: ([points[end] for end in ends] if len(ends) == 2 else stub(points[ends[0]], middle, pitch)) for ends in graph.edges}
    flipping = {ends for ends, edge in graph.edges.items() if any(edge.observables)}
    found: list[Element] = []
    for ends in sorted(graph.edges, key=lambda it: (it in flipping, it)):
        found += edge_elements(ways[ends], graph.edges[ends], ends in flipping, pitch)
    radius = max(2.5, min(7.0, pitch * 0.11))
    for detector, point in enumerate(points):
        found += [Path(circle(point, radius), fill="sheet"), Path(circle(point, radius), stroke="ink", width=1.5)]
        if pitch >= NAMES_FROM:
            found.append(Words(f"D{detector}", point[0] + radius + 2, point[1] + radius + 4, 9, "quiet", "start", halo="sheet"))
    said = [f"{len(points)} detectors, {len(graph.edges)} edges"]
    said += [f"{graph.more} errors of more than two detectors are not drawn"] * bool(graph.more)
    said += [f"{graph.unseen} errors flip an observable and no detector"] * bool(graph.unseen)
    words = "; ".join(said)
    found += [Words(words, 12, 16, 12, "ink", "start", weight=600), *legend(graph, flipping, 12, height + TITLE_HEIGHT + 2)]
    return found, max(width, 24 + 7.2 * len(words)), height + TITLE_HEIGHT + 22


def edge_elements(way: list[Point], edge: Edges, is_flipping: bool, pitch: float) -> list[Element]:
    """A line: solid of X, dashed of Z, grey of both or of what is not known; one that flips an observable has a broad rim."""
    width = 1.25 if pitch >= 20 else 0.75
    found: list[Element] = [Path(line(*way), stroke="flip", width=5 * width, alpha=0.55)] if is_flipping else []
    stroke, dash = style_of(edge.kinds)
    return [*found, Path(line(*way), stroke=stroke, width=width, dash=dash)]


def style_of(kinds: set[str]) -> tuple[str, tuple[float, ...]]:
    """The colour and the dashes of what makes an edge."""
    if kinds == {"X"}:
        return "x", ()
    return ("z", (5, 4)) if kinds == {"Z"} else ("op", ())


def legend(graph: Graph, flipping: set[tuple[int, ...]], x: float, y: float) -> list[Element]:
    """What the kinds of lines are, of those that are there."""
    kinds = {frozenset(edge.kinds) for edge in graph.edges.values()}
    entries = [(frozenset("X"), "X"), (frozenset("Z"), "Z"), (frozenset("XZ"), "X and Z"), (frozenset([""]), "an error")]
    found: list[Element] = []
    for kind, name in [it for it in entries if it[0] in kinds]:
        stroke, dash = style_of(set(kind))
        found += [Path(line((x, y), (x + 26, y)), stroke=stroke, width=1.5, dash=dash), Words(name, x + 32, y, 11, "ink", "start")]
        x += 52 + 7 * len(name)
    if flipping:
        found += [Path(line((x, y), (x + 26, y)), stroke="flip", width=6, alpha=0.55), Words("flips an observable", x + 32, y, 11, "ink", "start")]
    return found


def stub(point: Point, middle: Point, pitch: float) -> list[Point]:
    """The way from a detector to the boundary: a short line away from the middle."""
    across, down = direction(middle, point) if math.dist(point, middle) > 1 else (0.0, -1.0)
    return [point, (point[0] + across * pitch * 0.5, point[1] + down * pitch * 0.5)]


def scaled(spots: list[Point]) -> tuple[list[Point], float, float, float]:
    """Spots in pixels, the size of their picture, and how far apart neighbours are."""
    if not spots:
        return [], 2 * MARGIN, 2 * MARGIN, PITCH
    array = np.array(spots)
    low, high = array.min(axis=0), array.max(axis=0)
    near = near_of(array)
    scale = min(PITCH / near, MOST_SIDE / max(float((high - low).max()), near))
    points = [(MARGIN + (x - float(low[0])) * scale, MARGIN + TITLE_HEIGHT + (y - float(low[1])) * scale) for x, y in spots]
    width, height = (float(it) for it in (high - low) * scale + 2 * MARGIN)
    return points, width, height, near * scale


def near_of(spots: NDArray[np.float64]) -> float:
    """How far a detector is from the next one: the middle value over some of them."""
    some = spots[:: max(1, len(spots) // 200)]
    far = np.hypot(*(some[:, None] - spots[None]).transpose(2, 0, 1))
    far[far < 1e-9] = np.inf
    least = far.min(axis=1)
    return float(np.median(least[np.isfinite(least)])) if np.isfinite(least).any() else 1.0
