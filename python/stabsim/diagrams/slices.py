"""Pictures of one tick, with qubits where they lie: what acts between two ticks, and the regions of detectors at a tick."""

from collections.abc import Callable, Mapping, Sequence
from dataclasses import dataclass

from stabsim.diagrams.elements import Element, Path, Point, Words, middle_of, outline
from stabsim.diagrams.layers import Done
from stabsim.diagrams.marks import Drawn, Values, marks_of
from stabsim.diagrams.places import Places
from stabsim.diagrams.shapes import GATES, table
from stabsim.diagrams.targets import Action
from stabsim.noise.flipped import Letters

# From which distance of neighbours names of detectors are written.
NAMES_FROM = 30.0
TITLE_HEIGHT = 26.0
MOST_WIDTH = 1600.0
PATTERN_FROM = 18.0


@dataclass(frozen=True)
class Panel:
    """One picture of several that are side by side: what draws it where qubits are."""

    title: str
    draw: Callable[[Places], list[Element]]


def ground(places: Places, busy: Mapping[int, int]) -> list[Element]:
    """Qubits on which nothing acts, and the numbers of all; busy: how often something acts on each qubit."""
    found: list[Element] = []
    for qubit, at in places.at.items():
        if qubit not in busy:
            found += marks_of("idle", {"shape": "data"}, [at], places.side).over
    if places.pitch < table()["levels"]["numbers"]:
        return found
    for qubit, at in places.at.items():
        found += marks_of("number beside" if qubit in busy else "number", {"number": str(qubit)}, [at], places.side).over
    return found


def layer_elements(layer: Sequence[Done], places: Places) -> list[Element]:
    """What acts in one layer."""
    is_shared = share_qubits([it.action.qubits for it in layer if it.action.name == "MPP"])
    drawn = Drawn()
    busy: dict[int, int] = {}
    for done in layer:
        action = done.action
        name, values = look_of(done, is_shared, busy)
        drawn.add(marks_of(name, values, [places.at[qubit] for qubit in action.qubits], places.side, factors_of(action)))
        if name != "shared product":
            for qubit in action.qubits:
                busy[qubit] = busy.get(qubit, 0) + 1
    return [*drawn.under, *ground(places, busy), *drawn.over]


def share_qubits(groups: Sequence[Sequence[int]]) -> bool:
    """Whether some of these have a qubit in common."""
    qubits = [qubit for group in groups for qubit in group]
    return len(set(qubits)) < len(qubits)


def look_of(done: Done, is_shared: bool, busy: Mapping[int, int]) -> tuple[str, Values]:
    """By which marks an action is drawn, with their values: drawing.js finds them alike."""
    action = done.action
    letter = action.name[-1]
    if action.record:
        return "controlled", {"letter": letter, "role": letter.lower(), "record": f"M{done.record}"}
    if action.name == "MPP":
        roles = {it["role"] for it in factors_of(action)}
        return "shared product" if is_shared else "product", {"role": roles.pop() if len(roles) == 1 else "op"}
    before = busy.get(action.qubits[0], 0)
    if before and action.is_pauli:
        return "error", {"shape": letter, "role": letter.lower(), "label": letter, "before": before - 1}
    gate: Values = GATES[action.name]
    return gate["marks"], gate


def factors_of(action: Action) -> list[Values]:
    """The letters of a product, with their roles."""
    return [{"label": letter, "role": letter[-1].lower()} for letter in action.letters]


def regions_elements(regions: Mapping[str, Letters], places: Places) -> list[Element]:
    """Qubits, and over them regions by their names."""
    return ground(places, {}) + faces_elements(regions, places)


def faces_elements(regions: Mapping[str, Letters], places: Places) -> list[Element]:
    """Regions by their names, greater ones first, so that none hides another."""
    ordered = sorted(regions.items(), key=lambda it: -len(it[1]))
    return [element for name, letters in ordered for element in region_elements(name, letters, places)]


def region_elements(name: str, letters: Letters, places: Places) -> list[Element]:
    """The region of a detector: a face with the colour and pattern of the letter that most of its qubits have, and its letters a little
    inwards, as diamonds for X, triangles for Y and squares for Z."""
    points = {qubit: places.at[qubit] for qubit in letters if qubit in places.at}
    if not points:
        return []
    middle, side = middle_of(list(points.values())), places.side
    corners = {qubit: inwards(point, middle, side) for qubit, point in points.items()}
    letter = most_frequent(letters)
    role = letter.lower() or "op"
    path = outline(list(corners.values()), max(3.0, side * 0.4))
    hatch = letter if places.pitch >= PATTERN_FROM else ""
    found: list[Element] = [Path(path, fill=f"{role}-soft", hatch=hatch, alpha=0.9), Path(path, stroke=role, width=1.5)]
    size = max(6.0, min(17.0, side * 0.5))
    for qubit, corner in corners.items():
        found += plate(letters[qubit], corner, size)
    if places.pitch >= NAMES_FROM:
        at = name_place(list(corners.values()), middle, size)
        found.append(Words(name, *at, 10, "ink" if role == "op" else role, weight=600, halo="sheet"))
    return found


def most_frequent(letters: Letters) -> str:
    """The letter that more than half of the qubits have, or none."""
    every = list(letters.values())
    return next((letter for letter in "XYZ" if 2 * every.count(letter) > len(every)), "")


def name_place(corners: Sequence[Point], middle: Point, size: float) -> Point:
    """Where a region's name is written: in its middle, or, if a letter is there, below it, or above the letter of a region of one qubit."""
    if len(corners) == 1:
        return middle[0], middle[1] - size - 5
    is_taken = any(abs(x - middle[0]) < size and abs(y - middle[1]) < size for x, y in corners)
    return (middle[0], middle[1] + size + 4) if is_taken else middle


def inwards(point: Point, middle: Point, side: float) -> Point:
    """A point on the way to a middle."""
    across, down = middle[0] - point[0], middle[1] - point[1]
    far = max((across**2 + down**2) ** 0.5, 1.0)
    part = min(0.48, side * 0.86 / far)
    return point[0] + across * part, point[1] + down * part


def plate(letter: str, at: Point, size: float) -> list[Element]:
    """A letter as its shape, with a rim that sets it off from what is under it."""
    return marks_of("letter", {"shape": letter, "role": letter.lower(), "label": letter}, [at], size).over


def side_by_side(panels: Sequence[Panel], places: Places) -> tuple[list[Element], float, float]:
    """Panels with their titles above, in rows, and the size of all."""
    height = places.height + TITLE_HEIGHT
    in_row = max(1, min(len(panels), int(MOST_WIDTH // places.width)))
    found: list[Element] = []
    for number, panel in enumerate(panels):
        left, top = number % in_row * places.width, number // in_row * height
        found.append(Words(panel.title, left + 12, top + 16, 12.5, "ink", "start", weight=600))
        found += panel.draw(places.moved(left, top + TITLE_HEIGHT))
    return found, in_row * places.width, -(-len(panels) // in_row) * height
