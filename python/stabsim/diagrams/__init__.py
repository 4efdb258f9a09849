"""Pictures of circuits: along time, at a tick, of regions of detectors, and of what errors flip. They look as the page does."""

import functools
import pathlib
from collections.abc import Callable, Iterable, Sequence
from dataclasses import dataclass, field
from os import PathLike
from typing import TYPE_CHECKING, Literal, get_args

from stabsim import checking
from stabsim.diagrams.elements import Element
from stabsim.diagrams.layers import layers_of
from stabsim.diagrams.matchgraph import Graph, drawn_graph, graph_of, rows_of_faults
from stabsim.diagrams.places import places_of
from stabsim.diagrams.slices import Panel, faces_elements, layer_elements, regions_elements, side_by_side
from stabsim.diagrams.svg import Theme, svg_of
from stabsim.diagrams.timeline import drawn_timeline, qubits_of
from stabsim.noise.detecting import names_of, regions_at
from stabsim.text.ticks import Placed, numbers_of, placed

if TYPE_CHECKING:
    from stabsim.circuit.circuit import Circuit
    from stabsim.noise.models import ErrorModel

Kind = Literal["timeline", "timeslice", "detslice", "detslice-with-ops", "matchgraph"]
OF_TICKS = ("timeslice", "detslice", "detslice-with-ops")
Ticks = int | range | Sequence[int]


@dataclass(frozen=True)
class Diagram:
    """A picture, made by `Circuit.diagram`. A notebook shows it if it is the last value of a cell.

    kind: str; width, height: float, in pixels.

    >>> import stabsim
    >>> picture = stabsim.Circuit("H 0\\nCX 0 1\\nM 0 1").diagram("timeline")
    >>> picture
    <stabsim.Diagram: timeline, 198 by 178 pixels>
    >>> picture.svg("dark")[:4], str(picture) == picture.svg()
    ('<svg', True)
    """

    kind: Kind
    width: float
    height: float
    elements: tuple[Element, ...] = field(repr=False)

    def svg(self, theme: Theme = "auto") -> str:
        """The picture as SVG in light or dark colours, or with auto in those that its reader's system has."""
        return svg_of(self.elements, self.width, self.height, theme, f"{self.kind} of a circuit")

    def save(self, path: str | PathLike[str], theme: Theme = "auto") -> None:
        """Writes the SVG to a file, in the place of what it has. ValueError if the file's name does not end in .svg.

        >>> import os, tempfile
        >>> import stabsim
        >>> with tempfile.TemporaryDirectory() as folder:
        ...     stabsim.Circuit("H 0").diagram("timeline").save(os.path.join(folder, "h.svg"), "light")
        ...     os.listdir(folder)
        ['h.svg']
        """
        file = pathlib.Path(path)
        if file.suffix.lower() != ".svg":
            raise ValueError(f"a picture is written as SVG, to a file that ends in .svg: {file.with_suffix('.svg')} in place of {file}")
        file.write_text(self.svg(theme), encoding="utf-8")

    def _repr_svg_(self) -> str:
        return self.svg()

    def __str__(self) -> str:
        return self.svg()

    def __repr__(self) -> str:
        return f"<stabsim.Diagram: {self.kind}, {self.width:.0f} by {self.height:.0f} pixels>"


def diagram_of(circuit: "Circuit", kind: Kind, tick: Ticks | None, detectors: Iterable[int | str] | None) -> Diagram:
    """A picture of a circuit, which the program judges first. A timeline shows its noise, and what acts at a tick is without noise."""
    checking.one_of("kind", kind, get_args(Kind))
    circuit.numbers()
    quiet = circuit.circuit
    if kind in OF_TICKS and tick is None:
        raise ValueError(f"a {kind} is of a tick: tick=3")
    if kind not in OF_TICKS and tick is not None or not kind.startswith("detslice") and detectors is not None:
        raise ValueError(f"a {kind} is of the whole circuit" if tick is not None else f"a {kind} is not of some detectors")
    if kind == "timeline":
        return made(kind, drawn_timeline(circuit.noisy_items() if circuit.noise else quiet.items))
    if kind == "matchgraph":
        return made(kind, drawn_graph(faults_graph(quiet), quiet.detector_coordinates(), ticks_of_detectors(quiet)))
    ticks = numbers_of(0 if tick is None else tick, quiet.num_ticks)
    if kind == "timeslice":
        panels = time_panels(quiet, ticks)
    elif kind == "detslice":
        panels = region_panels(circuit, ticks, detectors, regions_elements)
    else:
        # What acts at a tick is drawn over the regions there, layer by layer.
        faces = region_panels(circuit, ticks, detectors, faces_elements)
        panels = [over(it, layer) for tick, it in zip(ticks, faces) for layer in time_panels(quiet, [tick])]
    places = places_of(quiet.qubit_coordinates(), qubits_of(quiet.items))
    return made(kind, side_by_side(panels, places))


def made(kind: Kind, drawn: tuple[list[Element], float, float]) -> Diagram:
    elements, width, height = drawn
    return Diagram(kind, width, height, tuple(elements))


def time_panels(circuit: "Circuit", ticks: list[int]) -> list[Panel]:
    """What acts in some ticks, layer by layer."""
    panels = []
    for tick in ticks:
        layers = layers_of(placed(circuit.items, range(tick, tick + 1)))
        for number, layer in enumerate(layers, start=1):
            part = f", layer {number} of {len(layers)}" * (len(layers) > 1)
            panels.append(Panel(f"tick {tick}{part}", functools.partial(layer_elements, layer)))
    return panels


def region_panels(circuit: "Circuit", ticks: list[int], detectors: Iterable[int | str] | None, draw: Callable[..., list[Element]]) -> list[Panel]:
    """The regions of all detectors, or of some and observables, at some ticks; draw: what draws them by their names where qubits are."""
    names = names_of(circuit, range(circuit.numbers().detectors) if detectors is None else detectors)
    regions = regions_at(circuit, ticks)
    shown = [{names[bit]: letters for bit, letters in sorted(regions.get(tick, {}).items()) if bit in names} for tick in ticks]
    return [Panel(f"at tick {tick}", functools.partial(draw, its)) for tick, its in zip(ticks, shown)]


def over(regions: Panel, layer: Panel) -> Panel:
    """One panel over another, with the upper one's title."""
    return Panel(layer.title, lambda places: [*regions.draw(places), *layer.draw(places)])


def faults_graph(circuit: "Circuit") -> Graph:
    """What single faults of X and Z flip, anywhere in a circuit."""
    table = circuit.faults(everywhere=True, sure_only=True)
    return graph_of(rows_of_faults(table), table.num_detectors)


def model_diagram(model: "ErrorModel", ticks: list[int]) -> Diagram:
    """The matching graph of an error model."""
    rows = [("", model.flipped(mechanism)) for mechanism in range(len(model))]
    return made("matchgraph", drawn_graph(graph_of(rows, model.num_detectors), model.coordinates, ticks))


def ticks_of_detectors(circuit: "Circuit") -> list[int]:
    """The tick in which each detector is declared."""
    every: Iterable[Placed] = placed(circuit.items, range(circuit.num_ticks + 1))
    return [it.tick for it in every if it.item.name == "DETECTOR"]
