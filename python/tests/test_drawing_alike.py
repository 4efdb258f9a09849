"""What the page draws of a moment and what `Circuit.diagram` draws of it: both go by one table, shapes.json, and draw the same."""

import json
import os
import pathlib
import shutil
import subprocess

import pytest
import stabsim
from stabsim.diagrams import marks, shapes
from stabsim.diagrams.elements import Glyph, Path
from stabsim.diagrams.layers import layers_of
from stabsim.diagrams.places import Places
from stabsim.diagrams.shapes import GATES, table
from stabsim.diagrams.slices import layer_elements
from stabsim.text import names
from stabsim.text.ticks import placed

NODE = shutil.which("node")
needs_node = pytest.mark.skipif(NODE is None, reason="node is missing")
SCRIPT = pathlib.Path(__file__).parent / "page_parts" / "drawn.mjs"
# Three qubits in no row, by numbers of which none is drawn between two hundredths; distances of neighbours with all of a glyph, less and less room
# for its words, its far shape, and a dot.
PLACES = [[0, [101.317291, 103.713387]], [1, [178.529173, 92.871639]], [2, [133.117813, 171.923557]]]
PITCHES = [97.31719, 50.11913, 37.71371, 25.91917, 13.11731, 4.31759]
SINGLE = [name for name, gate in GATES.items() if gate["marks"] == "single"]
PAIRS = [name for name, gate in GATES.items() if gate["marks"] == "pair"]
MOMENTS = {
    **{name: f"{name} 0 2" for name in SINGLE}, **{name: f"{name} 2 0" for name in PAIRS},
    **{f"{name} of a record": f"M 1\n{name} rec[-1] 0" for name in PAIRS if name != "SWAP"},
    "product": "MPP X0*!Y1*Z2", "product of one kind": "MPP X0*X2", "products that share qubits": "MPP X0*X1*X2 Z1*!Z2",
    "errors after gates": "H 0\nX 0\nCX 1 2\nY 1\nZ 2", "idle": "TICK",
}


def python_elements(text, pitch):
    """What Circuit.diagram draws of the first moment of a text."""
    places = Places({qubit: tuple(at) for qubit, at in PLACES}, 300, 300, pitch)
    layers = layers_of(placed(stabsim.Circuit(text).items, range(1)))
    return [part for it in layer_elements(layers[0], places) for part in (shapes.elements_of(it) if isinstance(it, Glyph) else [it])]


def said(element):
    """An element as drawn.mjs says it."""
    if isinstance(element, Path):
        return {"commands": "".join(element.commands), "fill": element.fill, "stroke": element.stroke, "width": element.width, "dash": list(element.dash),
                "alpha": element.alpha, "hatch": element.hatch}
    return {"words": element.text, "x": element.x, "y": element.y, "size": element.size, "fill": element.fill, "anchor": element.anchor,
            "weight": element.weight, "mono": element.is_mono, "halo": element.halo}


def alike(elements):
    """Elements in an order of their own, with numbers of two decimals. The page names a record by how far it lies back."""
    rounded = [{name: round(float(value), 2) if type(value) in (int, float) else value for name, value in it.items()} for it in elements]
    return sorted(json.dumps({**it, "words": "the record"} if it.get("mono") else it, sort_keys=True) for it in rounded)


@pytest.fixture(scope="module")
def page():
    """What the page draws of each moment at each distance, and the kinds that it knows."""
    moments = [{"text": text, "places": PLACES, "pitch": pitch} for text in MOMENTS.values() for pitch in PITCHES]
    done = subprocess.run([NODE, str(SCRIPT)], capture_output=True, text=True, env={**os.environ, "MOMENTS": json.dumps(moments)}, check=True)
    return json.loads(done.stdout)


def kinds():
    """The kinds of parts and of marks that the table has."""
    parts = {part[0] for shape in table()["shapes"].values() for level in ("full", "letter", "far") for part in shape.get(level, ())}
    return parts, {mark["draw"] for its in table()["marks"].values() for mark in its}


def test_each_gate_of_the_program_is_drawn():
    assert set(GATES) == {*names.ONE_QUBIT, *names.TWO_QUBITS, *names.RESETS, *names.MEASUREMENTS}


def test_python_draws_each_kind_that_the_table_has():
    assert (set(shapes.DRAWN), set(marks.DRAWN)) == kinds()


@needs_node
def test_the_page_draws_each_kind_that_the_table_has(page):
    assert (set(page["parts"]), set(page["marks"])) == kinds()


@needs_node
@pytest.mark.parametrize("number, name", enumerate(MOMENTS), ids=list(MOMENTS))
def test_a_moment_is_drawn_alike(page, number, name):
    for place, pitch in enumerate(PITCHES):
        drawn = page["drawn"][number * len(PITCHES) + place]
        assert alike(drawn) == alike(map(said, python_elements(MOMENTS[name], pitch)))
