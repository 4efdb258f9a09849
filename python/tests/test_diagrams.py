"""Pictures: regions against errors that are put in, ticks against circuits that are written out, and what the SVG has."""

import pathlib
import re
import xml.etree.ElementTree

import numpy as np
import pytest
import stabsim
from stabsim import codes
from stabsim.diagrams import elements, matchgraph, places
from stabsim.diagrams.layers import layers_of
from stabsim.diagrams.shapes import palettes, table
from stabsim.diagrams.slices import most_frequent
from stabsim.noise.detecting import regions_at
from stabsim.text import ticks

PICTURES = pathlib.Path(__file__).resolve().parent / "pictures"
EXAMPLES = pathlib.Path(__file__).resolve().parents[2] / "examples"
REPETITION = stabsim.Circuit(codes.repetition_code(3, 3))
TELEPORTATION = stabsim.Circuit.from_file(EXAMPLES / "teleportation.stim")
NESTED = stabsim.Circuit("""R 0 1
TICK
REPEAT 3 {
    I 0
    CX 0 1
    REPEAT 2 {
        TICK
        S 1
        M 0
    }
    TICK
    MR 1
    DETECTOR rec[-1] rec[-2]
}
H 0
""")


def written_out(items):
    """The instructions of items with all rounds one after another."""
    for item in items:
        if item.repeat is None:
            yield item
        else:
            for _ in range(item.repeat):
                yield from written_out(item.items)


def by_ticks(circuit):
    """The texts of the instructions of each tick, the slow way."""
    found = [[]]
    for item in written_out(circuit.items):
        if item.name == "TICK":
            found.append([])
        else:
            found[-1].append(str(item))
    return found


@pytest.mark.parametrize("circuit", [REPETITION, TELEPORTATION, NESTED, stabsim.Circuit("")], ids=["repetition", "teleportation", "nested", "empty"])
def test_a_tick_has_what_the_written_out_circuit_has_there(circuit):
    slow = by_ticks(circuit)
    assert len(slow) == circuit.num_ticks + 1
    for tick, texts in enumerate(slow):
        assert [str(it.item) for it in ticks.placed(circuit.items, range(tick, tick + 1))] == texts
    every = list(ticks.placed(circuit.items, range(circuit.num_ticks + 1)))
    records = 0
    for it in every:
        assert it.records == records
        records += len(it.item.targets) if it.item.name in ("M", "MR", "MY") else 0


@pytest.mark.parametrize("circuit", [REPETITION, NESTED], ids=["repetition", "nested"])
def test_a_mark_stands_at_its_tick_alone(circuit):
    for tick in range(circuit.num_ticks + 1):
        lines = by_ticks(stabsim.Circuit("\n".join([*["I 0 1"] * (tick == 0), *ticks.marked_at(circuit.items, {tick}, "I 0 1")])))
        # The idle gates of the circuit are left out, and the mark ends the tick before, or begins the circuit.
        expected = [[line for line in its if not line.startswith("I ")] for its in by_ticks(circuit)]
        if tick:
            expected[tick - 1].append("I 0 1")
        else:
            expected[0].insert(0, "I 0 1")
        assert lines == expected


def region_by_errors(circuit, tick):
    """The letters of each detector at a tick: X and Z are put in there, one by one, and the written out circuit is run again."""
    lines = [str(item) for item in written_out(circuit.items)]
    at = [place for place, line in enumerate(lines) if line == "TICK"][tick - 1] if tick else 0
    found = {}
    with stabsim.Circuit("\n".join(lines)).edit() as session:
        for qubit in range(circuit.num_qubits):
            for letter, shown in (("X", "Z"), ("Z", "X")):
                session.insert(at, f"{letter} {qubit}")
                changed = session.changed()
                session.undo()
                for bit in [*changed.detectors, *(changed.observables + circuit.num_detectors)]:
                    its = found.setdefault(int(bit), {})
                    its[qubit] = "Y" if qubit in its else shown
    return found


@pytest.mark.parametrize("circuit", [REPETITION, TELEPORTATION, stabsim.Circuit(codes.surface_code(2, 2)), stabsim.Circuit(codes.colour_code(3, 2))],
                         ids=["repetition", "teleportation", "surface", "colour"])
def test_regions_are_what_errors_at_a_tick_flip(circuit):
    for tick in range(circuit.num_ticks + 1):
        assert regions_at(circuit, [tick]).get(tick, {}) == region_by_errors(circuit, tick)


def test_regions_of_the_repetition_code_by_hand():
    # In front of the first measurement of qubits 1 and 3 both of their neighbours are in the parity: the check is on qubit 1 alone, and
    # the next round's on what it will be made of.
    found = regions_at(REPETITION, [3])[3]
    assert found[0] == {1: "Z"} and found[1] == {3: "Z"}
    assert found[2] == {0: "Z", 1: "Z", 2: "Z"}


def test_products_of_one_instruction_share_a_layer_and_others_do_not():
    def sizes(text):
        return [len(layer) for layer in layers_of(ticks.placed(stabsim.Circuit(text).items, range(1)))]

    assert sizes("MPP X0*X1 X1*X2") == [2]
    assert sizes("MPP X0*X1\nMPP X1*X2") == [1, 1]
    assert sizes("CX 0 1 1 2") == [1, 1]
    # A Pauli may be on a gate, and nothing on that.
    assert sizes("H 0\nX 0\nH 0") == [2, 1]
    with pytest.raises(ValueError, match="over 64 layers"):
        sizes("REPEAT 1000000 {\nH 0\n}")


def test_coordinates_say_where_qubits_are_and_others_stand_in_rows():
    nan = np.nan
    found = places.places_of(np.array([[0, 0], [3, 1], [nan, nan], [3, 1]]), {0, 1, 2})
    step = found.pitch
    x, y = found.at[0]
    # Two qubits of one place stand a little apart, which is the nearest that two are.
    assert found.at[1] != found.at[3] and found.at[1][0] == pytest.approx(x + 3 * step / np.hypot(0.3, 0.3))
    assert found.at[2][0] == pytest.approx(x) and found.at[2][1] > y
    plain = places.places_of(np.zeros((3, 0)), {0, 2})
    assert set(plain.at) == {0, 2} and plain.at[0][1] == plain.at[2][1]


def test_an_outline_goes_round_its_points():
    for points in ([(0.0, 0.0)], [(0.0, 0.0), (10.0, 0.0)], [(0.0, 0.0), (5.0, 0.0), (10.0, 0.0)], [(0.0, 0.0), (10.0, 0.0), (5.0, 8.0), (5.0, 2.0)]):
        numbers = [(float(x), float(y)) for x, y in re.findall(r"(-?[\d.]+) (-?[\d.]+)(?=[MLAZ]|$)", "".join(elements.outline(points, 3)))]
        xs, ys = zip(*numbers)
        assert min(xs) >= -3.01 and max(xs) <= 13.01 and min(ys) >= -3.01
        # Each corner of the outline is as far away from the nearest point of the hull as the margin says.
        for x, y in numbers:
            assert min(np.hypot(x - a, y - b) for a, b in points) == pytest.approx(3, abs=0.02)


def test_a_graph_has_an_edge_for_what_flips_one_or_two_detectors():
    rows = [("X", np.array([0, 1])), ("Z", np.array([0, 1])), ("X", np.array([1, 3])), ("X", np.array([0, 1, 2])), ("Z", np.array([3]))]
    found = matchgraph.graph_of(rows, 3)
    assert {ends: edge.kinds for ends, edge in found.edges.items()} == {(0, 1): {"X", "Z"}, (1,): {"X"}}
    assert found.edges[(1,)].observables == {frozenset([0])}
    assert (found.more, found.unseen) == (1, 1)


def test_the_colour_of_a_region_is_that_of_most_of_its_qubits():
    assert most_frequent({0: "X", 1: "X", 2: "Z"}) == "X"
    assert most_frequent({0: "X", 1: "Z"}) == ""


ALL = [
    REPETITION.diagram("timeline"), REPETITION.diagram("timeslice", tick=range(4)), REPETITION.diagram("detslice", tick=[2, 5], detectors=[0, "D3", "L0"]),
    REPETITION.diagram("matchgraph"), TELEPORTATION.diagram("timeline"), TELEPORTATION.diagram("timeslice", tick=0), NESTED.diagram("timeline"),
    stabsim.Circuit("").diagram("timeline"), stabsim.Circuit("").diagram("timeslice", tick=0), stabsim.Circuit("").diagram("matchgraph"),
    stabsim.Circuit(codes.colour_code(3, 2)).diagram("timeslice", tick=1), stabsim.Circuit(codes.colour_code(3, 2)).diagram("detslice", tick=2),
    stabsim.from_stim(codes.repetition_code(3, 2, noise=codes.Noise.uniform(0.01))).diagram("matchgraph"),
]


@pytest.mark.parametrize("theme", ["auto", "light", "dark"])
@pytest.mark.parametrize("picture", ALL, ids=lambda it: it.kind)
def test_a_picture_is_svg_whose_colours_are_those_of_its_theme(picture, theme):
    text = picture.svg(theme)
    root = xml.etree.ElementTree.fromstring(text)
    assert root.get("width") == elements.number(picture.width)
    light, dark = palettes()
    used = {word.partition("-")[2] for words in re.findall(r'class="([^"]*)"', text) for word in words.split() if word.startswith(("fill-", "line-"))}
    style = re.search("<style>(.*)</style>", text, re.DOTALL)[1]
    for name in used:
        assert (f"{name}{{fill:{light[name]}}}" in style or f"{name}{{stroke:{light[name]}}}" in style) == (theme != "dark" or light[name] == dark[name])
        assert (f"{name}{{fill:{dark[name]}}}" in style or f"{name}{{stroke:{dark[name]}}}" in style) == (theme != "light" or light[name] == dark[name])
    # What a pattern is asked for by is there.
    assert set(re.findall(r"url\(#([^)]*)\)", text)) <= set(re.findall(r'pattern id="([^"]*)"', text))
    assert not re.search(r"nan|inf|Growing", text)


def test_letters_differ_by_shape_and_pattern_too():
    shapes = {letter: str(table()["shapes"][letter]["far"]) for letter in "XYZ"}
    assert len(set(shapes.values())) == 3 and len({table()["hatch"][letter] for letter in "XYZ"}) == 3


@pytest.mark.parametrize("name, picture", [
    ("bell_timeline", stabsim.Circuit.from_file(EXAMPLES / "bell.stim").diagram("timeline")),
    ("repetition_timeline", REPETITION.diagram("timeline")),
    ("repetition_detslice", REPETITION.diagram("detslice", tick=5)),
    ("repetition_matchgraph", REPETITION.diagram("matchgraph")),
    ("teleportation_timeslice", TELEPORTATION.diagram("timeslice", tick=0)),
])
def test_a_small_picture_is_as_it_was_when_it_was_looked_at(name, picture, tmp_path):
    picture.save(tmp_path / "picture.svg")
    assert (tmp_path / "picture.svg").read_text() == (PICTURES / f"{name}.svg").read_text()


def test_numbers_in_blocks_grow_with_their_rounds():
    text = NESTED.diagram("timeline").svg("light")
    words = re.findall(r">([^<>]+)</text>", text)
    assert [word for word in words if word.startswith("M") and len(word) > 1] == ["M0+3k+j", "M2+3k"]
    assert "D0+k: M2+3k M1+3k" in words and "REPEAT 3, round k" in words and "REPEAT 2, round j" in words
    assert [word for word in words if word[0].isdigit() and len(word) > 1] == ["2+3k+j", "4+3k"]


NOISY = stabsim.from_stim("""R 0 1 2
X_ERROR(0.01) 0 1
DEPOLARIZE1(0.000533333) 2
TICK
REPEAT 1000 {
    MR(0.01) !1
}
DEPOLARIZE2(0.001) 0 1
PAULI_CHANNEL_1(0.1, 0.2, 0.05) 2
E(0.125) X0 Z2
ELSE_CORRELATED_ERROR(0.25) Y1
E(0.5)
MPP(0.02) !X0*Z2
MX 0 !1
CX rec[-1] 0
""")


def words_of(circuit):
    """The words of the timeline of a circuit."""
    return [it.text for it in circuit.diagram("timeline").elements if isinstance(it, elements.Words)]


def glyphs_of(circuit):
    """The labels of the shapes of a timeline, of those that have one."""
    return [it.label for it in circuit.diagram("timeline").elements if isinstance(it, elements.Glyph) and it.label]


def test_a_timeline_shows_noise_with_its_chances():
    assert glyphs_of(NOISY) == ["0"] * 3 + ["X", "X", "D1", "!M", "D2", "D2", "P1", "X", "Z", "Y", "!X", "Z", "MX", "!MX", "X"]
    chances = ["0.01", "0.01", "0.00053", "0.001", "Σ0.35", "0.12", "0.25"]
    assert [it.text for it in NOISY.diagram("timeline").elements if isinstance(it, elements.Words) and it.fill == "flip"] == chances
    records = ["M0+k(0.01)", "M1000(0.02)", "M1001", "M1002", "if M1002"]
    assert [word for word in words_of(NOISY) if word.startswith(("M", "if"))] == records
    # The circuit alone has the same without noise.
    assert glyphs_of(NOISY.circuit) == ["0"] * 3 + ["!M", "!X", "Z", "MX", "!MX", "X"]
    assert [word for word in words_of(NOISY.circuit) if word.startswith("M")] == ["M0+k", "M1000", "M1001", "M1002"]


@pytest.mark.parametrize("circuit", [
    NOISY, stabsim.Circuit("M 0\nREPEAT 100000 {\nTICK\nREPEAT 2 {\nTICK\nM 0\n}\n}"), stabsim.Circuit("REPEAT 1000000 {\nM 0\n}\nTICK"),
    stabsim.Circuit("REPEAT 250000 {\nTICK\nM 0\nTICK\n}\nCX rec[-1] 1\nTICK"),
], ids=["noisy", "blocks", "wide frame", "last tick"])
def test_no_words_of_a_timeline_are_cut_or_over_others_of_their_line(circuit):
    picture = circuit.diagram("timeline")
    spans = {}
    for it in picture.elements:
        if isinstance(it, elements.Words):
            # A letter of a fixed width has 0.6 of its size, and a bold one of the page's font 0.64 on the average.
            wide = it.size * len(it.text) * (0.6 if it.is_mono else 0.64 if it.weight > 400 else 0.55)
            left = it.x - {"start": 0, "middle": 0.5, "end": 1}[it.anchor] * wide
            spans.setdefault(it.y, []).append((left, left + wide))
    for line in map(sorted, spans.values()):
        assert line[0][0] >= 0 and line[-1][1] <= picture.width
        assert all(before[1] <= after[0] for before, after in zip(line, line[1:]))


def test_a_picture_is_saved_as_svg_alone(tmp_path):
    picture = stabsim.Circuit("H 0").diagram("timeline")
    for name in ("x.png", "x"):
        with pytest.raises(ValueError, match=r"ends in .svg: .*x.svg in place of"):
            picture.save(tmp_path / name)
    picture.save(tmp_path / "x.SVG")
    assert [file.name for file in tmp_path.iterdir()] == ["x.SVG"]


def test_what_acts_at_a_tick_is_drawn_over_the_regions_there():
    c = stabsim.Circuit("R 0 1\nTICK\nCX 0 1\nH 1\nTICK\nH 1\nM 1\nDETECTOR rec[-1]\nM 0\nDETECTOR rec[-1]")
    both, regions, acting = (c.diagram(kind, tick=1, **some) for kind, some in (
        ("detslice-with-ops", {"detectors": ["D0"]}), ("detslice", {"detectors": ["D0"]}), ("timeslice", {})))
    # Two layers, each over the same regions; qubits have their numbers once in each.
    both, regions, acting = ([it.text for it in its.elements if isinstance(it, elements.Words)] for its in (both, regions, acting))
    assert both.count("0") == both.count("1") == 2 and both.count("D0") == 2
    assert sorted(both) == sorted(acting + 2 * [it for it in regions if it not in ("0", "1", "at tick 1")])


def test_what_is_asked_wrongly_is_said():
    with pytest.raises(IndexError, match="tick 99 is not from 0 to "):
        REPETITION.diagram("timeslice", tick=99)
    with pytest.raises(ValueError, match="of a tick"):
        REPETITION.diagram("detslice")
    with pytest.raises(ValueError, match="whole circuit"):
        REPETITION.diagram("timeline", tick=1)
    with pytest.raises(ValueError, match="D99 is no detector"):
        REPETITION.diagram("detslice", tick=1, detectors=["D99"])
    with pytest.raises(ValueError, match="kind is 'pie': give one of 'timeline', 'timeslice'"):
        REPETITION.diagram("pie")
    with pytest.raises(ValueError, match="theme is auto, light or dark"):
        REPETITION.diagram("timeline").svg("pink")
    with pytest.raises(stabsim.Refused):
        stabsim.Circuit("NOPE 0").diagram("timeline")
