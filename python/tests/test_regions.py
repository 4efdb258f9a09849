"""Regions of detectors and observables as the page draws them: by hand, and held against edits that put each Pauli in."""

import pytest
import stabsim
from stabsim import codes
from stabsim.page import table_process
from stabsim.page.moment_faults import MomentFaults
from stabsim.text.moments import marked

# The teleportation that docs/use/faults.md works out by hand, a step in each moment: two records control gates on qubit 2.
TELEPORTATION = """RY 0
TICK
H 1
TICK
CX 1 2
TICK
CX 0 1
TICK
H 0
TICK
M 0
TICK
M 1
TICK
CX rec[-1] 2
TICK
CZ rec[-2] 2
TICK
MY 2
DETECTOR rec[-1]
"""
BY_HAND = {0: "Y0 Z1 Z2", 1: "Y0 X1 Z2", 2: "Y0 Y1 Y2", 3: "X0 Z1 Y2", 4: "Z0 Z1 Y2", 5: "Z1 Y2", 6: "Y2", 7: "Y2", 8: "Y2"}


def words(letters):
    return " ".join(f"{letter}{qubit}" for qubit, letter in sorted(letters.items()))


def test_a_region_leads_over_gates_that_records_control():
    region = MomentFaults.of_circuit(TELEPORTATION).region("D0")
    assert {moment: words(letters) for moment, letters in region.items()} == BY_HAND


def test_a_region_leads_over_products():
    # From the first Z1*Z2 on, and through the H, as the second product.
    faults = MomentFaults.of_circuit("RX 0 1 2\nTICK\nMPP X0*X1 Z1*Z2\nTICK\nH 2\nTICK\nMPP Z1*X2\nDETECTOR rec[-1] rec[-2]\n")
    assert {moment: words(letters) for moment, letters in faults.region("D0").items()} == {1: "Z1 Z2", 2: "Z1 X2"}


def test_paulis_of_observables_have_regions_and_detectors_keep_theirs():
    faults = MomentFaults.of_circuit("R 0\nTICK\nH 0\nTICK\nOBSERVABLE_INCLUDE(0) X0\nH 0\nM 0\nDETECTOR rec[-1]\n")
    assert {moment: words(letters) for moment, letters in faults.region("L0").items()} == {0: "Z0", 1: "X0"}
    assert {moment: words(letters) for moment, letters in faults.region("D0").items()} == {0: "Z0", 1: "X0", 2: "Z0"}
    assert faults.flips(1, 0) == {"X": [], "Y": ["D0", "L0"], "Z": ["D0", "L0"]}


def regions_of(code):
    """The region of each detector and observable."""
    faults, numbers = MomentFaults.of_circuit(code), stabsim.Circuit(code).numbers()
    bits = [f"D{number}" for number in range(numbers.detectors)] + [f"L{number}" for number in range(numbers.observables)]
    return {bit: faults.region(bit) for bit in bits}


def ends_of(code):
    """In front of which line each moment ends."""
    lines = marked(code, "mark").splitlines()
    marks = [place for place, line in enumerate(lines) if line == "mark"]
    return [place - number for number, place in enumerate(marks)]


@pytest.mark.parametrize("code", [TELEPORTATION, codes.colour_code(3, 2)], ids=["teleportation", "colour code"])
def test_just_the_paulis_that_anticommute_with_a_region_flip_its_bit(code):
    regions = regions_of(code)
    with stabsim.Circuit(code).edit() as session:
        # There are no blocks, so items are lines.
        for moment, place in enumerate(ends_of(session.circuit())):
            for qubit in range(session.numbers().qubits):
                for pauli in "XYZ":
                    session.mark()
                    session.insert(place, f"{pauli} {qubit}")
                    changed = session.changed()
                    session.undo()
                    flipped = {f"D{number}" for number in changed.detectors} | {f"L{number}" for number in changed.observables}
                    letters = {bit: region.get(moment, {}).get(qubit, pauli) for bit, region in regions.items()}
                    assert flipped == {bit for bit, letter in letters.items() if letter != pauli}


def test_regions_in_a_block_are_those_of_its_rounds():
    assert regions_of(codes.surface_code(3, 4)) == regions_of(codes.surface_code(3, 4, written_out=True))


def test_a_bit_that_a_coin_decides_has_no_region():
    faults = MomentFaults.of_circuit("RX 0\nTICK\nM 0\nDETECTOR rec[-1]\nTICK\nM 0\nDETECTOR rec[-1] rec[-2]\n")
    assert faults.region("D0") == {}
    assert {moment: words(letters) for moment, letters in faults.region("D1").items()} == {1: "Z0"}


def test_a_slice_has_the_letters_of_each_region_at_its_moment():
    regions = regions_of(codes.surface_code(3, 2))
    faults = MomentFaults.of_circuit(codes.surface_code(3, 2))
    for moment in (0, 5, 8):
        assert faults.slice(moment) == {bit: region[moment] for bit, region in regions.items() if moment in region}
    assert faults.slice(-1) == {} and faults.slice(10_000) == {}


# Circuits with the lines in front of which they are cut, by hand; ticks are numbers of lines too.
CUTS = {
    "gates on one qubit": ("H 0\nS 0\nX 0\nX 0\n", [2, 4]),
    "gates on several": ("H 0\nH 1\nCX 0 1\nM 2\nDETECTOR rec[-1]\nM 1\n", [3, 6]),
    "a tick between": ("H 0\nTICK\nH 0\n", [2]),
    "a record is no qubit": ("M 0\nCX rec[-1] 1\nZ 1\n", []),
    "products that share a qubit": ("MPP X0*X1 Z0*Z1\nMPP Z1*Z2\n", [2]),
    "a block that begins with a tick": ("R 0\nREPEAT 3 {\nTICK\nH 0\nTICK\nM 0\n}\nM 0\n", [3, 5, 8]),
    "a block that meets itself": ("R 0\nREPEAT 3 {\nH 1\nDETECTOR\n}\nM 0\n", [3]),
    "a block that meets what is before it": ("R 1\nREPEAT 1 {\nH 1\n}\nM 1\n", [2, 5]),
    "a block whose rounds end with a tick": ("M 1\nREPEAT 3 {\nH 1\nTICK\n}\nM 1\n", [2, 4]),
    "a block of detectors": ("R 0\nREPEAT 3 {\nDETECTOR\n}\nX 0\n", []),
    "blocks in a block": ("REPEAT 2 {\nREPEAT 2 {\nH 0\n}\n}\n", [3]),
}


@pytest.mark.parametrize("code, cuts", CUTS.values(), ids=CUTS.keys())
def test_a_moment_ends_where_a_qubit_is_acted_on_again(code, cuts):
    assert [place + 1 for place in ends_of(code)][:-1] == cuts


def test_what_is_no_bit_is_refused():
    faults = MomentFaults.of_circuit(TELEPORTATION)
    with pytest.raises(ValueError):
        faults.region("X3")
    assert faults.region("D9") == {}


def test_an_edit_that_leaves_the_table_has_none_made_anew(monkeypatch):
    made = []
    monkeypatch.setattr(table_process.MomentFaults, "of_circuit", lambda text: made.append(text) or "a table")
    table, code = table_process.Table(), "R 0 1\nTICK\nCX 0 1\nTICK\nM 1\nDETECTOR rec[-1]\n"
    for text in (code, code.replace("CX 0 1", "CX 0 1\nX 0"), "QUBIT_COORDS(1, 2) 0\n" + code, code.replace("CX 0 1", "CX 1 0"), code.replace("CX 0 1", "CX 1 0\nZ 1")):
        assert table.take(text) == ""
    assert [text.count("CX 1 0") for text in made] == [0, 1]
