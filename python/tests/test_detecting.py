"""Detecting regions: by hand, and of all ticks against single ones, which test_diagrams.py holds against edits."""

import pytest
import stabsim
from stabsim import codes


def test_regions_of_a_parity_by_hand():
    # Z on both data qubits goes through the CX to the check, from which H makes X. What is reset shows nothing before.
    text = "R 0 1 2\nTICK\nCX 0 2\nTICK\nCX 1 2\nTICK\nH 2\nTICK\nS 2\nTICK\nMY 2\nTICK\nDETECTOR(0) rec[-1]\nM 0 1\nOBSERVABLE_INCLUDE(0) rec[-1]\n"
    c = stabsim.Circuit(text)
    assert c.detecting_regions() == {
        "D0": {1: "Z0*Z1*Z2", 2: "Z1*Z2", 3: "Z2", 4: "X2", 5: "Y2"}, "L0": dict.fromkeys(range(1, 7), "Z1"),
    }
    assert c.detecting_regions(ticks=[0, 2, 6], detectors=["D0"]) == {"D0": {2: "Z1*Z2"}}
    assert c.detecting_regions(ticks=4, detectors=[0]) == {"D0": {4: "X2"}}


def test_paulis_of_observables_are_in_regions_as_if_measured_where_they_are():
    # Z goes through H as X, which is observed there; after that nothing can flip it.
    assert stabsim.Circuit("R 0\nTICK\nH 0\nTICK\nOBSERVABLE_INCLUDE(0) X0\nTICK\nM 0").detecting_regions() == {"L0": {1: "Z0", 2: "X0"}}
    # X of qubit 0, and the record of X of both, in which it is too: before both X of qubit 1 alone shows, and between them X of both.
    text = "RX 0 1\nTICK\nOBSERVABLE_INCLUDE(0) X0\nTICK\nMPP X0*X1\nTICK\nOBSERVABLE_INCLUDE(0) rec[-1]\nDETECTOR rec[-1]"
    both = {1: "X0*X1", 2: "X0*X1"}
    assert stabsim.Circuit(text).detecting_regions() == {"D0": both, "L0": {1: "X1", 2: "X0*X1"}}
    # In each round the Pauli is added again: before the last it is once there, before the one in front of it twice.
    rounds = stabsim.Circuit("R 0\nREPEAT 3 {\n    TICK\n    DEPOLARIZE1(0.1) 0\n    OBSERVABLE_INCLUDE(1) Z0\n}\nTICK")
    assert rounds.detecting_regions() == {"L1": {1: "Z0", 3: "Z0"}} and rounds.detecting_regions(ticks=[2, 3]) == {"L1": {3: "Z0"}}
    assert rounds.diagram("detslice", tick=3).elements != rounds.diagram("detslice", tick=2).elements
    # Coins decide Z after RX, and a known record takes a qubit of its own.
    assert stabsim.Circuit("RX 0\nTICK\nOBSERVABLE_INCLUDE(0) Z0").detecting_regions() == {}
    assert stabsim.Circuit("R 0\nTICK\nMPAD 1\nOBSERVABLE_INCLUDE(0) Z0\nMPAD 0").detecting_regions() == {"L0": {1: "Z0"}}


@pytest.mark.parametrize("rounds", [1, 3])
def test_paulis_at_the_end_have_the_regions_of_their_measurement(rounds):
    # The observable is Z on the qubits of the first row, which are measured at the end.
    text = codes.surface_code(3, rounds, noise=codes.Noise.uniform(0.001))
    before, measured = text[: text.rindex("X_ERROR")], text[text.rindex("\nM ") :].split("\n")[1]
    row = measured.split()[1:4]
    by_paulis = f"{before}OBSERVABLE_INCLUDE(0) {' '.join(f'Z{it}' for it in row)}"
    by_record = f"{before}MPP {'*'.join(f'Z{it}' for it in row)}\nOBSERVABLE_INCLUDE(0) rec[-1]"
    found = stabsim.Circuit(by_paulis).detecting_regions()
    assert found == stabsim.Circuit(by_record).detecting_regions() and len(found["L0"]) > 5 * rounds


@pytest.mark.parametrize("text", [
    codes.surface_code(3, 3), codes.repetition_code(3, 3), codes.colour_code(3, 2), "R 0\nREPEAT 2 {\n    I 0\n}\nREPEAT 3 {\n    I 0\n    TICK\n}\nM 0\nDETECTOR rec[-1]",
    "H 0\nTICK\nM 0\nDETECTOR rec[-1]\nR 1\nTICK\nM 1\nDETECTOR rec[-1]", "", "TICK",
    "REPEAT 3 {\n    R 0\n    REPEAT 2 {\n        TICK\n        H 0\n    }\n    TICK\n    M 0\n    DETECTOR rec[-1]\n}",
])
def test_regions_are_those_of_each_tick(text):
    c = stabsim.Circuit(text)
    found = c.detecting_regions()
    for tick in range(c.num_ticks + 1):
        alone = c.detecting_regions(ticks=tick)
        assert alone == {name: {tick: its[tick]} for name, its in found.items() if tick in its}
    assert c.detecting_regions(ticks=range(0, c.num_ticks + 1, 2)) == {
        name: some for name, its in found.items() if (some := {tick: it for tick, it in its.items() if tick % 2 == 0})
    }


def test_what_is_not_there_is_said():
    c = stabsim.Circuit("M 0\nDETECTOR rec[-1]\nTICK")
    with pytest.raises(IndexError, match="tick 2 is not from 0 to "):
        c.detecting_regions(ticks=[2])
    with pytest.raises(ValueError, match="D1 is no detector"):
        c.detecting_regions(detectors=["D1"])
    with pytest.raises(TypeError, match="detectors is 0"):
        c.detecting_regions(detectors=0)
    with pytest.raises(TypeError, match="a detector is 1.5"):
        c.detecting_regions(detectors=[1.5])
