"""Detectors of given records: parities by hand, and those of the program."""

import random

import numpy as np
import pytest
import stabsim
from stabsim import codes

NESTED = """
H 0
M 0 !1
REPEAT 3 {
    MR 0
    DETECTOR rec[-1] rec[-3]
    REPEAT 2 {
        MPP X0*Z1 Z0 # two records
        DETECTOR rec[-1] rec[-1] rec[-2]
        OBSERVABLE_INCLUDE(1) rec[-4]
        DETECTOR
    }
}
REPEAT 1000000000000 {
    TICK
}
OBSERVABLE_INCLUDE(0) rec[-1] rec[-17]
"""


@pytest.mark.parametrize("text", [NESTED, codes.surface_code(3, 5), codes.colour_code(3, 3), codes.dense_circuit(9, 3000, 4)],
                         ids=["nested blocks", "surface code", "products", "dense"])
def test_detectors_of_sampled_records_are_those_of_the_program(text):
    circuit = stabsim.Circuit(text)
    records = circuit.sample(100, seed=5)
    detectors, observables = stabsim.m2d(circuit, records, separate_observables=True)
    wanted = circuit.detect(100, seed=5, separate_observables=True)
    assert np.array_equal(detectors, wanted[0]) and np.array_equal(observables, wanted[1])
    assert np.array_equal(stabsim.m2d(circuit, np.packbits(records, axis=1, bitorder="little")), wanted[0])


def test_records_need_not_be_those_of_a_run():
    # Both are 0 without noise, and the machine says else.
    circuit = stabsim.Circuit("R 0 1\nM 0 1\nDETECTOR rec[-1]\nDETECTOR rec[-1] rec[-2]\nDETECTOR\nOBSERVABLE_INCLUDE(2) rec[-2]\n")
    records = np.array([[0, 0], [0, 1], [1, 0], [1, 1]], dtype=bool)
    detectors, observables = stabsim.m2d(circuit, records, separate_observables=True)
    assert detectors.astype(int).tolist() == [[0, 0, 0], [1, 1, 0], [0, 1, 0], [1, 0, 0]]
    assert observables.astype(int).tolist() == [[0, 0, 0], [0, 0, 0], [0, 0, 1], [0, 0, 1]]


def test_flips_are_what_differs_from_the_circuit_without_noise():
    circuit = stabsim.Circuit("X 0\nM 0 1\nDETECTOR rec[-2]\nDETECTOR rec[-1]\nOBSERVABLE_INCLUDE(0) rec[-1] rec[-2]\n")
    records = np.array([[1, 0], [0, 0], [1, 1]], dtype=bool)
    detectors, observables = stabsim.m2d(circuit, records, separate_observables=True, flips=True)
    assert detectors.astype(int).tolist() == [[0, 0], [1, 0], [0, 1]] and observables.astype(int).tolist() == [[0], [1], [1]]
    assert np.array_equal(stabsim.m2d(circuit, records, flips=True), detectors)


def test_many_shots_are_taken_in_parts():
    circuit = stabsim.Circuit("M 0 1 2\nDETECTOR rec[-1] rec[-3]\n")
    records = np.random.default_rng(3).random((20_001, 3)) < 0.5
    assert np.array_equal(stabsim.m2d(circuit, records)[:, 0], records[:, 0] ^ records[:, 2])
    assert stabsim.m2d(circuit, records[:0]).shape == (0, 1)


def test_records_of_another_circuit_are_refused():
    with pytest.raises(ValueError, match="records is an array bool .*: give a bool array"):
        stabsim.m2d(stabsim.Circuit("M 0\n"), np.zeros((3, 2), dtype=bool))


@pytest.mark.parametrize("seed", range(12))
def test_records_of_a_run_with_sweep_bits_have_no_flips_but_those_of_its_errors(seed):
    numbers = random.Random(seed)
    text = numbers.choice([codes.repetition_code(3, 3), codes.surface_code(3, 2), codes.colour_code(3, 2)])
    lines = text.splitlines()
    for place in sorted((numbers.randrange(1, len(lines)) for _ in range(6)), reverse=True):
        bit, qubit = numbers.randrange(4), numbers.randrange(8)
        lines.insert(place, numbers.choice([f"CX sweep[{bit}] {qubit}", f"CZ {qubit} sweep[{bit}]", f"YCZ {qubit} sweep[{bit}]", f"REPEAT 3 {{\nCY sweep[{bit}] {qubit}\n}}"]))
    circuit = stabsim.Circuit("\n".join([*lines, "CZ sweep[3] sweep[1]\n"]))
    shots = np.array([[numbers.random() < 0.5 for _ in range(4)] for _ in range(5)])
    records = np.concatenate([circuit.with_sweep_bits(its).sample(1, seed=seed) for its in shots])
    flips = stabsim.m2d(circuit, records, separate_observables=True, flips=True, sweep_bits=shots)
    assert not any(found.any() for found in flips)
    # Of raw parities what bits flip is taken out too, and wrong records are flips whatever the bits are.
    wrong = np.array([[numbers.random() < 0.1 for _ in range(records.shape[1])] for _ in range(5)])
    plain = stabsim.m2d(circuit, wrong)
    assert np.array_equal(stabsim.m2d(circuit, records ^ wrong, sweep_bits=np.packbits(shots, axis=1, bitorder="little"), flips=True), plain)
    assert np.array_equal(stabsim.m2d(circuit, records ^ wrong, sweep_bits=shots), plain ^ circuit.detect(1))


def test_sweep_bits_are_refused_where_coins_decide():
    circuit = stabsim.Circuit("H 0\nCX sweep[0] 0\nM 0\nDETECTOR rec[-1]\n")
    with pytest.raises(stabsim.Refused, match="detector 0, item 3"):
        stabsim.m2d(circuit, np.zeros((1, 1), dtype=bool), sweep_bits=np.ones((1, 1), dtype=bool))
    with pytest.raises(ValueError, match="sweep_bits is an array"):
        stabsim.m2d(stabsim.Circuit("M 0"), np.zeros((1, 1), dtype=bool), sweep_bits=np.ones((1, 1), dtype=bool))
