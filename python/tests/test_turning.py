"""Circuits written out, and turned round."""

import random

import numpy as np
import pytest
import stabsim
from gate_images import ON_ONE, ON_TWO
from stabsim import codes


@pytest.mark.parametrize("text", [
    codes.surface_code(3, 5, noise=codes.Noise.uniform(0.001)), codes.repetition_code(3, 7), codes.steane_code(4),
    "REPEAT 3 {\n    M 0\n    REPEAT 2 {\n        SHIFT_COORDS(1, 0.5)\n        H 0\n        DETECTOR(0.25) rec[-1]\n    }\n    QUBIT_COORDS(1, 2) 3\n}\nDETECTOR\n",
])
def test_a_circuit_that_is_written_out_is_the_same_circuit(text):
    circuit = stabsim.Circuit(text)
    flat = circuit.flattened()
    assert not any(item.name in ("REPEAT", "SHIFT_COORDS") for item in flat)
    assert np.array_equal(flat.detector_coordinates(), circuit.detector_coordinates(), equal_nan=True)
    assert np.array_equal(flat.qubit_coordinates(), circuit.qubit_coordinates(), equal_nan=True)
    quiet, same = circuit.circuit, flat.circuit
    assert np.array_equal(quiet.sample(5, seed=3), same.sample(5, seed=3)) and np.array_equal(quiet.detect(5, seed=3), same.detect(5, seed=3))
    if circuit.deterministic().detectors.all():
        one, other = stabsim.error_model(flat), stabsim.error_model(circuit)
        assert np.array_equal(one.indices, other.indices) and np.allclose(one.chances, other.chances, rtol=1e-12)


def test_what_would_be_too_long_is_not_written_out():
    with pytest.raises(ValueError, match="has 1000000000001 instructions once its blocks are written out"):
        stabsim.Circuit("REPEAT 1000000000000 {\n    TICK\n}\nH 0\n").flattened()


NOTHING = stabsim.Circuit("I 0 1 2 3\n")


@pytest.mark.parametrize("name", [*ON_ONE, *ON_TWO])
def test_each_gate_is_undone_by_its_inverse(name):
    # Targets that share qubits are undone in the other order.
    once = stabsim.Circuit(f"{name} {'0 1 1 3' if name in ON_ONE else '0 1 1 2 3 0'}\nI 0 1 2 3\n")
    assert (once + once.inverse()).same_flows(NOTHING) and (once.inverse() + once).same_flows(NOTHING)
    assert once.inverse().inverse() == once


@pytest.mark.parametrize("seed", range(20))
def test_gates_are_undone_from_the_last_to_the_first(seed):
    numbers = random.Random(seed)
    lines = ["QUBIT_COORDS(1) 0", "I 0 1 2 3"]
    for _ in range(10):
        pairs = [str(qubit) for _ in range(2) for qubit in numbers.sample(range(4), 2)]
        lines.append(f"{numbers.choice([*ON_ONE])} {' '.join(pairs)}" if numbers.random() < 0.5 else f"{numbers.choice([*ON_TWO])} {' '.join(pairs)}")
    lines += ["TICK", f"REPEAT 3 {{\n    {lines[3]}\n    SPP X0*!Y1 Z2*X1\n    SPP_DAG Y3\n}}"]
    once = stabsim.Circuit("\n".join(lines))
    back = once.inverse()
    assert back.items[0].name == "QUBIT_COORDS" and back.num_ticks == once.num_ticks == 1
    assert (once + back).same_flows(NOTHING) and back.inverse() == once


def test_noise_stays_what_it_is_between_gates():
    text = "QUBIT_COORDS(1) 0\nS 0\nE(0.1) X0\nELSE_CORRELATED_ERROR(0.2) Z0\nH 0 # last\nDEPOLARIZE1(0.5) 0\n"
    assert str(stabsim.Circuit(text).inverse()) == "QUBIT_COORDS(1) 0\nDEPOLARIZE1(0.5) 0\nH 0\nE(0.1) X0\nELSE_CORRELATED_ERROR(0.2) Z0\nS_DAG 0\n"


@pytest.mark.parametrize("line", ["M 0", "R 0", "MPAD 1", "DETECTOR", "SHIFT_COORDS(1)", "OBSERVABLE_INCLUDE(0)"])
def test_what_has_no_inverse_is_named_with_its_line(line):
    with pytest.raises(ValueError, match="line 2: .* has no inverse"):
        stabsim.Circuit(f"H 0\n{line}\n").inverse()


def test_the_reference_is_the_run_of_coins_0():
    # The pair is 0 0, the flipped qubit 1; the errors do not happen.
    circuit = stabsim.Circuit("H 0\nCX 0 1\nX 2\nX_ERROR(1) 2\nM 0 1 2\nDETECTOR rec[-1]\nDETECTOR rec[-2]\nOBSERVABLE_INCLUDE(1) rec[-1] rec[-3]\n")
    assert circuit.reference_sample().tolist() == [False, False, True]
    assert [bits.tolist() for bits in circuit.reference_signs()] == [[True, False], [False, True]]
    for text in (codes.surface_code(3, 2, basis="X"), codes.dense_circuit(6, 60, 3)):
        table = stabsim.Circuit(text).coins()
        both = stabsim.Circuit(text).reference_signs()
        assert np.array_equal(np.concatenate([stabsim.Circuit(text).reference_sample(), *both]), table.constants())
