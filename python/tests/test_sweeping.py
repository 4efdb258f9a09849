"""Circuits with sweep bits, compared with those in which each is written by hand as a Pauli or as nothing."""

import random

import numpy as np
import pytest
import stabsim

TEXT = "CX sweep[0] 0 1 2 sweep[1] 1 # why\nCZ sweep[3] sweep[2] 1 sweep[0]\nREPEAT 2 {\n    XCZ 2 sweep[2] 3 4\n    M[a] 0 1 2\n}\n"


def test_a_sweep_bit_is_a_pauli_or_nothing():
    circuit = stabsim.Circuit(TEXT)
    assert circuit.num_sweep_bits == 4 and stabsim.Circuit("M 0 # sweep[7]\n").num_sweep_bits == 0
    assert circuit.circuit.text == "CX 1 2 # why\nREPEAT 2 {\n    CX 4 3\n    M[a] 0 1 2\n}\n"
    given = circuit.with_sweep_bits([True, True, True, False])
    # Between them, in their order: X on qubit 1 comes after its pair.
    assert given.text == "X 0 # why\nCX 1 2\nX 1\nZ 1\nREPEAT 2 {\n    X 2\n    XCZ 3 4\n    M[a] 0 1 2\n}\n"
    assert circuit.sample(1).tolist() == [[False] * 6] and given.sample(1).astype(int).tolist() == [[1, 1, 1, 1, 1, 0]]
    # With bits 0 it is what it is without them.
    assert circuit.with_sweep_bits([False] * 9).circuit == circuit.circuit and circuit.with_sweep_bits(np.zeros(4, dtype=bool)).num_sweep_bits == 0


def test_a_session_keeps_sweep_bits():
    with stabsim.Circuit(TEXT).edit() as session:
        session.insert(1, "CY sweep[5] 3")
        assert session.circuit(comments=True).splitlines()[:3] == ["CX sweep[0] 0 1 2 sweep[1] 1 # why", "CY sweep[5] 3", "CZ sweep[3] sweep[2] 1 sweep[0]"]
        assert session.undo() and session.circuit(comments=True) == TEXT


@pytest.mark.parametrize("seed", range(20))
def test_pairs_by_hand_are_what_bits_make_of_them(seed):
    numbers = random.Random(seed)
    bits = [numbers.random() < 0.5 for _ in range(5)]
    lines, by_hand = [], []
    for _ in range(12):
        name, pauli = numbers.choice([("CX", "X"), ("CY", "Y"), ("CZ", "Z"), ("XCZ", "X"), ("YCZ", "Y")])
        words = []
        for _ in range(numbers.randint(1, 4)):
            pair = numbers.sample("0123", 2)
            if numbers.random() < 0.5:
                bit = numbers.randrange(5)
                swept = [f"sweep[{bit}]", pair[1]] if name in ("CX", "CY") or name == "CZ" and numbers.random() < 0.5 else [pair[1], f"sweep[{bit}]"]
                by_hand += [f"{pauli} {pair[1]}"] if bits[bit] else []
                words += swept
            else:
                by_hand.append(f"{name} {pair[0]} {pair[1]}")
                words += pair
        lines.append(f"{name} {' '.join(words)}")
        gate = f"{numbers.choice(['H', 'S', 'SQRT_X'])} {numbers.randrange(4)}"
        lines.append(gate)
        by_hand.append(gate)
    circuit, end = stabsim.Circuit("\n".join(lines)), stabsim.Circuit("\nI 0 1 2 3")
    given = circuit.with_sweep_bits(bits + [False])
    assert (given + end).same_flows(stabsim.Circuit("\n".join(by_hand)) + end)
    # What is the Pauli of a bit flips what an error of its letter there flips, so signs alone differ from the circuit of bits 0.
    assert all((given + end).has_flow(flow, unsigned=True) for flow in (circuit + end).flow_generators())


def test_bits_are_as_many_as_are_named():
    circuit = stabsim.Circuit(TEXT)
    with pytest.raises(ValueError, match="^bits is .*: give 4 bits, one for each sweep bit$"):
        circuit.with_sweep_bits([True, False])
    with pytest.raises(TypeError, match="^bits is .*: give several"):
        circuit.with_sweep_bits(5)


def test_no_noise_is_put_on_what_a_bit_decides_about():
    noisy = stabsim.Circuit("CX sweep[0] 0 1 2\nM 0\n").with_noise(stabsim.NoiseModel.sd6(0.001))
    assert "DEPOLARIZE2(0.001) 1 2\n" in noisy.text and "sweep[0] 0 1 2\n" in noisy.text and "DEPOLARIZE2(0.001) 0" not in noisy.text
