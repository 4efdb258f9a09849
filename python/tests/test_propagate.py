"""What a Pauli string becomes that is put in, and what it flips, by runs of the program with the string put in."""

import random

import numpy as np
import pytest
import stabsim
from stabsim import program

GATES = ("H", "S", "SQRT_X", "C_XYZ")
PAIRS = ("CX", "CY", "CZ", "SWAP")
MEASURED = ("M", "MX", "MY")


def random_lines(rnd, qubits):
    """Lines of gates, measurements and Paulis that records control: each outcome has a record, and a coin of its number."""
    lines, records = [], 0
    for _ in range(rnd.randint(6, 20)):
        kind = rnd.random()
        if kind < 0.3:
            lines.append(f"{rnd.choice(GATES)} {rnd.randrange(qubits)}")
        elif kind < 0.6:
            lines.append(f"{rnd.choice(PAIRS)} {' '.join(map(str, rnd.sample(range(qubits), 2)))}")
        elif kind < 0.8:
            lines.append(f"{rnd.choice(MEASURED)} {rnd.randrange(qubits)}")
            records += 1
        elif kind < 0.9:
            lines.append("MPP " + "*".join(rnd.choice("XYZ") + str(qubit) for qubit in rnd.sample(range(qubits), 2)))
            records += 1
        elif records:
            lines.append(f"CX rec[-{rnd.randint(1, records)}] {rnd.randrange(qubits)}")
    return [*lines, f"I {qubits - 1}"]


def asked(command, text, coins):
    return program.run([command, "--coins", "".join(map(str, coins))], text).decode().split()


def bits(text):
    return np.array([int(bit) for bit in text], dtype=int)


def factors_of(pauli):
    return {} if pauli == "1" else {int(factor[1:]): factor[0] for factor in pauli.split("*")}


def conjugated(row, pauli):
    """A signed row of letters, with its sign flipped if it anticommutes with a string."""
    apart = sum(row[1 + qubit] not in ("_", letter) for qubit, letter in factors_of(pauli).items()) % 2
    return ("-+" if apart else "+-")[row[0] == "-"] + row[1:]


@pytest.mark.parametrize("seed", range(40))
def test_a_run_with_the_string_is_the_run_without_it_flipped_as_told(seed):
    rnd = random.Random(seed)
    qubits = rnd.randint(2, 4)
    lines = random_lines(rnd, qubits)
    place = rnd.randrange(len(lines) + 1)
    string = {qubit: rnd.choice("XYZ") for qubit in rnd.sample(range(qubits), rnd.randint(1, qubits))}
    text = "\n".join(lines) + "\n"
    way = stabsim.Circuit(text).propagate("*".join(f"{letter}{qubit}" for qubit, letter in string.items()), at=str(place))
    with_string = "\n".join([*lines[:place], *(f"{letter} {qubit}" for qubit, letter in string.items()), *lines[place:]]) + "\n"
    count = stabsim.Circuit(text).numbers().records
    coins = [rnd.randrange(2) for _ in range(count)]
    flips = np.zeros(count, dtype=int)
    flips[list(way.records)] = 1
    before = bits("".join(asked("sample", text, coins)))
    # The coins of random outcomes are these outcomes, so those of all that are flipped may be exchanged: a fixed outcome asks none.
    others = np.array(coins, dtype=int) ^ flips
    assert bits("".join(asked("sample", with_string, others))).tolist() == (before ^ flips).tolist()
    rows = asked("stabilisers", text, coins)
    assert asked("stabilisers", with_string, others) == [conjugated(row, way.left) for row in rows]


def test_a_place_is_a_path_or_a_number_of_steps():
    circuit = stabsim.Circuit("H 0 1\nREPEAT 3 {\n    SWAP 0 1\n}\n")
    assert circuit.propagate("X0", at="1") == circuit.propagate("X0", at="1/0") == circuit.propagate("X0", after=2)
    assert [str(turn.pauli) for turn in circuit.propagate("X0", after=3).turns] == ["X1", "X0"]
    assert circuit.propagate("X0", at="2") == circuit.propagate("-X0", after=5) == stabsim.Way((), (), (), (), "X0")
    with pytest.raises(stabsim.Refused, match="PlaceOutOfRange"):
        circuit.propagate("X0", after=6)
    with pytest.raises(stabsim.Refused, match="QubitOutOfRange"):
        circuit.propagate("X2", at="0")
    for given in ({}, {"at": "0", "after": 0}):
        with pytest.raises(ValueError, match="one of both is wanted"):
            circuit.propagate("X0", **given)


@pytest.mark.parametrize("seed", range(40))
def test_the_string_at_a_tick_is_the_one_that_is_left_of_the_circuit_up_to_there(seed):
    rnd = random.Random(seed)
    qubits = rnd.randint(2, 4)
    lines = [line for written in random_lines(rnd, qubits) for line in (written, *["TICK"] * rnd.choice((0, 1, 1, 2)))]
    # All qubits are named by the last line, so it goes with each part of the circuit.
    place = rnd.randrange(len(lines))
    string = f"{rnd.choice('XYZ')}{rnd.randrange(qubits)}"
    found = stabsim.Circuit("\n".join(lines)).propagate(string, at=str(place), every=True).turns
    ends = [end for end, line in enumerate(lines) if line == "TICK" and end >= place]
    left = [stabsim.Circuit("\n".join([*lines[:end], f"I {qubits - 1}"])).propagate(string, at=str(place)).left for end in ends]
    assert [turn.pauli for turn in found][len(found) - len(ends):] == left
    # A tick right in front of the place is at it.
    assert all(line == "TICK" for line in lines[place - len(found) + len(ends):place])


def test_ticks_of_rounds_are_written_and_a_block_without_steps_counts_once():
    circuit = stabsim.Circuit("REPEAT 2 {\n    SWAP 0 1\n    TICK\n}\nREPEAT 1000000000000 {\n    TICK\n}")
    ticks = circuit.propagate("X0", at="0", every=True).turns
    assert [(turn.steps, turn.path, turn.pauli) for turn in ticks] == [(1, "0/0", "X1"), (2, "0/0", "X0"), (2, "0/0", "X0")]


@pytest.mark.parametrize("seed", range(20))
@pytest.mark.parametrize("everywhere", [False, True])
def test_each_error_of_faults_has_what_propagate_says_of_it(seed, everywhere):
    rnd = random.Random(seed)
    lines = random_lines(rnd, 3)
    lines = [line for written in lines for line in (written, *[f"I {rnd.randrange(3)}"] * (rnd.random() < 0.2))]
    records = sum(line.startswith("M") for line in lines)
    if records:
        lines.append(f"DETECTOR rec[-{rnd.randint(1, records)}]")
    circuit = stabsim.Circuit("\n".join(["REPEAT 2 {", *lines, "}"]))
    errors = circuit.propagate_each(everywhere=everywhere)
    table = circuit.faults(everywhere=everywhere, sure_only=True)
    assert [(error.steps, error.path, error.pauli) for error in errors] == [
        (steps, path, f"{pauli}{qubit}") for steps, path, pauli, qubit in zip(table.steps, table.paths, table.paulis, table.qubits)]
    for error in errors:
        way = circuit.propagate(error.pauli, after=error.steps)
        assert (error.records, error.detectors, error.observables, error.left) == (way.records, way.detectors, way.observables, way.left)


def test_a_session_has_the_ways_of_its_circuit_as_it_is_now():
    with stabsim.Circuit("R 0 1\nX_ERROR(0.25) 0\nCX 0 1\nREPEAT 2 {\n    MR 1\n    CX 0 1\n}\nM 0 1").edit() as session:
        for place, line in (2, "H 0"), (2, "DEPOLARIZE1(0.1) 0 1"), (7, "DETECTOR rec[-1]"):
            session.insert(place, line)
            now = stabsim.Circuit(session.circuit())
            for string in ("X0", "-Z1", "Y0*X1"):
                assert session.way(string, at=2) == now.propagate(string, at="2")
                assert session.way(string, after=4) == now.propagate(string, after=4)
        for given in ({}, {"at": 0, "after": 0}):
            with pytest.raises(ValueError, match="one of both is wanted"):
                session.way("X0", **given)
        with pytest.raises(stabsim.Refused, match="QubitOutOfRange"):
            session.way("X2", at=0)
        with pytest.raises(ValueError, match="without spacing"):
            session.way("X0 X1", at=0)
