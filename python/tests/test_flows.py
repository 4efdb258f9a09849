"""Flows, against the matrices of small circuits: a flow holds if it does for what each run does to a state."""

import functools
import itertools
import random

import numpy as np
import pytest
import stabsim
from stabsim.questions import flow_group
from stabsim.questions.flows import Flow

ONE = {"I": np.eye(2), "X": np.array([[0, 1], [1, 0]]), "Y": np.array([[0, -1j], [1j, 0]]), "Z": np.diag([1, -1])}
GATES = {"H": (ONE["X"] + ONE["Z"]) / np.sqrt(2), "S": np.diag([1, 1j]), **{letter: ONE[letter] for letter in "XYZ"}}
QUBITS = 2


@functools.cache
def pauli(letters):
    """The matrix of letters, pairs of a qubit and a letter; qubit 0 is the first factor."""
    return np.kron(ONE[dict(letters).get(0, "I")], ONE[dict(letters).get(1, "I")])


def on(gate, qubit):
    return np.kron(gate, np.eye(2)) if qubit == 0 else np.kron(np.eye(2), gate)


def branches_of(text):
    """What each run does: its records and the matrix that it multiplies a state by."""
    branches = [((), np.eye(2**QUBITS))]
    for line in text.splitlines():
        name, *targets = line.split()
        branches = [after for before in branches for after in step(name, targets, *before)]
    return [(records, matrix) for records, matrix in branches if np.abs(matrix).max() > 1e-9]


def step(name, targets, records, matrix):
    if name in GATES:
        yield records, on(GATES[name], int(targets[0])) @ matrix
    elif name == "CX" and targets[0].startswith("rec"):
        yield records, (on(ONE["X"], int(targets[1])) if records[int(targets[0][4:-1])] else np.eye(4)) @ matrix
    elif name == "CX":
        control, target = map(int, targets)
        zero, one = (on(np.diag(its), control) for its in ([1, 0], [0, 1]))
        yield records, (zero + one @ on(ONE["X"], target)) @ matrix
    else:
        factors = targets[0].split("*") if name == "MPP" else [("X" if name == "MX" else "Z") + targets[0]]
        letters = tuple((int(it[1:]), it[0]) for it in factors)
        for outcome in (0, 1):
            after = (np.eye(4) + (-1) ** outcome * pauli(letters)) / 2 @ matrix
            if name in ("R", "MR") and outcome:
                after = on(ONE["X"], letters[0][0]) @ after
            yield (records if name == "R" else (*records, outcome)), after


def holds(flow, branches, count):
    """Whether each run turns the input into the output, with the sign of its records."""
    before, after = pauli(flow.input), pauli(flow.output)
    for records, matrix in branches:
        sign = (-1) ** (flow.is_negative + sum(records[place] for place in flow.placed(count)))
        if np.abs(sign * after @ matrix - matrix @ before).max() > 1e-9:
            return False
    return True


def all_flows(count):
    """All flows of two qubits and this many records, without those with a minus."""
    letters = [tuple((qubit, letter) for qubit, letter in enumerate(pair) if letter != "I") for pair in itertools.product("IXYZ", repeat=QUBITS)]
    for before, after in itertools.product(letters, repeat=2):
        for size in range(count + 1):
            for records in itertools.combinations(range(-count, 0), size):
                yield Flow(before, after, False, records)


def random_text(seed, records):
    numbers = random.Random(seed)
    lines = []
    while sum(line.startswith("M") for line in lines) < records or len(lines) < 5:
        one, other = numbers.sample(range(2), 2)
        choices = [f"H {one}", f"S {one}", f"CX {one} {other}", f"Y {one}"]
        if sum(line.startswith("M") for line in lines) < records:
            choices += [f"M {one}", f"MX {one}", f"MPP X{one}*Z{other}", f"MR {one}", f"R {one}"]
        if any(line.startswith("M") for line in lines):
            choices.append(f"CX rec[-1] {one}")
        lines.append(numbers.choice(choices))
    return "\n".join(lines)


def opposite(flow):
    return Flow(flow.input, flow.output, not flow.is_negative, flow.records)


@pytest.mark.parametrize("seed", range(9))
def test_flows_are_those_of_the_matrices(seed):
    count = seed % 3
    text = random_text(seed, count)
    circuit, branches = stabsim.Circuit(text), branches_of(text)
    true = [it for flow in all_flows(count) for it in (flow, opposite(flow)) if holds(it, branches, count)]
    numbers = random.Random(seed)
    for flow in numbers.sample(true, min(12, len(true))):
        assert circuit.has_flow(flow) and not circuit.has_flow(opposite(flow))
    others = [flow for flow in all_flows(count) if flow not in true and opposite(flow) not in true]
    for flow in numbers.sample(others, min(6, len(others))):
        assert not circuit.has_flow(flow) and not circuit.has_flow(opposite(flow))


def generators(text):
    """The generators of a circuit that perhaps does not name both qubits."""
    return stabsim.Circuit(f"QUBIT_COORDS(0) {QUBITS - 1}\n{text}").flow_generators()


@pytest.mark.parametrize("seed", range(12))
def test_generators_make_all_flows_of_the_matrices(seed):
    count = seed % 4
    text = random_text(seed, count)
    branches = branches_of(text)
    found = generators(text)
    assert all(holds(flow, branches, count) for flow in found)
    true = [flow for flow in all_flows(count) if holds(flow, branches, count) or holds(opposite(flow), branches, count)]
    assert len(true) == 2 ** len(found)
    products = all_products(found)
    assert len(products) == len(true)
    assert all(holds(flow, branches, count) for flow in products)


@pytest.mark.parametrize("seed", range(6))
def test_flows_on_some_qubits_and_without_records_are_those_of_all_that_are(seed):
    text = random_text(seed + 50, 2)
    found = generators(text)
    products = all_products(found)
    for qubits, has_records in (([0], True), (None, False), ([1], False)):
        some = stabsim.Circuit(f"QUBIT_COORDS(0) {QUBITS - 1}\n{text}").flow_generators(qubits=qubits, records=has_records)
        made = all_products(some)
        inside = set(range(QUBITS)) if qubits is None else set(qubits)
        expected = {flow for flow in products if {qubit for qubit, _ in flow.input + flow.output} <= inside and (has_records or not flow.records)}
        assert made == expected


def test_flows_by_hand():
    told = [str(flow) for flow in generators("MPP X0*X1")]
    assert told == ["X0 -> X1 xor rec[-1]", "Z0*Z1 -> Z0*Z1", "X1 -> X1", "1 -> X0*X1 xor rec[-1]"]
    assert [str(flow) for flow in generators("S 0\nX 1")] == ["X0 -> Y0", "Z0 -> Z0", "X1 -> X1", "Z1 -> -Z1"]
    assert [str(flow) for flow in generators("R 0\nR 1")] == ["1 -> Z0", "1 -> Z1"]
    # What a measurement repeats is a flow of records alone.
    assert [str(flow) for flow in generators("M 0\nM 0\nR 1")][-1] == "1 -> rec[-2] xor rec[-1]"


def all_products(flows):
    return {flow_group.product_of_flows(some, QUBITS) for size in range(len(flows) + 1) for some in itertools.combinations(flows, size)}


@pytest.mark.parametrize("seed", range(12))
def test_circuits_have_the_same_flows_if_their_matrices_do(seed):
    count = 1 + seed % 2
    first = stabsim.Circuit(random_text(seed, count))
    # Another circuit, or the same one with a gate more, which may do nothing to it, as Z after a measurement of Z whose record controls it.
    more = ["Z 0", "CX rec[-1] 0", "Y 1\nY 1"][seed // 3 % 3]
    second = stabsim.Circuit(random_text(seed + 100, count) if seed % 3 == 0 else f"{first.text}\n{more}")
    branches = [branches_of(circuit.text) for circuit in (first, second)]
    signed = [{it for flow in all_flows(count) for it in (flow, opposite(flow)) if holds(it, its, count)} for its in branches]
    found = first.same_flows(second)
    assert bool(found) == (signed[0] == signed[1])
    if not found:
        had, lacking = signed if found.first else reversed(signed)
        assert found.flow in had and found.flow not in lacking


def test_two_ways_to_do_the_same():
    direct = stabsim.Circuit("MPP Z0*Z1")
    by_another = stabsim.Circuit("R 2\nCX 0 2 1 2\nM 2")
    # What the third qubit was is lost, and else they do the same.
    found = direct.same_flows(by_another)
    assert not found and {qubit for qubit, _ in found.flow.input + found.flow.output} == {2}
    assert direct.same_flows(by_another, qubits=[0, 1])
    assert not direct.same_flows(stabsim.Circuit("R 2\nCX 0 2\nM 2"), qubits=[0, 1])
    # A sign counts.
    found = direct.same_flows(stabsim.Circuit("MPP !Z0*Z1"))
    assert not found and found.first and found.flow.records == (-1,)


def test_teleportation_is_a_move_whatever_its_records():
    begin = "R 1 2\nH 1\nCX 1 2 0 1\nH 0\nM 0 1\n"
    teleportation = stabsim.Circuit(begin + "CX rec[-1] 2\nCZ rec[-2] 2\nR 0 1")
    move = stabsim.Circuit("R 2\nSWAP 0 2\nR 1")
    assert teleportation.same_flows(move, records=False) and move.same_flows(teleportation, records=False)
    without = stabsim.Circuit(begin + "CZ rec[-2] 2\nR 0 1")
    found = without.same_flows(move, records=False)
    assert not found and not found.first and str(found.flow) == "Z0 -> Z2"
    with pytest.raises(ValueError, match="no flows in common"):
        teleportation.same_flows(move)


@pytest.mark.parametrize("text, again", [
    ("X0*Z1 -> -Y2 xor rec[-1]", "X0*Z1 -> -Y2 xor rec[-1]"), ("_XY->-Z_", "X1*Y2 -> -Z0"), ("-X0 -> -1 xor rec[3]", "X0 -> rec[3]"),
    ("1 -> rec[-1] xor rec[-1]", "1 -> 1"), ("+Z2 -> +X0*Y0*Z0*Y1*X1*Z1", "Z2 -> 1"), ("1 -> -1 xor rec[0] xor rec[-2]", "1 -> -1 xor rec[-2] xor rec[0]"),
])
def test_texts_of_flows(text, again):
    assert str(Flow.of_text(text)) == again
    assert Flow.of_text(again) == Flow.of_text(text)


@pytest.mark.parametrize("text", ["X0", "X0 -> Q1", "X0 -> X0*Z0", "X0 -> Z0 xor rec[x]", "X0 -> !Z0", "-> Z0", "X0 -> Z0 xor D1"])
def test_a_misspelt_flow_is_refused(text):
    with pytest.raises(ValueError, match="is no"):
        stabsim.Circuit("M 0").has_flow(text)


def test_records_and_qubits_that_are_not_there_are_refused():
    with pytest.raises(IndexError, match="none of 1"):
        stabsim.Circuit("M 0").has_flow("Z0 -> rec[-2]")
    with pytest.raises(ValueError, match="up to 512"):
        stabsim.Circuit("M 600").has_flow("Z0 -> Z0")
    # A circuit that opens a block and does not close it is refused, and none is put into it.
    with pytest.raises(stabsim.Refused):
        stabsim.Circuit("REPEAT 2 {\nM 0").has_flow("Z0 -> Z0")


def test_a_flow_may_name_observables():
    # The records of observable 0 are 0 and 2, since the second one comes twice.
    circuit = stabsim.Circuit("MX 0\nMX 1\nMZZ 2 3\nOBSERVABLE_INCLUDE(0) rec[-3] rec[-2]\nOBSERVABLE_INCLUDE(0) rec[-2] rec[-1]\nOBSERVABLE_INCLUDE(3)\n")
    assert circuit.has_flow("1 -> X0*Z2*Z3 xor obs[0]") and not circuit.has_flow("1 -> X0*X1 xor obs[0]")
    assert circuit.has_flow("1 -> Z2*Z3 xor obs[0] xor rec[0]") and circuit.has_flow("1 -> X0*X1*Z2*Z3 xor obs[0] xor rec[-2] xor obs[3]")
    assert str(Flow.of_text("1->obs[2] xor obs[0] xor rec[-1]")) == "1 -> rec[-1] xor obs[0] xor obs[2]"
    with pytest.raises(TypeError, match="observables is"):
        Flow((), (), observables=[1])


def test_a_flow_may_hold_up_to_its_sign():
    circuit = stabsim.Circuit("R 0\nX 0\nM 0\nH 1\n")
    for flow, signed in (("1 -> -Z0", True), ("1 -> Z0", False), ("1 -> rec[-1]", False), ("Y1 -> Y1", False), ("X1 -> Z1", True)):
        assert circuit.has_flow(flow) == signed and circuit.has_flow(flow, unsigned=True), flow
    assert not circuit.has_flow("X1 -> X1", unsigned=True)


def test_qubits_that_a_circuit_does_not_name_stay_as_they_are():
    assert stabsim.Circuit("").has_flow("X3 -> X3") and stabsim.Circuit("").has_flow("1 -> 1") and not stabsim.Circuit("").has_flow("1 -> -1")


def test_many_qubits_have_flows():
    circuit = stabsim.Circuit("H " + " ".join(map(str, range(512))))
    assert circuit.has_flow("X511 -> Z511") and not circuit.has_flow("Y511 -> Y511") and circuit.has_flow("Y511 -> -Y511")
    assert [str(flow) for flow in circuit.flow_generators()[:3]] == ["X0 -> Z0", "Z0 -> X0", "X1 -> Z1"]


def test_paulis_of_an_observable_count_as_if_they_were_measured_where_they_stand():
    circuit = stabsim.Circuit("X_ERROR(0.1) 0\nOBSERVABLE_INCLUDE(3) Z0\nH 0\nM(0.1) 1\nOBSERVABLE_INCLUDE(3) rec[-1] X0\nOBSERVABLE_INCLUDE(4) X0\nDETECTOR rec[-1]")
    # Z in front of H is X after it, so the two Paulis of observable 3 are 1 together.
    held = ["Z1 -> obs[3]", "Z0 -> obs[4]", "1 -> X0 xor obs[4]", "Z0*Z1 -> X0 xor obs[3]", "Z0*Z1 -> obs[3] xor obs[4]", "Z0 -> X0 xor obs[7]"]
    not_held = ["1 -> obs[3]", "Z0 -> -1 xor obs[4]", "Z0 -> obs[3]", "X0 -> obs[4]", "Z0 -> X0 xor obs[4]"]
    assert [circuit.has_flow(flow) for flow in held + not_held] == [True] * len(held) + [False] * len(not_held)
    assert circuit.has_flow("Z0 -> -1 xor obs[4]", unsigned=True)


def test_paulis_that_anticommute_with_an_output_have_a_flow_without_a_sign():
    circuit = stabsim.Circuit("OBSERVABLE_INCLUDE(0) X0")
    # X times Z is Y up to a phase, which no sign is.
    assert [circuit.has_flow(f"Y0 -> {sign}Z0 xor obs[0]", unsigned=it) for sign in ("", "-") for it in (False, True)] == [False, True, False, True]
    assert circuit.has_flow("X0 -> obs[0]") and circuit.has_flow("Z0 -> Z0") and not circuit.has_flow("Z0 -> Z0 xor obs[0]", unsigned=True)


@pytest.mark.parametrize("seed", range(3))
def test_a_measurement_that_disturbs_nothing_has_the_flows_of_a_pauli(seed):
    # Where a product is deterministic, to measure it is to declare it: its record then is what its Paulis are.
    numbers = random.Random(seed)
    prepared = "R 0 1\n" + "".join(f"{numbers.choice('HSXYZ')} {numbers.randrange(2)}\n" for _ in range(4)) + "CX 0 1\nS 1\n"
    [row, other] = stabsim.Circuit(prepared).stabilisers()
    letters = [f"{letter}{qubit}" for qubit, letter in enumerate(row[1:]) if letter != "_"]
    after = "".join(f"{numbers.choice(['H', 'S', 'Y'])} {numbers.randrange(2)}\n" for _ in range(3)) + "CX 1 0\n"
    paulis = stabsim.Circuit(f"{prepared}OBSERVABLE_INCLUDE(0) {' '.join(letters)}\n{after}")
    measured = stabsim.Circuit(f"{prepared}MPP {'*'.join(letters)}\nOBSERVABLE_INCLUDE(0) rec[-1]\n{after}")
    flows = [f"1 -> {one}{two} xor obs[0]" for one in "_XYZ" for two in "_XYZ"]
    assert [paulis.has_flow(flow) for flow in flows] == [measured.has_flow(flow) for flow in flows]
