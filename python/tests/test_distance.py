"""Distances of circuits: by hand, against all small sets of errors, and put into sessions."""

import functools
import itertools
import pathlib
import random
import sys

import pytest
import stabsim
from stabsim import codes
from stabsim.questions.distances import distance_of

sys.path.append(str(pathlib.Path(__file__).resolve().parents[2] / "tools"))

from oracle.distances import MOST_ERRORS, Distance  # noqa: E402: its folder was named above
from oracle.reading import items_of  # noqa: E402

# The generators of the five-qubit code, and of Steane's, with the logical Z of both, and marks on all data qubits.
FIVE = "MPP X0*Z1*Z2*X3 X1*Z2*Z3*X4 X0*X2*Z3*Z4 Z0*X1*X3*Z4"
STEANE = "MPP " + " ".join("*".join(f"{letter}{qubit}" for qubit in its) for letter in "XZ" for its in [(0, 2, 4, 6), (1, 2, 5, 6), (3, 4, 5, 6)])


def code_text(checks, logical, qubits, marks="I"):
    """A state of a code, marks on its data qubits, and then its checks, of which each gives a detector, and its logical operator."""
    count = len(checks.split()) - 1
    lines = [f"MPP {logical}", checks, f"{marks} {' '.join(map(str, range(qubits)))}", checks]
    lines += [f"DETECTOR rec[-{number}] rec[-{number + count}]" for number in range(1, count + 1)]
    return "\n".join([*lines, f"MPP {logical}", f"OBSERVABLE_INCLUDE(0) rec[-1] rec[-{2 * count + 2}]"])


def repetition(distance):
    return f"MPP {' '.join(f'Z{it}*Z{it + 1}' for it in range(distance - 1))}"


# Texts, with their distances, and how many least sets they have.
BY_HAND = {
    "repetition 3": (code_text(repetition(3), "Z0", 3, "I[X]"), 3, 1),
    "repetition 5": (code_text(repetition(5), "Z0", 5, "I[X]"), 5, 1),
    # No check sees Z, which flips the product of all X.
    "repetition 5, phase flips": (code_text(repetition(5), "X0*X1*X2*X3*X4", 5, "I[Z]"), 1, 5),
    # Of 30 logical operators on three qubits, ten have an X, ten a Y and ten a Z of the code.
    "five-qubit": (code_text(FIVE, "Z0*Z1*Z2*Z3*Z4", 5), 3, 20),
    # The logical Z is 0 of an operator of letters other than Z alone too.
    # Three X or three Y are on one of seven lines.
    "Steane": (code_text(STEANE, "Z0*Z1*Z2*Z3*Z4*Z5*Z6", 7), 3, 14),
    "Steane, Z": (code_text(STEANE, "Z0*Z1*Z2*Z3*Z4*Z5*Z6", 7, "I[Z]"), None, 0),
    "no observable": ("R 0\nI 0\nM 0\nDETECTOR rec[-1]", None, 0),
    "one error alone": ("R 0 1\nI 0 1\nM 0 1\nDETECTOR rec[-1]\nOBSERVABLE_INCLUDE(3) rec[-2]", 1, 2),
    # Two letters are one error on a pair, and two on single marks.
    "pairs": ("R 0 1\nI[pairs] 0 1\nMPP Z0*Z1\nDETECTOR rec[-1]\nM 0\nOBSERVABLE_INCLUDE(0) rec[-1]", 1, 4),
    "single marks": ("R 0 1\nI[other] 0 1\nMPP Z0*Z1\nDETECTOR rec[-1]\nM 0\nOBSERVABLE_INCLUDE(0) rec[-1]", 2, 4),
}


def flipped(circuit, errors):
    """What errors that are put into a session flip."""
    with circuit.edit() as session:
        session.insert_errors(errors)
        changed = session.changed()
        return changed.detectors.tolist(), changed.observables.tolist()


def check_hidden(circuit, found):
    """The errors that are reported are as many as the distance, and flip an observable and no detector."""
    assert len(found.errors) == found.distance
    detectors, observables = flipped(circuit, found.errors)
    assert not detectors and observables


@pytest.mark.parametrize("name", BY_HAND)
def test_distances_by_hand(name):
    text, expected, count = BY_HAND[name]
    circuit = stabsim.Circuit(text)
    found = circuit.distance(count=True)
    assert (found.distance, found.count, found.searched) == (expected, count, "all marked errors")
    if expected:
        check_hidden(circuit, found)
        assert circuit.distance(most=expected).distance == expected
        fewer = circuit.distance(most=expected - 1)
        assert (fewer.distance, fewer.errors, str(fewer)) == (None, (), f"none up to {expected - 1} of all marked errors")
        with circuit.edit() as session:
            assert session.distance(expected).distance == expected and session.distance(expected - 1) == fewer
    else:
        assert found.errors == () and str(found) == "none of all marked errors"


def test_letters_leave_errors_out():
    # Y is the only error that a mark of Y has.
    circuit = stabsim.Circuit("R 0\nI[Y] 0\nM 0\nOBSERVABLE_INCLUDE(0) rec[-1]")
    assert (circuit.distance().distance, circuit.distance(letters="XZ").distance) == (1, None)
    # X on both is a product of one kind, and X on one with Z on the other is not.
    pair = "R 0\nRX 1\nI[pairs] 0 1\nMPP {}\nDETECTOR rec[-1]\nM 0\nOBSERVABLE_INCLUDE(0) rec[-1]"
    circuit = stabsim.Circuit(pair.format("Z0*X1"))
    assert (circuit.distance().distance, circuit.distance(letters="XZ").distance) == (1, 2)


def test_a_circuit_without_marks_says_so():
    circuit = stabsim.Circuit("R 0\nM 0\nOBSERVABLE_INCLUDE(0) rec[-1]")
    assert "everywhere=True" in str(circuit.distance()) and circuit.distance(everywhere=True).distance == 1
    with circuit.edit() as session:
        assert "no place is marked" in session.distance(3).searched
        assert session.distance(3, everywhere=True) == circuit.distance(everywhere=True)


def test_what_coins_decide_is_refused_or_left_out():
    circuit = stabsim.Circuit("R 0\nI 0\nMX 1\nDETECTOR rec[-1]\nM 0\nOBSERVABLE_INCLUDE(0) rec[-1]")
    with pytest.raises(stabsim.Refused, match="18 NotDeterministic"):
        circuit.distance()
    assert circuit.distance(sure_only=True).distance == 1
    noisy = stabsim.from_stim(circuit.text.replace("I 0", "X_ERROR(0.1) 0"))
    with pytest.raises(stabsim.Refused, match="18 NotDeterministic"):
        noisy.distance()
    assert noisy.distance(sure_only=True).distance == 1


def test_graph_like_errors_flip_two_detectors_at_most():
    # X on qubit 0 flips three detectors and the observable, X on qubit 1 these detectors; X on 2, 3 and 4 flips one of them each.
    text = ("R 0 1 2 3 4\nI[X] 0 1 2 3 4\nMPP Z0*Z1*Z2 Z0*Z1*Z3 Z0*Z1*Z4\nDETECTOR rec[-1]\nDETECTOR rec[-2]\nDETECTOR rec[-3]\n"
            "M 0\nOBSERVABLE_INCLUDE(0) rec[-1]")
    circuit = stabsim.Circuit(text)
    assert circuit.distance().distance == 2
    found = circuit.distance(graphlike=True)
    assert (found.distance, found.searched, str(found)) == (None, "graph-like errors", "none of graph-like errors")
    assert stabsim.Circuit(code_text(repetition(4), "Z0", 4, "I[X]")).distance(graphlike=True).distance == 4


def test_the_other_schedule_of_a_surface_code_halves_its_distance():
    for bad_schedule, expected in ((False, 3), (True, 2)):
        circuit = stabsim.Circuit(codes.surface_code(3, 2, bad_schedule=bad_schedule))
        found = circuit.distance(everywhere=True)
        assert found.distance == expected
        check_hidden(circuit, found)


def test_codes_have_their_distances_everywhere():
    for text, expected in [(codes.repetition_code(3, 2), 3), (codes.steane_code(2), 2), (codes.surface_code(2, 2), 2)]:
        found = stabsim.Circuit(text).distance(everywhere=True)
        assert found.distance == expected
        check_hidden(stabsim.Circuit(text), found)


def random_circuit(seed):
    """A circuit with marks, blocks, feedback and detectors, of which some are random."""
    dice = random.Random(seed)
    lines, records = ["R 0 1 2"], 0
    for _ in range(12):
        one, other = dice.sample(range(3), 2)
        gates = [f"H {one}", f"S {one}", f"CX {one} {other}", f"I {one} {other}", f"I[XZ] {one}", *[f"CX rec[-1] {one}"] * bool(records)]
        lines.append(dice.choice(gates if dice.random() < 0.6 else [f"M {one}", f"MX {one}", f"MPP X{one}*Z{other}", f"MR {one}", f"RX {one}"]))
        records += lines[-1].startswith("M")
    lines += ["M 0 1 2"]
    for number in range(4):
        chosen = " ".join(f"rec[{-it}]" for it in dice.sample(range(1, records + 4), dice.randint(1, 2)))
        lines.append(("DETECTOR " if number < 3 else "OBSERVABLE_INCLUDE(0) ") + chosen)
    return stabsim.Circuit("\n".join(lines))


@pytest.mark.parametrize("seed", range(12))
def test_no_smaller_set_hides(seed):
    circuit = random_circuit(seed)
    for everywhere in (False, True):
        found = circuit.distance(everywhere=everywhere, most=MOST_ERRORS, sure_only=True, count=True)
        oracle = Distance(items_of(circuit.text.encode()), everywhere, "XYZ", graphlike=False, deterministic_only=True)
        assert (found.distance, found.count) == (oracle.least, oracle.count)
        if found.distance:
            deterministic = circuit.deterministic()
            detectors, observables = flipped(circuit, found.errors)
            assert not any(deterministic.detectors[it] for it in detectors) and observables


NOISY = """R 0 1 2 3
REPEAT 2 {
    DEPOLARIZE1(0.01) 0 1 2
    E(0.1) X0 X1
    ELSE_CORRELATED_ERROR(0.1) Z1 X2
    REPEAT 3 {
        CX 0 3 1 3
        MR(0.01) 3
        CX 1 3 2 3
        DEPOLARIZE2(0.01) 1 3
        MRZ(0.01) 3
    }
    MZZ(0.01) 0 1 1 2
    PAULI_CHANNEL_1(0.08, 0.02, 0.18) 0
    DETECTOR rec[-1] rec[-3]
    DETECTOR rec[-2] rec[-4]
}
M(0.01) 0 1 2
DETECTOR rec[-1] rec[-2] rec[-4]
DETECTOR rec[-3] rec[-2] rec[-5]
OBSERVABLE_INCLUDE(0) rec[-1]
"""


def test_each_mechanism_of_a_model_is_an_error_at_its_place():
    noisy = stabsim.from_stim(NOISY)
    model = stabsim.error_model(noisy, approximate_disjoint_errors=True)
    with noisy.edit() as session:
        session.mark()
        for mechanism in range(len(model)):
            error = model.error_of(mechanism, model.causes)
            session.insert_errors([error])
            changed = session.changed()
            assert changed.detectors.tolist() == list(error.detectors) and changed.observables.tolist() == list(error.observables)
            assert [*error.detectors, *(model.num_detectors + it for it in error.observables)] == model.flipped(mechanism).tolist()
            # Its path is where it is put in, or the measurement whose record is wrong.
            if error.record is None and error.path.count("/") == 0:
                assert session.place(error.path).steps.start == error.steps
            session.undo()


MODELS = {
    "surface": codes.surface_code(3, 2, noise=codes.Noise.uniform(0.01)),
    "surface, bad schedule": codes.surface_code(3, 2, bad_schedule=True, noise=codes.Noise.uniform(0.01)),
    "colour": codes.colour_code(3, 2, noise=codes.Noise.uniform(0.01)),
    "Bacon-Shor": codes.bacon_shor_code(3, 2, noise=codes.Noise.uniform(0.01)),
    "repetition": codes.repetition_code(5, 2, noise=codes.Noise.uniform(0.01)),
    "nested": NOISY,
}


@pytest.mark.parametrize("name", MODELS)
def test_the_errors_of_a_model_flip_an_observable_alone(name):
    noisy = stabsim.from_stim(MODELS[name])
    found = noisy.distance()
    assert found.distance == {"surface, bad schedule": 2, "repetition": 5, "nested": 1}.get(name, 3)
    assert len(found.mechanisms) == found.distance
    check_hidden(noisy.circuit, found)


def test_a_model_that_was_read_has_a_distance():
    model = stabsim.ErrorModel.from_dem("error(0.1) D0 L0\nerror(0.1) D0 D1\nerror(0.1) D1\nerror(0.1) D2 L1 ^ D0\n")
    found = model.distance()
    # D2 and D0 are flipped by parts of an error, of which none is an error by itself.
    assert (found.distance, found.errors, [model.flipped(it).tolist() for it in found.mechanisms]) == (3, (), [[0, 3], [0, 1], [1]])
    assert model.distance(most=2).distance is None
    assert stabsim.ErrorModel.from_dem("error(0.1) L0\nerror(0.2) D0").distance().distance == 1
    assert stabsim.ErrorModel.from_dem("detector D3\n").distance().distance is None
    assert stabsim.ErrorModel.from_dem("").distance().distance is None


@pytest.mark.parametrize("graphlike", [False, True])
def test_a_distance_without_errors_to_search_says_why(graphlike):
    quiet = "R 0\nM 0\nDETECTOR rec[-1]\nOBSERVABLE_INCLUDE(0) rec[-1]\n"
    assert str(stabsim.from_stim(quiet).distance(graphlike=graphlike)).startswith("none of no errors, since there is no noise, and no place is marked")
    for text in ("", "detector D0\n", "error(0) L0\n", "error(0) D0 ^ L0\n"):
        found = stabsim.ErrorModel.from_dem(text).distance(graphlike=graphlike)
        assert str(found) == "none of no errors, since the model has none that has a chance"
    # An error that flips nothing is one.
    silent = stabsim.ErrorModel.from_dem("error(0.1)\n").distance(graphlike=graphlike)
    assert str(silent) == ("none of graph-like errors" if graphlike else "none of all errors")


def test_the_graphlike_distance_of_a_decomposed_model_is_that_of_its_parts():
    text = "error(0.1) D0 D1 ^ D2 L0\nerror(0.1) D0 D1\nerror(0.1) D2\n"
    model = stabsim.ErrorModel.from_dem(text)
    found = model.distance(graphlike=True)
    assert (str(found), found.mechanisms) == ("distance 2 of graph-like parts of errors", (0, 2))
    assert str(model.distance()) == "distance 3 of all errors"
    # Without parts the first error flips three detectors, and is left out; parts that never happen are too.
    assert str(stabsim.ErrorModel.from_dem(text.replace(" ^", "")).distance(graphlike=True)) == "none of graph-like errors"
    assert model.from_dem(text.replace("(0.1)", "(0)", 1)).distance(graphlike=True).distance is None
    # A part by itself is named as such.
    assert model.from_dem(text + "error(0.1) L0 D2\n").distance(graphlike=True).mechanisms == (2, 3)


@pytest.mark.parametrize("seed", range(10))
def test_the_graphlike_distance_of_a_decomposed_model_is_the_least_of_all_sets_of_parts(seed):
    numbers = random.Random(seed)
    bits = ["D0", "D1", "D2", "D3", "L0"]
    errors = [[numbers.sample(bits, numbers.choice([1, 2, 3])) for _ in range(numbers.choice([1, 2, 3]))] for _ in range(6)]
    model = stabsim.ErrorModel.from_dem("".join(f"error(0.1) {' ^ '.join(map(' '.join, parts))}\n" for parts in errors) + "detector D3\nerror(0.1) D0 ^ D1")
    edges = sorted({tuple(sorted(part)) for parts in [*errors, [["D0"], ["D1"]]] for part in parts if len({*part} - {"L0"}) < 3})
    least = next((size for size in range(1, len(edges) + 1) for some in itertools.combinations(edges, size)
                  if functools.reduce(set.symmetric_difference, map(set, some), set()) == {"L0"}), None)
    assert model.distance(graphlike=True).distance == least


def test_an_observable_of_many_mechanisms_is_written_on_several_lines():
    lines = [f"error(0.01) D{number} L0" for number in range(2500)] + ["error(0.5) D2499"]
    found = stabsim.ErrorModel.from_dem("\n".join(lines)).distance()
    assert (found.distance, found.mechanisms) == (2, (2499, 2500))


def test_the_lines_of_answers_are_read():
    found = distance_of("distance 2 of graph-like errors\n7 3/0 X3*Z4 D2 L0\n9 4 M17 D2\n")
    assert (found.distance, found.searched, [str(error) for error in found.errors]) == (2, "graph-like errors", ["X3*Z4", "M17"])
    assert (found.errors[0].path, found.errors[1].record, found.errors[0].observables) == ("3/0", 17, (0,))
    assert str(distance_of("none up to 3\n")) == "none up to 3 of all marked errors"
    assert str(distance_of("none up to 3 of graph-like errors\n")) == "none up to 3 of graph-like errors"
    assert str(distance_of("none\n", everywhere=True)) == "none of all errors everywhere"
    found = distance_of("distance 1 of all marked errors\n9 4 M17 L2\ncount 12\n")
    assert (found.distance, len(found.errors), found.count, distance_of("none\n").count, distance_of("none\ncount 0\n").count) == (1, 1, 12, None, 0)
    assert distance_of("none up to 3\ncount 18446744073709551616 or more\n").count == 2**64
    with pytest.raises(ValueError, match="is no distance"):
        distance_of("some\n")


def test_the_least_sets_of_a_surface_code_are_counted():
    text = codes.surface_code(3, 3)
    found = stabsim.Circuit(text).distance(everywhere=True, letters="XZ", count=True)
    oracle = Distance(items_of(text.encode()), everywhere=True, letters="XZ", graphlike=False)
    assert (found.distance, found.count) == (oracle.least, oracle.count) and oracle.least == 3


def test_the_least_sets_of_a_model_are_of_mechanisms():
    # A path of three mechanisms is shorter than one of four, and one that has no chance is no mechanism.
    text = "error(0.1) D0 L0\nerror(0.1) D0 D1\nerror(0.1) D1\nerror(0.1) D1 D2\nerror(0.1) D2\nerror(0) D1\n"
    found = stabsim.ErrorModel.from_dem(text).distance(count=True)
    assert (found.distance, found.count) == (3, 1)
    # Two channels that flip the same are one mechanism.
    circuit = stabsim.from_stim("R 0 1\nX_ERROR(0.1) 0 0 1\nM 0 1\nDETECTOR rec[-1] rec[-2]\nOBSERVABLE_INCLUDE(0) rec[-1]")
    assert (circuit.distance(count=True).count, circuit.distance().count) == (1, None)


def test_graph_like_sets_are_not_counted():
    for counted in (stabsim.Circuit("I 0"), stabsim.ErrorModel.from_dem("error(0.1) D0")):
        with pytest.raises(ValueError, match="count=True is of all errors"):
            counted.distance(graphlike=True, count=True)


def test_a_limit_below_0_is_a_value_error():
    with pytest.raises(ValueError, match="most is -1"):
        stabsim.Circuit("I 0").distance(most=-1)
