"""Observables with Pauli targets: models by hand, and against what the program's `propagate` says of each error by itself."""

import random

import pytest
import stabsim

GATES = ("H", "S", "SQRT_X", "C_XYZ", "CX", "CZ", "SWAP", "ISWAP")
LETTERS = {"X": (1, 0), "Y": (1, 1), "Z": (0, 1)}


def chances(text, **options):
    """What each mechanism of a text's model flips, with its chance."""
    model = stabsim.error_model(text, **options)
    return {tuple(map(model.name, model.flipped(it).tolist())): model.chances[it] for it in range(len(model))}


@pytest.mark.parametrize("text, wanted", [
    # An error in front of the Pauli that anticommutes with it flips the observable, and one after it does not.
    ("R 0\nX_ERROR(0.125) 0\nOBSERVABLE_INCLUDE(0) Z0\nX_ERROR(0.25) 0", {("L0",): 0.125}),
    # In a memory of X the Pauli in front of the first error and the records after it see the same.
    ("RX 0\nZ_ERROR(0.125) 0\nOBSERVABLE_INCLUDE(0) X0\nZ_ERROR(0.25) 0\nMX 0\nOBSERVABLE_INCLUDE(0) rec[-1]", {("L0",): 0.25}),
    # X and Z of one qubit are followed at once, though no run could measure both.
    ("R 0\nOBSERVABLE_INCLUDE(0) X0\nOBSERVABLE_INCLUDE(1) Z0\nX_ERROR(0.25) 0\nZ_ERROR(0.125) 0\nOBSERVABLE_INCLUDE(0) X0\nOBSERVABLE_INCLUDE(1) Z0",
     {("L0",): 0.125, ("L1",): 0.25}),
    # Paulis that anticommute add up to Y, of which the state is known.
    ("RY 0\nX_ERROR(0.125) 0\nY_ERROR(0.5) 0\nOBSERVABLE_INCLUDE(0) X0\nOBSERVABLE_INCLUDE(0) Z0", {("L0",): 0.125}),
    # Three rounds: an error of the first is seen three times, of the second twice, and of the third once.
    ("R 0\nREPEAT 3 {\n    X_ERROR(0.125) 0\n    OBSERVABLE_INCLUDE(0) Z0\n}", {("L0",): 0.125 * 0.875 * 2}),
    ("R 0 1\nX_ERROR(0.25) 1\nM 1\nDETECTOR rec[-1]\nOBSERVABLE_INCLUDE(2) Z1 Z0", {("D0", "L2"): 0.25}),
    # A known record takes a qubit of its own, which is not that which controls the Paulis.
    ("R 0\nX_ERROR(0.25) 0\nMPAD 1\nOBSERVABLE_INCLUDE(0) Z0\nMPAD 0", {("L0",): 0.25}),
])
def test_models_are_those_worked_by_hand(text, wanted):
    assert chances(text) == wanted


def test_coins_that_decide_the_sum_are_refused_or_left_out():
    text = "RX 0\nX_ERROR(0.125) 1\nOBSERVABLE_INCLUDE(0) Z0\nM 1\nDETECTOR rec[-1]"
    with pytest.raises(stabsim.Refused, match="observable 0, with its Paulis, is not the same for all coins"):
        stabsim.error_model(text)
    assert chances(text, sure_only=True) == {("D0",): 0.125}
    gauge = "MX 0\nDETECTOR rec[-1]\nR 1\nX_ERROR(0.25) 1\nOBSERVABLE_INCLUDE(0) Z1"
    assert chances(gauge, allow_gauge_detectors=True) == {("D0",): 0.5, ("L0",): 0.25}


def test_shots_flip_what_the_model_does_and_records_are_without_paulis():
    c = stabsim.Circuit("R 0 1\nX_ERROR(1) 0\nOBSERVABLE_INCLUDE(1) Z0 # a\nM 1\nOBSERVABLE_INCLUDE(1) rec[-1]\nDETECTOR rec[-1]")
    assert c.detect(2, separate_observables=True)[1].tolist() == [[False, True]] * 2
    assert str(c.circuit).splitlines()[1] == "OBSERVABLE_INCLUDE(1) # a" and c.left_out[1] == "line 3: Z0 of OBSERVABLE_INCLUDE"
    assert "noise in 1 line" in repr(c) and "L1: Z0" in [it.text for it in c.diagram("timeline").elements if hasattr(it, "text")]
    # By itself the record is random, so there is no parity that the error turns over; what it flips is known.
    turned = stabsim.Circuit("R 0\nOBSERVABLE_INCLUDE(0) X0\nH 0\nX_ERROR(1) 0\nM 0\nOBSERVABLE_INCLUDE(0) rec[-1]")
    with pytest.raises(stabsim.Refused, match="NotDeterministic"):
        turned.detect(2, separate_observables=True)
    assert turned.detect(2, separate_observables=True, flips=True)[1].tolist() == [[True], [True]]


def test_a_session_keeps_paulis_and_takes_them():
    with stabsim.Circuit("R 0 1\nX_ERROR(0.25) 1\nOBSERVABLE_INCLUDE(0) Z0 # by hand\nM 0 1\nDETECTOR rec[-1]\n").edit() as session:
        session.insert(3, "OBSERVABLE_INCLUDE(0) Z1")
        session.insert(2, "Y_ERROR(0.125) 0")
        text = "R 0 1\nX_ERROR(0.25) 1\nY_ERROR(0.125) 0\nOBSERVABLE_INCLUDE(0) Z0 # by hand\nOBSERVABLE_INCLUDE(0) Z1\nM 0 1\nDETECTOR rec[-1]\n"
        assert session.circuit(comments=True) == text
        assert session.error_model() == stabsim.error_model(text) and len(session.error_model()) == 2
        assert session.distance().errors[0].paulis == ((0, "Y"),)


def anticommute(one, other):
    """Whether products as X0*Z3 anticommute."""
    first, second = ({int(it[1:]): LETTERS[it[0]] for it in product.split("*") if it} for product in (one, other))
    return sum(first[it][0] * second[it][1] + first[it][1] * second[it][0] for it in first.keys() & second.keys()) % 2 == 1


def string_at(quiet, pauli, path, end):
    """What a string put in at an item becomes in front of a later item."""
    steps = stabsim.Circuit("\n".join(str(item) for item in quiet.items[:end])).numbers().steps
    return next((turn.pauli for turn in reversed(quiet.propagate(pauli, at=str(path)).turns) if turn.steps <= steps), pauli)


@pytest.mark.parametrize("seed", range(8))
def test_each_error_flips_what_its_string_anticommutes_with(seed):
    numbers = random.Random(seed)
    lines = ["R 0 1 2 3"]
    for _ in range(10):
        name = numbers.choice(GATES)
        lines.append(f"{name} {' '.join(map(str, numbers.sample(range(4), 2 if name in ('CX', 'CZ', 'SWAP', 'ISWAP') else 1)))}")
    quiet = stabsim.Circuit(stabsim.Circuit("\n".join(lines)).circuit.text)
    starts = ["*".join(f"{numbers.choice('XYZ')}{it}" for it in numbers.sample(range(4), 2)) for _ in range(2)]
    ends = [quiet.propagate(start, at="1").left for start in starts]
    declared = [[f"OBSERVABLE_INCLUDE({k}) {product.replace('*', ' ')}" for k, product in enumerate(its)] for its in (starts, ends)]
    body = [str(item) for item in quiet.items]
    for place in range(1, len(body) + 1):
        for letter in "XZ":
            qubit = numbers.randrange(4)
            text = "\n".join([body[0], *declared[0], *body[1:place], f"{letter}_ERROR(0.25) {qubit}", *body[place:], *declared[1]])
            string = string_at(quiet, f"{letter}{qubit}", place, len(body))
            flipped = tuple(f"L{k}" for k, end in enumerate(ends) if anticommute(string, end))
            assert chances(text) == ({flipped: 0.25} if flipped else {}), text
