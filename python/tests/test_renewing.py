"""Models after edits of noise: they are those of the edited texts, made anew, bit for bit."""

import random

import numpy as np
import pytest
import stabsim
from stabsim import codes
from stabsim.noise import renewing

CHANNELS = ("X_ERROR(0.25) {0} {1}", "Z_ERROR(0.125) {0}", "Y_ERROR(0.0625) {0} {1} {2}", "DEPOLARIZE1(0.03) {0} {2}", "DEPOLARIZE2(0.015) {0} {1}", "E(0.25) X{0} Z{1}",
            "PAULI_CHANNEL_1(0.125, 0, 0) {1}", "I_ERROR(0.1) {0}", "X_ERROR(0) {0}", "TICK")
# Surface code, toric code by products, and a circuit of instructions that the program does not read, in blocks within blocks.
TEXTS = (
    codes.surface_code(3, 4, noise=codes.Noise.uniform(0.01)), codes.toric_code(2, 3, noise=codes.Noise.uniform(0.02)),
    """R 0 1 2 3
DEPOLARIZE2(0.1) 0 1
ISWAP 0 1
REPEAT 2 {
    MXX(0.25) 0 1
    REPEAT 3 {
        X_ERROR(0.125) 2 3
        MR(0.25) 2 !3
        DETECTOR rec[-1] rec[-2]
        I 0
        M 3
        DETECTOR(1) rec[-1]
    }
    SHIFT_COORDS(1)
}
MZZ(0.125) 2 3
OBSERVABLE_INCLUDE(0) rec[-1]
MXX 0 1
DETECTOR rec[-1] rec[-2]
""",
)


def edit(session, numbers):
    """Makes an edit of noise, if the session takes it: a channel is put in, replaced or taken out, or a record is wrong at another chance."""
    circuit = stabsim.Circuit(session.circuit())
    items = [item for item in circuit.walk() if item.repeat is None]
    kind = numbers.choice(["insert", "insert", "replace", "delete", "record", "undo"])
    new = numbers.choice(CHANNELS).format(*numbers.sample(range(circuit.num_qubits), 3))
    noise = [item for item in items if item.name.endswith(("ERROR", "1", "2")) and item.name != "TICK"]
    measured = [item for item in items if item.name in ("M", "MR", "MX", "MPP", "MXX", "MZZ")]
    if kind == "undo":
        session.undo()
    elif kind == "insert" or not noise:
        session.insert(numbers.choice(items).path, new)
    elif kind == "replace":
        session.replace(numbers.choice(noise).path, new)
    elif kind == "delete":
        session.delete(numbers.choice(noise).path)
    else:
        item = numbers.choice(measured)
        session.replace(item.path, f"{item.name}({numbers.choice([0, 0.125, 0.375])}) {' '.join(item.targets)}")


@pytest.mark.parametrize("seed", range(24))
def test_a_model_that_is_renewed_is_the_one_made_anew(seed, monkeypatch):
    numbers, made = random.Random(seed), []
    anew = stabsim.error_model
    monkeypatch.setattr("stabsim.session.session.error_model", lambda *its, **options: made.append(anew(*its, **options)) or made[-1])
    with stabsim.Circuit(TEXTS[seed % len(TEXTS)]).edit() as session:
        # The last text has detectors that coins decide.
        options = {"sure_only": seed % 2 == 1 or seed % 3 == 2}
        session.error_model(**options)
        for _ in range(20):
            for _ in range(numbers.choice([1, 1, 1, 2])):
                edit(session, numbers)
            text = session.circuit()
            found, wanted = session.error_model(**options), anew(text, **options)
            assert found == wanted and found.causes.mechanisms.tolist() == wanted.causes.mechanisms.tolist()
            some = numbers.sample(range(len(found)), min(len(found), 5))
            assert [found.explain(it) for it in some] == [wanted.explain(it) for it in some]
            errors = [model.error_of(it, model.causes) for model in (found, wanted) for it in some]
            assert errors[: len(some)] == errors[len(some) :]
        # Most of the edits are within one list, and only the model before all of them was made anew, or few others.
        assert len(made) <= 12


def test_a_model_of_an_edited_circuit_is_made_anew():
    text = codes.repetition_code(3, 3, noise=codes.Noise.uniform(0.01))
    with stabsim.Circuit(text).edit() as session:
        before = session.error_model()
        for change in (lambda: session.insert(0, "H 1"), lambda: session.insert(3, "X 0"), lambda: session.undo() and session.undo()):
            change()
            assert session.error_model(sure_only=True) == stabsim.error_model(session.circuit(), sure_only=True)
        assert session.error_model() == before


def test_what_is_decomposed_is_decomposed_anew():
    text = codes.surface_code(3, 3, noise=codes.Noise.uniform(0.01))
    with stabsim.Circuit(text).edit() as session:
        session.error_model(decompose=True)
        [path] = [item.path for item in stabsim.Circuit(text).walk() if item.name == "DEPOLARIZE2"][-1:]
        session.insert(path, "X_ERROR(0.25) 3")
        assert session.error_model(decompose=True) == stabsim.error_model(session.circuit(), decompose=True)


def test_no_model_is_renewed_if_more_than_noise_changed():
    model = stabsim.error_model("R 0\nX_ERROR(0.25) 0\nM 0\nDETECTOR rec[-1]\n")
    assert renewing.renewed(model, "R 0\nH 0\nX_ERROR(0.25) 0\nM 0\nDETECTOR rec[-1]\n", False) is None
    assert renewing.renewed(model, "R 0\nX_ERROR(2) 0\nM 0\nDETECTOR rec[-1]\n", False) is None
    assert renewing.renewed(stabsim.ErrorModel.from_dem("error(0.25) D0"), "M 0\n", False) is None
    # A channel that goes past a gate flips something else, though the lines without noise stay.
    other = "R 0\nH 0\nX_ERROR(0.25) 0\nH 0\nM 0\nDETECTOR rec[-1]\n"
    moved = "R 0\nX_ERROR(0.25) 0\nH 0\nH 0\nM 0\nDETECTOR rec[-1]\n"
    found = renewing.renewed(stabsim.error_model(other), moved, False)
    assert len(stabsim.error_model(other)) == 0 and found == stabsim.error_model(moved) and np.array_equal(found.chances, [0.25])
