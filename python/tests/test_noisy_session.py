"""Sessions of circuits with noise: read, edited and written, a text is the edited text, line by line, and what is asked is of that."""

import random

import numpy as np
import pytest
import stabsim
from random_texts import edited, opened, texts_agree
from stabsim import codes
from stabsim.collecting.collecting import seed_of
from stabsim.text import carrying

@pytest.mark.parametrize("seed", range(150))
def test_a_text_that_is_edited_is_the_edited_text_line_by_line(seed):
    texts_agree(seed)


@pytest.mark.parametrize("seed", range(60))
def test_what_a_session_answers_is_of_the_edited_text(seed):
    numbers = random.Random(1000 + seed)
    items, below, session = opened(numbers)
    with session:
        for _ in range(8):
            edited(session, items, numbers)
        text = session.circuit(comments=True)
        read = stabsim.from_stim(text)
        with read.circuit.edit(qubits=6) as other:
            assert session.numbers() == other.numbers()
            assert all(np.array_equal(*pair) for pair in zip(session.deterministic(), other.deterministic()))
        options = {"approximate_disjoint_errors": True, "sure_only": True}
        assert session.error_model(**options) == stabsim.error_model(text, **options)
        # Each item is the user's at its path.
        for item in read.walk():
            assert session.item(item.path) == "".join(f"{line}\n" for line in str(item).splitlines())


def test_what_rides_in_a_tag_is_any_text():
    for text in ("# ]", "\\B]\\C\\", "~", "#~[]#\r\\n", "# REPEAT 3 {\n# }", "TICK[~\\]"):
        assert carrying.unescaped(carrying.escaped(text)) == text and not set(carrying.escaped(text)) & set("]#\n\r")


@pytest.mark.parametrize("item, said", [
    ("X_ERROR(2) 0", "refused 2 BadArguments"), ("X_ERROR 0", "one chance in brackets"), ("DEPOLARIZE2(0.1) 0 0", "two different qubits"),
    ("X_ERROR(0.1) 5000", "refused 6 QubitOutOfRange"), ("X_ERROR(0.1) a", "refused 3 BadTarget"), ("M(1.5) 0", "a number from 0 to 1"),
    ("E(0.1) Q0", "takes Paulis"), ("HERALDED_PAULI_CHANNEL_1(0.1) 0", "4 chances in brackets"), ("HERALDED_ERASE(0.1) a", "refused 3"), ("NOPE 1", "refused 1 UnsupportedName"), ("ISWAP 0", "no partner"), ("M(0.1) 9", "refused 6"), ("CX 0", "refused 4"),
])
def test_an_item_that_is_refused_is_explained_and_changes_nothing(item, said):
    text = "R 0\nX_ERROR(0.5) 0 # noise\nM 0\n"
    with stabsim.from_stim(text).edit() as session:
        for edit in (session.insert, session.replace):
            with pytest.raises(stabsim.Refused) as told:
                edit(1, item)
            assert said in str(told.value)
        assert session.circuit(comments=True) == text and not session.undo()


def test_an_error_that_may_happen_if_others_did_not_is_put_in_after_them():
    with stabsim.from_stim("R 0\nE(0.25) X0\nM 0\nDETECTOR rec[-1]\n").edit() as session:
        session.insert(2, "ELSE_CORRELATED_ERROR(0.5) X0")
        # Both flip the same, so together they do so in 0.25 + 0.75 * 0.5 of all shots.
        assert session.error_model().chances == pytest.approx([0.625])
        session.delete(1)
        with pytest.raises(stabsim.Refused, match="follows E"):
            session.error_model()


def test_the_loop_of_edit_model_and_rate():
    text = codes.surface_code(3, 3, noise=codes.Noise.uniform(0.01))

    def nothing(model):
        return lambda detectors: np.zeros((len(detectors), model.num_observables), dtype=bool)

    with stabsim.from_stim(text).edit() as session:
        model = session.error_model()
        assert model == stabsim.error_model(text) and session.error_model() is model
        assert session.distance().distance == 3 and session.distance(2).distance is None
        before = session.logical_error_rate(nothing, shots=2000, seed=3)
        wrong = model.sample(2000, seed=seed_of("session", 3))[1].any(axis=1).sum()
        assert before == stabsim.fit_rate(2000, int(wrong))
        [last] = [item.path for item in stabsim.from_stim(session.circuit()) if item.name == "X_ERROR"][-1:]
        session.replace(last, "X_ERROR(0.5) 1")
        assert session.error_model() is not model and session.error_model() == stabsim.error_model(session.circuit())
        assert session.logical_error_rate(nothing, shots=2000, seed=3).low > before.high
        assert session.undo() and session.error_model() == model


def test_errors_are_put_into_what_rides_and_stay_there():
    text = "R 0 1\nX_ERROR(0.25) 0 1\nISWAP 0 1\nREPEAT 2 {\n    MXX(0.125) 0 1\n    M(0.25) 0 !1 # both\n}\n"
    with stabsim.from_stim(text).edit() as session:
        # After R 0 1 and the SWAP and CZ of ISWAP; in front of the second measured qubit of the second round; and a record that is wrong.
        session.insert_errors([stabsim.CircuitError(4, "", ((1, "Z"),)), stabsim.CircuitError(11, "", ((0, "X"),)), stabsim.CircuitError(0, "", record=0)])
        assert session.circuit(comments=True).splitlines() == [
            "R 0 1", "X_ERROR(0.25) 0 1", "REPEAT 1 {", "    SWAP 0 1", "    CZ 0 1", "    Z 1", "    S 0 1", "}",
            "REPEAT 1 {", "    MPP(0.125) !X0*X1", "    M(0.25) 0 !1 # both", "}",
            "REPEAT 1 {", "    MXX(0.125) 0 1", "    M(0.25) 0", "    X 0", "    M(0.25) !1", "}"]
        assert session.undo() and session.circuit(comments=True) == text


def test_coins_and_errors_are_at_the_items_of_the_user():
    with stabsim.from_stim("R 0 1\nX_ERROR(0.1) 0\nMXX 0 1\nH_XY 0\nMPAD 1\nMX 0\nDETECTOR rec[-1]").edit() as session:
        assert [coin.path for coin in session.why("D0")] == ["5"]
    with stabsim.from_stim("TICK\nISWAP 0 1\nM 1\nOBSERVABLE_INCLUDE(0) rec[-1]").edit() as session:
        found = session.distance(1, everywhere=True)
        assert found.distance == 1 and {error.path for error in found.errors} == {"1"}


def test_lookbacks_follow_their_records_past_noise_and_comments():
    text = "# a record\nM(0.25) 0 # wrong at times\nX_ERROR(0.125) 0\nMXX(0.5) 0 1\n# of both\nDETECTOR(1) rec[-1] rec[-2] # why\nYCZ 0 rec[-2]\n"
    with stabsim.Circuit(text).edit(qubits=4) as session:
        # Two records between them and what names them.
        session.insert(4, "MZZ(0.1) 0 1 2 3  # between", keep_records=True)
        assert session.circuit(comments=True) == (
            "# a record\nM(0.25) 0 # wrong at times\nX_ERROR(0.125) 0\nMXX(0.5) 0 1\n# of both\n"
            "DETECTOR(1) rec[-1] rec[-2] # why\nMZZ(0.1) 0 1 2 3  # between\nYCZ 0 rec[-4]\n")
        session.move(4, 0, keep_records=True)
        assert session.circuit(comments=True).splitlines()[-2:] == ["DETECTOR(1) rec[-1] rec[-2] # why", "YCZ 0 rec[-2]"]
        session.delete(3, keep_records=True)
        assert session.circuit(comments=True).splitlines()[-3:] == ["# of both", "DETECTOR(1) rec[-1] # why", "YCZ 0 rec[-1]"]
        session.replace(1, "M(0.25) 1 0", keep_records=True)
        assert session.circuit(comments=True).splitlines()[1:3] == ["# a record", "M(0.25) 1 0"] and session.circuit().endswith("YCZ 0 rec[-1]\n")
        made = session.retarget([("delete", 1)])
        assert made.lost == ("D0",) and session.circuit(comments=True) == made.text
        assert made.text == "MZZ(0.1) 0 1 2 3  # between\nX_ERROR(0.125) 0\n# of both\nDETECTOR(1) # why\n"
        for _ in range(5):
            assert session.undo()
        assert session.circuit(comments=True) == text and not session.undo()
