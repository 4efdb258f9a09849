"""Heralded errors: each target makes a record that says whether an error happened. What happens, and how often, is counted by hand."""

import itertools
import math

import numpy as np
import pytest
import stabsim
from stabsim.page.board import Board
from stabsim.page.opening import opened_of

# Qubit 0 is measured in Z, which X and Y turn over, and qubit 1 in X, which Y and Z turn over.
TEXT = "R 0\nRX 1\n{}\nM 0\nMX 1\nDETECTOR rec[-2]\nDETECTOR rec[-4] rec[-1]\nOBSERVABLE_INCLUDE(0) rec[-3] rec[-1]\n"
TURNS = ("XY", "YZ")
CHANNELS = {
    "HERALDED_ERASE(0.6) 0 1": [(0.15, "I"), (0.15, "X"), (0.15, "Y"), (0.15, "Z")],
    "HERALDED_PAULI_CHANNEL_1(0.1, 0.2, 0.3, 0.25) 0 1": [(0.1, "I"), (0.2, "X"), (0.3, "Y"), (0.25, "Z")],
    "HERALDED_PAULI_CHANNEL_1(0, 0.5, 0, 0.5) 0 1": [(0.5, "X"), (0.5, "Z")],
}


def by_hand(errors):
    """The chance of each list of records, by all errors on both qubits."""
    every = [*errors, (1 - sum(chance for chance, _ in errors), "")]
    found = {}
    for pair in itertools.product(every, repeat=2):
        bits = (*(bool(letter) for _, letter in pair), *(letter != "" and letter in turns for (_, letter), turns in zip(pair, TURNS)))
        found[bits] = found.get(bits, 0) + math.prod(chance for chance, _ in pair)
    return found


def expect_chances(shots, chances):
    """That rows come as often as they should, and no others."""
    total = 0
    for bits, chance in chances.items():
        found = int((shots == np.array(bits)).all(axis=1).sum())
        total += found
        assert abs(found - len(shots) * chance) <= 5 * math.sqrt(len(shots) * max(chance * (1 - chance), 0)), (bits, found, chance)
    assert total == len(shots)


@pytest.mark.parametrize("channel", CHANNELS)
def test_records_come_as_often_as_all_errors_make_them(channel):
    expect_chances(stabsim.Circuit(TEXT.format(channel)).sample(6400, seed=2), by_hand(CHANNELS[channel]))


@pytest.mark.parametrize("channel", CHANNELS)
def test_detectors_and_observables_come_as_often_as_all_errors_flip_them(channel):
    chances = {}
    for (first, second, third, fourth), chance in by_hand(CHANNELS[channel]).items():
        flips = third, first ^ fourth, second ^ fourth
        chances[flips] = chances.get(flips, 0) + chance
    for text, turned in ((TEXT, False), (TEXT.replace("R 0\n", "R 0\nX 0\n"), True)):
        circuit = stabsim.Circuit(text.format(channel))
        detectors, observables = circuit.detect(6400, seed=4, separate_observables=True)
        expect_chances(np.concatenate([detectors ^ np.array([turned, False]), observables], axis=1), chances)
        flips = circuit.detect(6400, seed=4, flips=True)
        assert np.array_equal(flips, detectors ^ np.array([turned, False])) and flips.are_flips


def test_a_bit_that_coins_decide_is_refused_with_the_users_item():
    with pytest.raises(stabsim.Refused, match="detector 0, item 3") as told:
        stabsim.Circuit("R 0\nHERALDED_ERASE(0.5) 0\nMX 0\nDETECTOR rec[-1]\n").detect(5)
    assert told.value.number == 18


# With chances 0 and 1 what happens is worked out by hand.
@pytest.mark.parametrize("text, records", [
    ("HERALDED_PAULI_CHANNEL_1(0, 1, 0, 0) 0 2\nM 0 1 2", "11101"),
    ("HERALDED_PAULI_CHANNEL_1(1, 0, 0, 0) 0\nHERALDED_PAULI_CHANNEL_1(0, 0, 0, 1) 1\nM 0 1", "1100"),
    ("X 2\nREPEAT 2 {\n    HERALDED_PAULI_CHANNEL_1(0, 0, 1, 0) 0\n}\nM 0 2", "1101"),
    ("HERALDED_ERASE(0) 0 1\nM 0 1", "0000"),
    # A herald is a record, which may control.
    ("M 1\nHERALDED_PAULI_CHANNEL_1(1, 0, 0, 0) 0\nCX rec[-1] 1\nM 1 !0", "0111"),
    ("E(1) X0\nHERALDED_PAULI_CHANNEL_1(0, 1, 0, 0) 1 1\nE(0) X1\nELSE_CORRELATED_ERROR(1) X0\nM 0 1", "1100"),
    ("HERALDED_ERASE(0.5)\nM 0", "0"),
])
def test_what_always_happens_is_in_every_shot(text, records):
    assert {"".join("01"[bit] for bit in shot) for shot in stabsim.Circuit(text).sample(70, seed=3).astype(int)} == {records}


@pytest.mark.parametrize("channel, wanted", [
    # One error alone is independent of all others.
    ("HERALDED_PAULI_CHANNEL_1(0, 0.25, 0, 0) 0", {"D0 D1": 0.25}),
    ("HERALDED_PAULI_CHANNEL_1(0, 0, 0, 0.25) 0", {"D0": 0.25}),
    # Taken for independent ones, errors of 1/8 flip the same in 2 * 1/8 * 7/8 of all shots.
    ("HERALDED_ERASE(0.5) 0", {"D0": 0.21875, "D0 D1": 0.21875}),
])
def test_an_error_model_has_the_herald_among_what_an_error_flips(channel, wanted):
    text = f"R 0\n{channel}\nM 0\nDETECTOR rec[-2]\nDETECTOR rec[-1]\n"
    model = stabsim.error_model(text, approximate_disjoint_errors=True)
    assert {" ".join(map(model.name, model.flipped(it).tolist())): model.chances[it] for it in range(len(model))} == pytest.approx(wanted)
    assert model.approximated == ((2,) if "ERASE" in channel else ()) and {it.line for it in model.explain(0)} == {2}


def test_errors_of_a_distance_put_in_flip_the_herald_of_their_target():
    text = "R 0 1\nHERALDED_PAULI_CHANNEL_1(0, 0.25, 0, 0) 1 0\nM 0\nOBSERVABLE_INCLUDE(0) rec[-1]\n"
    [error] = stabsim.Circuit(text).distance().errors
    assert error.path == "1"
    with stabsim.Circuit(text).edit() as session:
        session.insert_errors([error])
        assert session.records().tolist() == [False, True, True]


def test_a_circuit_keeps_heralded_errors_as_they_are_written():
    text = "R 0\nheralded_erase[a](0.5) 0 # lost\nM 0\nDETECTOR rec[-2]\n"
    circuit = stabsim.Circuit(text)
    assert circuit.text == text and circuit.num_records == 2 and circuit.left_out == ["line 2: heralded_erase[a](0.5) 0"]
    assert [str(it) for it in circuit.noise] == ["HERALDED_ERASE[a](0.5) 0"] and circuit.noise[0].path == "1"
    with circuit.edit(qubits=3) as session:
        assert session.circuit(comments=True) == text.replace("heralded_erase", "HERALDED_ERASE")
        session.insert(2, "X 0", keep_records=True)
        session.insert(2, "HERALDED_ERASE(0.25) 0 1", keep_records=True)
        assert session.circuit().endswith("\nHERALDED_ERASE(0.25) 0 1\nX 0\nM 0\nDETECTOR rec[-4]\n")
        assert session.records().tolist() == [False] * 3 + [True]


def test_a_known_record_that_is_put_in_leaves_the_qubits_of_the_circuit_alone():
    for item, record in (("MPAD 1", True), ("HERALDED_ERASE(0.5) 1", False)):
        with stabsim.Circuit("X 0 1\nM 0 1\n").edit(qubits=3) as session:
            session.insert(1, item)
            assert session.records().tolist() == [record, True, True]


def test_a_rule_keeps_the_records_of_heralded_errors():
    circuit = stabsim.with_chances("HERALDED_ERASE(0.5) 0 1\nM 0\n", lambda channel: 0 if channel.targets == ("0",) else 0.25)
    assert circuit.text == "HERALDED_ERASE(0) 0\nHERALDED_ERASE(0.25) 1\nM 0\n"


def test_a_page_saves_heralded_errors_as_they_were_given(tmp_path):
    file = tmp_path / "heralded.stim"
    file.write_text("R 0\nH_XY 1\nHERALDED_ERASE(0.1) 0 1\nM 0 # last\n")
    board = Board(opened_of(str(file)))
    opened = board.opened()
    written = board.written()
    board.close()
    assert opened["notice"] == "2 lines are rewritten."
    assert [line for line in opened["circuit"].splitlines() if "CORRELATED" not in line and not line.startswith("E(")] \
        == ["R 0", "S 1", "Y 1", "R 2", "MR 2", "MR 2", "M 0"]
    assert written == file.read_text()


# Circuits in which qubit 1 makes the records of item 0, with that item as a refusal names it.
SPARES = {"MPAD 0\nM 0\n": "item 0, MPAD 0:", "HERALDED_ERASE(0.25) 0\nM 0\n": "item 0, HERALDED_ERASE(0.25) 0:"}
NAMING = {
    "put in": lambda session: session.insert(2, "X 1"), "in a block": lambda session: session.insert(1, "REPEAT 2 {\n    CX 0 1\n}"),
    "in a product": lambda session: session.insert(2, "MPP X0*Z1"), "after noise": lambda session: session.insert(1, "M(0.5) 1"),
    "in place": lambda session: session.replace(1, "M !1 # other"), "records kept": lambda session: session.insert(2, "M 1", keep_records=True),
    "in place, records kept": lambda session: session.replace(1, "M 1", keep_records=True),
    "the last of several": lambda session: session.retarget([("insert", 1, "X 0"), ("insert", 3, "X 1")]),
}


@pytest.mark.parametrize("text", SPARES)
@pytest.mark.parametrize("edit", NAMING)
def test_an_edit_that_names_a_spare_qubit_is_refused_and_changes_nothing(text, edit):
    with stabsim.Circuit(text).edit(qubits=3) as session:
        session.insert(2, "X 0")
        session.insert(3, "X 2")
        session.undo()
        with pytest.raises(stabsim.Refused) as refused:
            NAMING[edit](session)
        said = refused.value.explanation
        assert "Qubit 1 " in said and SPARES[text] in said and "open a new session" in said and "\n" not in said
        assert session.circuit() == f"{text}X 0\n" and session.records().tolist() == [False, False]
        assert session.redo() and session.circuit() == f"{text}X 0\nX 2\n"
        assert session.undo() and session.undo() and session.circuit() == text and not session.undo()


@pytest.mark.parametrize("text", SPARES)
def test_other_qubits_than_the_spare_one_work_as_before(text):
    with stabsim.Circuit(text).edit(qubits=4) as session:
        session.insert(2, "X 0 2")
        session.insert(3, "M 0 2")
        session.insert(0, "MPAD 1 1", keep_records=True)
        session.insert(0, "X_ERROR(0.5) 1")
        assert session.records().tolist() == [True, True, False, False, True, True]


@pytest.mark.parametrize("text", SPARES)
def test_a_spare_qubit_is_free_once_its_item_is_gone(text):
    for take_out in (lambda session: session.delete(0), lambda session: session.replace(0, "M 1"), lambda session: session.replace(0, "I 0")):
        with stabsim.Circuit(text).edit(qubits=3) as session:
            take_out(session)
            session.insert(0, "X 1")
            session.insert(1, "M 1")
            assert session.records()[0]


def test_a_spare_qubit_that_an_edit_brought_is_refused_until_undo_takes_it_out():
    with stabsim.Circuit("M 0\n").edit(qubits=3) as session:
        session.insert(0, "REPEAT 2 {\n    MPAD 1\n}")
        with pytest.raises(stabsim.Refused, match="item 0/0, MPAD 1:"):
            session.insert(1, "X 1")
        session.undo()
        session.insert(1, "X 1")
        assert session.circuit() == "M 0\nX 1\n"


def test_errors_of_padding_are_put_in_beside_other_padding():
    with stabsim.Circuit("MPAD 0\nMPAD 1\nM 0\n").edit() as session:
        session.insert_errors([stabsim.CircuitError(0, "", record=0)])
        assert session.records().tolist() == [True, True, False]
        assert stabsim.Circuit(session.circuit()).edit().records().tolist() == [True, True, False]
