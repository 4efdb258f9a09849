"""Errors that are put into a session flip what the program's table of faults says, wherever they are."""

import random

import pytest
import stabsim
from stabsim import codes
from stabsim.questions.circuit_errors import CircuitError

NESTED = """R 0 1 2
REPEAT 2 {
    H 2
    REPEAT 3 {
        CX 0 1 1 2
        M 1 !1
        CX 1 2 0 1
        DETECTOR rec[-1]
    }
    MR 2
}
MPP Z0*Z1 !Z1
M 0
OBSERVABLE_INCLUDE(0) rec[-1]
DETECTOR rec[-2]
"""
CIRCUITS = [codes.repetition_code(3, 3), codes.surface_code(2, 2), codes.colour_code(3, 2), NESTED]


def error_of(table, fault):
    return CircuitError(int(table.steps[fault]), str(table.paths[fault]), ((int(table.qubits[fault]), str(table.paulis[fault])),))


@pytest.mark.parametrize("text", CIRCUITS, ids=["repetition", "surface", "colour", "nested"])
def test_errors_flip_what_the_table_says(text):
    circuit = stabsim.Circuit(text)
    table = circuit.faults(everywhere=True, sure_only=True)
    deterministic = circuit.deterministic().detectors
    dice = random.Random(3)
    with circuit.edit() as session:
        before = session.circuit()
        for number in range(24):
            faults = dice.sample(range(len(table)), 1 + number % 3)
            session.insert_errors(error_of(table, fault) for fault in faults)
            changed = session.changed()
            flipped = {it for it in changed.detectors.tolist() if deterministic[it]} | {table.num_detectors + it for it in changed.observables.tolist()}
            expected = set()
            for fault in faults:
                expected ^= set(table.flipped(fault).tolist())
            assert flipped == expected and not changed.lengths
            assert session.undo() and session.circuit() == before


@pytest.mark.parametrize("text", CIRCUITS, ids=["repetition", "surface", "colour", "nested"])
def test_a_wrong_record_differs_alone(text):
    circuit = stabsim.Circuit(text)
    with circuit.edit() as session:
        before = session.circuit()
        for record in range(circuit.num_records):
            session.insert_errors([CircuitError(0, "", record=record)])
            assert session.changed(records=True).records.tolist() == [record]
            session.undo()
            assert session.circuit() == before


def test_several_errors_are_one_edit():
    with stabsim.Circuit("M 0\nREPEAT 5 {\n    MX 0 1\n}").edit() as session:
        errors = [CircuitError(2, "1/0", ((1, "Z"), (0, "X"))), CircuitError(8, "1/0", ((0, "Y"),)), CircuitError(8, "1/0", record=8)]
        session.insert_errors(errors)
        assert session.circuit().split("\n") == [
            "M 0", "REPEAT 1 {", "    MX 0", "    X 0", "    Z 1", "    MX 1", "}", "REPEAT 2 {", "    MX 0 1", "}",
            "REPEAT 1 {", "    MX 0", "    Y 0", "    MX !1", "}", "REPEAT 1 {", "    MX 0 1", "}", ""]
        session.undo()
        assert session.circuit() == "M 0\nREPEAT 5 {\n    MX 0 1\n}\n"
        session.redo()
        assert "MX !1" in session.circuit() and not session.redo() and session.undo() and not session.undo()


def test_errors_that_are_not_there_change_nothing():
    with stabsim.Circuit("REPEAT 3 {\n    M 0\n}").edit() as session:
        before = session.circuit()
        for wrong in (CircuitError(4, "0/0", ((0, "X"),)), CircuitError(0, "0/0", record=3)):
            with pytest.raises(IndexError, match="there"):
                session.insert_errors([CircuitError(1, "0/0", ((0, "X"),)), wrong])
            assert session.circuit() == before and not session.undo() and not session.redo()
        with pytest.raises(stabsim.Refused):
            session.insert_errors([CircuitError(1, "0/0", ((0, "X"),)), CircuitError(1, "0/0", ((3000, "X"),))])
        assert session.circuit() == before
        session.insert_errors([CircuitError(3, "1", ((0, "X"),))])
        assert session.circuit() == before + "X 0\n"
        session.insert_errors([])
