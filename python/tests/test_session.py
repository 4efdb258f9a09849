"""Editing sessions: replies, what edits change, how they are taken back, and how sessions end."""

import os
import signal
import subprocess
import sys
import threading
import time

import numpy as np
import pytest
import stabsim
from stabsim import codes
from stabsim.session.script import closing_line, edit_lines, path_text
from stabsim.text.reading import lines_of

REPETITION = codes.repetition_code(3, 3)
BLOCK = REPETITION.splitlines().index("REPEAT 2 {") - 1


def bits(text):
    return [it == "1" for it in text]


def test_a_session_shows_what_a_run_gives():
    circuit = stabsim.Circuit(codes.surface_code(3, 3))
    has = circuit.numbers()
    detectors, observables = circuit.detect(1, seed=5, separate_observables=True)
    with circuit.edit(seed=5) as session:
        assert np.array_equal(session.records(), circuit.sample(1, seed=5)[0])
        assert np.array_equal(session.detectors(), detectors[0]) and np.array_equal(session.observables(), observables[0])
        assert session.stabilisers() == circuit.stabilisers(seed=5)
        assert session.numbers() == stabsim.SessionNumbers(has.qubits, has.steps, has.records, has.detectors, has.observables)
        assert session.free().shape == (has.coins,)
        assert "".join(session.circuit().split()) == "".join(circuit.text.split("\n", 1)[1].split())


def test_an_error_flips_the_detectors_beside_it():
    # X on the middle data qubit in front of the block is seen by both checks in the next round.
    with stabsim.Circuit(REPETITION).edit() as session:
        session.insert(BLOCK, "X 2")
        changed = session.changed()
        assert changed.detectors.tolist() == [2, 3] and changed.observables.tolist() == [] and changed.lengths == {}
        assert session.detectors().tolist() == bits("00110000")
        session.mark()
        assert session.changed().detectors.tolist() == []
        # X on the last data qubit flips the observable, and the records of its check and its own.
        session.replace(BLOCK, "X 4")
        changed = session.changed(records=True)
        assert changed.detectors.tolist() == [2] and changed.observables.tolist() == [0]
        assert session.detectors().tolist() == bits("00010000") and session.observables().tolist() == [True]
        assert changed.records.tolist() == [2, 4, 7, 8]


def test_numbers_that_change_are_told():
    with stabsim.Circuit("M 0\nDETECTOR rec[-1]\n").edit(qubits=2) as session:
        session.insert(2, "MX 1")
        session.insert(3, "DETECTOR")
        session.insert(4, "OBSERVABLE_INCLUDE(1)")
        changed = session.changed(records=True)
        assert changed.lengths == {"detectors": (1, 2), "observables": (0, 2), "records": (1, 2)}
        assert session.numbers() == stabsim.SessionNumbers(qubits=2, steps=5, records=2, detectors=2, observables=2)


def test_signs_are_those_of_the_group():
    with stabsim.Circuit("H 0\nCX 0 1\nZ 0\nX 2\n").edit() as session:
        assert [session.sign(it) for it in ("X0*X1", "-X0*X1", "Z0*Z1", "Y0*Y1", "X0", "ZZI", "Z2", "Z0*Z1*Z2")] == [-1, 1, 1, 1, 0, 1, -1, -1]
        with pytest.raises(stabsim.Refused):
            session.sign("X0*")
        with pytest.raises(ValueError):
            session.sign("X0\nshow circuit")


def test_edits_are_taken_back_and_made_again():
    with stabsim.Circuit(REPETITION).edit() as session:
        texts = [session.circuit()]
        for edit in [lambda: session.insert(BLOCK, "X 2"), lambda: session.replace(f"{BLOCK + 1}/1", "CX 0 1 4 3"),
                     lambda: session.delete([BLOCK + 1, 0]), lambda: session.insert(0, "REPEAT 2 {\n    H 0\n    REPEAT 2 {\n  X 1\n}\n}"),
                     lambda: session.replace(0, "H 0 # once"), lambda: session.delete(BLOCK + 2)]:
            edit()
            texts.append(session.circuit())
        assert len(set(texts)) == len(texts) == 7
        for text in texts[-2::-1]:
            assert session.undo() and session.circuit() == text
        assert not session.undo()
        for text in texts[1:]:
            assert session.redo() and session.circuit() == text
        assert not session.redo()
        assert session.undo()
        session.insert(0, "TICK")
        assert not session.redo()
        assert session.undo() and session.circuit() == texts[-2]


def test_a_refused_edit_changes_nothing_and_is_not_taken_back():
    with stabsim.Circuit("M 0\n").edit() as session:
        for edit, number in [(lambda: session.insert(0, "X 5"), 6), (lambda: session.insert(7, "X 0"), 12), (lambda: session.delete(1), 12),
                             (lambda: session.replace("0/0", "X 0"), 17), (lambda: session.replace(0, "FOO 0"), 1),
                             (lambda: session.insert(0, "DETECTOR rec[-1]"), 8)]:
            with pytest.raises(stabsim.Refused) as told:
                edit()
            assert told.value.number == number and told.value.line is None
        assert session.circuit() == "M 0\n" and not session.undo()
        assert session.records().tolist() == [False]


def test_a_refused_request_is_explained_by_the_item_that_it_puts_in_or_by_its_number():
    with stabsim.Circuit("M 0\n").edit() as session:
        for edit, number, said in [
            (lambda: session.insert(0, "CX 0 rec[-1]"), 3, "1: CX 0 rec[-1]\n        ^^^^^^^\n"),
            (lambda: session.replace(0, "REPEAT 2 {\n    X 0\n    FOO 1\n}"), 1, "3:     FOO 1\n       ^^^\n"),
            (lambda: session.insert(0, "X 1024"), 6, "1: X 1024\n     ^^^^\n"),
        ]:
            with pytest.raises(stabsim.Refused) as told:
                edit()
            assert told.value.number == number and told.value.explanation.startswith(said)
        # By themselves these items have no fault, or another: 5 is past the session's qubits, and the circuit has one record.
        for edit, number, said in [
            (lambda: session.insert(0, "X 5"), 6, "It names a qubit that the session does not have"),
            (lambda: session.insert(1, "DETECTOR rec[-2]"), 8, "A rec[-k] would look back past the first record"),
            (lambda: session.insert(7, "X 0"), 12, "There is no such item"), (lambda: session.delete("0/0"), 17, "The path leads into an instruction"),
            (lambda: session.sign("X0*"), 3, "A string of Paulis is written as X0*Z3"), (lambda: session.why("D7"), 12, "There is no such item"),
            (lambda: stabsim.Circuit("M 3").edit(qubits=2), 6, "It names a qubit that the session does not have"),
        ]:
            with pytest.raises(stabsim.Refused) as told:
                edit()
            assert told.value.number == number and told.value.explanation.startswith(said)


ROUNDS = "X 0\nREPEAT[a] 3 {\n    M 0\n    X 0\n}\nDETECTOR rec[-1] rec[-3]\n"


@pytest.mark.parametrize("number, heads", [(0, [1, 2]), (1, [1, 1, 1]), (2, [2, 1])])
def test_a_round_is_split_off_and_put_back(number, heads):
    body = " {\n    M 0\n    X 0\n}\n"
    with stabsim.Circuit(ROUNDS).edit() as session:
        session.split(1, number)
        parts = "".join(f"REPEAT[a] {count}{body}" for count in heads)
        text = f"X 0\n{parts}DETECTOR rec[-1] rec[-3]\n"
        assert session.circuit() == text and session.changed(records=True).records.tolist() == []
        assert session.records().tolist() == bits("101")
        # A flip in front of the first round's measurement flips every record; one in the round that was split off those from there on.
        session.insert([1 if number == 0 else 2, 0], "X 0")
        assert session.records().tolist() == [bit ^ (place >= number) for place, bit in enumerate(bits("101"))]
        assert session.undo() and session.undo() and session.circuit() == ROUNDS and not session.undo()
        assert session.redo() and session.circuit() == text


def test_a_refused_split_changes_nothing():
    with stabsim.Circuit(ROUNDS).edit() as session:
        for path, number, refusal in [(1, 3, 12), (0, 0, 17), (3, 0, 12), ("1/0", 0, 17)]:
            with pytest.raises(stabsim.Refused) as refused:
                session.split(path, number)
            assert refused.value.number == refusal
        assert session.circuit() == ROUNDS and not session.undo()


def test_an_item_is_shown_by_its_path():
    with stabsim.Circuit(REPETITION).edit() as session:
        assert session.item(0) == "R 0 1 2 3 4\n"
        assert session.item(f"{BLOCK}/1") == "CX 0 1 2 3\n"
        assert session.item(BLOCK).startswith("REPEAT 2 {\n    TICK\n") and session.item(BLOCK).endswith("\n}\n")
        with pytest.raises(stabsim.Refused, match="12 PlaceOutOfRange"):
            session.item(99)


def test_the_steps_of_an_item_are_found_by_its_path():
    # R has three steps and three coins; a round has a CX, a measurement and reset in one, with one record and one coin, and a detector.
    circuit = "R 0 1 2\nREPEAT 3 {\n    CX 0 1\n    MR 1\n    DETECTOR rec[-1]\n}\nTICK\nM 0 2\nDETECTOR rec[-1] rec[-2]\n"
    with stabsim.Circuit(circuit).edit() as session:
        assert session.place(0) == stabsim.ItemSteps(range(0, 3), range(0, 0), range(0, 0), range(0, 3))
        assert session.place(1) == stabsim.ItemSteps(range(3, 12), range(0, 3), range(0, 3), range(3, 6))
        assert session.place("1/1") == stabsim.ItemSteps(range(4, 5), range(0, 1), range(0, 0), range(3, 4))
        assert session.place([1, 2]) == stabsim.ItemSteps(range(5, 6), range(1, 1), range(0, 1), range(4, 4))
        assert session.place(2) == stabsim.ItemSteps(range(12, 12), range(3, 3), range(3, 3), range(6, 6))
        assert session.place(3) == stabsim.ItemSteps(range(12, 14), range(3, 5), range(3, 3), range(6, 8))
        assert session.place(4).detectors == range(3, 4)
        for path, number in (("5", 12), ("0/0", 17), ("1/3", 12)):
            with pytest.raises(stabsim.Refused) as told:
                session.place(path)
            assert told.value.number == number


def test_what_is_the_same_for_all_coins_is_told_as_of_the_circuit():
    with stabsim.Circuit(REPETITION).edit(qubits=7) as session:
        assert all(bits.all() for bits in session.deterministic())
        for place, text in ((0, "H 0"), (BLOCK + 1, "RX 2"), (0, "OBSERVABLE_INCLUDE(2)")):
            session.insert(place, text)
            ours, theirs = session.deterministic(), stabsim.Circuit(session.circuit()).deterministic()
            assert np.array_equal(ours.detectors, theirs.detectors) and np.array_equal(ours.observables, theirs.observables)
        assert not ours.detectors.all()


def test_a_text_that_is_more_than_one_item_is_never_sent():
    for text in ("X 0\nX 1", "REPEAT 2 {\nX 0\n}\nX 0", "REPEAT 2 {\nX 0", "# a comment\nX 0", "REPEAT 2 {\n}\n}", "REPEAT 2 {"):
        with pytest.raises(ValueError):
            edit_lines("insert 0", text)
    assert edit_lines("insert 0", "\n X 0\t\n") == b"insert 0 X 0\n"
    assert edit_lines("insert 0", "REPEAT 2 { # {\n# }\n}\r\n") == b"insert 0 REPEAT 2 { # {\n# }\n}\n"
    with pytest.raises(stabsim.Refused, match="14 TooLong"):
        edit_lines("insert 0", "REPEAT 2 { #" + "x" * 70_000 + "\n}")
    assert closing_line(list(lines_of("REPEAT 1 {\n}" + " " * 70_000 + "\n}"))) == 3


def test_a_path_is_numbers():
    assert path_text(3) == "3" and path_text("3/0/2") == "3/0/2" and path_text([3, 0, 2]) == "3/0/2"
    for wrong in ("", "a", "3/", "-1", -1, "0\nshow circuit", []):
        with pytest.raises(ValueError):
            path_text(wrong)


def test_a_long_line_is_refused_and_the_session_goes_on():
    with stabsim.Circuit("M 0\n").edit() as session:
        with pytest.raises(stabsim.Refused) as told:
            session.insert(0, "X" + " 0" * 40_000)
        assert told.value.number == 14
        assert session.circuit() == "M 0\n"


def test_long_replies_are_read_whole():
    circuit = stabsim.Circuit("R 0\n" + "M 0\n" * 20_000)
    with circuit.edit() as session:
        session.insert(1, "X 0")
        assert session.records().shape == (20_000,) and session.records().all()
        assert session.changed(records=True).records.tolist() == list(range(20_000))
        assert session.circuit().count("\n") == 20_002


def test_a_long_block_is_put_in_whole():
    with stabsim.Circuit("R 0\n").edit() as session:
        block = "REPEAT 1 {\n" + "    X 0\n" * 20_000 + "}\n"
        session.insert(1, block)
        assert session.item(1) == block and session.numbers().steps == 20_001
        assert session.undo() and session.circuit() == "R 0\n"


def test_a_circuit_that_is_refused_opens_no_session():
    with pytest.raises(stabsim.Refused) as told:
        stabsim.Circuit("M 0\nFOO\n").edit()
    assert (told.value.number, told.value.line) == (1, 2) and told.value.explanation.startswith("2: FOO\n   ^^^\n")
    with pytest.raises(stabsim.Refused) as told:
        stabsim.Circuit("M 3\n").edit(qubits=2)
    assert told.value.number == 6


def process_runs(number):
    try:
        with open(f"/proc/{number}/stat", encoding="ascii") as file:
            return file.read().rpartition(")")[2].split()[0] != "Z"
    except FileNotFoundError:
        return False


def process_ends(number):
    """Whether it does within a minute."""
    for _ in range(1200):
        if not process_runs(number):
            return True
        time.sleep(0.05)
    return False


def test_a_session_ends_its_process():
    with stabsim.Circuit("M 0\n").edit() as session:
        process = session.process.number
        assert process_runs(process) and str(process) in repr(session)
    assert process_ends(process) and "closed" in repr(session)
    for _ in range(2):
        with pytest.raises(stabsim.SessionEnded, match="closed"):
            session.detectors()
    session.close()


def test_a_session_whose_process_was_killed_says_so_at_each_call():
    session = stabsim.Circuit("M 0\n").edit()
    os.kill(session.process.number, signal.SIGKILL)
    session.process.process.wait()
    for _ in range(3):
        with pytest.raises(stabsim.SessionEnded, match="status -9"):
            session.insert(0, "X 0")
    session.close()


def test_a_call_that_is_broken_off_ends_the_session(monkeypatch):
    with stabsim.Circuit("M 0\n").edit() as session:
        def interrupted():
            raise KeyboardInterrupt

        monkeypatch.setattr(session.process, "read_line", interrupted)
        with pytest.raises(KeyboardInterrupt):
            session.detectors()
        monkeypatch.undo()
        with pytest.raises(stabsim.SessionEnded, match="broken off"):
            session.detectors()


def test_two_threads_at_once_are_told():
    with stabsim.Circuit("M 0\n").edit() as session, session.process.lock:
        found = []

        def ask():
            try:
                session.detectors()
            except RuntimeError as fault:
                found.append(str(fault))

        thread = threading.Thread(target=ask)
        thread.start()
        thread.join()
        assert found == ["another thread is in a call of this session"]


DRIVER = """
import stabsim, time
session = stabsim.Circuit("M 0\\n").edit()
print(session.process.number, flush=True)
while True:
    session.insert(0, "X 0")
    session.delete(0)
"""


def test_a_driver_that_is_killed_leaves_no_process():
    with subprocess.Popen([sys.executable, "-c", DRIVER], stdout=subprocess.PIPE, text=True) as driver:
        process = int(driver.stdout.readline())
        time.sleep(0.2)
        assert process_runs(process)
        driver.kill()
    assert process_ends(process)


def test_edits_of_a_session_are_runs_of_the_edited_circuit():
    numbers = np.random.default_rng(3)
    with stabsim.Circuit(codes.surface_code(3, 2)).edit(seed=4) as session:
        for _ in range(25):
            places = session.circuit().count("\n")
            kind = numbers.choice(["insert", "insert", "delete", "undo"])
            try:
                if kind == "insert":
                    session.insert(int(numbers.integers(places)), f"{numbers.choice(['X', 'Z', 'H', 'S'])} {numbers.integers(26)}")
                elif kind == "delete":
                    session.delete(int(numbers.integers(places)))
                else:
                    session.undo()
            except stabsim.Refused as refused:
                assert refused.number in (8, 12)
            again = stabsim.Circuit(session.circuit())
            detectors, observables = again.detect(1, seed=4, separate_observables=True)
            assert np.array_equal(session.records(), again.sample(1, seed=4)[0])
            assert np.array_equal(session.detectors(), detectors[0]) and np.array_equal(session.observables(), observables[0])


LEFT_OPEN = """
import stabsim
kept = [stabsim.Circuit("M 0").edit() for _ in range(2)]
kept[0].itself = kept[0]
stabsim.Circuit("M 0").edit().records()
print(*(it.process.number for it in kept))
"""


def test_a_session_that_is_left_open_ends_with_the_program_without_a_warning():
    done = subprocess.run([sys.executable, "-X", "dev", "-c", LEFT_OPEN], capture_output=True, text=True, check=True)
    assert done.stderr == "" and not any(os.path.exists(f"/proc/{number}") for number in done.stdout.split())
