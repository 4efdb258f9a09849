"""Models after edits in a block: they are those of the edited texts, made anew, and the program is asked about few rounds where these say all."""

import pytest
import stabsim
from stabsim import codes
from stabsim.noise import flipped
from stabsim.noise.renewing_blocks import FEW

# A qubit that a check is measured with, and two that change places if a SWAP is put in.
CHECK = """R 0 1 2 3 4
X_ERROR(0.25) 0 1
MR 3
REPEAT 20 {
    DEPOLARIZE1(0.03) 0 1 2
    CX 0 3 1 3
    MR(0.125) 3
    DETECTOR(4) rec[-1] rec[-2]
    SHIFT_COORDS(1)
}
M(0.0625) 0 1 2
DETECTOR rec[-2] rec[-3] rec[-4]
OBSERVABLE_INCLUDE(0) rec[-3]
"""


def after(text, edits, monkeypatch):
    """The model after edits of a text, if it was not made anew, and how many rounds the program was asked about each time."""
    asked = []
    run = flipped.program.run
    monkeypatch.setattr(flipped.program, "run", lambda words, given: asked.append(given) or run(words, given))
    with stabsim.Circuit(text).edit() as session:
        session.error_model()
        asked.clear()
        made = []
        anew = stabsim.error_model
        monkeypatch.setattr("stabsim.session.session.error_model", lambda *its, **options: made.append(1) or anew(*its, **options))
        for kind, *words in edits:
            getattr(session, kind)(*words)
        found, edited = session.error_model(), session.circuit()
    rounds = {int(line.split()[1]) for given in asked for line in given.splitlines() if line.startswith("REPEAT")}
    assert found == stabsim.error_model(edited) and found.causes.mechanisms.tolist() == stabsim.error_model(edited).causes.mechanisms.tolist()
    assert [found.explain(it) for it in range(len(found))] == [stabsim.error_model(edited).explain(it) for it in range(len(found))]
    return None if made else found, rounds


@pytest.mark.parametrize("edits", [
    # After a reset nothing of the errors before it is left.
    [("insert", "3/3", "R 3")],
    # The check is measured twice, of which one detector more is made.
    [("insert", "3/2", "M(0.25) 3"), ("insert", "3/4", "DETECTOR(5) rec[-1] rec[-3]"), ("insert", "3/4", "DETECTOR rec[-2] rec[-3]")],
    # One qubit of the check is measured by a qubit more.
    [("insert", "3/1", "CX 0 4"), ("insert", "3/2", "MR(0.25) 4"), ("replace", "3/5", "DETECTOR(4) rec[-1] rec[-3]")],
    # A detector in front of those that were there, and lines in another order.
    [("insert", "3/3", "DETECTOR rec[-1] rec[-1]"), ("move", "3/1", "3/0")],
    [("delete", "3/3"), ("insert", "3/0", "X_ERROR(0.5) 3")],
])
def test_an_edit_in_a_block_is_asked_of_few_rounds(edits, monkeypatch):
    found, rounds = after(CHECK, edits, monkeypatch)
    assert found is not None and rounds <= {*FEW}


def test_regions_that_come_again_after_two_rounds_are_not_taken_for_those_of_one(monkeypatch):
    # The third qubit takes the place of the first, so the observable is at either in turn, and checks are of others.
    text = CHECK.replace("CX 0 3 1 3", "CX 1 3")
    _, rounds = after(text.replace("DETECTOR rec[-2] rec[-3] rec[-4]\n", ""), [("insert", "3/0", "SWAP 0 2")], monkeypatch)
    assert max(rounds) == 20


@pytest.mark.parametrize("rounds", [8, 9])
def test_coins_that_decide_after_some_numbers_of_rounds_alone_are_found(rounds):
    # A quarter turn in each round: after a multiple of two rounds the outcome is certain.
    text = f"RX 0\nREPEAT {rounds} {{\n    Z_ERROR(0.25) 0\n    TICK\n}}\nMX 0\nOBSERVABLE_INCLUDE(0) rec[-1]\n"
    with stabsim.Circuit(text).edit() as session:
        session.error_model()
        session.insert("1/1", "S 0")
        if rounds == 8:
            assert session.error_model() == stabsim.error_model(session.circuit())
        else:
            with pytest.raises(stabsim.Refused) as refused:
                session.error_model()
            with pytest.raises(stabsim.Refused) as wanted:
                stabsim.error_model(session.circuit())
            assert str(refused.value) == str(wanted.value) and "NotDeterministic" in str(wanted.value)


def test_records_that_are_kept_leave_the_errors_of_a_long_block(monkeypatch):
    text = codes.surface_code(3, 12, noise=codes.Noise.uniform(0.01))
    path = next(item.path for item in stabsim.Circuit(text).walk() if "/" in item.path and item.name == "MR")
    with stabsim.Circuit(text).edit() as session:
        before = session.error_model()
        session.insert(path, "M(0.25) 2", keep_records=True)
        # The new record is in no detector, so its error flips nothing.
        assert session.error_model() == before
        assert (session.error_model().causes.mechanisms == -1).sum() == (before.causes.mechanisms == -1).sum() + 11
