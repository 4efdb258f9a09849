"""Models after edits in several places and after splits: they are those of the edited texts, made anew, bit for bit, and are renewed."""

import pytest
import stabsim
from random_edits import ROUNDS
from stabsim import codes
from stabsim.noise import flipped, line_runs

# A long block between two lists that are long enough to have cuts of their own.
CODE = codes.surface_code(3, 30, noise=codes.Noise.uniform(0.01))
BLOCK = next(item for item in stabsim.Circuit(CODE).walk() if item.repeat)
AFTER = int(BLOCK.path) + 1
GATES = [("insert", f"{BLOCK.path}/3", "CX 1 2")] * 2
PAIR_BELOW = [("insert", str(AFTER), "CX 1 2")] * 2
PAIR_ABOVE = [("insert", "3", "CX 1 2")] * 2


def renewed(text, edits, monkeypatch):
    """What the program is asked for the model after edits of a text by one step, and for that before them again: both are as if made anew."""
    asked, made = [], []
    anew, run = stabsim.error_model, flipped.program.run
    with stabsim.Circuit(text).edit() as session:
        before = session.error_model()
        monkeypatch.setattr("stabsim.session.session.error_model", lambda *its, **options: made.append(its))
        monkeypatch.setattr(flipped.program, "run", lambda words, given: asked.append((words[0], given)) or run(words, given))
        with session.one_step():
            for kind, *words in edits:
                getattr(session, kind)(*words)
        found, edited = session.error_model(), session.circuit()
        session.undo()
        again = session.error_model()
    assert not made
    monkeypatch.undo()
    for model, wanted in ((found, anew(edited)), (again, before)):
        assert model == wanted and model.chances.tolist() == wanted.chances.tolist()
        assert model.causes.mechanisms.tolist() == wanted.causes.mechanisms.tolist()
        assert [model.explain(it) for it in range(0, len(model), 29)] == [wanted.explain(it) for it in range(0, len(model), 29)]
    return [given for command, given in asked if command == "faults"]


@pytest.mark.parametrize("path, rounds", [("2", (0,)), ("2", (4,)), ("2", (8,)), ("2/1", (1,)), ("2", (4, 1))])
def test_after_a_split_nothing_is_asked(path, rounds, monkeypatch):
    assert renewed(ROUNDS, [("split", path, number) for number in rounds], monkeypatch) == []


@pytest.mark.parametrize("edits", [
    [("insert", f"{AFTER}/3", "CX 1 2")] * 2, [("insert", f"{AFTER}/3", "X_ERROR(0.25) 1")], [("insert", f"{AFTER}/3", "X 1")],
    [("insert", str(AFTER + 1), "TICK"), ("split", str(AFTER + 2), 3)],
])
def test_a_round_that_is_split_off_is_edited_in_the_same_step(edits, monkeypatch):
    renewed(CODE, [("split", BLOCK.path, 20), *edits], monkeypatch)


@pytest.mark.parametrize("edits", [
    # Below a block a cut is between its last rounds.
    PAIR_BELOW, [*PAIR_BELOW, *GATES], [*GATES, *PAIR_ABOVE], [*PAIR_BELOW, *GATES, *PAIR_ABOVE],
    [*GATES, ("insert", "3", "X_ERROR(0.25) 1"), ("insert", str(AFTER + 1), "Z_ERROR(0.125) 2")],
])
def test_places_in_several_lists_are_one_after_another(edits, monkeypatch):
    renewed(CODE, edits, monkeypatch)


def test_noise_in_several_places_is_one_question(monkeypatch):
    places = {str(AFTER): "X_ERROR(0.25) 1", f"{BLOCK.path}/9": "X_ERROR(0.25) 1", f"{BLOCK.path}/3": "X 1", "3": "Y_ERROR(0.25) 1"}
    asked = renewed(CODE, [("insert", path, text) for path, text in places.items()], monkeypatch)
    assert len(asked) == 1 and sum(line.startswith("I ") for line in asked[0].splitlines()) == 3


@pytest.mark.parametrize("old, new, wanted", [
    ("abcd", "XabcdY", [("", "X"), ("", "Y")]), ("abcdef", "bcde", [("a", ""), ("f", "")]),
    ("abcd", "XbcY", [("abcd", "XbcY")]), ("abc" * 9, "X" * 40, [("abc" * 9, "X" * 40)]), ("", "", []), ("a", "", [("a", "")]),
])
def test_runs_are_apart_by_three_lines_that_are_alike(old, new, wanted):
    assert [(old[its.start : its.stop], new[others.start : others.stop]) for its, others in line_runs.runs_apart(old, new)] == wanted
