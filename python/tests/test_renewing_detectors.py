"""Models after edits of detectors alone: they are those of the edited texts, made anew, bit for bit, and the program is asked for new ones alone."""

import contextlib
import random

import pytest
import stabsim
from random_edits import ROUNDS, told
from stabsim import codes
from stabsim.noise import renewing, renewing_detectors

NESTED = """R 0 1 2 3
X_ERROR(0.25) 0 1 2
M(0.125) 3
DETECTOR(9) rec[-1]
REPEAT 3 {
    DEPOLARIZE1(0.03) 0 1
    REPEAT 2 {
        CX 0 3
        DEPOLARIZE2(0.125) 0 3
        MR(0.25) 3
        DETECTOR(1) rec[-1] rec[-2]
        CX rec[-1] 1
        SHIFT_COORDS(0, 1)
    }
    M 1
    DETECTOR(2, 3) rec[-1]
    SHIFT_COORDS(1)
}
M(0.5) 0 2
DETECTOR rec[-1]
OBSERVABLE_INCLUDE(0) rec[-2]
"""
TEXTS = (NESTED, ROUNDS, codes.surface_code(3, 8, noise=codes.Noise.uniform(0.01)), str(stabsim.Circuit(codes.surface_code(2, 5, noise=codes.Noise.uniform(0.02))).flattened()))


def edit(session, numbers):
    """Puts a detector in, takes one out, changes its records or coordinates, or moves it over others or so that it names other records."""
    items = [item for item in stabsim.Circuit(session.circuit()).walk() if item.repeat is None]
    some = [item for item in items if item.name == "DETECTOR"]
    it, other = numbers.choice(some), numbers.choice(items)
    kind = numbers.choice(["insert", "again", "delete", "records", "coordinates", "move", "move"])
    if kind == "insert":
        session.insert(other.path, f"DETECTOR(4, 5, 6) rec[-{numbers.randint(1, 4)}] rec[-{numbers.randint(1, 9)}]")
    elif kind == "again":
        session.insert(it.path, str(it))
    elif kind == "delete" and len(some) > 1:
        session.delete(it.path)
    elif kind == "records":
        session.replace(it.path, f"DETECTOR {' '.join(it.targets)} rec[-{numbers.randint(1, 4)}]")
    elif kind == "coordinates":
        session.replace(it.path, f"DETECTOR({numbers.randint(0, 9)}) {' '.join(it.targets)}")
    elif kind == "move":
        *around, last = it.path.split("/")
        # Past a record that it names it is not moved.
        with contextlib.suppress(ValueError):
            session.move(it.path, "/".join([*around, str(max(int(last) + numbers.randint(-4, 4), 0))]), keep_records=numbers.random() < 0.5)


@pytest.mark.parametrize("seed", range(12))
def test_a_model_is_the_one_made_anew(seed, monkeypatch):
    numbers, found_by, seen = random.Random(seed), [], 0
    own = renewing.renewed_detectors
    monkeypatch.setattr(renewing, "renewed_detectors", lambda *its: found_by.append(own(*its)) or found_by[-1])
    with stabsim.Circuit(TEXTS[seed % len(TEXTS)]).edit() as session:
        session.error_model()
        for _ in range(14):
            told(lambda: edit(session, numbers))
            text = session.circuit()
            found, wanted = told(session.error_model), told(lambda: stabsim.error_model(text))
            assert type(found) is type(wanted), (text, found, wanted)
            if isinstance(found, str):
                assert found == wanted
                session.undo()
                session.error_model()
                continue
            seen += found_by[-1:] != [None]
            assert found == wanted and found.chances.tolist() == wanted.chances.tolist(), text
            assert found.causes.mechanisms.tolist() == wanted.causes.mechanisms.tolist(), text
            assert [found.explain(it) for it in range(0, len(found), 7)] == [wanted.explain(it) for it in range(0, len(found), 7)], text
    assert seen > 3


def test_a_detector_that_looks_far_back_has_its_errors_all_along():
    text = "R 0 1\n" + "X_ERROR(0.125) 0\nMR(0.25) 1\nDETECTOR rec[-1]\n" * 40 + "M 0\n"
    with stabsim.Circuit(text).edit() as session:
        before = session.error_model()
        session.insert(122, "DETECTOR rec[-1]")
        after = session.error_model()
        assert len(after) == len(before) + 1 and after == stabsim.error_model(session.circuit())
        # All forty flips of qubit 0 are one mechanism: an odd number of them happens.
        assert [after.chances[it] for it in range(len(after)) if after.flipped(it).tolist() == [40]] == [pytest.approx((1 - 0.75 ** 40) / 2)]


@pytest.mark.parametrize("records, fewest", [
    # A check beside the same one of the round before, and of four rounds before; a check alone, and a qubit that no round resets: their regions
    # go all the way.
    ("rec[-2] rec[-5]", True), ("rec[-2] rec[-14]", True), ("rec[-2]", False), ("rec[-1]", False),
])
def test_later_rounds_are_as_the_last_one_asked_for(records, fewest, monkeypatch):
    asked = []
    own = renewing_detectors.Part.table
    monkeypatch.setattr(renewing_detectors.Part, "table", lambda part, *its: asked.append(part.rounds) or own(part, *its))
    text = ROUNDS.replace("M 2 3 3\n", "M 2" + " 3" * 14 + "\n")
    with stabsim.Circuit(text).edit() as session:
        session.error_model()
        session.insert("2/4", f"DETECTOR(5) {records}")
        found, wanted = session.error_model(), stabsim.error_model(session.circuit())
    assert found == wanted and found.chances.tolist() == wanted.chances.tolist()
    assert found.causes.mechanisms.tolist() == wanted.causes.mechanisms.tolist()
    assert (9 not in asked) == fewest and min(asked) < 9
