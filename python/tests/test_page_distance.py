"""The distance by a circuit's own noise on the page, and of which errors it is asked."""

import asyncio
import threading

import pytest
import stabsim
from browsing import Keys, needs_browser
from stabsim import codes
from stabsim.page.board import Board
from stabsim.page.distance_questions import KINDS, question_of
from stabsim.page.distances import DistanceSearch
from stabsim.page.noise import OWN
from stabsim.page.opening import opened
from test_page_reasons import MARKED, about, ask_distance, shown_set

# A repetition code of three qubits. By hand: X of qubit 0 flips D0 and the observable, of 1 D0 and D1, of 2 D1; a wrong check flips D2 or D3
# too, which nothing else does. So all three X are the one set, and without that of qubit 2 nothing else flips D1 alone.
NOISY = """QUBIT_COORDS(0, 0) 0
QUBIT_COORDS(1, 0) 1
QUBIT_COORDS(2, 0) 2
R 0 1 2
TICK
X_ERROR(0.125) 0 1 2
TICK
MPP(0.25) Z0*Z1 Z1*Z2
DETECTOR rec[-2]
DETECTOR rec[-1]
TICK
M 0 1 2
DETECTOR rec[-5] rec[-3] rec[-2]
DETECTOR rec[-4] rec[-2] rec[-1]
OBSERVABLE_INCLUDE(0) rec[-3]
"""
# By hand: X of qubit 0, and X of 1 and 2 at once, flip the observable together and no detector. A marked error, or one of those everywhere, is on
# one qubit, and all three are to be flipped.
BOTH = MARKED.replace("R 0 1 2\n", "R 0 1 2\nX_ERROR(0.125) 0\nTICK\nE(0.25) X1 X2\n")
HEADS = {"own noise": "Distance 2 of its own noise", "marked": "Distance 3 of errors where I marks them", "everywhere": "Distance 3 of errors everywhere"}


def told_of(text, chosen=""):
    """What tabs hear last of the distance of a circuit, once it is found."""
    async def asked():
        told, tasks = [], []

        def start(task):
            tasks.append(asyncio.create_task(task))
            return tasks[-1]

        async def call(act, *words):
            return act(*words)

        board = Board(opened(text, "code.stim"))
        try:
            await DistanceSearch(told.append, start).ask(call, board, chosen)
            await asyncio.gather(*tasks)
        finally:
            board.close()
        return told[-1]

    return asyncio.run(asked())


@pytest.mark.parametrize("noise, number", [("X_ERROR(0.125) 0 1 2", 3), ("X_ERROR(0.125) 0 1", None), ("X_ERROR(0) 0 1 2", None),
                                           ("X_ERROR(0.125) 0 1\nE(0.25) X1 X2", 2), ("E(0.25) X0 X1 X2", 1)])
def test_the_distance_is_of_the_noise_that_there_is(noise, number):
    told = told_of(NOISY.replace("X_ERROR(0.125) 0 1 2", noise))
    found = "none" if number is None else f"distance {number}"
    assert [told[it] for it in ("state", "kind", "first")] == ["found", OWN, f"{found} of all errors of its own noise"]
    assert len(told["errors"]) == (number or 0)


def test_the_errors_of_a_set_of_noise_are_named_at_their_items():
    assert told_of(NOISY)["errors"] == [{"steps": 3, "path": "5", "name": f"X{qubit}", "record": None} for qubit in (0, 1, 2)]
    # Now X of qubit 2 is missing, and a wrong record of the last measurement flips D3 alone, so with a wrong second check the set is closed.
    told = told_of(NOISY.replace("X_ERROR(0.125) 0 1 2", "X_ERROR(0.125) 0 1").replace("M 0 1 2", "M 0 1\nM(0.25) 2"))
    assert sorted((error["name"], error["record"]) for error in told["errors"]) == [("M1", 1), ("M4", 4), ("X0", None), ("X1", None)]


def test_the_set_of_a_code_of_rounds_flips_an_observable_and_no_detector():
    text = codes.surface_code(3, 3, noise=codes.Noise.uniform(0.01))
    model, told = stabsim.error_model(text), told_of(text)
    assert told["first"].startswith("distance 3 ") and len(told["errors"]) == 3
    places = [model.causes.error_of(mechanism) for mechanism in range(len(model))]
    mechanisms = {(it.steps, str(it)): mechanism for mechanism, it in enumerate(places)}
    checks, observables = model.check_matrices()
    chosen = [mechanisms[error["steps"], error["name"]] for error in told["errors"]]
    assert not (checks[:, chosen].sum(axis=1) % 2).any() and (observables[:, chosen].sum(axis=1) % 2).any()


def test_what_has_no_distance_is_refused_in_words_and_so_is_another_kind():
    told = told_of("H 0\nX_ERROR(0.25) 0\nM 0\nDETECTOR rec[-1]\n")
    assert told["state"] == "refused" and "NotDeterministic" in told["said"]
    with pytest.raises(ValueError, match="no errors of others"):
        told_of(NOISY, "of others")


def test_what_is_stopped_while_the_error_model_is_made_begins_no_search(monkeypatch):
    begun, made, told = threading.Event(), threading.Event(), []

    def slow(kind, text):
        begun.set()
        made.wait()
        return question_of(kind, text)

    async def stopped():
        search = DistanceSearch(told.append, asyncio.create_task)
        search.begin(0, OWN, NOISY)
        await asyncio.to_thread(begun.wait)
        search.end()
        made.set()
        await asyncio.gather(search.task, return_exceptions=True)

    monkeypatch.setattr("stabsim.page.distances.question_of", slow)
    # No search may be made.
    monkeypatch.setattr("stabsim.page.distances.Search", None)
    asyncio.run(stopped())
    assert [(it["state"], it["said"]) for it in told] == [("running", ""), ("none", "the search was stopped")]


def test_a_circuit_with_noise_and_marks_is_asked_by_each():
    assert [told_of(BOTH, kind)["first"].split(" of ")[0] for kind in ("", *KINDS)] == ["distance 2", "distance 2", "distance 3", "distance 3"]
    assert [told_of(text)["kind"] for text in (BOTH, MARKED, MARKED.replace("I 0 1 2\n", ""))] == list(KINDS)
    assert question_of("marked", MARKED).words == [] and question_of("everywhere", MARKED).words == ["--everywhere"]


@needs_browser
def test_the_distance_of_noise_is_shown_with_its_set_and_falls_away_with_the_noise_of_a_qubit(open_page):
    page = open_page(NOISY)
    ask_distance(page)
    page.wait(lambda: page.texts("#about-distance h3") == ["Distance 3 of its own noise"])
    assert page.texts("#about-distance p") == ["X0 of X_ERROR at tick 1 X1 of X_ERROR at tick 1 X2 of X_ERROR at tick 1 "]
    page.go_to(1)
    assert shown_set(page) == ["X0", "X1", "X2"]
    page.go_to(0)
    assert shown_set(page) == ["X0 elsewhere", "X1 elsewhere", "X2 elsewhere"]
    page.point_at("#about-distance .ask").click().perform()
    page.wait(lambda: shown_set(page) == [])
    page.go_to(1)
    page.choose_qubit(2)
    page.press(Keys.DELETE)
    page.wait(lambda: "X_ERROR(0.125) 0 1\n" in page.circuit())
    page.wait(lambda: "before the last edits: distance 3 of all errors of its own noise" in about(page, "distance"))
    ask_distance(page)
    page.wait(lambda: page.texts("#about-distance h3") == ["Distance of its own noise"])
    page.wait(lambda: page.texts("#about-distance p")[:1] == ["no set of errors flips an observable unseen"])


@needs_browser
def test_the_errors_are_chosen_beside_compute_and_all_letters_of_a_mechanism_are_drawn(open_page):
    page = open_page(BOTH)
    # The first that is offered is what Compute takes.
    for place, (kind, head) in enumerate(HEADS.items()):
        page.click("#about-distance .ask:last-child")
        page.wait(lambda: page.texts("#choice button") == list(HEADS))
        page.press(*[Keys.ARROW_DOWN] * place, Keys.ENTER)
        page.wait(lambda head=head: page.texts("#about-distance h3") == [head])
        if kind == "own noise":
            page.go_to(0)
            assert shown_set(page) == ["X0", "X1 elsewhere", "X2 elsewhere"]
            page.go_to(1)
            assert shown_set(page) == ["X0 elsewhere", "X1", "X2"]
