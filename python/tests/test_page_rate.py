"""The logical error rate on the page: of a noise model of the literature on the circuit, by matching."""

import numpy as np
import pytest
import stabsim
from browsing import Keys, needs_browser
from stabsim import codes
from stabsim.collecting import matching
from stabsim.page.noise import MODELS, OWN
from stabsim.page.rate_process import counted

CODE = codes.repetition_code(3, 1)


NOISY = str(stabsim.NoiseModel.code_capacity(0.15).on(CODE))


@pytest.mark.parametrize("text, model, chance", [(CODE, "code capacity", 0.15), (NOISY, OWN, 0), (NOISY.replace("0.15", "0.9"), "code capacity", 0.15)])
def test_the_rate_of_a_repetition_code_is_that_of_a_vote(text, model, chance):
    # Each of three qubits is flipped by X or Y, two thirds of 0.15, and a vote is wrong if two or three are.
    flipped = 0.1
    wrong = 3 * flipped**2 * (1 - flipped) + flipped**3
    *_, last = counted(text, model, chance)
    low, best, high = last["rate"]
    assert last["errors"] >= 500 and last["shots"] % 1024 == 0
    assert low < wrong < high and best == last["errors"] / last["shots"] and best == pytest.approx(wrong, rel=0.15)


@pytest.mark.parametrize("text, model, said", [
    (CODE, "none", "there is no model none"), (CODE, OWN, "the circuit has no noise"),
    ("R 0\nM 0\nDETECTOR rec[-1]\n", "SD6", "no observable"),
    (CODE, "EM3", "CX"),
])
def test_what_has_no_rate_says_why(text, model, said):
    with pytest.raises(ValueError, match=said):
        list(counted(text, model, 0.001))


def test_a_detector_that_a_coin_decides_is_refused():
    with pytest.raises(stabsim.StabsimError):
        list(counted("R 0\nH 0\nM 0\nDETECTOR rec[-1]\nOBSERVABLE_INCLUDE(0) rec[-1]\n", "SD6", 0.001))


@pytest.mark.parametrize("make", [codes.toric_code, codes.surface_code])
def test_matching_corrects_each_single_error_of_a_code_of_distance_3_with_and_without_a_boundary(make):
    model = stabsim.error_model(make(3, 2, noise=codes.Noise.phenomenological(0.01)), decompose=True)
    checks, observables = model.check_matrices()
    found = matching.decoder(model)(checks.T)
    assert len(model) > 20 and np.array_equal(found, observables.T)


def test_all_models_of_the_literature_are_offered():
    makers = {name for name, its in vars(stabsim.NoiseModel).items() if isinstance(its, classmethod)}
    assert {name.lower().replace(" ", "_") for name in MODELS} == makers


@needs_browser
def test_the_rate_is_counted_in_the_background_and_kept_as_that_before_an_edit(open_page):
    page = open_page(CODE)
    offers = "#choice button"
    page.click("#about-rate .ask:last-child")
    page.wait(lambda: [it.split(":")[0] for it in page.texts(offers)] == list(MODELS))
    page.press(*[Keys.ARROW_DOWN] * list(MODELS).index("code capacity"), Keys.ENTER)
    page.wait(lambda: page.focused() == "asked")
    page.find("asked").clear()
    page.find("asked").send_keys("0.15", Keys.ENTER)
    page.wait(lambda: page.texts("#about-rate .ask:last-child") == ["Count ▾"] and "shots wrong" in page.find("about-rate").text)
    said = page.texts("#about-rate p")[0]
    assert said.endswith(" shots wrong · code capacity 0.15") and float(page.texts("#about-rate h3")[0].removeprefix("Rate ")) == pytest.approx(0.028, rel=0.15)
    page.type_on(0, "x")
    page.wait(lambda: page.texts("#about-rate p") == [f"before the last edits: {said}"] and page.texts("#about-rate h3") == ["Rate"])


@needs_browser
def test_counting_is_stopped_and_what_has_no_rate_says_so(open_page):
    # So seldom an error takes long to be met.
    page = open_page(codes.surface_code(3, 3))
    page.ask("page.link.ask({ask: 'rate', model: 'SD6', chance: 0.000001})")
    page.wait(lambda: page.texts("#about-rate .ask:last-child") == ["Stop"])
    page.wait(lambda: " of " in page.find("about-rate").text)
    page.click("#about-rate .ask:last-child")
    page.wait(lambda: page.texts("#about-rate .ask:last-child") == ["Count ▾"] and " of " in page.find("about-rate").text)
    page.ask("page.link.ask({ask: 'rate', model: 'EM3', chance: 0.001})")
    page.wait(lambda: "CX" in page.find("about-rate").text and page.texts("#about-rate .ask:last-child") == ["Count ▾"])
