"""What the page shows of regions, of the time of detectors, and of refusals, in a browser."""

import pytest
from browsing import Keys, needs_browser

pytestmark = needs_browser

# A Bell pair is measured by a product and corrected by its record, so that both detectors are deterministic.
CODE = """R 0 1 2
TICK
RX 2
TICK
MPP X0*Z2
TICK
CZ rec[-1] 0
TICK
MPP X0*Z2
DETECTOR(0, 0, 0, 7) rec[-1]
DETECTOR(0, 0, 1, 7) rec[-1]
OBSERVABLE_INCLUDE(0) rec[-1]
"""
@pytest.fixture
def page(open_page):
    return open_page(CODE)


def said(page):
    return "".join(page.texts("#region"))


def test_a_detector_is_at_its_moment_in_the_row_of_its_place(page):
    places = {number: page.seen("timeline.at(words[0])", f"D{number}") for number in (0, 1)}
    assert places[0][1] == places[1][1] and places[0][0] < places[1][0]
    for number, spot in places.items():
        page.point_at("#timeline", *spot).perform()
        page.wait(lambda: page.find("tip").text.startswith(f"D{number} at (0, 0, {number}, 7) is "))


def test_the_region_of_a_detector_is_on_the_qubits_tick_by_tick(page):
    # By hand: the record of the first product decides the sign of Z on qubit 0, with which X0*Z2 anticommutes, so between the
    # two products the region is X0 Z2, and the record has to be in the detector's set: the first product takes R away again.
    page.click_bit("D1")
    page.wait(lambda: said(page) == "region of D1: nothing here; ticks 2 to 3")
    shown = {}
    for moment in range(5):
        page.go_to(moment)
        shown[moment] = page.letters()
    assert shown == {0: [], 1: [], 2: ["X0", "Z2"], 3: ["X0", "Z2"], 4: []}
    page.go_to(3)
    assert said(page) == "region of D1: X0 Z2; ticks 2 to 3"
    page.press(Keys.ESCAPE)
    page.wait(lambda: page.letters() == [] and "No detector chosen" in page.find("about-detector").text)


def test_the_region_of_an_observable_is_shown_by_a_click(page):
    page.click_bit("L0")
    page.wait(lambda: said(page).startswith("region of L0: "))


def test_a_pauli_shows_the_region_of_the_first_bit_that_it_flips(page):
    page.go_to(2)
    page.type_on(0, "z")
    page.wait(lambda: page.texts("#edits .now .told")[0].startswith("D0 D1 L0"))
    page.wait(lambda: said(page) == "region of D0: X0 Z2; ticks 2 to 3")
    assert page.letters() == ["X0", "Z2"]
    # What commutes with the region flips nothing, and no region is shown.
    page.type_on(0, "x")
    page.wait(lambda: page.texts("#edits .now .told") == [""])
    page.wait(lambda: "No detector chosen" in page.find("about-detector").text)


def test_a_bit_that_a_coin_decides_has_no_region(open_page):
    page = open_page("RX 0\nTICK\nM 0\nDETECTOR(0, 0, 0) rec[-1]\n")
    page.click_bit("D0")
    page.wait(lambda: said(page) == "it is random, so that nothing flips it")


def test_too_many_steps_for_a_table_of_faults_are_said(open_page):
    page = open_page("R 0 1\nREPEAT 600000 {\n    TICK\n}\nM 0\nDETECTOR(0, 0, 0) rec[-1]\n")
    page.go_to(600_000)
    page.click_bit("D0")
    page.wait(lambda: said(page) == "there is no table of faults: it was refused as TooManySteps")


def test_a_refusal_is_explained_at_its_item(page):
    page.choose("0")
    page.press("i")
    page.press("DETECTOR rec[-2]", Keys.ENTER)
    page.wait(lambda: page.texts("#refusal") == ["refused"])
    assert page.texts("#fault") == ["DETECTOR rec[-2]\n         ^^^^^^^"]
    [why] = page.texts("#why")
    assert "item 0" in why and page.find("message").text.endswith(f" · {why}")


def test_a_refusal_is_explained_where_there_is_no_form(page):
    page.click("#follow")
    page.choose("4")
    page.press(Keys.DELETE)
    page.wait(lambda: "refused" in page.row("4"))
    assert "item 5" in page.find("message").text


def test_which_lines_were_rewritten_stays_in_sight(open_page):
    page = open_page("R 0 1\nISWAP 0 1\nTICK\nM 0\n")
    assert page.find("left-out").text == "1 line is rewritten."
    page.type_on(0, "x")
    page.wait(lambda: len(page.history()) == 2)
    assert page.find("left-out").is_displayed()


def test_of_a_file_that_is_read_as_it_is_nothing_is_said(page):
    assert not page.find("left-out").is_displayed()


def test_an_error_has_a_mark_at_its_own_tick_alone(open_page):
    # Without detectors nothing says what becomes of X0: it is X0 X1 and then X0 Z1, and neither is guessed.
    page = open_page("R 0 1\nTICK\nCX 0 1\nTICK\nH 1\nTICK\nM 0 1\n")
    page.type_on(0, "x")
    page.wait(lambda: page.history() == ["opened", "insert 1 X 0"])
    marks = []
    for moment in range(4):
        page.go_to(moment)
        marks.append([label for shape, label in page.glyphs() if shape == "X"])
    assert marks == [["X"], [], [], []]


def test_detectors_are_chosen_by_keys(page):
    page.focus("#timeline")
    for keys, chosen in ((".", "D0"), ("..", "D1"), (",", "D0")):
        page.press(*keys)
        page.wait(lambda: page.ask("page.shown.bit") == chosen)
