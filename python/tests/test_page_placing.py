"""Gates on qubits on which something acts in the tick: they take its place, or come beside it, and then both are marked."""

import pytest
from browsing import Keys, needs_browser
from selenium.webdriver.common.action_chains import ActionChains
from test_page_editor import FOUR, body, do

pytestmark = needs_browser


@pytest.fixture
def page(open_page):
    return open_page(FOUR)


def test_a_gate_takes_the_place_of_what_acts_on_the_chosen_and_joins_the_one_before_it(page):
    page.choose_qubit(0)
    do(page, "h")
    assert body(page)[:3] == ["R 1 2 3", "H 0", "TICK"]
    page.choose_qubit(2, 1)
    do(page, "h")
    assert body(page)[:3] == ["R 3", "H 0 2 1", "TICK"] and page.find("moment-said").text == "tick 0"
    assert ["gate", "H"] in page.glyphs() and ["reset", "0"] in page.glyphs()
    # The one that goes takes its pair with it, and what is there already stays.
    page.go_to(1)
    page.choose_qubit(1)
    do(page, "s")
    assert body(page)[3:5] == ["CX 2 3", "S 1"]
    page.press("s")
    page.wait(lambda: page.find("message").text == "S acts there already; with Alt one more is put in")
    assert len(page.history()) == 4


def test_a_measurement_that_takes_the_place_of_another_leaves_detectors_their_record(open_page):
    page = open_page(FOUR + "DETECTOR rec[-1]\nDETECTOR rec[-2]\n")
    page.go_to(2)
    page.choose_qubit(0, 1)
    do(page, "m", held=[Keys.SHIFT])
    assert body(page)[4:] == ["MX 0 1", "DETECTOR rec[-1]", "DETECTOR rec[-2]"]


@pytest.mark.parametrize("way", ["Alt", "Shift", "the palette with Shift"])
def test_a_gate_is_put_beside_what_acts_there_and_both_are_marked(page, way):
    page.choose_qubit(0, 2)
    if way == "the palette with Shift":
        page.point_at("#palette [data-tool='H']", chain=ActionChains(page.browser, duration=0).key_down(Keys.SHIFT)).click().key_up(Keys.SHIFT).perform()
    else:
        page.press("h", held=[{"Alt": Keys.ALT, "Shift": Keys.SHIFT}[way]])
    page.wait(lambda: body(page)[:3] == ["R 0 1 2 3", "H 0 2", "TICK"] and page.is_idle())
    # Both act on the same qubits, so they are moments of their own.
    assert page.find("moment-said").text == "tick 0.2"
    marked = "[...page.shown.scene().often]"
    assert page.ask(marked) == [[0, 2], [2, 2]]
    assert page.ask("page.views.layout.elements().filter(({words, fill}) => words === '2' && fill === 'sheet').length") == 2
    page.wait(lambda: "2 items act on it in this tick" in page.find("about-qubit").text)
    page.go_to(0)
    assert page.ask(marked) == [[0, 2], [2, 2]]
    page.go_to(2)
    assert page.ask(marked) == []


def test_an_error_on_a_gate_is_no_second_operation(page):
    page.choose_qubit(1)
    do(page, "x")
    assert body(page)[:2] == ["R 0 1 2 3", "X 1"] and page.ask("page.shown.often.size") == 0
