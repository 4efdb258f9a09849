"""Records on the page: if measurements come, go or move, lookbacks go on naming the same ones."""

import pytest
from browsing import Keys, needs_browser
from stabsim import codes
from test_page_editor import do

pytestmark = needs_browser

CODE = "R 0 1 2\nTICK\nM 0\nTICK\nM 1\nTICK\nDETECTOR rec[-2]\nDETECTOR rec[-1] rec[-2]\n"


@pytest.fixture
def page(open_page):
    return open_page(CODE)


def lines(page):
    return page.circuit().splitlines()


def test_a_measurement_that_is_put_in_leaves_each_detector_its_records(page):
    page.go_to(1)
    page.choose_qubit(2)
    do(page, "m")
    assert lines(page) == ["R 0 1 2", "TICK", "M 0 2", "TICK", "M 1", "TICK", "DETECTOR rec[-3]", "DETECTOR rec[-1] rec[-3]"]
    assert page.history() == ["opened", "replace 2 M 0 2"] and page.find("moment-said").text == "tick 1"
    page.press("z", held=[Keys.CONTROL])
    page.wait(lambda: page.circuit() == CODE)
    page.press("y", held=[Keys.CONTROL])
    page.wait(lambda: lines(page)[-2:] == ["DETECTOR rec[-3]", "DETECTOR rec[-1] rec[-3]"])


def test_with_the_switch_off_lookbacks_stay_as_they_are_written(page):
    page.click("#follow")
    page.go_to(1)
    page.choose_qubit(2)
    do(page, "m")
    assert lines(page)[-2:] == ["DETECTOR rec[-2]", "DETECTOR rec[-1] rec[-2]"]
    page.click("#follow")
    page.go_to(1)
    page.choose_qubit(2)
    do(page, Keys.DELETE)
    assert lines(page)[2] == "M 0" and lines(page)[-2:] == ["DETECTOR", "DETECTOR rec[-1]"]


def test_a_measurement_is_moved_to_another_tick_with_its_records(page):
    page.go_to(2)
    page.choose_qubit(1)
    do(page, "<", held=[Keys.SHIFT])
    assert lines(page) == ["R 0 1 2", "TICK", "M 0", "M 1", "TICK", "TICK", "DETECTOR rec[-2]", "DETECTOR rec[-1] rec[-2]"]
    page.go_to(1)
    page.choose_qubit(0)
    do(page, ">", held=[Keys.SHIFT])
    assert lines(page) == ["R 0 1 2", "TICK", "M 1", "TICK", "M 0", "TICK", "DETECTOR rec[-1]", "DETECTOR rec[-2] rec[-1]"]


def test_a_measurement_is_copied_to_another_tick_and_lookbacks_go_on_naming_the_first(page):
    page.go_to(1)
    page.choose_qubit(0)
    page.press("c", held=[Keys.CONTROL])
    page.go_to(2)
    page.press("v", held=[Keys.CONTROL])
    page.wait(lambda: lines(page) == ["R 0 1 2", "TICK", "M 0", "TICK", "M 1", "M 0", "TICK", "DETECTOR rec[-3]", "DETECTOR rec[-2] rec[-3]"])
    assert page.history() == ["opened", "insert 5 M 0"]


def test_detectors_that_lose_a_record_are_named(page):
    page.go_to(1)
    page.choose_qubit(0)
    do(page, Keys.DELETE)
    assert lines(page)[-2:] == ["DETECTOR", "DETECTOR rec[-1]"]
    page.wait(lambda: page.find("message").text == "D0 D1 lost a record that is gone")


def test_a_record_is_not_moved_after_what_names_it(page):
    page.choose("2")
    page.ask("page.send([{kind: 'delete', place: '2'}, {kind: 'insert', place: '7', item: 'M 0'}])")
    page.wait(lambda: page.find("message").text == "DETECTOR rec[-2]: the record that rec[-2] names would come after it")
    assert page.circuit() == CODE and page.history() == ["opened"]


def test_in_a_block_a_round_is_taken_out_if_it_has_to_be_and_the_measurement_is_shown(open_page):
    page = open_page("M 0 1\nREPEAT 4 {\n    TICK\n    MR 0\n    DETECTOR rec[-1] rec[-2]\n    TICK\n}\n")
    page.go_to(3)
    page.choose_qubit(1)
    do(page, "m")
    body = "    TICK\n    MR 0\n    DETECTOR rec[-1] rec[-{}]\n    M 1\n    TICK\n}}\n"
    assert page.circuit() == "M 0 1\nREPEAT 1 {\n" + body.format(2) + "REPEAT 3 {\n" + body.format(3)
    assert page.find("moment-said").text == "tick 3" and page.find("round-said").text == "round 0 of block 2, 0 to 2"
    page.wait(lambda: page.texts("#text [aria-selected=true]") == ["2/3M 1"])


def test_a_measurement_in_each_round_of_a_code_leaves_every_detector_deterministic(open_page):
    page = open_page(codes.surface_code(3, 3))
    before = len(page.ask("[...page.shown.state.detectors]"))
    page.go_to(page.ask("page.moments()") - 3)
    page.click("[data-rounds=all]")
    page.ask("page.send([{kind: 'insert', place: words[0] + '/11', item: 'MPP Z0*Z4'}])", str(block_of(page)))
    page.wait(lambda: "MPP Z0*Z4" in page.circuit())
    page.wait(lambda: page.ask("page.shown.state.deterministic ? [...page.shown.state.deterministic] : []") == [1] * (before + 1))


def block_of(page):
    return page.ask("page.shown.state.items.findIndex((item) => item.items)")
