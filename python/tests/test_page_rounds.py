"""Whole rounds at once on the page: several lines or ticks, and the circuit as a text."""

import pytest
from browsing import Keys, needs_browser
from selenium.webdriver.common.action_chains import ActionChains
from test_page_editor import do

pytestmark = needs_browser

CODE = "R 0 1\nTICK\nCX 0 1\nTICK\nM 1\nDETECTOR rec[-1]\nTICK\nM 0\nOBSERVABLE_INCLUDE(0) rec[-1]\n"


@pytest.fixture
def page(open_page):
    return open_page(CODE)


def lines(page):
    return page.circuit().splitlines()


def choose_lines(page, first, last):
    """Clicks a line, and another one with Shift."""
    page.choose(first)
    page.settle()
    chain = ActionChains(page.browser, duration=0).key_down(Keys.SHIFT)
    page.point_at(f"#text .row[data-path='{last}'] .name", chain=chain).click().key_up(Keys.SHIFT).perform()


def offer(page, words):
    page.click("#lines")
    page.wait(lambda: page.find("choice").is_displayed())
    page.browser.execute_script("[...document.querySelectorAll('#choice button')].find((it) => it.textContent.startsWith(arguments[0])).click()", words)


def chosen_rows(page):
    return page.texts("#text [aria-selected=true] .path")


def test_lines_become_a_block_and_its_rounds_are_written_out(page):
    choose_lines(page, "2", "3")
    page.wait(lambda: chosen_rows(page) == ["2", "3"])
    offer(page, "make a REPEAT")
    page.wait(lambda: page.find("asking").is_displayed())
    page.press("3", Keys.ENTER)
    page.wait(lambda: page.history() == ["opened", "make REPEAT 3 of 2 lines"])
    assert lines(page)[2:6] == ["REPEAT 3 {", "    CX 0 1", "    TICK", "}"]
    page.wait(lambda: chosen_rows(page) == ["2"])
    offer(page, "write its rounds out")
    page.wait(lambda: lines(page)[2:8] == ["CX 0 1", "TICK"] * 3)
    page.focus("#picture")
    page.press("z", held=[Keys.CONTROL])
    page.press("z", held=[Keys.CONTROL])
    page.wait(lambda: page.circuit() == CODE)


def test_ticks_are_chosen_on_the_timeline_copied_and_put_in(page):
    page.go_to(1)
    chain = ActionChains(page.browser, duration=0).key_down(Keys.SHIFT)
    page.point_at("#timeline", *page.seen("timeline.columnOf(words[0])", 2), chain=chain).click().key_up(Keys.SHIFT).perform()
    page.wait(lambda: chosen_rows(page) == ["2", "3", "4", "5", "6"])
    assert page.find("message").text == "ticks 1 to 2: 5 lines are chosen" and page.focused() == "text"
    page.press("c", held=[Keys.CONTROL])
    page.press("v", held=[Keys.CONTROL])
    page.wait(lambda: lines(page)[2:12] == CODE.splitlines()[2:7] * 2)
    assert page.history() == ["opened", "put 5 lines in"]
    page.wait(lambda: chosen_rows(page) == ["2", "3", "4", "5", "6"])
    page.press(Keys.DELETE)
    page.wait(lambda: page.circuit() == CODE)


def choose_ticks(page, first, last):
    """Clicks a tick on the timeline, and another one with Shift."""
    page.go_to(first)
    chain = ActionChains(page.browser, duration=0).key_down(Keys.SHIFT)
    page.point_at("#timeline", *page.seen("timeline.columnOf(words[0])", last), chain=chain).click().key_up(Keys.SHIFT).perform()
    page.wait(lambda: page.ask("page.views.timeline.range") == [first, last])


def test_ticks_of_a_round_are_moved_and_cut_and_put_in_at_another_tick(open_page):
    text = "R 0 1\nTICK\nREPEAT 3 {\n    H 0\n    TICK\n    S 0\n    TICK\n    CX 0 1\n    TICK\n    X 1\n    TICK\n}\nM 0 1\n"
    page = open_page(text)
    # The second round has ticks 5 to 8.
    choose_ticks(page, 5, 6)
    do(page, Keys.ARROW_DOWN, held=[Keys.ALT])
    assert page.history() == ["opened", "move 4 lines down"] and lines(page)[3:9] == ["    CX 0 1", "    H 0", "    TICK", "    S 0", "    TICK", "    TICK"]
    page.focus("#timeline")
    page.press("z", held=[Keys.CONTROL])
    page.wait(lambda: page.circuit() == text)
    choose_ticks(page, 6, 7)
    page.press("x", held=[Keys.CONTROL])
    page.wait(lambda: page.history() == ["opened", "delete 4 lines"])
    assert lines(page)[2:7] == ["REPEAT 3 {", "    H 0", "    TICK", "    X 1", "    TICK"]
    page.go_to(0)
    page.focus("#picture")
    page.press("v", held=[Keys.CONTROL])
    page.wait(lambda: lines(page)[:6] == ["R 0 1", "S 0", "TICK", "CX 0 1", "TICK", "TICK"])
    page.press("z", "z", held=[Keys.CONTROL])
    page.wait(lambda: page.circuit() == text)
    # From one round to another no lines follow each other.
    page.go_to(3)
    chain = ActionChains(page.browser, duration=0).key_down(Keys.SHIFT)
    page.point_at("#timeline", *page.seen("timeline.columnOf(words[0])", 6), chain=chain).click().key_up(Keys.SHIFT).perform()
    page.wait(lambda: page.find("message").text.startswith("these ticks are in several rounds"))


def exchange_lines(page, *paths):
    """Clicks lines with Ctrl."""
    page.settle()
    chain = ActionChains(page.browser, duration=0).key_down(Keys.CONTROL)
    for path in paths:
        page.point_at(f"#text .row[data-path='{path}'] .name", chain=chain).click()
    chain.key_up(Keys.CONTROL).perform()


def test_lines_that_are_apart_are_chosen_by_ctrl_copied_and_taken_out(page):
    page.choose("0")
    exchange_lines(page, "2", "5", "7", "5")
    page.wait(lambda: chosen_rows(page) == ["0", "2", "7"])
    offer(page, "reverse")
    page.wait(lambda: page.find("message").text == "the chosen lines are apart: choose some that follow each other")
    page.focus("#text")
    page.press("c", held=[Keys.CONTROL])
    page.press(Keys.DELETE)
    page.wait(lambda: lines(page) == ["TICK", "TICK", "M 1", "DETECTOR rec[-1]", "TICK", "OBSERVABLE_INCLUDE(0)"])
    assert page.history() == ["opened", "delete 3 lines"]
    page.choose("0")
    page.press("v", held=[Keys.CONTROL])
    page.wait(lambda: lines(page)[:4] == ["R 0 1", "CX 0 1", "M 0", "TICK"])
    # A click alone chooses one line again.
    page.choose("3")
    page.wait(lambda: chosen_rows(page) == ["3"])


def test_lines_are_moved_with_their_records(page):
    page.choose("7")
    page.press(Keys.ARROW_UP, Keys.ARROW_UP, Keys.ARROW_DOWN, held=[Keys.SHIFT])
    page.wait(lambda: chosen_rows(page) == ["6", "7"])
    do(page, Keys.ARROW_UP, held=[Keys.ALT])
    do(page, Keys.ARROW_UP, held=[Keys.ALT])
    assert lines(page)[4:8] == ["TICK", "M 0", "M 1", "DETECTOR rec[-1]"] and lines(page)[-1] == "OBSERVABLE_INCLUDE(0) rec[-2]"
    assert chosen_rows(page) == ["4", "5"]


def test_gates_are_reversed(open_page):
    page = open_page("H 0\nS 0\nTICK\nCX 0 1\n")
    choose_lines(page, "0", "3")
    offer(page, "reverse")
    page.wait(lambda: lines(page) == ["CX 0 1", "TICK", "S_DAG 0", "H 0"])
    assert page.history() == ["opened", "reverse 4 lines"]


def open_text(page):
    page.click("#as-text")
    page.wait(lambda: page.focused() == "source-text")


def write_text(page, text):
    page.browser.execute_script("const it = document.getElementById('source-text'); it.value = arguments[0]; it.focus();", text)
    page.press(Keys.ENTER, held=[Keys.CONTROL])


def test_the_text_is_edited_as_one_and_applied_as_one_step(page):
    open_text(page)
    assert page.browser.execute_script("return document.getElementById('source-text').value") == CODE
    page.click("#wrap")
    write_text(page, CODE.replace("CX 0 1", "CX 0 1\n  H 0").replace("M 1\n", "M 1 2\n"))
    page.wait(lambda: not page.find("source").is_displayed())
    assert lines(page)[2:6] == ["CX 0 1", "H 0", "TICK", "M 1 2"] and page.history()[1].startswith("edit the text: ") and len(page.history()) == 2
    page.wait(lambda: page.focused() == "text")
    page.press("z", held=[Keys.CONTROL])
    page.wait(lambda: page.circuit() == CODE)


def test_a_text_that_is_refused_stays_and_the_word_at_fault_is_chosen(page):
    open_text(page)
    write_text(page, CODE.replace("CX 0 1", "CX 0 1\n   BADGATE 3"))
    page.wait(lambda: page.find("source-said").text.startswith("No instruction has this name"))
    selected = "const it = document.getElementById('source-text'); return it.value.slice(it.selectionStart, it.selectionEnd)"
    assert page.browser.execute_script(selected) == "BADGATE" and page.circuit() == CODE and page.history() == ["opened"]
    page.press(Keys.ESCAPE)
    page.wait(lambda: not page.find("source").is_displayed())


def test_an_item_is_looked_for(open_page):
    page = open_page("H 0\nTICK\nREPEAT 2 {\n    MR 1\n    TICK\n}\nM 0\n")
    page.focus("#text")
    page.press("/")
    page.wait(lambda: page.focused() == "search-words")
    page.press("m", Keys.ENTER)
    page.wait(lambda: chosen_rows(page) == ["2/0"])
    page.press(Keys.ENTER)
    page.wait(lambda: chosen_rows(page) == ["3"])
    page.press(Keys.ENTER, held=[Keys.SHIFT])
    page.wait(lambda: chosen_rows(page) == ["2/0"])
    page.press(Keys.ESCAPE)
    page.wait(lambda: page.focused() == "text" and not page.find("search-words").is_displayed())


def test_the_number_of_an_observable_is_asked_for(page):
    page.go_to(2)
    page.choose_qubit(1)
    page.press("o")
    page.wait(lambda: page.find("asking").is_displayed())
    page.press("3", Keys.ENTER)
    page.wait(lambda: "OBSERVABLE_INCLUDE(3) rec[-1]" in lines(page))
    page.press("o", Keys.ESCAPE)
    page.wait(lambda: not page.find("asking").is_displayed())
    assert len(page.history()) == 2


PLACED = "QUBIT_COORDS(0, 0) 0\nQUBIT_COORDS(1, 0) 1\nQUBIT_COORDS(2, 0, 5) 2\nQUBIT_COORDS(0, 1) 3 4\nR 0 1 2 3 4\n"


def offer_for_chosen(page, words):
    """Chooses what the menu of the chosen qubits offers."""
    page.press(Keys.ENTER)
    page.wait(lambda: page.find("choice").is_displayed())
    page.browser.execute_script("[...document.querySelectorAll('#choice button')].find((it) => it.textContent.startsWith(arguments[0])).click()", words)


def test_qubits_are_moved_and_turned_with_their_coordinates(open_page):
    page = open_page(PLACED)
    page.choose_qubit(1, 2)
    do(page, Keys.ARROW_DOWN, held=[Keys.ALT])
    assert lines(page)[1:3] == ["QUBIT_COORDS(1, 1) 1", "QUBIT_COORDS(2, 1, 5) 2"] and page.history()[-1] == "move 2 qubits"
    offer_for_chosen(page, "turn")
    page.wait(lambda: lines(page)[1:3] == ["QUBIT_COORDS(1, 1) 1", "QUBIT_COORDS(1, 2, 5) 2"])
    page.drag(page.spot(3), page.spot_of_place(3, 1), held=Keys.ALT)
    page.wait(lambda: lines(page)[3:5] == ["QUBIT_COORDS(3, 1) 3", "QUBIT_COORDS(0, 1) 4"])
    page.press("z", held=[Keys.CONTROL])
    page.wait(lambda: lines(page)[3] == "QUBIT_COORDS(0, 1) 3 4")
    # All that are chosen go with the one that is dragged; what was turned out of sight was fitted in.
    page.choose_qubit(1, 2)
    seen = [page.spot_of_place(*place) for place in ((2, 1), (2, 2))]
    chain = page.point_at("#picture", *page.spot(2)).key_down(Keys.ALT).click_and_hold()
    page.point_at("#picture", *seen[1], chain=chain).perform()
    # While they are dragged it is seen where they would go.
    ghosts = "page.views.layout.elements().filter(({ glyph, role }) => glyph === 'data' && role === 'accent').map(({ x, y }) => [x, y])"
    page.wait(lambda: page.ask(ghosts) == seen)
    ActionChains(page.browser, duration=0).release().key_up(Keys.ALT).perform()
    page.wait(lambda: lines(page)[1:3] == ["QUBIT_COORDS(2, 1) 1", "QUBIT_COORDS(2, 2, 5) 2"])
    assert page.chosen() == [1, 2] and page.history()[1:] == ["move 2 qubits"] * 3


CORNER = "QUBIT_COORDS(0, 0) 0\nQUBIT_COORDS(3, 0, 5) 1\nQUBIT_COORDS(0, 1) 2\nQUBIT_COORDS(1, 2) 3\nR 0 1 2 3\n"


def test_a_chosen_group_is_mirrored_within_its_own_bounds(open_page):
    page = open_page(CORNER)
    page.choose_qubit(0, 1, 2)
    offer_for_chosen(page, "mirror them left to right")
    page.wait(lambda: lines(page)[:4] == ["QUBIT_COORDS(3, 0) 0", "QUBIT_COORDS(0, 0, 5) 1", "QUBIT_COORDS(3, 1) 2", "QUBIT_COORDS(1, 2) 3"])
    page.settle()
    offer_for_chosen(page, "mirror them upside down")
    page.wait(lambda: lines(page)[:4] == ["QUBIT_COORDS(3, 1) 0", "QUBIT_COORDS(0, 1, 5) 1", "QUBIT_COORDS(3, 0) 2", "QUBIT_COORDS(1, 2) 3"])
    assert page.history() == ["opened"] + ["move 3 qubits"] * 2 and page.chosen() == [0, 1, 2]
