"""The history on the page: an entry for each thing that was done, with what it flipped."""

import re

from browsing import needs_browser
from stabsim import codes

pytestmark = needs_browser


def test_an_entry_has_what_it_flipped_and_neither_a_time_nor_words_if_nothing(open_page):
    page = open_page("R 0 1\nTICK\nM 0 1\nDETECTOR rec[-1]\nDETECTOR rec[-2]\n")
    for letter, flipped in (("x", "D1"), ("z", ""), ("y", "D1")):
        page.type_on(0, letter)
        page.wait(lambda: page.history()[-1].endswith(f" {letter.upper()} 0"))
        page.wait(lambda: page.texts("#edits .now .told") == [flipped])
    assert page.texts("#edits li") == ["opened", "insert 1 X 0D1", "insert 2 Z 0", "insert 3 Y 0D1"]
    assert not re.search(r"\d:\d\d|\bago\b|\bms\b|nothing", page.find("edits").text)
    # What many bits are is cut short.
    page.ask("page.send([{ kind: 'replace', place: '5', item: 'M !0 !1' }])")
    page.wait(lambda: page.texts("#edits .now .told") == ["D0 D1"])


def test_a_click_goes_to_an_entry_and_those_after_it_are_struck_out_until_another_comes(open_page):
    page = open_page("R 0\nTICK\nM 0\nDETECTOR rec[-1]\n")
    for letter in "xzh":
        page.type_on(0, letter)
        page.wait(lambda: page.history()[-1].endswith(f" {letter.upper()} 0"))
    page.click("#edits li:nth-child(2) button")
    page.wait(lambda: page.texts("#edits .undone button") == page.history()[2:])
    assert page.circuit() == "R 0\nX 0\nTICK\nM 0\nDETECTOR rec[-1]\n" and page.texts("#edits .now button") == ["insert 1 X 0"]
    page.type_on(0, "y")
    page.wait(lambda: page.history() == ["opened", "insert 1 X 0", "insert 2 Y 0"] and page.texts("#edits .undone") == [])


def test_the_entry_that_is_there_stays_in_sight_if_more_is_told_above_it(open_page):
    page = open_page(codes.surface_code(3, 3))
    page.choose_qubit(10)
    for count in range(14):
        page.press("z")
        page.wait(lambda: len(page.history()) == 2 + count)
    whole = page.box("#edits")
    page.click("#about-distance button")
    page.wait(lambda: page.texts("#about-distance .link"))
    page.settle()
    _, top, _, height = page.box("#edits")
    assert height < whole[3]
    # Its lower end is seen too.
    page.wait(lambda: page.box("#edits .now")[1] + page.box("#edits .now")[3] <= top + height + 1)
