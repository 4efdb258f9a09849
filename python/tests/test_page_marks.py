"""Marks of errors on the page, in ten layers: they are no part of the circuit, and say what they flip together."""

import pytest
import stabsim
from browsing import Keys, needs_browser
from stabsim import codes

pytestmark = needs_browser

CODE = codes.surface_code(3, 3, written_out=True)
MARKS = "page.shown.layers.marks.map(({ layer, letter, qubit, moment }) => [layer, letter, qubit, moment])"
PLACES = "page.shown.layers.marks.map(({ letter, qubit, where }) => [where.path.join('/'), letter + ' ' + qubit])"
HAS_TABLE = "page.link.ask({ ask: 'faults', moment: 0, qubit: 0 }).then(({ flips }) => (flips ?? null) !== null)"


@pytest.fixture
def page(open_page):
    page = open_page(CODE)
    page.wait(lambda: page.ask(HAS_TABLE))
    return page


def take_layer(page, number):
    """Presses Shift and a digit, as a keyboard sends both."""
    page.settle()
    for kind in ("rawKeyDown", "keyUp"):
        page.browser.execute_cdp_cmd("Input.dispatchKeyEvent", {
            "type": kind, "key": ")!@#$%^&*("[number], "code": f"Digit{number}", "modifiers": 8, "windowsVirtualKeyCode": 48 + number})


def mark(page, moment, qubit, letter):
    page.go_to(moment)
    page.choose_qubit(qubit)
    page.press(letter)


def flips(page, layer):
    """What the marks of a layer are said to flip, once that is known."""
    page.wait(lambda: page.ask("page.shown.layers.flips(words[0]) !== null", layer))
    return page.ask("page.shown.layers.flips(words[0])", layer)


def flipped_by_edits(text, edits):
    """What Paulis flip that are put into a circuit, in front of the items at paths of it."""
    with stabsim.Circuit(text).edit() as session:
        before = [*session.detectors(), *session.observables()]
        count = len(session.detectors())
        for path, item in sorted(edits, key=lambda edit: [int(place) for place in edit[0].split("/")], reverse=True):
            session.insert(path, item)
        after = [*session.detectors(), *session.observables()]
    return [f"D{number}" if number < count else f"L{number - count}" for number, (was, now) in enumerate(zip(before, after)) if was != now]


def test_marks_of_a_layer_flip_what_the_same_paulis_would_as_edits(page):
    take_layer(page, 3)
    page.wait(lambda: page.find("layer").text == "marks 3")
    last = page.ask("page.moments()") - 1
    for moment, qubit, letter in ((2, 10, "x"), (7, 13, "z"), (last - 1, 3, "y"), (4, 10, "y"), (0, 5, "x")):
        mark(page, moment, qubit, letter)
    assert page.ask(MARKS) == [[3, "X", 10, 2], [3, "Z", 13, 7], [3, "Y", 3, last - 1], [3, "Y", 10, 4], [3, "X", 5, 0]]
    assert page.history() == ["opened"]
    found = flips(page, 3)
    assert found == flipped_by_edits(page.circuit(), page.ask(PLACES)) and found
    page.wait(lambda: page.texts("#about-marks .link") == ["3", *found[:8], "detector", "clear"])
    # Each bit that they flip has a ring on the timeline.
    rings = "page.views.timeline.elements().filter(({ stroke, width, path }) => stroke === 'ink' && width === 2 && path.length === 3).length"
    page.wait(lambda: page.ask(rings) == len(found))


def test_two_marks_on_one_place_are_their_product_and_layers_are_apart(page):
    take_layer(page, 1)
    mark(page, 3, 10, "x")
    page.press("z")
    take_layer(page, 0)
    page.press("z", "z")
    page.press("y")
    assert page.ask(MARKS) == [[1, "Y", 10, 3], [0, "Y", 10, 3]]
    take_layer(page, 1)
    page.press("y")
    assert page.ask(MARKS) == [[0, "Y", 10, 3]]
    take_layer(page, 0)
    page.press(Keys.DELETE)
    assert page.ask(MARKS) == [] and page.history() == ["opened"] and page.circuit() == page.ask("page.text()")
    # Without a layer at hand keys edit again.
    page.press(Keys.ESCAPE)
    page.wait(lambda: not page.find("layer").is_displayed())
    page.press("x")
    page.wait(lambda: len(page.history()) == 2)


def test_ten_layers_have_a_mark_each_and_are_told_beside_the_picture(page):
    for layer in range(10):
        take_layer(page, layer)
        page.wait(lambda: page.find("layer").text == f"marks {layer}")
        mark(page, 1 + layer % 3, 10, "xyz"[layer % 3])
    assert page.ask(MARKS) == [[layer, "XYZ"[layer % 3], 10, 1 + layer % 3] for layer in range(10)]
    told = "[...document.querySelectorAll('#about-marks [data-layer]')].map((it) => it.dataset.layer)"
    page.wait(lambda: page.ask(told) == [str(layer) for layer in range(10)])
    for layer in (2, 5, 8):
        assert flips(page, layer) == flips(page, 2)
    assert page.history() == ["opened"]


def test_marks_are_drawn_with_their_layer_and_cleared(page):
    take_layer(page, 7)
    mark(page, 3, 10, "z")
    # The layer's number is by the mark, above on the right of its qubit, and by the letter that it has come to, below on its left. The
    # latter comes once the program has propagated the mark.
    numbers = "page.views.layout.elements().filter(({ words, weight }) => words === '7' && weight === 700).map(({ x, y }) => [x > words[0], y > words[1]])"
    page.wait(lambda: page.ask(numbers, *page.spot(10)) == [[True, False], [False, True]])
    # At another moment its ring is broken.
    broken = "page.views.layout.elements().filter(({ stroke, dash }) => stroke === 'ink' && dash).length"
    assert page.ask(broken) == 0
    page.go_to(5)
    page.wait(lambda: page.ask(broken) == 1)
    page.click("#about-marks [data-layer='7'] .link:last-of-type")
    page.wait(lambda: page.ask(MARKS) == [] and not page.find("about-marks").is_displayed())


def test_marks_stay_with_their_tick_over_edits(open_page):
    page = open_page(codes.surface_code(3, 4))
    page.wait(lambda: page.ask(HAS_TABLE))
    block = page.ask("page.shown.state.items.findIndex((item) => item.items)")
    once = page.ask("page.shown.state.items[words[0]].once.bounds", block)
    first = page.ask("page.moments()") - 3 - 3 * once
    moment = first + once + 2
    take_layer(page, 2)
    mark(page, moment, 10, "x")
    before = flips(page, 2)
    assert before
    page.press(Keys.ESCAPE)
    # An error in this round alone splits the block, and leaves all moments.
    page.press("z")
    page.wait(lambda: "in round" in page.history()[-1])
    assert page.ask(MARKS) == [[2, "X", 10, moment]] and flips(page, 2) == before
    # A tick in front of it moves it.
    page.go_to(0)
    page.press("t")
    page.wait(lambda: page.ask(MARKS) == [[2, "X", 10, moment + 1]])
    assert flips(page, 2) == before
    page.press("z", held=[Keys.CONTROL])
    page.press("z", held=[Keys.CONTROL])
    page.wait(lambda: page.ask(MARKS) == [[2, "X", 10, moment]] and page.ask("page.shown.state.position") == 0)
    assert flips(page, 2) == before
