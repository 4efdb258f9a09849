"""The picture of qubits under fingers, by touch events that the browser itself makes."""

import math

import pytest
from browsing import needs_browser

pytestmark = needs_browser

FOUR = "QUBIT_COORDS(0, 0) 0\nQUBIT_COORDS(1, 0) 1\nQUBIT_COORDS(0, 1) 2\nQUBIT_COORDS(1, 1) 3\nR 0 1 2 3\nTICK\nM 0 1\n"


@pytest.fixture
def page(open_page):
    opened = open_page(FOUR)
    opened.browser.execute_cdp_cmd("Emulation.setTouchEmulationEnabled", {"enabled": True, "maxTouchPoints": 2})
    yield opened
    opened.browser.execute_cdp_cmd("Emulation.setTouchEmulationEnabled", {"enabled": False})


def touch(page, kind, *spots, first=0):
    """Says that fingers are at spots of the picture, from the first of these fingers on."""
    box = page.find("picture").rect
    points = [{"x": box["x"] + left, "y": box["y"] + top, "id": finger} for finger, (left, top) in enumerate(spots, start=first)]
    page.browser.execute_cdp_cmd("Input.dispatchTouchEvent", {"type": kind, "touchPoints": points})


def slide(page, *ways):
    """Puts fingers down one after another, moves them all from spot to spot, and takes them away."""
    for count in range(1, len(ways) + 1):
        touch(page, "touchStart", *(way[0] for way in ways[:count]))
    for spots in zip(*(way[1:] for way in ways)):
        touch(page, "touchMove", *spots)
    touch(page, "touchEnd")


def steps(start, end, count=8):
    """Spots from one to another."""
    return [[a + (b - a) * step / count for a, b in zip(start, end)] for step in range(count + 1)]


def between(page):
    """A spot that no qubit is near, in the middle of all."""
    return [sum(axis) / 4 for axis in zip(*(page.spot(qubit) for qubit in range(4)))]


def test_a_tap_chooses_and_acts_with_the_tool_at_hand(page):
    slide(page, [page.spot(2)])
    page.wait(lambda: page.chosen() == [2])
    # A finger is not held as still as a mouse.
    left, top = page.spot(1)
    slide(page, [[left, top], [left + 5, top + 4]])
    page.wait(lambda: page.chosen() == [1])
    page.go_to(1)
    page.click("#palette [data-tool='H']")
    page.wait(lambda: "H 1" in page.circuit())


def test_one_finger_pans(page):
    before, start = page.spot(3), between(page)
    slide(page, steps(start, [start[0] - 60, start[1] + 35]))
    page.wait(lambda: page.spot(3) == pytest.approx([before[0] - 60, before[1] + 35], abs=2))
    assert page.chosen() == [] and page.find("scale").text == "100%"
    # From a qubit too, since there may be no room beside them.
    slide(page, steps(page.spot(3), before))
    page.wait(lambda: page.spot(3) == pytest.approx(before, abs=2))
    assert page.chosen() == []


def test_a_finger_leads_a_gate_on_two(page):
    page.go_to(1)
    page.click("#palette [data-tool='CZ']")
    slide(page, steps(page.spot(1), page.spot(3)))
    page.wait(lambda: "CZ 1 3" in page.circuit())


def test_two_fingers_pan(page):
    before, (left, top) = page.spot(0), between(page)
    fingers = [[left - 40, top], [left + 40, top]]
    slide(page, *(steps(finger, [finger[0] + 70, finger[1] - 30]) for finger in fingers))
    page.wait(lambda: page.spot(0) == pytest.approx([before[0] + 70, before[1] - 30], abs=4))
    assert page.find("scale").text == "100%" and page.chosen() == []


def test_a_pinch_zooms_where_it_is(page):
    left, top = between(page)
    apart = math.dist(page.spot(0), page.spot(3))
    slide(page, steps([left - 40, top], [left - 60, top]), steps([left + 40, top], [left + 60, top]))
    # The fingers are half as far again apart as they were, and so are the qubits, about the same middle.
    page.wait(lambda: math.dist(page.spot(0), page.spot(3)) == pytest.approx(1.5 * apart, rel=0.03))
    assert between(page) == pytest.approx([left, top], abs=4)
    slide(page, steps([left - 60, top], [left - 40, top]), steps([left + 60, top], [left + 40, top]))
    page.wait(lambda: math.dist(page.spot(0), page.spot(3)) == pytest.approx(apart, rel=0.03))
    assert page.chosen() == [] and len(page.history()) == 1


def test_a_finger_that_is_left_of_two_pans_on(page):
    left, top = between(page)
    touch(page, "touchStart", [left - 40, top])
    touch(page, "touchStart", [left - 40, top], [left + 40, top])
    # The second finger is taken away, and the first moves on.
    touch(page, "touchEnd", [left + 40, top], first=1)
    before = page.spot(0)
    for spot in steps([left - 40, top], [left - 90, top + 20]):
        touch(page, "touchMove", spot)
    touch(page, "touchEnd")
    page.wait(lambda: page.spot(0) == pytest.approx([before[0] - 50, before[1] + 20], abs=3))
    assert page.chosen() == []
