"""Why a detector is random, and the distance, on the page in a browser."""

import os

import pytest
import stabsim
from browsing import Keys, needs_browser
from stabsim import codes

pytestmark = needs_browser

# By hand: each M of qubit 1 is decided by a coin of its own, since RX comes between; D1 compares both, and D0 is deterministic.
RANDOM = """QUBIT_COORDS(0, 0) 0
QUBIT_COORDS(1, 0) 1
R 0
REPEAT 2 {
    TICK
    RX 1
    TICK
    M 1
}
TICK
M 0
DETECTOR(0, 0, 0) rec[-1]
DETECTOR(1, 0, 0) rec[-2] rec[-3]
"""
# Three X, one on each of the marked qubits, flip the observable and no detector, and no two do.
MARKED = """QUBIT_COORDS(0, 0) 0
QUBIT_COORDS(1, 0) 1
QUBIT_COORDS(2, 0) 2
R 0 1 2
TICK
I 0 1 2
TICK
M 0 1 2
DETECTOR rec[-1] rec[-2]
DETECTOR rec[-2] rec[-3]
OBSERVABLE_INCLUDE(0) rec[-1]
"""


SECOND_COIN = "#about-detector .link:nth-of-type(2)"


def coins(page):
    """The qubits that have the mark of a coin, each with whether it is thrown at this moment."""
    return page.ask("[...page.shown.scene().coins]")


def about(page, name):
    return page.find(f"about-{name}").text


def test_a_random_detector_says_which_measurements_make_it_so(open_page):
    page = open_page(RANDOM)
    page.click_bit("D1")
    page.wait(lambda: "decided by 2 coins: M 1 at tick 2, M 1 at tick 4" in about(page, "detector"))
    page.go_to(0)
    assert coins(page) == [[1, False]] and ["random", ""] in page.glyphs()
    # Each of them is a button that goes to its measurement.
    page.point_at(SECOND_COIN).click().perform()
    page.wait(lambda: page.find("moment-said").text == "tick 4" and coins(page) == [[1, True]])
    # One that is deterministic has a region, and no coins.
    page.click_bit("D0")
    page.wait(lambda: page.texts("#region")[0].startswith("region of D0") and coins(page) == [])


def test_a_button_that_is_pressed_stays_while_more_becomes_known(open_page):
    page = open_page(RANDOM)
    page.click_bit("D1")
    page.wait(lambda: "decided by 2 coins" in about(page, "detector"))
    page.point_at(SECOND_COIN).click_and_hold().perform()
    # As when the table of faults comes.
    page.ask("page.shown.known()")
    page.wait(page.is_idle)
    page.point_at(SECOND_COIN).release().perform()
    page.wait(lambda: page.find("moment-said").text == "tick 4")


def test_a_detector_is_chosen_in_the_tree_too(open_page):
    page = open_page(RANDOM)
    page.focus("#text")
    page.press(Keys.END, Keys.ARROW_UP)
    page.wait(lambda: "decided by 2 coins" in about(page, "detector"))
    assert page.ask("page.shown.bit") == "D1"
    page.press(Keys.ARROW_UP)
    page.wait(lambda: page.ask("page.shown.bit") == "D0")


def test_what_makes_a_detector_random_follows_edits(open_page):
    page = open_page(RANDOM)
    page.click_bit("D1")
    page.wait(lambda: "decided by 2 coins" in about(page, "detector"))
    # Without the RX both records are those of qubit 1 at 0.
    page.unfold(3)
    page.choose("3/1")
    page.press(Keys.DELETE)
    page.wait(lambda: len(page.history()) == 2)
    page.wait(lambda: "decided" not in about(page, "detector") and page.texts("#region")[0].startswith("region of D1"))


def ask_distance(page):
    page.point_at("#about-distance .ask").click().perform()


def shown_set(page):
    return sorted(page.ask("page.shown.scene().set.map(({qubit, letter, isHere}) => letter + qubit + (isHere ? '' : ' elsewhere'))"))


def test_the_distance_by_marked_errors_is_shown_with_its_set(open_page):
    page = open_page(MARKED)
    ask_distance(page)
    page.wait(lambda: page.texts("#about-distance h3") == ["Distance 3 of errors where I marks them"])
    assert page.texts("#about-distance p") == ["X0 at tick 1 X1 at tick 1 X2 at tick 1 "]
    page.go_to(1)
    assert shown_set(page) == ["X0", "X1", "X2"]
    page.go_to(0)
    assert shown_set(page) == ["X0 elsewhere", "X1 elsewhere", "X2 elsewhere"]
    # Escape lets go of the set, and an error shows it again, at its place.
    page.focus("#picture")
    page.press(Keys.ESCAPE)
    page.wait(lambda: shown_set(page) == [])
    page.point_at("#about-distance p .link").click().perform()
    page.wait(lambda: page.find("moment-said").text == "tick 1" and shown_set(page) == ["X0", "X1", "X2"])


def exchange_layers(page, first):
    """Exchanges the gates of a moment with those of the next, by keys: cut, have the next moved back, and put in again."""
    count = len(page.history())
    page.go_to(first)
    page.focus("#picture")
    page.press("a", held=[Keys.CONTROL])
    page.press("x", held=[Keys.CONTROL])
    page.wait(lambda: len(page.history()) == count + 1)
    page.go_to(first + 1)
    page.press("<", held=[Keys.SHIFT])
    page.wait(lambda: len(page.history()) == count + 2)
    page.go_to(first + 1)
    page.press("v", held=[Keys.CONTROL])
    page.wait(lambda: len(page.history()) == count + 3)


def test_a_schedule_is_exchanged_and_the_distance_falls(open_page):
    code, bad = codes.surface_code(3, 2), codes.surface_code(3, 2, bad_schedule=True)
    page = open_page(code)
    ask_distance(page)
    page.wait(lambda: page.texts("#about-distance h3") == ["Distance 3 of errors everywhere"])
    # The second and the third layer of gates: of the first round, which is by itself, and of the others, which are a block.
    exchange_layers(page, 3)
    exchange_layers(page, 10)
    assert [line for line in page.circuit().splitlines() if "CX" in line] == [line for line in bad.splitlines() if "CX" in line]
    page.wait(lambda: "before the last edits: distance 3 of all errors everywhere" in about(page, "distance"))
    ask_distance(page)
    page.wait(lambda: page.texts("#about-distance h3") == ["Distance 2 of errors everywhere"])


SLOW = """#!/bin/sh
[ "$1" = distance ] || exec "{program}" "$@"
echo $$ > "{pid}"
echo "distance: no set of 1" >&2
exec sleep 600
"""


def is_running(file):
    try:
        os.kill(int(file.read_text()), 0)
    except (ProcessLookupError, FileNotFoundError):
        return False
    return True


@pytest.mark.parametrize("kind, more", [("everywhere", {}), ("own noise", {"noise": codes.Noise.uniform(0.01)})])
def test_a_long_search_says_how_far_it_is_and_can_be_ended(open_page, tmp_path, monkeypatch, kind, more):
    pid = tmp_path / "pid"
    slow = tmp_path / "slow"
    slow.write_text(SLOW.format(program=stabsim.find_program(), pid=pid))
    slow.chmod(0o755)
    monkeypatch.setitem(os.environ, "STABSIM", str(slow))
    page = open_page(codes.surface_code(3, 2, **more))
    ask_distance(page)
    page.wait(lambda: "no set of 1" in about(page, "distance") and is_running(pid))
    # The button is the end, also if more is said while it is pressed.
    page.point_at("#about-distance .ask").click_and_hold().perform()
    page.ask("page.views.distance.take({state: 'running', kind: words[0], said: 'no set of 2', errors: []}, page.shown.state.items)", kind)
    page.point_at("#about-distance .ask").release().perform()
    page.wait(lambda: "the search was stopped" in about(page, "distance") and not is_running(pid))
    ask_distance(page)
    page.wait(lambda: "no set of 1" in about(page, "distance"))
    # So is an edit, since the circuit is another.
    page.go_to(6)
    page.type_on(10, "x")
    page.wait(lambda: len(page.history()) == 2 and not is_running(pid) and page.texts("#about-distance .ask") == ["Compute", "▾"])
