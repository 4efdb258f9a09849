"""Circuits that are drawn on the page by mouse and keys, by events that the browser itself makes."""

import pytest
import stabsim
from browsing import Keys, needs_browser
from stabsim import codes

pytestmark = needs_browser

# Two rounds of a repetition code of distance 3, as it is drawn below; the second round is a block of its own in the test after it.
REPETITION = """QUBIT_COORDS(0, 1) 0
QUBIT_COORDS(1, 1) 1
QUBIT_COORDS(2, 1) 2
QUBIT_COORDS(3, 1) 3
QUBIT_COORDS(4, 1) 4
R 0 1 2 3 4
TICK
CX 0 1 2 3
TICK
CX 2 1 4 3
TICK
MR 1 3
DETECTOR(1, 1, 3) rec[-2]
DETECTOR(3, 1, 3) rec[-1]
TICK
CX 0 1 2 3
TICK
CX 2 1 4 3
TICK
MR 1 3
DETECTOR(1, 1, 6) rec[-2] rec[-4]
DETECTOR(3, 1, 6) rec[-1] rec[-3]
TICK
M 0 2 4
DETECTOR(1, 1, 7) rec[-3] rec[-2] rec[-5]
OBSERVABLE_INCLUDE(0) rec[-3]
"""
FOUR = "QUBIT_COORDS(0, 0) 0\nQUBIT_COORDS(1, 0) 1\nQUBIT_COORDS(0, 1) 2\nQUBIT_COORDS(1, 1) 3\nR 0 1 2 3\nTICK\nCX 0 1 2 3\nTICK\nM 0 1\n"
PLACES = FOUR.splitlines()[:4]


@pytest.fixture
def page(open_page):
    return open_page(FOUR)


def do(page, *keys, held=()):
    """Presses keys that make one entry of the history, and waits until it is made, and what it put in is shown."""
    count = len(page.history())
    page.press(*keys, held=held)
    page.wait(lambda: len(page.history()) > count and page.is_idle())


def body(page):
    """The items after the places of qubits, without ticks at the end."""
    return page.circuit().splitlines()[4:]


def test_a_repetition_code_is_drawn_from_nothing(open_page):
    page = open_page(None)
    page.press("q")
    for column in range(5):
        page.point_at("#picture", *page.spot_of_place(column, 1)).click().perform()
        page.wait(lambda: len(page.history()) == column + 2 and page.is_idle())
    page.press(Keys.ESCAPE)
    page.choose_qubit(*range(5))
    do(page, "r")
    for _ in range(2):
        do(page, "t")
        # Of four the second c takes them as pairs.
        page.choose_qubit(0, 1, 2, 3)
        do(page, "c", "c")
        do(page, "t")
        # Of one chosen qubit the gate waits for the other.
        page.choose_qubit(2)
        page.press("c")
        page.choose_qubit(1)
        page.choose_qubit(4)
        page.choose_qubit(3)
        page.press(Keys.ESCAPE)
        do(page, "t")
        page.choose_qubit(1, 3)
        do(page, "n")
        do(page, "D")
    do(page, "t")
    page.choose_qubit(0, 2, 4)
    do(page, "m")
    page.choose_qubit(0, 2, 1)
    do(page, "d")
    page.choose_qubit(0)
    do(page, "o", Keys.ENTER)
    assert page.circuit() == REPETITION
    page.wait(lambda: page.ask("page.shown.state.deterministic ? [...page.shown.state.deterministic] : []") == [1] * 6)


def test_what_is_cut_at_one_tick_is_put_in_at_another(page):
    page.go_to(1)
    page.choose_qubit(2, 0)
    do(page, "x", held=[Keys.CONTROL])
    assert body(page) == ["R 0 1 2 3", "TICK", "TICK", "M 0 1"]
    page.go_to(2)
    do(page, "v", held=[Keys.CONTROL])
    assert body(page) == ["R 0 1 2 3", "TICK", "TICK", "M 0 1", "CX 0 1 2 3"] and len(page.history()) == 3
    page.press("z", "z", held=[Keys.CONTROL])
    page.wait(lambda: page.circuit() == FOUR)


TOOLS = {"R": "r", "H": "h", "CX": "c", "MR": "n", "M": "m"}


def lines_of(code, renumbered):
    """The instructions of a code without coordinates, as name, qubits by other numbers, and records in their order."""
    found = []
    for line in code.splitlines():
        name, *targets = line.partition("(")[0].split(" ") if "(" not in line else [line.partition("(")[0], *line.partition(") ")[2].split(" ")]
        if name not in ("#", "QUBIT_COORDS", "SHIFT_COORDS"):
            found.append((name, [renumbered(int(target)) for target in targets if target.isdigit()], sorted(target for target in targets if target[0] == "r")))
    return found


def draw_detectors(page, code, measured):
    """Draws detectors by the qubits of their records, if `measured` has the qubit of each record before them."""
    for name, _, records in code:
        page.choose_qubit(*dict.fromkeys(measured[int(record[4:-1])] for record in records))
        do(page, *(("o", Keys.ENTER) if name == "OBSERVABLE_INCLUDE" else "d"))


def test_a_surface_code_is_drawn_from_nothing(open_page):
    code = codes.surface_code(3, 2, written_out=True)
    placed = [line[13:].split(") ") for line in code.splitlines() if line.startswith("QUBIT_COORDS")]
    number = {int(qubit): drawn for drawn, (_, qubit) in enumerate(placed)}
    wanted = lines_of(code, number.get)
    page = open_page(None)
    page.press("q")
    for place, _ in placed:
        page.point_at("#picture", *page.spot_of_place(*map(float, place.split(", ")))).click().perform()
    page.wait(lambda: len(page.history()) == 1 + len(placed) and page.is_idle())
    page.press(Keys.ESCAPE)
    measured = []
    for at, (name, qubits, records) in enumerate(wanted):
        if name == "TICK":
            do(page, "t")
        elif name in TOOLS:
            page.choose_qubit(*qubits)
            do(page, *(TOOLS[name] * (2 if name == "CX" and len(qubits) > 2 else 1)))
            measured += qubits if "M" in name else []
        elif len(records) == 2 and wanted[at - 1][0] == "MR":
            # Each ancilla's record with the one before it, by one key.
            page.choose_qubit(*wanted[at - 1][1])
            do(page, "D")
        elif not (len(records) == 2 and len(wanted[at - 1][2]) == 2):
            draw_detectors(page, [wanted[at]], measured)
    assert lines_of(page.circuit(), int) == wanted
    # By its flows too it does what the code does; its qubits have other numbers, so only parities of records are compared.
    assert stabsim.Circuit(page.circuit()).same_flows(stabsim.Circuit(code), qubits=())
    page.wait(lambda: page.ask("page.shown.state.deterministic ? page.shown.state.deterministic.every((it) => it === 1) : false"))


def test_shift_and_the_palette_choose_other_gates(page):
    page.go_to(1)
    page.choose_qubit(0)
    do(page, "m", held=[Keys.SHIFT])
    page.choose_qubit(1, 2)
    do(page, "v")
    page.press(Keys.ESCAPE)
    page.point_at("#palette [data-tool='SQRT_X']").click().perform()
    page.choose_qubit(3)
    page.wait(lambda: len(page.history()) == 4)
    added = [line for line in body(page) if line not in FOUR.splitlines()]
    assert added == ["CZ 1 2", "MX 0", "SQRT_X 3"]


def test_a_product_is_measured_on_the_chosen_qubits(page):
    page.go_to(1)
    page.choose_qubit(0, 1, 3)
    page.press("p")
    page.wait(lambda: page.find("choice").is_displayed())
    do(page, "x")
    assert "MPP X0*X1*X3" in body(page)
    page.wait(lambda: [it for it in page.glyphs() if it[0] == "factor"] == [["factor", "X"]] * 3)


def test_qubits_are_chosen_by_a_box(page):
    [left, top], [right, bottom] = page.spot(0), page.spot(2)
    page.drag([left - 30, top - 30], [right + 30, bottom + 30])
    page.wait(lambda: page.chosen() == [0, 2])
    page.drag([page.spot(1)[0] - 20, top - 30], [page.spot(1)[0] + 30, top + 30], held=Keys.SHIFT)
    page.wait(lambda: page.chosen() == [0, 2, 1])
    page.press("a", held=[Keys.CONTROL])
    page.wait(lambda: page.chosen() == [0, 1, 2, 3])


def test_a_gate_on_two_is_led_from_one_qubit_to_another(page):
    page.go_to(1)
    page.press("v")
    page.drag(page.spot(1), page.spot(3))
    page.wait(lambda: "CZ 1 3" in body(page))
    page.press("c")
    # With Shift the first is the target.
    page.drag(page.spot(0), page.spot(2), held=Keys.SHIFT)
    page.wait(lambda: "CX 2 0" in body(page))


def test_of_several_qubits_each_goes_with_the_one_that_way(page):
    page.go_to(1)
    page.choose_qubit(0, 2, 1)
    page.press("v")
    page.point_at("#picture", *page.spot(3)).click().perform()
    page.wait(lambda: "CZ 0 2 1 3" in body(page))
    page.wait(lambda: page.find("message").text == "1 of the chosen has no qubit there")
    # The click shows the way even if the last of them has no partner there, and a drag from any of them does too.
    page.press("v")
    page.point_at("#picture", *page.spot_of_place(2, 0)).click().perform()
    page.wait(lambda: "CZ 0 1 2 3" in body(page))
    page.press("w")
    page.drag(page.spot(0), page.spot(1))
    page.wait(lambda: "SWAP 0 1 2 3" in body(page))
    # Two places to the right of each there is none.
    count = len(page.history())
    page.press("c")
    page.point_at("#picture", *page.spot_of_place(3, 0)).click().perform()
    page.wait(lambda: page.find("message").text == "none of the chosen has a qubit there")
    assert len(page.history()) == count


def test_a_tool_puts_a_qubit_where_there_is_none(open_page):
    page = open_page(None)
    page.press("r")
    page.point_at("#picture", *page.spot_of_place(2, 3)).click().perform()
    page.wait(lambda: page.circuit() == "QUBIT_COORDS(2, 3) 0\nR 0\n" and page.is_idle())
    page.press("c")
    page.press(Keys.ESCAPE, "q")
    # With Shift each second place of the box, and none that is taken.
    page.drag(page.spot_of_place(2, 3), page.spot_of_place(6, 5), held=Keys.SHIFT)
    page.wait(lambda: page.chosen() == [1, 2, 3, 4, 5])
    placed = [line.split(") ")[0] for line in page.circuit().splitlines()[1:6]]
    assert placed == [f"QUBIT_COORDS({place}" for place in ("4, 3", "6, 3", "2, 5", "4, 5", "6, 5")]
    assert len(page.history()) == 3


def test_what_acts_is_copied_to_another_tick(page):
    page.go_to(1)
    page.choose_qubit(1)
    page.press("c", held=[Keys.CONTROL])
    page.go_to(0)
    page.press("v", held=[Keys.CONTROL])
    page.wait(lambda: body(page) == ["R 0 1 2 3", "CX 0 1", "TICK", "CX 0 1 2 3", "TICK", "M 0 1"])
    page.press("x", held=[Keys.CONTROL])
    page.wait(lambda: body(page)[1] == "TICK")


def test_a_gate_is_dragged_to_another_tick(page):
    page.go_to(1)
    page.drag(page.spot(2), page.spot(0), page.seen("timeline.columnOf(words[0])", 2), last="#timeline")
    page.wait(lambda: body(page) == ["R 0 1 2 3", "TICK", "CX 0 1", "TICK", "CX 2 3", "M 0 1"])
    page.wait(lambda: page.find("moment-said").text == "tick 2" and not page.find("tip").is_displayed())
    # On no tick nothing is moved.
    page.drag(page.spot(2), page.spot(0))
    page.wait(lambda: "nothing is moved" in page.find("message").text)
    assert len(page.history()) == 2


def test_delete_takes_out_what_acts_on_a_qubit_with_its_pair(page):
    page.go_to(1)
    page.choose_qubit(1)
    do(page, Keys.DELETE)
    assert body(page)[2] == "CX 2 3"
    assert page.history()[-1].startswith("replace 6 CX 2 3")


def test_ticks_are_put_in_and_taken_out_and_gates_moved(page):
    page.go_to(1)
    do(page, "t")
    assert body(page) == ["R 0 1 2 3", "TICK", "CX 0 1 2 3", "TICK", "TICK", "M 0 1"] and page.find("moment-said").text == "tick 2"
    page.go_to(1)
    page.choose_qubit(0)
    do(page, ">", held=[Keys.SHIFT])
    assert body(page) == ["R 0 1 2 3", "TICK", "CX 2 3", "TICK", "CX 0 1", "TICK", "M 0 1"]
    do(page, "<", held=[Keys.SHIFT])
    assert body(page) == ["R 0 1 2 3", "TICK", "CX 2 3", "CX 0 1", "TICK", "TICK", "M 0 1"]
    do(page, "t", held=[Keys.SHIFT])
    assert body(page) == ["R 0 1 2 3", "TICK", "CX 2 3", "CX 0 1", "TICK", "M 0 1"]


def test_a_tick_is_moved_by_keys_and_by_its_mark(open_page):
    page = open_page("\n".join(PLACES) + "\nR 0 1\nR 2 3\nTICK\nH 0\nH 1\nTICK\nM 0 1\n")
    page.go_to(1)
    page.focus("#timeline")
    do(page, "{")
    assert body(page) == ["R 0 1", "R 2 3", "TICK", "H 0", "TICK", "H 1", "M 0 1"]
    # The tick is still that of the moment that is shown, and one entry of the history was made.
    assert page.find("moment-said").text == "tick 1" and page.history()[1:] == ["move the end of tick 1"]
    do(page, "}")
    assert body(page) == ["R 0 1", "R 2 3", "TICK", "H 0", "H 1", "TICK", "M 0 1"]
    page.go_to(2)
    page.press("}")
    page.wait(lambda: page.find("message").text == "no TICK ends this moment")
    # Its mark is dragged: half of the next moment lies between H 0 and H 1.
    drag_mark(page, 0, 1)
    page.wait(lambda: body(page) == ["R 0 1", "R 2 3", "H 0", "TICK", "H 1", "TICK", "M 0 1"])
    page.wait(lambda: page.history()[-1] == "move the end of tick 0" and not page.find("tip").is_displayed() and page.is_idle())
    page.press("z", held=[Keys.CONTROL])
    page.wait(lambda: body(page)[2] == "TICK")
    # A click on a mark goes to its moment.
    page.point_at("#timeline", *page.seen("timeline.markOf(words[0])", 1)).click().perform()
    page.wait(lambda: page.find("moment-said").text == "tick 1")
    assert len(page.history()) == 4


def drag_mark(page, moment, target):
    """Drags the mark of the tick that ends a moment to the middle of another."""
    chain = page.point_at("#timeline", *page.seen("timeline.markOf(words[0])", moment)).click_and_hold()
    page.point_at("#timeline", *page.seen("timeline.columnOf(words[0])", target), chain=chain).release().perform()


def test_a_tick_that_may_not_be_moved_stays(open_page):
    page = open_page("R 0\nREPEAT 2 {\n    H 0\n    TICK\n}\nTICK\nM 0\n")
    before = page.circuit()
    # Out of its round, and into another one, it is not moved.
    drag_mark(page, 1, 2)
    page.wait(lambda: page.find("message").text == "a tick is moved within its round")
    assert page.circuit() == before and page.history() == ["opened"]


def test_an_edit_of_several_parts_is_refused_whole(open_page):
    page = open_page(FOUR + "DETECTOR rec[-1]\nDETECTOR rec[-2]\n")
    before = page.circuit()
    page.click("#follow")
    page.go_to(2)
    # Without the records the detectors would look back too far, since they do not follow.
    page.choose_qubit(0, 1)
    page.press(Keys.DELETE)
    page.wait(lambda: "record" in page.find("message").text)
    assert page.circuit() == before and page.history() == ["opened"]


def test_in_a_block_a_gate_is_put_into_each_round_and_an_error_into_one(open_page):
    page = open_page("R 0 1\nREPEAT 3 {\n    TICK\n    CX 0 1\n    TICK\n    MR 1\n}\nTICK\nM 0\n")
    page.go_to(3)
    page.choose_qubit(0)
    do(page, "s")
    assert page.history()[-1] == "replace 1/1 S 0"
    assert page.find("round-said").text == "round 1 of block 1, 0 to 2"
    do(page, "z")
    assert page.history()[-1] == "insert 2/2 Z 0, in round 1 of 1 alone"


def test_arrows_move_between_qubits_and_shift_takes_more(page):
    page.choose_qubit(0)
    page.press(Keys.ARROW_RIGHT, Keys.ARROW_DOWN)
    page.wait(lambda: page.chosen() == [3])
    page.press(Keys.ARROW_LEFT, held=[Keys.SHIFT])
    page.wait(lambda: page.chosen() == [3, 2])
    page.press(Keys.F6)
    page.wait(lambda: page.focused() != "picture")


def test_the_wheel_zooms_at_the_pointer_and_with_ctrl_a_drag_pans(page):
    spot = page.spot(3)
    page.browser.execute_cdp_cmd("Input.dispatchMouseEvent", wheel(page, spot, -400))
    page.wait(lambda: page.find("scale").text != "100%")
    assert page.spot(3) == pytest.approx(spot, abs=2) and page.spot(0)[0] < spot[0] - 150
    page.drag([20, 20], [70, 40], held=Keys.CONTROL)
    page.wait(lambda: page.spot(3) == pytest.approx([spot[0] + 50, spot[1] + 20], abs=2))
    page.press(Keys.ARROW_LEFT, held=[Keys.CONTROL])
    page.wait(lambda: page.spot(3) == pytest.approx([spot[0] + 110, spot[1] + 20], abs=2))
    page.press("0")
    page.wait(lambda: page.find("scale").text == "100%")


def wheel(page, spot, turned):
    box = page.find("picture").rect
    return {"type": "mouseWheel", "x": box["x"] + spot[0], "y": box["y"] + spot[1], "deltaX": 0, "deltaY": turned}


def test_nothing_jumps(page):
    boxes = "['text', 'entry', 'picture', 'timeline', 'message'].map((id) => { const it = document.getElementById(id).getBoundingClientRect(); return [it.x, it.y, it.width, it.height]; })"
    before = page.ask(boxes)
    page.choose_qubit(0)
    page.press("y")
    page.wait(lambda: len(page.history()) == 2)
    page.choose("6")
    page.press("i")
    page.press("DETECTOR rec[-9]", Keys.ENTER)
    page.wait(lambda: page.texts("#refusal") == ["refused"])
    assert page.ask(boxes) == before
