"""How many steps it takes to draw a surface code on the page: each click, drag and key counts, with those that are held down for it."""

import pytest
import stabsim
from browsing import Keys, needs_browser
from selenium.webdriver.common.action_chains import ActionChains
from random_hands import settled_emulation
from stabsim import codes
from test_page_sizes import show

pytestmark = needs_browser

# In which layer an ancilla of X checks meets the data qubit that way, and one of Z checks.
X_WAYS = ((1, 1), (-1, 1), (1, -1), (-1, -1))
Z_WAYS = ((1, 1), (1, -1), (-1, 1), (-1, -1))


def line_by_line(code):
    """How many steps it takes to draw a code line by line: a click for each qubit and one key for what acts on them, two for pairs; a click for
    each record of a detector; the REPEAT and the places of qubits by one step each, with two for the tool."""
    steps = 2
    for line in code.splitlines():
        name, *targets = line.split(") ")[-1].split() if "(" in line else line.split()
        if name == "TICK" or "QUBIT_COORDS" in line:
            steps += 1
        elif name == "REPEAT":
            steps += 3
        elif "DETECTOR" in line or "OBSERVABLE" in line:
            # Of a record and the one before it on the same qubit one click is enough.
            records = line.count("rec")
            steps += (1 if records == 2 else records) + 1
        elif targets and name not in ("#", "}") and "SHIFT" not in line:
            steps += len(targets) + (2 if name == "CX" else 1)
    return steps


class Hand:
    """What a person does on the page, counted."""

    def __init__(self, page):
        self.page, self.steps = page, 0

    def key(self, *keys, held=()):
        for key in keys:
            self.page.settle()
            self.page.press(key, held=held)
            self.steps += 1

    def click(self, *places, held=False):
        """Clicks places of the grid, those after the first with Shift, or all of them."""
        for number, place in enumerate(places):
            self.point("#picture", self.page.spot_of_place(*place), held or number > 0)

    def time(self, moment, held=False):
        self.point("#timeline", self.page.seen("timeline.columnOf(words[0])", moment), held)

    def point(self, selector, spot, held):
        chain = ActionChains(self.page.browser, duration=0)
        if held:
            chain.key_down(Keys.SHIFT)
        self.page.point_at(selector, *spot, chain=chain).click().key_up(Keys.SHIFT).perform()
        self.steps += 1

    def drag(self, first, last, held=False):
        self.page.drag(self.page.spot_of_place(*first), self.page.spot_of_place(*last), held=Keys.SHIFT if held else None)
        self.page.settle()
        self.steps += 1

    def lead(self, first, way, held=False):
        """Has each of the chosen, of which one is given, meet the qubit that way."""
        self.key("c")
        self.click((first[0] + way[0], first[1] + way[1]), held=held)


def ancillas_of(distance):
    """The places of the ancillas of X checks and of Z checks; the last of each is inside."""
    code = codes.surface_code(distance, 2)
    places = {int(line.split(") ")[1]): tuple(map(int, line[13:].split(") ")[0].split(", "))) for line in code.splitlines() if line.startswith("QUBIT_COORDS")}
    x = [int(it) for it in next(line for line in code.splitlines() if line.startswith("H ")).split()[1:]]
    measured = [int(it) for it in next(line for line in code.splitlines() if line.startswith("MR ")).split()[1:]]
    inside = lambda place: 0 < place[0] < 2 * distance and 0 < place[1] < 2 * distance  # noqa: E731: it is a key
    return [sorted((places[it] for it in some), key=inside) for some in (x, [it for it in measured if it not in x])]


def draw_qubits(hand, distance, ancillas):
    """Data qubits and the ancillas between them by a drag each, and those at the rim by clicks."""
    hand.key("-", "-", "q")
    hand.drag((1, 1), (2 * distance - 1, 2 * distance - 1), held=True)
    hand.key("0", "-")
    hand.drag((2, 2), (2 * distance - 2, 2 * distance - 2), held=True)
    for place in ancillas:
        if not (0 < place[0] < 2 * distance and 0 < place[1] < 2 * distance):
            hand.click(place)
    hand.key(Keys.ESCAPE)


def draw_round(hand, x, z):
    """A round from tick 1 on."""
    hand.click(*x)
    hand.key("h", "t")
    for way in X_WAYS:
        hand.lead(x[-1], way)
        hand.key("t")
    hand.key("h", "t")
    for place in z:
        hand.click(place, held=True)
    hand.key("n", "t")
    hand.click(*z)
    for layer, way in enumerate(Z_WAYS):
        hand.time(2 + layer)
        hand.lead(z[-1], way, held=True)
    hand.key(Keys.ESCAPE)


def draw_repeat(hand, rounds, x, z):
    """The round again, with detectors in both, and the second one as a block; ancillas of Z checks are chosen."""
    hand.time(1)
    hand.time(7, held=True)
    hand.key("c", "v", held=[Keys.CONTROL])
    hand.time(7)
    hand.key("d", held=[Keys.SHIFT])
    hand.time(14)
    for place in x:
        hand.click(place, held=True)
    hand.key("d", held=[Keys.SHIFT])
    hand.time(8)
    hand.time(14, held=True)
    hand.page.point_at("#lines").click().perform()
    hand.steps += 1
    hand.key("r")
    hand.page.wait(lambda: hand.page.find("asking").is_displayed())
    hand.page.press(str(rounds), Keys.ENTER)
    hand.steps += 2
    hand.page.wait(lambda: hand.page.history()[-1].startswith("make REPEAT"))


def draw_end(hand, distance, z):
    """Measures the data qubits, and compares them with ancillas by boxes."""
    hand.time(hand.page.ask("page.moments()") - 1)
    hand.click(*((column, row) for row in range(1, 2 * distance, 2) for column in range(1, 2 * distance, 2)))
    hand.key("m")
    last = 2 * distance - 1
    for column, row in z:
        hand.drag((max(column - 1.4, -0.4), row - 1.4), (min(column + 1.4, last + 1.4), row + 1.4))
        hand.key("d")
    hand.drag((0.6, 0.6), (last + 0.4, 1.4))
    hand.key("o", Keys.ENTER)


def draw(hand, distance):
    x, z = ancillas_of(distance)
    draw_qubits(hand, distance, x + z)
    hand.key("a", held=[Keys.CONTROL])
    hand.key("r", "t")
    draw_round(hand, x, z)
    draw_repeat(hand, distance - 1, x, z)
    draw_end(hand, distance, z)


@pytest.mark.parametrize("distance", [3, 5])
def test_a_surface_code_with_repeat_is_drawn_in_half_the_steps_that_its_lines_take(open_page, distance):
    page = open_page(None)
    hand = Hand(page)
    with settled_emulation(page.browser):
        show(page, 1920, 1200, 1)
        draw(hand, distance)
    code = stabsim.Circuit(codes.surface_code(distance, distance))
    drawn = stabsim.Circuit(page.circuit())
    assert page.circuit().count("QUBIT_COORDS") == 2 * distance ** 2 - 1
    assert (drawn.numbers().records, drawn.numbers().detectors) == (code.numbers().records, code.numbers().detectors)
    page.wait(lambda: page.ask("page.shown.state.deterministic ? page.shown.state.deterministic.every((it) => it === 1) : false"))
    assert drawn.distance(everywhere=True, graphlike=True).distance == distance
    assert 2 * hand.steps <= line_by_line(code.text), hand.steps
