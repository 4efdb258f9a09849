"""The ways of marks on the page: where they go, which records they flip, and the detector that these make."""

import random

import pytest
import stabsim
from browsing import needs_browser
from stabsim import codes
from stabsim.page.mark_ways import MOST_NAMES, Mark, detector_of, ways_of
from stabsim.text import names
from stabsim.text.reading import items_of
from test_page_marks import HAS_TABLE, mark, take_layer

# What gates make of X and of Z on their qubits, letter by letter and without signs, by hand.
ONE = {"H": "ZX", "S": "YZ", "S_DAG": "YZ", "SQRT_X": "XY", "SQRT_X_DAG": "XY", "SQRT_Y": "ZX", "SQRT_Y_DAG": "ZX", "C_XYZ": "YX", "C_ZYX": "ZY"}
TWO = {"CX": ("XX", "ZI", "IX", "ZZ"), "CY": ("XY", "ZI", "ZX", "ZZ"), "CZ": ("XZ", "ZI", "ZX", "IZ"), "SWAP": ("IX", "IZ", "XI", "ZI")}
BASES = {"M": "Z", "MX": "X", "MY": "Y", "MR": "Z", "MRX": "X", "MRY": "Y"}
LETTERS = "IXZY"


def product(*letters):
    """The product of letters, without its phase."""
    found = 0
    for letter in letters:
        found ^= LETTERS.index(letter)
    return LETTERS[found]


def pushed(text, marks):
    """The Paulis on each qubit in front of each TICK and at the end, and the records that are flipped, of marks (step, letter, qubit) in front of the
    lines of a circuit without blocks, found line by line."""
    on, flipped, record, seen = {}, [], 0, []
    for step, item in enumerate([*items_of(text), None]):
        for at, letter, qubit in marks:
            if at == step:
                on[qubit] = product(on.get(qubit, "I"), letter)
        if item is None or item.name == "TICK":
            seen.append({qubit: letter for qubit, letter in on.items() if letter != "I"})
            continue
        for targets in groups(item):
            record += acted(item.name, targets, on, flipped, record)
    return seen, flipped


def groups(item):
    size = 2 if item.name in TWO else 1
    return [item.targets[at:at + size] for at in range(0, len(item.targets), size)]


def acted(name, targets, on, flipped, record):
    """Has one gate, measurement or reset act on Paulis; answers how many records it makes."""
    letter = lambda qubit: on.get(qubit, "I")  # noqa: E731: it is short
    if name in TWO:
        if targets[0].startswith("rec"):
            if record + int(targets[0][4:-1]) in flipped:
                on[int(targets[1])] = product(letter(int(targets[1])), name[1])
            return 0
        first, second = map(int, targets)
        images = dict(zip(("XI", "ZI", "IX", "IZ"), TWO[name]))
        parts = [images[part] for part, there in (("XI", letter(first) in "XY"), ("ZI", letter(first) in "ZY"), ("IX", letter(second) in "XY"),
                                                  ("IZ", letter(second) in "ZY")) if there]
        on[first], on[second] = (product(*(part[side] for part in parts)) for side in (0, 1))
        return 0
    factors = [(it[0], int(it[1:])) for it in targets[0].split("*")] if name == "MPP" else [(BASES.get(name, ""), int(targets[0]))]
    if name in ONE:
        was = letter(factors[0][1])
        on[factors[0][1]] = product(*([ONE[name][0]] if was in "XY" else []), *([ONE[name][1]] if was in "ZY" else []))
        return 0
    measures = name in names.MEASUREMENTS
    if measures and sum(letter(qubit) not in ("I", basis) for basis, qubit in factors) % 2:
        flipped.append(record)
    if name in names.RESETS or name.startswith("MR"):
        on[factors[0][1]] = "I"
    return int(measures)


def random_text(rnd):
    lines = []
    count = 0
    for _ in range(rnd.randint(8, 25)):
        name = rnd.choice([*ONE, *TWO, *TWO, *BASES, "R", "RX", "RY", "MPP", "CX rec"])
        qubits = rnd.sample(range(4), 2 if name in TWO else rnd.randint(1, 3))
        if name == "CX rec":
            lines += [f"CX rec[-{rnd.randint(1, count)}] {qubits[0]}"] if count else []
        elif name == "MPP":
            lines.append("MPP " + "*".join(rnd.choice("XYZ") + str(qubit) for qubit in qubits))
        else:
            lines.append(f"{name} {' '.join(map(str, qubits))}")
        count += name in BASES and len(qubits) or name == "MPP"
        # Each line is a moment.
        lines.append("TICK")
    return "\n".join(lines) + "\n"


@pytest.mark.parametrize("seed", range(30))
def test_a_mark_goes_where_it_is_pushed_line_by_line(seed):
    rnd = random.Random(seed)
    text = random_text(rnd)
    lines = text.splitlines()
    ends = [place for place, line in enumerate(lines) if line == "TICK"]
    marks = [(rnd.choice(ends), rnd.choice("XYZ"), rnd.randrange(5)) for _ in range(rnd.randint(1, 3))]
    seen, flipped = pushed(text, marks)
    [way] = ways_of(text, [[Mark(letter, qubit, (step,)) for step, letter, qubit in marks]])
    assert list(way.records) == flipped
    assert [way.letters.get(moment, {}) for moment in range(len(ends) + 1)] == seen and not way.why


def test_in_a_block_a_mark_is_in_its_round_and_is_followed_through_those_after_it():
    body = "CX 0 1\nTICK\nH 0\nTICK\nMR 1\nTICK\n"
    indented = "".join(f"    {line}\n" for line in body.splitlines())
    text = f"R 0 1\nTICK\nREPEAT 2 {{\n    TICK\n    REPEAT 3 {{\n{indented.replace('    ', '        ')}    }}\n}}\nM 0\n"
    flat = "R 0 1\nTICK\n" + ("TICK\n" + body * 3) * 2 + "M 0\n"
    first = 2 + 1 + 3 * 6 + 1 + 6 + 1
    seen, flipped = pushed(flat, [(first, "X", 0), (first + 2, "Z", 1)])
    [way, other] = ways_of(text, [[Mark("X", 0, (2, 1, 1), (1, 1)), Mark("Z", 1, (2, 1, 3), (1, 1))], []])
    assert [way.letters.get(moment, {}) for moment in range(len(seen))] == seen and list(way.records) == flipped and flipped
    assert other.records == () and other.letters == {}


def test_a_detector_is_made_of_records_that_are_the_same_for_all_coins_alone():
    text = "R 0 1\nTICK\nCX 0 1\nTICK\nM 1\nH 0\nTICK\nM 0\n"
    assert detector_of(text, [Mark("X", 0, (1,))]) == (0,)
    with pytest.raises(ValueError, match="the marks flip no record"):
        detector_of(text, [Mark("Z", 1, (3,))])
    with pytest.raises(ValueError, match="M1, are random together"):
        detector_of(text, [Mark("Z", 0, (1,))])
    many = f"H {' '.join(map(str, range(20)))}\nTICK\nM {' '.join(map(str, range(20)))}\n"
    with pytest.raises(ValueError, match=f"M{MOST_NAMES - 1} and {20 - MOST_NAMES} more, are random"):
        detector_of(many, [Mark("X", qubit, (1,)) for qubit in range(20)])
    assert detector_of(f"M {' '.join(map(str, range(600)))}\n", [Mark("X", 599, (0,))]) == (599,)


WAYS = "page.shown.layers.way(words[0])"
LETTERS_AT = "page.shown.layers.lettersAt(page.shown.moment).map(({ layer, qubit, letter }) => `${layer} ${letter}${qubit}`).sort()"


@needs_browser
def test_a_mark_is_drawn_at_each_tick_and_along_the_wires(open_page):
    page = open_page("R 0 1 2\nTICK\nCX 0 1\nTICK\nCX 2 1\nTICK\nH 1\nTICK\nM 0 1 2\n")
    page.click("#wires-there")
    page.wait(lambda: page.find("wires").text == "choose qubits: each has a line here")
    take_layer(page, 4)
    mark(page, 0, 0, "x")
    page.wait(lambda: page.ask(WAYS, 4))
    told = [["4 X0"], ["4 X0", "4 X1"], ["4 X0", "4 X1"], ["4 X0", "4 Z1"], ["4 X0", "4 Z1"]]
    for moment, letters in enumerate(told):
        page.go_to(moment)
        assert page.ask(LETTERS_AT) == letters
    page.go_to(1)
    drawn = "page.views.layout.elements().filter(({ glyph, label }) => glyph === label && label === 'X').length"
    page.wait(lambda: page.ask(drawn) == 3)
    # A line for each chosen qubit, with its gates, joined where two act, and letters at the end of each moment.
    page.choose_qubit(0, 1)
    page.settle()
    glyphs = page.ask("page.views.wires.elements().filter((it) => it.glyph && it.glyph !== it.label && it.side >= 18).map(({ glyph, label, x, y }) => [glyph, label ?? '', x, y])")
    spots = [page.ask("page.views.wires.spot(words[0], words[1])", moment, line) for moment, line in ((0, 0), (0, 1), (1, 0), (1, 1), (2, 1), (3, 1), (4, 0), (4, 1))]
    assert [[name, label] for name, label, *_ in glyphs] == [
        ["reset", "0"], ["reset", "0"], ["control", ""], ["xtarget", ""], ["xtarget", ""], ["gate", "H"], ["measure", "M"], ["measure", "M"]]
    assert [spot for *_, spot in ([*it[:2], it[2:]] for it in glyphs)] == spots
    letters = page.ask("page.views.wires.elements().filter(({ glyph, label, side }) => glyph === label && side < 20).map(({ label, y }) => label + y)")
    first, second = spots[0][1], spots[1][1]
    assert sorted(letters) == sorted([f"X{first:g}"] * 5 + [f"X{second:g}"] * 2 + [f"Z{second:g}"] * 2)
    page.point_at("#wires canvas", *spots[4]).click().perform()
    page.wait(lambda: page.find("moment-said").text == "tick 2")
    page.click("#wires-there")
    page.wait(lambda: not page.find("wires").is_displayed())


@needs_browser
@pytest.mark.parametrize("ending", ["", "DETECTOR rec[-1]\n", "TICK\nCX rec[-1] 0\n"])
def test_what_a_mark_has_become_depends_on_no_detector(open_page, ending):
    page = open_page("R 0 1\nTICK\nCX 0 1\nTICK\nH 1\nTICK\nM 0 1\n" + ending)
    take_layer(page, 4)
    mark(page, 0, 0, "x")
    page.wait(lambda: page.ask(WAYS, 4))
    for moment, letters in enumerate([["4 X0"], ["4 X0", "4 X1"], ["4 X0", "4 Z1"], ["4 X0", "4 Z1"]]):
        page.go_to(moment)
        assert page.ask(LETTERS_AT) == letters


@needs_browser
def test_a_detector_is_made_of_the_records_that_a_mark_flips(open_page):
    page = open_page(codes.repetition_code(3, 3))
    page.wait(lambda: page.ask(HAS_TABLE))
    text, before = page.circuit(), page.ask("page.shown.state.detectors.length")
    take_layer(page, 2)
    mark(page, 0, 0, "x")
    page.wait(lambda: page.ask(WAYS, 2))
    records = page.ask(WAYS, 2)["records"]
    page.click("#about-marks [data-layer='2'] .link:nth-last-of-type(2)")
    page.wait(lambda: len(page.history()) == 2)
    with stabsim.Circuit(text).edit() as session:
        # Each of these records is the same for all coins, so that an X that is put in flips just those.
        assert stabsim.Circuit(text).reference_sample().tolist() == session.records().tolist()
        session.insert(page.ask("page.shown.layers.marks[0].where.path[0]"), "X 0")
        assert session.changed(records=True).records.tolist() == records and len(records) > 2
    last = stabsim.Circuit(text).numbers().records
    # It comes after the last of them, which the last measurement makes.
    [place] = [place for place, line in enumerate(page.circuit().splitlines()) if line not in text.splitlines()]
    lines = page.circuit().splitlines()
    assert lines[place].split(") ")[1] == " ".join(f"rec[{record - last}]" for record in records) and lines[place - 1].startswith("M ")
    page.wait(lambda: page.ask("page.shown.state.deterministic ? [...page.shown.state.deterministic] : []") == [1] * (before + 2))
    # What flips nothing makes none, and it is said.
    take_layer(page, 5)
    mark(page, 0, 0, "z")
    page.wait(lambda: page.ask(WAYS, 5))
    page.click("#about-marks [data-layer='5'] .link:nth-last-of-type(2)")
    page.wait(lambda: page.find("message").text == "the marks flip no record")
    assert len(page.history()) == 2
