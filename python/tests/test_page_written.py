"""A circuit as it was written: what is saved and shown has the lines that were given, with comments, where their items are as they were."""

import random

import pytest
import stabsim
from browsing import Keys, needs_browser
from stabsim.page.board import Board
from stabsim.page.edits import Edit
from stabsim.page.opening import Opened, opened
from test_page_editor import do
from test_page_sharing import paste

TEXT = """# two qubits
QUBIT_COORDS(0, 0) 0
CNOT 0 1   # the first gate

#!pragma POLYGON(1,0,0,0.25) 0 1
H_XY 0
REPEAT 3 {
  # each round
  ISWAP 0 1
  MXX 0  1 # a parity
}
H[tag] 0
DETECTOR(1,2) rec[-1]
# the end
"""
# What the program reads in its place.
READ = """QUBIT_COORDS(0, 0) 0
CX 0 1
S 0
Y 0
REPEAT 3 {
    SWAP 0 1
    CZ 0 1
    S 0 1
    MPP X0*X1
}
H[tag] 0
DETECTOR(1, 2) rec[-1]
"""


@pytest.fixture
def board():
    board = Board(opened(TEXT, "own.stim"))
    yield board
    board.close()


def test_what_is_not_edited_is_written_as_it_was_given(board):
    assert board.text() == READ and board.written() == TEXT
    assert board.opened()["written"] == [("2", 2, "H_XY 0"), ("4/0", 3, "ISWAP 0 1"), ("4/3", 1, "MXX 0  1")]


def test_lines_beside_an_edit_stay_as_they_were_given(board):
    board.edit([Edit("insert", "4/3", "X 1"), Edit("replace", "1", "CX 1 0")])
    assert board.written() == TEXT.replace("  MXX", "    X 1\n  MXX").replace("CNOT 0 1   # the first gate", "CX 1 0")
    # Of a gate that is several items for the program nothing is as it was given if one of them goes.
    board.edit([Edit("delete", "4/1")])
    assert "  # each round\n    SWAP 0 1\n    S 0 1\n    X 1\n  MXX 0  1 # a parity\n" in board.written()
    board.go(0)
    assert board.written() == TEXT and board.opened()["written"][0] == ("2", 2, "H_XY 0")


def test_a_text_that_is_applied_is_kept_as_it_is_written_and_undo_brings_the_one_before_back(board):
    board.edit_text(opened(TEXT.replace("# each round", "# all rounds\n  H 0 # more")))
    assert board.written() == TEXT.replace("# each round", "# all rounds\n  H 0 # more")
    board.go(0)
    assert board.written() == TEXT
    board.go(1)
    board.open(opened("H 0 # other\n", "other.stim"))
    assert board.written() == "H 0 # other\n"
    board.go(1)
    assert "# all rounds" in board.written()
    board.go(0)
    assert board.written() == TEXT


def random_text(maker):
    """A text with comments, gates that the program reads as others, and blocks."""
    names = ("H 0", "CNOT 0 1", "ISWAP 1 2", "H_XY 0 2", "MZZ 0 1", "SQRT_XX 1 2", "M 0 # record", "  TICK", "# alone", "", "XCZ 0 1 # pair", "MPAD 0 1")
    lines = []
    for _ in range(12):
        some = maker.choices(names, k=maker.randrange(1, 5))
        lines += some if maker.random() < 0.7 else ["REPEAT 2 {", *some, "H 1", "}"]
    return "".join(f"{line}\n" for line in lines)


def random_edits(board, maker):
    """Puts items in, takes some out and splits blocks, at places of the outermost list."""
    for _ in range(8):
        items = stabsim.Circuit(board.text()).items
        place = maker.randrange(len(items))
        if items[place].repeat and maker.random() < 0.5:
            board.split(str(place), maker.randrange(items[place].repeat))
        elif maker.random() < 0.5:
            board.edit([Edit("insert", str(place), maker.choice(("X 1", "H 0", "TICK", "REPEAT 2 {\n    S 1\n}")))], keep=True)
        else:
            board.edit([Edit("delete", str(place))], keep=True)


@pytest.mark.parametrize("seed", range(25))
def test_what_is_written_after_any_edits_reads_as_the_circuit_and_has_each_comment_once(seed):
    maker = random.Random(seed)
    text = random_text(maker)
    board = Board(opened(text))
    assert board.written() == text
    random_edits(board, maker)
    again = Board(opened(board.written()))
    assert again.text() == board.text()
    loose = [line for line in text.splitlines() if line.startswith("#") or not line]
    assert [line for line in board.written().splitlines() if line.startswith("#") or not line] == loose
    board.go(0)
    assert board.written() == text
    for it in (board, again):
        it.close()


def test_a_circuit_that_came_from_nowhere_is_written_as_a_session_writes_it():
    board = Board(Opened(""))
    board.edit([Edit("insert", "0", "H 0")])
    assert board.written() == board.text() == "H 0\n"
    board.close()


def named(page):
    return page.texts("#text .row .name")


@needs_browser
def test_gates_of_stims_are_shown_edited_and_saved_as_they_were_written(open_page, tmp_path):
    saved = tmp_path / "saved.stim"
    page = open_page("H 0\n", "--save", str(saved))
    paste(page, TEXT)
    page.wait(lambda: page.find("name").text == "pasted.stim")
    page.unfold(4)
    page.wait(lambda: named(page) == ["QUBIT_COORDS", "CX", "H_XY", "REPEAT", "ISWAP", "MXX", "H", "DETECTOR"])
    assert page.row("4/0").startswith("4/0") and "ISWAP 0 1 = SWAP 0 1" in page.row("4/0") and page.row("4/1").endswith("CZ 0 1 · also of ISWAP")
    page.choose("4/3")
    page.press("i")
    page.put_in("X 1")
    page.wait(lambda: "4/3X 1" in page.row("4/3"))
    page.press("s", held=[Keys.CONTROL])
    page.wait(saved.is_file)
    assert saved.read_text() == TEXT.replace("  MXX", "    X 1\n  MXX")
    # What is taken back and made again is shown as it was written.
    page.choose("4/2")
    do(page, Keys.DELETE)
    page.wait(lambda: "SWAP 0 1" in page.row("4/0") and "ISWAP" not in page.row("4/0"))
    page.focus("#picture")
    page.press("z", held=[Keys.CONTROL])
    page.wait(lambda: "ISWAP 0 1 = SWAP 0 1" in page.row("4/0"))


@needs_browser
def test_the_text_that_is_edited_as_one_has_comments_and_gates_as_they_were_written(open_page):
    page = open_page("H 0\n")
    paste(page, TEXT)
    page.wait(lambda: page.find("name").text == "pasted.stim")
    page.click("#as-text")
    page.wait(lambda: page.browser.execute_script("return document.getElementById('source-text').value") == TEXT)
