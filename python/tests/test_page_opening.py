"""Circuits that the page opens, also in the place of another, on more qubits, and by links; and how it saves them."""

import pathlib
import shutil
import subprocess

import pytest
import stabsim
from stabsim.page.board import Board
from stabsim.page.edits import Edit
from stabsim.page.opening import LINK, BadLink, Opened, opened, opened_of, packed, unpacked
from stabsim.page.room import qubits_named, room_for

# Each record is a coin's, so that other coins would be seen.
COINS = "RX 0 1 2 3 4 5 6 7\nM 0 1 2 3 4 5 6 7\n" + "".join(f"DETECTOR rec[-{back}]\n" for back in range(1, 9))
NODE = shutil.which("node")
FILES = pathlib.Path(__file__).parent.parent / "stabsim" / "page" / "static" / "files.js"


@pytest.fixture
def board(tmp_path):
    made = Board(Opened(COINS, "coins.stim"), seed=5, save=tmp_path / "saved.stim")
    yield made
    made.close()


def test_nothing_is_an_empty_circuit():
    board = Board(opened_of(None))
    assert board.opened()["circuit"] == "" and board.opened()["numbers"]["qubits"] == 0
    board.edit([Edit("insert", "0", "H 0")])
    assert board.text() == "H 0\n"
    board.close()


def test_more_qubits_leave_bits_and_history_as_they_are(board):
    before = board.opened()
    board.edit([Edit("insert", "0", "X 3")])
    told = board.edit([Edit("insert", "0", "QUBIT_COORDS(4, 5) 8")])
    assert told["numbers"]["qubits"] > 8 and told["flipped"] == []
    assert told["qubit_coordinates"][8] == [4, 5]
    assert board.go(0)["detectors"] == before["detectors"] and board.text() == before["circuit"]
    board.go(2)
    assert board.text() == "QUBIT_COORDS(4, 5) 8\nX 3\n" + COINS


@pytest.mark.parametrize("item, named", [
    ("H 3 !7", 8), ("MPP X1*!Z12 Y3", 13), ("CX rec[-40] 2", 3), ("DETECTOR(9, 9) rec[-1]", 0), ("REPEAT 900 {\n    CZ 5 6\n}", 7), ("TICK", 0),
    ("QUBIT_COORDS(70, 80) 4", 5), ("}", 0),
])
def test_the_greatest_qubit_of_an_item_is_found(item, named):
    assert qubits_named(item) == named


@pytest.mark.parametrize("named, now, room", [(4, 8, 8), (9, 8, 16), (72, 8, 80), (73, 8, 8), (1024, 1000, 1024), (1025, 1000, 1000), (0, 0, 0)])
def test_room_is_made_for_some_more_qubits(named, now, room):
    assert room_for(named, now) == room


def test_another_circuit_is_an_entry_that_is_taken_back(board):
    board.edit([Edit("insert", "0", "X 3")])
    board.mark()
    told = board.open(opened("ISWAP 0 1\nM 0\n", "other.stim"))
    assert (told["event"], told["name"], told["circuit"]) == ("opened", "other.stim", "SWAP 0 1\nCZ 0 1\nS 0 1\nM 0\n")
    assert told["notice"] == "1 line is rewritten." and [entry["text"] for entry in told["entries"]] == ["insert 0 X 3", "open other.stim"]
    board.edit([Edit("insert", "0", "X 0")])
    # A script begins with the circuit that was opened last.
    assert board.script() == "insert 0 X 0\n"
    back = board.go(1)
    assert (back["event"], back["name"], back["notice"], back["circuit"]) == ("opened", "coins.stim", "", "X 3\n" + COINS)
    assert board.go(3)["circuit"] == "X 0\nSWAP 0 1\nCZ 0 1\nS 0 1\nM 0\n"


def test_of_lines_that_became_others_each_is_told():
    source = opened("R 0 1 2\nX_ERROR(0.1) 0\n# as it was\nMXX 0 1\nSQRT_XX 0 1\nM(0.01) 2\n")
    assert source.notice == "2 lines are rewritten." and len(source.rewritten) == 2
    assert source.rewritten[0] == "line 4: MXX 0 1 is MPP X0*X1" and source.rewritten[1].startswith("line 5: SQRT_XX 0 1 is ")
    assert opened("R 0\nM 0\n").notice == ""


def test_a_circuit_that_is_refused_is_not_read():
    with pytest.raises(stabsim.Refused):
        opened("H 0\nT 0\n", "other.stim")


def test_the_same_circuit_again_is_no_entry(board):
    assert board.open(Opened(board.text(), "again.stim"))["entries"] == []


def test_saving_takes_the_name_of_the_old_file_and_leaves_no_other(board, tmp_path):
    saved = tmp_path / "saved.stim"
    saved.write_text("old")
    saved.chmod(0o640)
    board.save()
    assert saved.read_text() == COINS and saved.stat().st_mode & 0o777 == 0o640
    assert list(tmp_path.iterdir()) == [saved]


def test_a_link_holds_a_circuit():
    assert unpacked(packed(COINS)) == COINS
    assert opened_of("http://127.0.0.1:1234/?token=x" + LINK + packed("H 0\n")).text == "H 0\n"


@pytest.mark.parametrize("letters", ["", "!!!", "AAAA", packed(COINS)[:40]])
def test_what_is_no_circuit_is_no_link(letters):
    with pytest.raises(BadLink):
        unpacked(letters)


@pytest.mark.skipif(NODE is None, reason="node is missing")
def test_the_page_packs_as_the_package_does():
    code = f"import {{ packed, unpacked }} from {str(FILES)!r}; console.log(await packed(process.argv[1])); console.log(await unpacked(process.argv[2]));"
    done = subprocess.run([NODE, "--input-type=module", "-e", code, COINS, packed(COINS)], capture_output=True, text=True, check=True)
    letters, text = done.stdout.split("\n", 1)
    assert unpacked(letters) == COINS and text == COINS + "\n"
