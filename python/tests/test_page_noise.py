"""Noise on the page: it is opened, shown, edited and saved as items, and counted with."""

import re
from pathlib import Path

import pytest
import stabsim
from browsing import Keys, needs_browser
from stabsim import codes
from stabsim.page.board import Board
from stabsim.page.edits import Edit
from stabsim.page.moment_faults import MomentFaults
from stabsim.page.noise import has_noise, quiet
from stabsim.page.opening import opened, with_noise
from stabsim.page.mark_ways import Mark, ways_of
from stabsim.text import names

TEXT = """R 0 1 # all
X_ERROR(0.1) 0   # a flip
REPEAT 2 {
  DEPOLARIZE2(0.01) 0 1
  MXX(0.01) 0 1 # both
  I_ERROR(0.1) 0
}
HERALDED_ERASE(0.25) 0
CORRELATED_ERROR(0.1) X0 Z1
ELSE_CORRELATED_ERROR(0.2) Y1
M(0.02) 1 # one
DETECTOR rec[-1]
"""
# Without their first line, which is a comment.
CODE, NOISY = (codes.repetition_code(3, 2, **more).split("\n", 1)[1] for more in ({}, {"noise": codes.Noise.uniform(0.01)}))


@pytest.fixture
def board():
    board = Board(opened(TEXT, "noisy.stim"))
    yield board
    board.close()


def test_noise_is_opened_and_written_as_it_was_given(board):
    assert board.written() == TEXT
    items = board.text().split("\n")
    assert items[1] == "X_ERROR(0.1) 0" and items[3].strip() == "DEPOLARIZE2(0.01) 0 1" and "M(0.02) 1" in items and "E(0.1) X0 Z1" in items
    # What the program reads otherwise is said; noise that it has as it was given is not.
    assert [note.split(":")[0] for note in board.opened()["notes"]] == ["line 5", "line 8"]


def test_an_edit_of_noise_or_beside_it_leaves_the_other_lines_as_they_were_given(board):
    board.edit([Edit("replace", "1", "X_ERROR(0.3) 0 1")])
    board.edit([Edit("delete", "2/0")], keep=True)
    board.edit([Edit("insert", "0", "H 0")])
    assert board.written() == "H 0\n" + TEXT.replace("X_ERROR(0.1) 0   # a flip", "X_ERROR(0.3) 0 1").replace("  DEPOLARIZE2(0.01) 0 1\n", "")
    board.go(0)
    assert board.written() == TEXT


def test_records_follow_beside_noise_and_in_blocks_with_it(board):
    board.edit([Edit("insert", "2/1", "M(0.5) 1")], keep=True)
    assert board.lost == () and board.text().endswith("M(0.02) 1\nDETECTOR rec[-1]\n")
    board.edit([Edit("replace", str(len(stabsim.Circuit(board.text()).items) - 2), "M(0.02) 1 0")], keep=True)
    assert board.text().endswith("M(0.02) 1 0\nDETECTOR rec[-2]\n")


@pytest.mark.parametrize("item, number, said", [
    ("X_ERROR(2) 0", 2, "no chance"), ("M(0.1, 0.2) 0", 2, "one chance"), ("DEPOLARIZE2(0.1) 0", 4, "pairs"), ("HERALDED_ERASE(0.1) 0", 1, "makes records"),
    ("ISWAP 0 1", 1, "SWAP 0 1"), ("H 0 rec[-1]", 3, "takes qubits"),
])
def test_what_is_wrong_beside_noise_is_said(board, item, number, said):
    with pytest.raises(stabsim.Refused) as refused:
        board.edit([Edit("insert", "1", item)])
    assert refused.value.number == number and said in refused.value.explanation and refused.value.explanation.startswith(item)


@pytest.mark.parametrize("most", [0, 5000])
def test_noise_is_put_on_in_one_step_and_taken_out_in_another(monkeypatch, most):
    monkeypatch.setattr("stabsim.page.board.MOST_LINES", most)
    board = Board(opened(CODE + "# the end\n", "code.stim"))

    def put(model, name):
        return board.put_noise(with_noise(board.written(), model, board.source.name), name, board.age)

    told = put(stabsim.NoiseModel.uniform(0.01), "noise uniform 0.01")
    assert told["event"] == ("edited" if most else "opened") and board.source.name == "code.stim"
    assert stabsim.Circuit(board.text()) == stabsim.NoiseModel.uniform(0.01).on(CODE) and board.written().endswith("# the end\n")
    # Another model takes the place of the one before.
    put(stabsim.NoiseModel.code_capacity(0.01), "noise code capacity 0.01")
    assert stabsim.Circuit(board.text()) == stabsim.NoiseModel.code_capacity(0.01).on(CODE)
    put(None, "no noise")
    assert stabsim.Circuit(board.text()) == stabsim.Circuit(CODE)
    assert [entry.name for entry in board.entries] == ["noise uniform 0.01", "noise code capacity 0.01", "no noise"]
    board.go(1)
    assert stabsim.Circuit(board.text()) == stabsim.NoiseModel.uniform(0.01).on(CODE)
    with pytest.raises(ValueError, match="changed meanwhile"):
        board.put_noise(opened(CODE), "no noise", board.age - 1)
    board.close()


def test_a_script_of_edits_with_noise_is_refused(board):
    with pytest.raises(ValueError, match="export the circuit"):
        board.script()


def test_many_edits_at_once_are_judged_with_their_noise_and_others_beside_noise_give_the_same_bits(board):
    with pytest.raises(stabsim.Refused, match="QubitOutOfRange"):
        board.edit([Edit("insert", "0", "X_ERROR(0.1) 5000")] * 5)
    before = board.text()
    board.edit([Edit("insert", str(len(stabsim.Circuit(before).items)), f"DETECTOR rec[-{back}]") for back in (1, 2, 3, 4)])
    with stabsim.Circuit(board.text()).edit() as session:
        assert session.detectors().tolist() == board.session.detectors().tolist() and session.circuit() == board.text()
    board.go(0)
    assert board.text() == before


def test_many_edits_at_once_keep_noise_comments_and_tags_as_they_are():
    text = "R 0 1  # both\n# of the round\nREPEAT 2 {\n    X_ERROR(0.125) 0\n    M(0.25) 0 1\n    DETECTOR rec[-1]\n}\n# the end\n"
    board = Board(opened(text))
    board.edit([Edit("insert", place, "X[~a] 0") for place in ("0", "2/1", "2/3", "3")], keep=True)
    there = "X[~a] 0\nR 0 1\nREPEAT 2 {\n    X_ERROR(0.125) 0\n    X[~a] 0\n    M(0.25) 0 1\n    X[~a] 0\n    DETECTOR rec[-1]\n}\nX[~a] 0\n"
    assert board.text() == there
    # The next ones find what rides in tags, and leave it.
    board.edit([Edit("replace", "2/2", "M(0.25) 0 1 2")] + [Edit("insert", "2/3", "H 0")] * 2 + [Edit("delete", "0")], keep=True)
    board.edit([Edit("insert", "0", "M 1")] + [Edit("insert", "0", "H 0")] * 3, keep=True)
    inside = "    X[~a] 0\n    M(0.25) 0 1 2\n    H 0\n    H 0\n    X[~a] 0\n    DETECTOR rec[-2]\n"
    assert board.text() == there.replace("    X[~a] 0\n    M(0.25) 0 1\n    X[~a] 0\n    DETECTOR rec[-1]\n", inside).replace("X[~a] 0\nR", "H 0\nH 0\nH 0\nM 1\nR")
    assert "R 0 1  # both\n# of the round\n" in board.written() and board.written().endswith("# the end\n")
    board.go(0)
    assert board.written() == text
    board.close()


def test_noise_is_seen_and_taken_out_of_a_text():
    text = "R 0\nx_error(0.1) 0\nM[a](0.1) 0\nREPEAT 2 {\n    E(0.1) X0\n    M 0\n}\nDETECTOR(1) rec[-1]\n"
    assert has_noise(text) and quiet(text) == "R 0\nM[a] 0\nREPEAT 2 {\n    M 0\n}\nDETECTOR(1) rec[-1]\n"
    assert not has_noise(quiet(text)) and not has_noise("DETECTOR(1) rec[-1]\nEXTRA(1) 0\n")


def test_faults_and_ways_are_those_of_the_circuit_without_noise():
    found, bare = MomentFaults.of_circuit(NOISY), MomentFaults.of_circuit(CODE)
    assert found.moments == bare.moments > 5
    assert [found.flips(moment, qubit) for moment in range(found.moments) for qubit in range(5)] \
        == [bare.flips(moment, qubit) for moment in range(bare.moments) for qubit in range(5)]
    text = "R 0\nX_ERROR(0.1) 0\nTICK\nDEPOLARIZE1(0.1) 0\nH 0\nTICK\nM(0.1) 0\n"
    [way] = ways_of(text, [[Mark("Z", 0, (4,))]])
    assert way.records == (0,) and way.letters == {1: {0: "X"}, 2: {0: "X"}}


def test_the_page_knows_the_channels_of_the_package():
    source = (Path(stabsim.__file__).parent / "page" / "static" / "instructions.js").read_text(encoding="utf-8")
    lists = re.findall(r"const CHANNELS_OF_\w+ = \[(.*?)\]", source)
    assert sorted(re.findall(r"\w+", " ".join(lists))) == sorted(names.NOISE)


@needs_browser
def test_noise_is_drawn_said_put_in_and_taken_out(open_page):
    page = open_page("QUBIT_COORDS(0, 0) 0\nQUBIT_COORDS(1, 0) 1\nR 0 1\nX_ERROR(0.25) 0\nTICK\nCX 0 1\nDEPOLARIZE2(0.125) 0 1\nTICK\nM(0.1) 0 1\n")
    noise = "[...page.shown.noise].map(([qubit, all]) => [qubit, all.map(({words}) => words)])"
    assert page.ask(noise) == [[0, ["X_ERROR(0.25)"]]] and ["noise", ""] in page.glyphs()
    page.choose_qubit(0)
    page.wait(lambda: "X_ERROR(0.25) of item 3" in page.find("about-qubit").text)
    page.go_to(1)
    page.wait(lambda: "DEPOLARIZE2(0.125) 0 1 of item 6" in page.find("about-qubit").text)
    page.go_to(2)
    page.wait(lambda: "wrong record (0.1) of item 8" in page.find("about-qubit").text)
    # Noise on qubits by the menu, with the chance that is typed.
    page.go_to(0)
    page.press(Keys.ENTER)
    page.wait(lambda: "Z_ERROR …" in page.texts("#choice button") and "DEPOLARIZE2 …" not in page.texts("#choice button"))
    page.browser.execute_script("[...document.querySelectorAll('#choice button')].find((it) => it.textContent === 'Z_ERROR …').click()")
    page.wait(lambda: page.focused() == "asked")
    page.find("asked").clear()
    page.find("asked").send_keys("0.5", Keys.ENTER)
    page.wait(lambda: "X_ERROR(0.25) 0\nZ_ERROR(0.5) 0\nTICK\n" in page.circuit())
    page.press(Keys.DELETE)
    page.wait(lambda: page.circuit().startswith("QUBIT_COORDS(0, 0) 0\nQUBIT_COORDS(1, 0) 1\nR 1\nX_ERROR(0.25) 0\nZ_ERROR(0.5) 0\nTICK\n"))
    page.press(Keys.DELETE)
    page.wait(lambda: page.circuit().startswith("QUBIT_COORDS(0, 0) 0\nQUBIT_COORDS(1, 0) 1\nR 1\nTICK\n"))


@needs_browser
def test_a_noisy_circuit_is_saved_with_its_noise_and_its_own_noise_is_counted_with(open_page, tmp_path):
    saved = tmp_path / "saved.stim"
    page = open_page(NOISY + "# the end\n", "--save", str(saved))
    assert page.circuit() == NOISY
    page.click("#save")
    page.wait(lambda: saved.exists() and saved.read_text() == NOISY + "# the end\n")
    page.click("#about-rate .ask:last-child")
    page.wait(lambda: page.texts("#choice button")[0].startswith("own noise"))
    page.press(Keys.ENTER)
    page.wait(lambda: page.texts("#about-rate .ask") == ["Noise ▾", "Count ▾"] and page.find("about-rate").text.endswith("shots wrong · own noise"))
    page.click("#about-rate .ask")
    page.wait(lambda: page.texts("#choice button")[-1] == "none")
    page.press(Keys.ARROW_UP, Keys.ENTER)
    page.wait(lambda: page.circuit() == CODE and page.history()[-1].startswith("no noise"))
    page.click("#undo")
    page.wait(lambda: page.circuit() == NOISY)
