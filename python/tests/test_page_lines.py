"""Whole lines on the board of the page: made a block, taken out, reversed, and the text written anew."""

import random

import pytest
import stabsim
from stabsim import codes
from stabsim.page.board import Board
from stabsim.page.edits import Edit
from stabsim.page.lines import between, repeated, reversed_, taken_out
from stabsim.page.opening import Opened
from test_retargeting import Maker, written_out


def after(text, made):
    """The circuit after something is done with lines, and after it is taken back."""
    board = Board(Opened(text))
    board.edit_lines(made)
    done = board.text()
    board.go(0)
    undone, count = board.text(), len(board.entries)
    board.close()
    assert undone == normal(text) and count == 1
    return done


def normal(text):
    with stabsim.Circuit(text).edit() as session:
        return session.circuit()


def test_lines_become_a_block_and_lookbacks_name_its_last_round():
    text = "M 0\nM 1\nTICK\nM 2\nDETECTOR rec[-1] rec[-2]\nDETECTOR rec[-3]\n"
    assert after(text, repeated(text, "1", 2, 3)) == "M 0\nREPEAT 3 {\n    M 1\n    TICK\n}\nM 2\nDETECTOR rec[-1] rec[-2]\nDETECTOR rec[-5]\n"
    assert after(text, repeated(text, "1", 2, 1)).startswith("M 0\nREPEAT 1 {\n    M 1\n    TICK\n}\nM 2\nDETECTOR rec[-1] rec[-2]\nDETECTOR rec[-3]\n")


def test_a_block_is_written_out_as_its_rounds():
    text = "M 0\nREPEAT 3 {\n    M 1\n    DETECTOR rec[-1] rec[-2]\n}\nDETECTOR rec[-4]\n"
    assert after(text, taken_out(text, "1")) == "M 0\n" + "M 1\nDETECTOR rec[-1] rec[-2]\n" * 3 + "DETECTOR rec[-4]\n"
    with pytest.raises(ValueError, match="they would be 6000 lines"):
        taken_out("REPEAT 6000 {\n    H 0\n}\n", "0")
    with pytest.raises(ValueError, match="no block"):
        taken_out(text, "0")


def test_gates_are_reversed_so_that_they_undo_what_they_did():
    gates = "H 0\nS 0 1\nTICK\nCX 0 1 1 2\nC_XYZ 2\nREPEAT 2 {\n    SQRT_X 1\n    CZ 1 2\n}\nSQRT_Y_DAG 0\n"
    twice = after(gates + gates, reversed_(gates + gates, "7", 7))
    identity = stabsim.Circuit("I 0 1 2\n")
    assert stabsim.Circuit(twice).same_flows(identity) and not stabsim.Circuit(gates).same_flows(identity)
    with pytest.raises(ValueError, match="M 0 can't be reversed"):
        reversed_("H 0\nM 0\n", "0", 2)


@pytest.mark.parametrize("seed", range(30))
def test_a_text_that_is_written_anew_is_made_by_edits_of_what_differs(seed):
    maker = Maker(seed)
    before, other = ("\n".join(maker.lines(2, 0)[0]) for _ in range(2))
    lines = before.split("\n")
    mixed = "\n".join(lines[:len(lines) // 2 if "{" not in before else len(lines)] + other.split("\n"))
    board = Board(Opened(before))
    for text in (mixed, other):
        try:
            stabsim.Circuit(text).numbers()
        except stabsim.Refused:
            continue
        board.edit_text(Opened(text))
        assert board.text() == normal(text) and written_out(board.text()) == written_out(text)
    board.go(0)
    assert board.text() == normal(before)
    board.close()


def test_given_lines_are_indented_as_deep_as_they_are_now():
    text = "R 0\nM 0  # the first\n  M 1\nREPEAT 2 {\n  X 0\n}\n"
    board = Board(Opened(text))
    board.edit_lines(repeated(board.text(), "1", 2, 3))
    assert board.written() == "R 0\nREPEAT 3 {\n    M 0  # the first\n    M 1\n}\nREPEAT 2 {\n  X 0\n}\n"
    board.edit_lines(taken_out(board.text(), "1"))
    board.go(0)
    assert board.written() == text
    board.close()


def test_of_a_text_only_what_differs_is_edited():
    code = normal(codes.surface_code(3, 3))
    line = random.Random(1).choice([it for it in code.split("\n") if it.startswith("    CX")])
    edits = between(code, code.replace(line, f"{line}\n    X 3"))
    assert [edit.kind for edit in edits] == ["insert"] and edits[0].item == "X 3"
    assert between(code, code) == []
    board = Board(Opened(code))
    with pytest.raises(ValueError, match="nothing is changed"):
        board.edit_text(Opened(code))
    board.edit([Edit("insert", "0", "X 3")])
    board.close()


@pytest.mark.parametrize("seed", range(20))
def test_many_edits_at_once_make_and_flip_what_they_do_one_by_one(seed, monkeypatch):
    maker = Maker(seed)
    before = normal("\n".join(maker.lines(2, 0)[0]))
    count = len(stabsim.Circuit(before).items)
    # Errors and measurements in random places, after which lookbacks are others.
    edits = [Edit("insert", str(maker.random.randrange(count + 1)), maker.random.choice(["X 0 1", "M 2", "H 1", "TICK", "DETECTOR"])) for _ in range(6)]
    told = []
    for most in (0, 100):
        monkeypatch.setattr("stabsim.page.board.MOST_SINGLE", most)
        board = Board(Opened(before), seed=5)
        try:
            made = board.edit(edits, keep=True)
            done = board.text()
            told.append((done, board.entries[0].forth, board.entries[0].back, made["flipped"], board.session.detectors().tolist(), board.go(0)["flipped"]))
            assert board.text() == before and done != before
        except (ValueError, stabsim.Refused) as refused:
            told.append(str(refused))
            assert board.text() == before and not board.entries
        board.close()
    assert told[0] == told[1]
