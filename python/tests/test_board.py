"""What the page's server says to its tabs of an edit: no more than what changed."""

import json
import subprocess

import pytest
import stabsim
from stabsim import codes
from stabsim.page.board import Board
from stabsim.page.edits import Edit
from stabsim.page.opening import opened_of

CODE = codes.surface_code(3, 5)
LINES = [line for line in CODE.splitlines() if not line.startswith(("#", " ", "}"))]
BLOCK = next(place for place, line in enumerate(LINES) if line.startswith("REPEAT"))
BITS = {"detectors", "observables", "qubit_coordinates", "detector_coordinates"}


@pytest.fixture
def board(tmp_path):
    file = tmp_path / "circuit.stim"
    file.write_text(CODE)
    opened = Board(opened_of(str(file)))
    yield opened
    opened.close()


def test_an_edit_says_what_it_flipped_and_its_own_entry_alone(board):
    board.edit([Edit("insert", str(BLOCK), "X 1")])
    told = board.edit([Edit("insert", str(BLOCK), "X 10")])
    assert set(told) == {"event", "age", "edits", "entries", "numbers", "position", "flipped", "marked_at", "saved_at"}
    assert [entry["text"] for entry in told["entries"]] == [f"insert {BLOCK} X 10"]
    with stabsim.Circuit(CODE).edit() as session:
        session.insert(BLOCK, "X 10")
        assert told["flipped"] == [f"D{number}" for number in session.changed().detectors]
    assert len(json.dumps(told)) < 1_000


def test_a_tab_that_opens_hears_of_the_circuit_as_it_is(board):
    before = board.opened()
    assert board.opened() == before
    board.edit([Edit("insert", "0", "QUBIT_COORDS(70, 70) 40")], "a name of its own")
    now = board.opened()
    assert now["circuit"] == "QUBIT_COORDS(70, 70) 40\n" + before["circuit"]
    assert now["qubit_coordinates"][40] == [70, 70] and len(before["qubit_coordinates"]) <= 40
    assert [entry["text"] for entry in now["entries"]] == ["a name of its own"]
    board.go(0)
    assert board.opened()["circuit"] == before["circuit"]


def test_bits_are_said_anew_if_some_come_or_go(board):
    assert BITS <= set(board.edit([Edit("insert", str(len(LINES)), "DETECTOR rec[-1]")]))
    assert BITS <= set(board.go(0))
    board.edit([Edit("insert", "0", "X 1")])
    assert not BITS & set(board.edit([Edit("delete", "0")]))
    assert BITS <= set(board.edit([Edit("delete", str(BLOCK))]))


def test_a_block_is_read_once_if_one_of_its_rounds_is_edited(board, monkeypatch):
    process, asked = board.session.process, []
    ask = process.ask
    monkeypatch.setattr(process, "ask", lambda request: asked.append(request) or ask(request))
    board.edit_in_round([Edit("insert", f"{BLOCK + 1}/0", "X 1")], str(BLOCK), 2)
    assert [request for request in asked if request.startswith(b"show item")] == [f"show item {BLOCK}\n".encode()]


def test_an_edit_that_names_a_new_qubit_says_where_all_are(board):
    told = board.edit([Edit("insert", "0", "X 40")])
    assert len(told["qubit_coordinates"]) == told["numbers"]["qubits"] > 40 and told["qubit_coordinates"][40] == []


def test_room_that_a_refused_edit_has_made_is_told_with_the_next_edit(board):
    with pytest.raises(stabsim.Refused):
        board.edit([Edit("insert", "0", "X 40"), Edit("insert", "0", "DETECTOR rec[-1]")])
    told = board.edit([Edit("insert", "0", "X 40")])
    assert len(told["qubit_coordinates"]) == told["numbers"]["qubits"] > 40


def test_going_back_says_no_entries(board):
    for qubit in (1, 3, 5):
        board.edit([Edit("insert", str(BLOCK), f"X {qubit}")])
    told = board.go(1)
    assert (told["position"], told["entries"], len(told["edits"])) == (1, [], 2)
    again = board.edit([Edit("insert", "0", "Z 1")])
    assert (again["position"], [entry["text"] for entry in again["entries"]]) == (2, ["insert 0 Z 1"])


def test_each_change_has_the_next_age(board):
    ages = [board.edit([Edit("insert", "0", "Z 1")])["age"], board.go(0)["age"], board.split(str(BLOCK), 1)["age"]]
    assert ages == [1, 2, 3] and board.opened()["age"] == 3


def test_an_edit_in_one_round_is_one_entry_that_moves_no_bits(board):
    place = f"{BLOCK + 1}/0"
    told = board.edit_in_round([Edit("insert", place, "X 10")], str(BLOCK), 2)
    assert not BITS & set(told) and len(told["entries"]) == 1
    with stabsim.Circuit(CODE).edit() as session:
        session.insert(BLOCK, "X 10")
        first = session.changed().detectors
    # Two rounds later each detector that an X flips has a number that is greater by those of two rounds.
    flipped = [int(name[1:]) for name in told["flipped"] if name.startswith("D")]
    assert len(flipped) == len(first) and flipped[0] > first[0]
    before = board.text()
    assert not BITS & set(board.go(0))
    assert board.text() != before and board.text() == text_at_first()


def test_undo_and_redo_are_the_sessions_own_and_say_what_edits_would(board, monkeypatch):
    made = [lambda: board.edit([Edit("insert", str(BLOCK), "X 10")]), lambda: board.edit_in_round([Edit("insert", f"{BLOCK + 2}/0", "X 10")], str(BLOCK + 1), 2),
            lambda: board.edit([Edit("insert", "0", "H 1"), Edit("insert", "0", "H 1")])]
    texts = [board.text(), *((it(), board.text())[1] for it in made)]
    ways = [2, 0, 3, 1, 2, 1, 3, 0]

    def told():
        return [({key: its for key, its in board.go(at).items() if key != "age"}, board.text(), board.written()) for at in ways]

    monkeypatch.setattr(board, "_carry_out", None)
    session, by_history = board.session, told()
    assert board.session is session and [text for _, text, _ in by_history] == [texts[at] for at in ways]
    # What the session did is forgotten, and edits are made in its place.
    monkeypatch.undo()
    board.go(3)
    for entry in board.entries:
        entry.changes = []
    assert told() == by_history


def test_an_undo_that_fails_on_the_way_changes_nothing(board, monkeypatch):
    board.edit([Edit("insert", str(BLOCK), "X 10")])
    board.edit([Edit("insert", str(BLOCK), "X 1")])
    before, undo, calls = board.text(), board.session.undo, []

    def refused_at_last():
        calls.append(0)
        if len(calls) == 2:
            raise stabsim.Refused(16, "OutOfMemory")
        return undo()

    monkeypatch.setattr(board.session, "undo", refused_at_last)
    with pytest.raises(stabsim.Refused):
        board.go(0)
    assert board.text() == before and board.position == 2 and len(calls) == 2


def test_a_split_is_one_edit_and_a_script_has_its_parts(board):
    told = board.split(str(BLOCK), 2)
    assert told["edits"] == [{"kind": "split", "place": str(BLOCK), "item": "2"}] and told["flipped"] == []
    after = board.text()
    with stabsim.Circuit(CODE).edit() as session:
        session.split(BLOCK, 2)
        assert session.circuit() == after
    words = [line.split(" ")[0] for line in board.script().splitlines() if line[:1].isalpha()]
    assert words == ["insert", "insert", "replace"]
    assert not BITS & set(board.go(0)) and board.text() == text_at_first()


def text_at_first():
    """The circuit as a session writes it."""
    with stabsim.Circuit(CODE).edit() as session:
        return session.circuit()


def test_a_refused_edit_in_a_round_leaves_the_block_whole(board):
    with pytest.raises(stabsim.Refused):
        board.edit_in_round([Edit("insert", f"{BLOCK + 1}/0", "X 1000")], str(BLOCK), 2)
    assert board.text() == text_at_first()
    assert board.position == 0


@pytest.mark.parametrize("item", ["X 1\nX 2", "REPEAT 2 {"])
def test_an_edit_in_a_round_that_fails_otherwise_leaves_the_block_whole(board, item):
    before = board.opened()
    with pytest.raises(ValueError):
        board.edit_in_round([Edit("insert", f"{BLOCK + 1}/0", item)], str(BLOCK), 2)
    assert board.opened() == before


def test_going_back_is_all_or_nothing(board, monkeypatch):
    for qubit in (1, 3):
        board.edit([Edit("insert", str(BLOCK), f"X {qubit}")])
        # What the session did is forgotten, so edits are made in its place.
        board.entries[-1].changes = []
    before = board.opened()
    delete, left = board.session.delete, [1]

    def delete_once(place):
        if not left:
            raise OSError("no more")
        left.pop()
        delete(place)

    with monkeypatch.context() as context:
        context.setattr(board.session, "delete", delete_once)
        with pytest.raises(OSError):
            board.go(0)
    assert board.opened() == before
    told = board.go(0)
    assert (told["position"], board.text()) == (0, text_at_first())
    board.go(2)
    assert board.opened()["circuit"] == before["circuit"]


FIRST_MEASUREMENT = "MR 2 9 11 13 14 16 18 25\n"
# Edits that are refused: each with the circuit that it would make, by hand, and the line at fault with its carets.
REFUSED = {
    "a name": (Edit("insert", "0", "MXX 1 3"), lambda text: "MXX 1 3\n" + text, ["MXX 1 3", "^^^"]),
    "a line of a block": (
        Edit("insert", "0", "REPEAT 2 {\n    X 1\n    H 1000000\n}"),
        lambda text: "REPEAT 2 {\n    X 1\n    H 1000000\n}\n" + text, ["H 1000000", "  ^^^^^^^"],
    ),
    "a lookback in a block": (
        Edit("insert", f"{BLOCK}/0", "DETECTOR rec[-9]"),
        lambda text: text.replace("{\n", "{\n    DETECTOR rec[-9]\n"), ["DETECTOR rec[-9]", "         ^^^^^^^"],
    ),
    "a lookback of another item": (
        Edit("delete", str(LINES.index(FIRST_MEASUREMENT.strip()))),
        lambda text: text.replace(FIRST_MEASUREMENT, "", 1), ["DETECTOR(0, 4, 0) rec[-4]", "                  ^^^^^^^"],
    ),
}


@pytest.mark.parametrize("edit, by_hand, shown", REFUSED.values(), ids=REFUSED.keys())
def test_a_refused_edit_is_explained_as_check_explains_the_circuit(board, edit, by_hand, shown):
    checked = subprocess.run([stabsim.find_program(), "check"], input=by_hand(board.text()), capture_output=True, text=True, check=False)
    with pytest.raises(stabsim.Refused) as refused:
        board.edit([edit])
    assert f"refused {refused.value.number} {refused.value.name}" in checked.stderr
    assert refused.value.explanation.split("\n") == shown + checked.stdout.splitlines()[2:]


@pytest.mark.parametrize("item", ["X 1000", "CX rec[-9] 1000"])
def test_a_qubit_that_the_session_has_not_is_explained(board, item):
    with pytest.raises(stabsim.Refused) as refused:
        board.edit([Edit("insert", "0", item)])
    assert refused.value.number == 6 and "0 to 25" in refused.value.explanation


def test_of_a_file_that_is_read_as_it_is_nothing_is_said(board):
    assert board.opened()["notice"] == ""


def test_a_refusal_of_a_noisy_file_names_its_line(tmp_path):
    file = tmp_path / "noisy.stim"
    file.write_text("R 0\nX_ERROR(0.1) 0\nX_ERROR(0.1) 0\nT 0\n")
    with pytest.raises(stabsim.Refused) as refused:
        Board(opened_of(str(file)))
    assert refused.value.line == 4
    file.write_text("R 0\nX_ERROR(0.1) 0\nHERALDED_ERASE(2) 0\n")
    with pytest.raises(stabsim.Refused) as refused:
        Board(opened_of(str(file)))
    assert refused.value.line == 3
