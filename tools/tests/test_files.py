"""Files that the program reads and writes, and standard streams that are closed or are a terminal."""

import os
import pathlib
import pty
from collections.abc import Sequence

import pytest
from oracle.reading import MOST_BYTES
from running import COMMANDS, FOLDER, MISSING, NO_MARKS, READ_FAULT, TOO_LONG, WRITE_FAULT, Ended, run

CIRCUIT = "X 0\nM 0 1\n"
SHARED = "stabsim: --in and --out are one file\n"
SHARED_INPUT = "stabsim: standard input and --out are one file\n"
SHARED_COINS = "stabsim: --coins_in and --out are one file\n"
COINS_TWICE = "stabsim: coins are given by --coins or by --coins_in, and not by both\n"
WRONG_COINS = "stabsim: coins are 0 and 1\n"
HINT = "stabsim: what is wrong and where: give the same circuit to `stabsim check`\n"
UNSUPPORTED = "stabsim: line 2: refused 1 UnsupportedName\n"
LONGEST_WORD = 131_072
OLD = "what was there before\n"


@pytest.fixture(name="circuit")
def circuit_file(tmp_path: pathlib.Path) -> pathlib.Path:
    file = tmp_path / "circuit.stim"
    file.write_text(CIRCUIT)
    return file


def test_one_file_to_read_and_to_write_is_refused_and_kept(tmp_path: pathlib.Path, circuit: pathlib.Path) -> None:
    soft, hard = tmp_path / "soft.stim", tmp_path / "hard.stim"
    soft.symlink_to(circuit)
    hard.hardlink_to(circuit)
    for out in (circuit, soft, hard):
        for command in COMMANDS:
            assert run([command, "--in", circuit, "--out", out]) == (2, "", SHARED)
    with circuit.open("rb") as given:
        assert run(["sample", "--in", "/dev/stdin", "--out", circuit], given.fileno()) == (2, "", SHARED)
        assert run(["sample", "--out", circuit], given.fileno()) == (2, "", SHARED_INPUT)
        assert run(["edit", "--in", tmp_path / "none", "--out", circuit], given.fileno()) == (2, "", SHARED_INPUT)
    assert circuit.read_text() == CIRCUIT


# Words, what is read, the status, and what is then in the file; {} is the file of the circuit.
@pytest.mark.parametrize("words, given, status, left", [
    ("sample", "CX 0 0\n", 1, OLD),
    ("sample --in {}.none", "", 1, OLD),
    ("sample --shots none", "", 2, OLD),
    ("edit --qubits 1 --in {}", "", 1, OLD),
    ("sample --in {}", "", 0, "10\n"),
    ("sample --shots 0 --in {}", "", 0, ""),
    ("detect --out_format b8 --in {}", "", 0, ""),
    ("edit --in {}", "", 0, ""),
    ("edit --in {}", "show measurements\ndelete 9\n", 3, "10\nrefused 12 PlaceOutOfRange\n"),
])
def test_an_older_file_is_kept_by_a_run_that_is_refused(tmp_path: pathlib.Path, circuit: pathlib.Path, words: str, given: str, status: int, left: str) -> None:
    out = tmp_path / "out"
    out.write_text(OLD)
    assert run([*(word.format(circuit) for word in words.split()), "--out", out], given)[0] == status
    assert out.read_text() == left


# Words, and what is said after the fault of reading or of writing; {} is a folder.
@pytest.mark.parametrize("words, fault, told", [
    ("sample --in {}/none.stim", READ_FAULT, f"stabsim: {{}}/none.stim: {MISSING}\n"),
    *((f"{command} --in {{}}", READ_FAULT, f"stabsim: {{}}: {FOLDER}\n") for command in COMMANDS),
    ("sample --in /proc/self/mem", READ_FAULT, "stabsim: /proc/self/mem: Input/output error (os error 5)\n"),
    ("sample --out {}/none/out", WRITE_FAULT, f"stabsim: {{}}/none/out: {MISSING}\n"),
    ("sample --out {}", WRITE_FAULT, f"stabsim: {{}}: {FOLDER}\n"),
    ("sample --out /dev/full", WRITE_FAULT, ""),
])
def test_a_file_that_cannot_be_opened_or_made_is_told_by_its_name(tmp_path: pathlib.Path, words: str, fault: str, told: str) -> None:
    assert run(words.format(tmp_path).split(), "M 0\n") == (1, "", fault + told.format(tmp_path))
    assert run(["sample", "--out", "/dev/null"], "M 0\n") == (0, "", "")


@pytest.mark.skipif(os.geteuid() == 0, reason="root may read all files")
def test_a_file_that_may_not_be_read_is_told_by_its_name(circuit: pathlib.Path) -> None:
    circuit.chmod(0)
    assert run(["sample", "--in", circuit])[2].startswith(f"{READ_FAULT}stabsim: {circuit}: ")


@pytest.mark.parametrize("words", ["sample", "sample --shots 100000", "edit"])
def test_a_full_disk_and_a_closed_pipe_are_write_faults(words: str) -> None:
    asked = [*words.split(), "--in", "examples/repetition_code.stim"]
    script = "show circuit\n" if words == "edit" else ""
    with open("/dev/full", "wb") as full:
        assert run(asked, script, output=full.fileno()) == (1, "", WRITE_FAULT)
    source, sink = os.pipe()
    os.close(source)
    assert run(asked, script, output=sink) == (1, "", WRITE_FAULT)
    os.close(sink)


def test_a_closed_stream_fails_where_it_is_needed_and_changes_nothing_else(tmp_path: pathlib.Path, circuit: pathlib.Path) -> None:
    out, from_file = tmp_path / "out", ["sample", "--in", circuit]
    assert run(from_file, closed=(1,)) == (1, "", WRITE_FAULT)
    assert run(["sample"], closed=(0,)) == (1, "", READ_FAULT)
    assert run(from_file, closed=(0,)) == (0, "10\n", "")
    assert run(["edit", "--in", circuit], closed=(0,)) == (1, "", READ_FAULT)
    assert run(["sample"], "CX 0 0\n", closed=(2,)) == (1, "", "")
    assert run(["--help"], closed=(1,))[0] == 1
    for closed in ((1,), (2,), (0, 1, 2)):
        out.unlink(missing_ok=True)
        assert (run([*from_file, "--out", out], closed=closed)[0], out.read_text()) == (0, "10\n")
    assert circuit.read_text() == CIRCUIT


@pytest.mark.parametrize("command", [command for command in COMMANDS if command != "edit"])
def test_no_command_but_edit_reads_a_script(circuit: pathlib.Path, command: str) -> None:
    words = [command, "--in", circuit]
    assert run(words, closed=(0,)) == (0, run(words)[1], NO_MARKS if command in ("faults", "distance", "propagate_each") else "")


ZERO, MARKED_ZERO = "R 0\nM 0\nDETECTOR rec[-1]\n", "R 0\nI 0\nM 0\n"
NO_LETTERS = "stabsim: no place is marked by I with X or Z; --everywhere asks for all places\n"
UNMARKED, MARKED = (f"R 0\n{mark}M 0\nOBSERVABLE_INCLUDE(0) rec[-1]\n" for mark in ("", "I[Y] 0\n"))
# Two flips of a bit that is measured twice, and compared, are seen by no detector.
TWICE = "R 0 1\nI[X] 0 1\nM 0 1\nDETECTOR rec[-1] rec[-2]\nOBSERVABLE_INCLUDE(0) rec[-1]\n"
DISTANCE_OF_TWICE = "distance 2 of all marked errors\n2 1 X0 D0\n3 1 X1 D0 L0\n"
# Without errors no observable is flipped, and one has to be.
NO_PROBLEM = "p wcnf 1 2 1\n1 1 0\n1 -1 0\n"


# Words, a circuit, the answer, and what is said beside it.
@pytest.mark.parametrize("words, text, answer, told", [
    ("faults", ZERO, "", NO_MARKS),
    ("faults --out_format dets", ZERO, "", NO_MARKS),
    # But not if all places are asked for, nor for faults without a byte.
    ("faults --everywhere", ZERO, "1 0 X0 D0\n1 0 Z0\n1 1 X0 D0\n1 1 Z0\n2 1 X0\n2 1 Z0\n", ""),
    ("faults", MARKED_ZERO, "1 1 X0\n1 1 Z0\n", ""),
    ("faults --out_format b8", MARKED_ZERO, "", ""),
    ("propagate_each", ZERO, "", NO_MARKS),
    ("propagate_each --everywhere", "R 0\n", "1 0 X0 left X0\n1 0 Z0 left Z0\n", ""),
    ("distance", UNMARKED, "none\n", NO_MARKS),
    # A mark of Y alone has no letter left.
    ("distance --letters XZ", MARKED, "none\n", NO_LETTERS),
    ("distance --everywhere", UNMARKED, "distance 1 of all errors everywhere\n1 0 X0 L0\n", ""),
    ("distance", MARKED, "distance 1 of all marked errors\n1 1 Y0 L0\n", ""),
    ("distance", TWICE, DISTANCE_OF_TWICE, ""),
    ("distance --observable 0", TWICE, DISTANCE_OF_TWICE.replace("errors", "errors for L0"), ""),
    ("distance --observable 1", TWICE, "none for L1\n", "stabsim: the circuit has no L1, observables: 1\n"),
    ("distance --each", TWICE, DISTANCE_OF_TWICE.replace("errors", "errors for L0"), ""),
    ("distance --each", UNMARKED, "none for L0\n", NO_MARKS),
    ("distance --each --letters XZ", MARKED, "none for L0\n", NO_LETTERS),
    ("distance --table", TWICE, "2 1 X0 D0\n3 1 X1 D0 L0\n", ""),
    ("distance --table", UNMARKED, "", NO_MARKS),
    ("distance --table --letters XZ", MARKED, "", NO_LETTERS),
    ("distance --wcnf", UNMARKED, NO_PROBLEM, NO_MARKS),
    ("distance --wcnf --letters XZ", MARKED, NO_PROBLEM, NO_LETTERS),
    ("distance --count", TWICE, DISTANCE_OF_TWICE + "count 1\n", ""),
    ("distance --count", UNMARKED, "none\ncount 0\n", NO_MARKS),
    ("distance --count --progress", TWICE, DISTANCE_OF_TWICE + "count 1\n", "distance: no set of 1\n"),
    ("distance --progress", TWICE, DISTANCE_OF_TWICE, "distance: no set of 1\n"),
    ("distance --progress --most 1", TWICE, "none up to 1\n", "distance: no set of 1\n"),
])
def test_marks_that_are_missing_and_progress_are_told(tmp_path: pathlib.Path, words: str, text: str, answer: str, told: str) -> None:
    out = tmp_path / "out"
    assert run(words.split(), text) == (0, answer, told)
    assert (run([*words.split(), "--out", out], text), out.read_text()) == ((0, "", told), answer)


@pytest.mark.parametrize("command", ["faults", "distance"])
def test_a_refused_circuit_is_told_alone(command: str) -> None:
    assert run([command], "CX 0 0\n") == (1, "", "stabsim: line 1: refused 4 BadPairing\n")


def from_coins(circuit: pathlib.Path, text: str, *words: object, given: str = "") -> Ended:
    """A run with this text as the file of coins, which is beside the circuit."""
    coins = circuit.parent / "coins"
    coins.write_bytes(text.encode())
    return run([*words, "--in", circuit, "--coins_in", coins], given)


def test_coins_of_a_file_are_those_of_each_command(circuit: pathlib.Path) -> None:
    coins = circuit.parent / "coins"
    circuit.write_text("H 0 1\nM 0 1\n")
    for text in ("01", "01\n", "01\r\n", "0111"):
        assert from_coins(circuit, text, "sample", "--shots", "2") == (0, "01\n01\n", "")
        assert from_coins(circuit, text, "sample", "--seed", "5") == (0, "01\n", "")
    assert from_coins(circuit, text, "stabilizers") == (0, "+Z_\n-_Z\n", "")
    assert from_coins(circuit, text, "edit", given="show measurements\n") == (0, "01\n", "")
    assert from_coins(circuit, text, "sample", "--coins", "1") == (2, "", COINS_TWICE)
    assert from_coins(circuit, text, "sample", "--out", coins) == (2, "", SHARED_COINS)
    assert from_coins(circuit, "0" * (MOST_BYTES - 1) + "\n", "sample") == (0, "00\n", "")
    assert from_coins(circuit, "1" * (MOST_BYTES + 1), "sample") == (1, "", f"{TOO_LONG}stabsim: {coins}\n")


def test_a_file_of_coins_that_cannot_be_read_is_told_by_its_name(tmp_path: pathlib.Path) -> None:
    for file, said in ((tmp_path / "none", MISSING), (tmp_path, FOLDER)):
        assert run(["sample", "--coins_in", file], "M 0\n") == (1, "", f"{READ_FAULT}stabsim: {file}: {said}\n")


# A text of coins, and what four free outcomes are by them; none if it is no list: characters 0 and 1, and at most one line end.
@pytest.mark.parametrize("text, bits", [
    ("", "0000"), ("\n", "0000"), ("\r\n", "0000"), ("0", "0000"), ("0110", "0110"), ("10\n", "1000"), ("1\r\n", "1000"),
    *((it, None) for it in ("1\n\n", "1\n0", "1 0", " 1", "1\r", "012", "1\t", "0 1", "01\n\n", "01\r")),
])
def test_zeros_follow_the_coins_of_a_file(tmp_path: pathlib.Path, circuit: pathlib.Path, text: str, bits: str | None) -> None:
    circuit.write_text("H 0 1 2 3\nM 0 1 2 3\n")
    assert from_coins(circuit, text, "sample") == ((2, "", WRONG_COINS) if bits is None else (0, f"{bits}\n", ""))
    out = tmp_path / "out"
    out.write_text(OLD)
    from_coins(circuit, text, "sample", "--out", out)
    assert out.read_text() == (OLD if bits is None else f"{bits}\n")


@pytest.mark.parametrize("coins", ["1 0", " "])
def test_a_word_of_coins_has_no_spacing_either(coins: str) -> None:
    assert run(["sample", "--coins", coins]) == (2, "", WRONG_COINS)


def test_a_file_gives_more_coins_than_a_word_may_have(circuit: pathlib.Path) -> None:
    text = "".join("01"[at % 7 == 0] for at in range(LONGEST_WORD + 5)) + "\n"
    circuit.write_text(f"REPEAT {len(text) - 1} {{\n    H 0\n    M 0\n}}\n")
    assert from_coins(circuit, text, "sample") == (0, text, "")


def on_terminal(words: Sequence[object], given: str) -> str:
    """What a run says on a terminal as its error output."""
    held, end = pty.openpty()
    try:
        run(words, given, errors=end)
        os.write(end, b"\4")
        told = b""
        while b"\4" not in told:
            told += os.read(held, 4096)
    finally:
        os.close(held)
        os.close(end)
    return told.split(b"\4")[0].decode().replace("\r\n", "\n")


@pytest.mark.parametrize("command", ["sample", "detect", "stabilisers"])
def test_a_terminal_is_told_of_check(command: str) -> None:
    assert on_terminal([command], "M 0\nFOO 0\n") == UNSUPPORTED + HINT
    assert run([command], "M 0\nFOO 0\n") == (1, "", UNSUPPORTED)


def test_a_terminal_is_told_of_check_where_it_says_more(tmp_path: pathlib.Path) -> None:
    missing = tmp_path / "none.stim"
    assert on_terminal(["detect"], "DETECTOR rec[-1]\n") == "stabsim: refused 8 LookbackTooFar\n" + HINT
    assert HINT not in on_terminal(["check"], "M 0\nFOO 0\n")
    assert on_terminal(["sample", "--in", missing], "") == f"{READ_FAULT}stabsim: {missing}: {MISSING}\n"
    assert on_terminal(["sample", "--out", "/dev/full"], "M 0\n") == WRITE_FAULT
    assert on_terminal(["sample", "--coins", "2"], "M 0\n") == WRONG_COINS
    assert on_terminal(["sample"], "M 0\n") == ""
