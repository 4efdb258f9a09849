"""Arguments that are wrong: each is named with its value and what to give in its place."""

import pathlib

import numpy as np
import pytest
from stabsim import checking

READER = "stabsim.Circuit.from_file(path)"


@pytest.mark.parametrize("check, kind, said", [
    (lambda: checking.whole("shots", 1.5), TypeError, "shots is 1.5, of the type float: give a whole number, an int from 0 on"),
    (lambda: checking.whole("shots", "3"), TypeError, "shots is '3': give a whole number, an int from 0 on"),
    (lambda: checking.whole("shots", np.bool_(True)), TypeError, "shots is True, of the type bool_: give a whole number, an int from 0 on"),
    (lambda: checking.whole("chunk", 0, 1), ValueError, "chunk is 0: give a whole number from 1 on"),
    (lambda: checking.seed("seed", True), TypeError, "seed is True, of the type bool: give a whole number, an int from 0 to 2**64 - 1"),
    (lambda: checking.seed("seed", 2**64), ValueError, "seed is 18446744073709551616: give a whole number from 0 to 2**64 - 1"),
    (lambda: checking.chance("p", -0.1), ValueError, "p is -0.1: give a chance, a number from 0 to 1"),
    (lambda: checking.chance("p", float("nan")), ValueError, "p is nan: give a chance, a number from 0 to 1"),
    (lambda: checking.chance("p", None), TypeError, "p is None: give a chance, a number from 0 to 1"),
    (lambda: checking.text("text", None, READER), TypeError, f"text is None: give a str, or read a file by {READER}"),
    (lambda: checking.text("text", b"M 0", READER), TypeError, "text is b'M 0', of the type bytes: give a str, which its decode() makes"),
    (lambda: checking.one_of("letters", "Q", ("all", "XZ")), ValueError, "letters is 'Q': give one of 'all', 'XZ'"),
    (lambda: checking.one_of("letters", 1, ("all", "XZ")), TypeError, "letters is 1: give one of 'all', 'XZ'"),
    (lambda: checking.several("qubits", 3, "[0, 3]"), TypeError, "qubits is 3: give several, as [0, 3]"),
    (lambda: checking.several("qubits", "03", "[0, 3]"), TypeError, "qubits is '03': give several, as [0, 3]"),
    (lambda: checking.of_kind("noise", 0.01, dict, "a Noise"), TypeError, "noise is 0.01, of the type float: give a Noise"),
    (lambda: checking.of_kind("noise", "x" * 99, dict, "a Noise"), TypeError, f"noise is '{'x' * 59}..: give a Noise"),
])
def test_what_is_wrong_is_said_with_what_to_give(check, kind, said):
    with pytest.raises(kind) as told:
        check()
    assert str(told.value) == said


def test_a_path_given_as_a_text_is_told_what_reads_it():
    with pytest.raises(TypeError, match="give the text of that file, or read it by stabsim.Circuit.from_file"):
        checking.text("text", pathlib.Path("circuit.stim"), READER)


def test_what_is_right_comes_back():
    assert checking.whole("shots", np.int64(3)) == 3 and checking.seed("seed", 2**64 - 1) == 2**64 - 1
    assert checking.chance("p", 1) == 1.0 and checking.chance("p", np.float32(0.5)) == 0.5
    assert checking.text("text", "M 0", READER) == "M 0" and checking.one_of("letters", "XZ", ("all", "XZ")) == "XZ"
    assert checking.of_kind("noise", {}, dict, "a Noise") == {} and checking.several("qubits", range(3), "[0, 3]") == [0, 1, 2]
