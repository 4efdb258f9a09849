"""Noise that Stim refuses is refused when it is read, with carets under what is wrong; and of several faults the first line's."""

import math

import pytest
import stabsim
from stabsim import codes

READERS = [stabsim.from_stim, stabsim.error_model, stabsim.without_noise]


@pytest.mark.parametrize("line, number, carets, said", [
    ("X_ERROR(2) 2", 2, "        ^", "a number from 0 to 1"),
    ("X_ERROR( -0.1 ) 0", 2, "         ^^^^", "a number from 0 to 1"),
    ("Z_ERROR[a](nan) 0", 2, "           ^^^", "a number from 0 to 1"),
    ("DEPOLARIZE1(x) 0", 2, "            ^", "a number from 0 to 1"),
    ("Y_ERROR(1_0e-2) 0", 2, "        ^^^^^^", "a number from 0 to 1"),
    ("X_ERROR 0", 2, "^^^^^^^^^", "X_ERROR takes one chance in brackets, as X_ERROR(0.01)"),
    ("DEPOLARIZE2() 0 1", 2, "^" * 17, "DEPOLARIZE2 takes one chance"),
    ("M(1.5) 0", 2, "  ^^^", "a number from 0 to 1"),
    ("MZZ(0.1, 0.2) 0 1", 2, "^" * 17, "MZZ takes one chance"),
    ("I_ERROR(0.1, 7) 0", 2, "             ^", "a number from 0 to 1"),
    ("PAULI_CHANNEL_1(0.1) 0", 2, "^" * 22, "PAULI_CHANNEL_1 takes 3 chances in brackets, as PAULI_CHANNEL_1(0.01, 0.01, 0.01)"),
    ("PAULI_CHANNEL_1(0.5, 0.4, 0.2) 0", 2, "^" * 32, "1 or less in all"),
    ("DEPOLARIZE2(0.3) 0 0", 4, " " * 19 + "^", "DEPOLARIZE2 takes pairs of two different qubits"),
    ("DEPOLARIZE2(0.3) 0 1 2", 4, " " * 21 + "^", "this one has no partner"),
    ("PAULI_CHANNEL_2(0,0,0,0,0,0,0,0,0,0,0,0,0,0,1) 3 03", 4, " " * 49 + "^^", "two different qubits"),
    ("II_ERROR 0", 4, "         ^", "this one has no partner"),
    ("ELSE_CORRELATED_ERROR(0.1) X0", 1, "^" * 29, "ELSE_CORRELATED_ERROR follows E or another ELSE_CORRELATED_ERROR"),
    ("E(0.1) X0*Z1", 3, "       ^^^^^", "spacing between them, as X0 Z3"),
    ("E(0.1) X0 0", 3, "          ^", "E takes Paulis"),
    ("E(0.1) !X0", 3, "       ^^^", "E takes Paulis"),
])
def test_noise_that_stim_refuses_is_refused_with_carets(line, number, carets, said):
    for read in READERS:
        with pytest.raises(stabsim.Refused) as told:
            read(f"R 0\n  {line}  # a comment\nM 0\n")
        assert (told.value.number, told.value.line) == (number, 2)
        assert told.value.explanation.split("\n")[1] == " " * len("2:   ") + carets and said in told.value.explanation


def test_a_noisy_file_is_refused_as_its_text(tmp_path):
    path = tmp_path / "noisy.stim"
    path.write_text("R 0\nX_ERROR(2) 0\n")
    with pytest.raises(stabsim.Refused, match="line 2: refused 2 BadArguments"):
        stabsim.Circuit.from_file(path)


@pytest.mark.parametrize("line", ["X_ERROR(0) 0", "X_ERROR(1e-3) 0", "M(1) 0", "MPAD() 0", "PAULI_CHANNEL_1(.2,0.3,+0.5) 0", "DEPOLARIZE2(0.1) 0 1 1 0",
                                  "X_ERROR(0.1)", "I_ERROR 0", "II_ERROR(0.1, 0.2) 0 1", "E(0.1) x0 X00 Z3", "DEPOLARIZE1(1) 0"])
def test_noise_that_stim_takes_is_taken(line):
    assert stabsim.from_stim(f"R 0 1\n{line}\nM 0\n").circuit.sample(1).any() in (True, False)


@pytest.mark.parametrize("text, line, said", [
    ("FOO 0\nHERALDED_ERASE(2) 0\n", 1, "UnsupportedName"),
    ("R 0\nX_ERROR(2) 0\nFOO 0\n", 2, "BadArguments"),
    ("X_ERROR(0.1) 9999\nX_ERROR(2) 0\n", 1, "QubitOutOfRange"),
    ("MXX 0 1\n}\nISWAP 0 0\n", 2, "BadBlock"),
    # A block that is not closed, and a lookback too far, come after all lines.
    ("M 0\nREPEAT 2 {\n    M 0\n    DETECTOR rec[-9]\n    ISWAP 0 1\n    MXX 0 0\n", 6, "BadPairing"),
])
def test_of_several_faults_the_first_is_told(text, line, said, tmp_path):
    path = tmp_path / "circuit.stim"
    path.write_text(text)
    for read, given in [*((read, text) for read in READERS), (stabsim.Circuit.from_file, path)]:
        with pytest.raises(stabsim.Refused, match=f"^line {line}: refused [0-9]* {said}"):
            read(given)


def test_noise_of_codes_is_chances():
    for made in (lambda: codes.Noise(before_round=-0.1), lambda: codes.Noise.uniform(math.nan), lambda: codes.Noise.phenomenological(1.5)):
        with pytest.raises(ValueError, match="give a chance, a number from 0 to 1"):
            made()
    for made in (codes.surface_code, codes.repetition_code, codes.colour_code, codes.bacon_shor_code, codes.unrotated_surface_code, codes.toric_code):
        with pytest.raises(TypeError, match=r"noise is 0.01, of the type float: give a codes.Noise, as codes.Noise.uniform\(0.01\)"):
            made(3, 3, noise=0.01)
