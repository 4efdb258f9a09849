"""Shots in files: bytes worked by hand, those that the program writes, and that what is written is read again."""

import subprocess

import numpy as np
import pytest
import stabsim
from stabsim import program

FORMATS = ("01", "b8", "r8", "hits", "dets", "ptb64")
# Two measurements, a detector and two observables, of three shots.
SHOTS = np.array([[1, 0, 1, 0, 1], [0, 0, 0, 0, 0], [0, 1, 0, 1, 1]], dtype=bool)
NUMBERS = {"num_measurements": 2, "num_detectors": 1, "num_observables": 2}
BYTES = {
    "01": b"10101\n00000\n01011\n",
    "b8": bytes([0b10101, 0, 0b11010]),
    # Zeros before each 1, the 1 that is put after the five bits included.
    "r8": bytes([0, 1, 1, 0, 5, 1, 1, 0, 0]),
    "hits": b"0,2,4\n\n1,3,4\n",
    "dets": b"shot M0 D0 L1\nshot\nshot M1 L0 L1\n",
}


@pytest.mark.parametrize("format", BYTES)
def test_a_format_has_these_bytes(format, tmp_path):
    path = tmp_path / "shots"
    stabsim.write_shots(path, SHOTS, format=format, **NUMBERS)
    assert path.read_bytes() == BYTES[format]
    assert np.array_equal(stabsim.read_shots(path, format=format, **NUMBERS), SHOTS)


def test_ptb64_has_a_word_for_each_bit_of_sixty_four_shots(tmp_path):
    path = tmp_path / "shots"
    shots = np.zeros((128, 3), dtype=bool)
    # Shots 0 and 9 of bit 0, shot 63 of bit 1, and shot 65 of bit 2, which is shot 1 of the second group.
    shots[0, 0] = shots[9, 0] = shots[63, 1] = shots[65, 2] = True
    stabsim.write_shots(path, shots, format="ptb64", num_detectors=3)
    words = [1 << 0 | 1 << 9, 1 << 63, 0, 0, 0, 1 << 1]
    assert path.read_bytes() == b"".join(word.to_bytes(8, "little") for word in words)
    assert np.array_equal(stabsim.read_shots(path, format="ptb64", num_detectors=3), shots)
    with pytest.raises(ValueError, match="multiple of 64"):
        stabsim.write_shots(path, shots[:63], format="ptb64", num_detectors=3)


def test_long_runs_of_zeros_are_bytes_255(tmp_path):
    path = tmp_path / "shots"
    for zeros, wanted in [(254, [254]), (255, [255, 0]), (256, [255, 1]), (510, [255, 255, 0])]:
        shots = np.zeros((2, zeros), dtype=bool)
        stabsim.write_shots(path, shots, format="r8", num_measurements=zeros)
        assert list(path.read_bytes()) == 2 * wanted
        assert np.array_equal(stabsim.read_shots(path, format="r8", num_measurements=zeros), shots)


@pytest.mark.parametrize("format", FORMATS)
@pytest.mark.parametrize("width", [0, 1, 7, 8, 9, 300])
def test_what_is_written_is_read_again(format, width, tmp_path):
    path = tmp_path / "shots"
    shots = np.random.default_rng(width).random((128, width)) < 0.02
    numbers = {"num_measurements": width // 3, "num_detectors": width - width // 3}
    for some in (shots, shots[:64], shots[:0]):
        stabsim.write_shots(path, some, format=format, **numbers)
        found = stabsim.read_shots(path, format=format, **numbers)
        # Shots without bits are no bytes in two of the formats.
        assert np.array_equal(found, some if width or format not in ("b8", "ptb64") else some[:0])
        whole = path.read_bytes()
        packed = np.packbits(some, axis=1, bitorder="little")
        stabsim.write_shots(path, packed, format=format, **numbers)
        assert path.read_bytes() == whole
        if width:
            assert np.array_equal(stabsim.read_shots(path, format=format, bit_packed=True, **numbers), packed)


@pytest.mark.parametrize("format", ["01", "b8", "r8", "hits", "dets"])
def test_what_the_program_writes_is_read(format, tmp_path):
    circuit = stabsim.Circuit("H 0 1\nX 2\nM 0 1\nM 2\nDETECTOR rec[-1]\nDETECTOR rec[-2] rec[-3]\nOBSERVABLE_INCLUDE(0) rec[-2]\n")
    source, path = tmp_path / "circuit.stim", tmp_path / "shots"
    source.write_text(circuit.text)
    words = [program.find_program(), "detect", "--append_observables", "--shots", "70", "--seed", "3", "--out_format", format]
    subprocess.run([*words, "--in", source, "--out", path], check=True)
    found = stabsim.read_shots(path, format=format, num_detectors=2, num_observables=1)
    assert np.array_equal(found, np.concatenate(circuit.detect(70, seed=3, separate_observables=True), axis=1)) and found[:, 1].any()


@pytest.mark.parametrize("format, data", [
    ("01", b"101\n"), ("01", b"10201\n"), ("01", b"10101"), ("01", b"10101\n0000\n0"), ("r8", b"\x06"), ("r8", b"\x04"), ("r8", b"\x05\xff"),
    ("r8", b"\x00\x05\x04"), ("hits", b"1,5\n"), ("hits", b"1,,2\n"), ("hits", b"1,\n"), ("hits", b",1\n"), ("hits", b"a\n"), ("hits", b"1"), ("hits", b"1-2\n"),
    ("hits", b"99999999999999999999\n"), ("dets", b"M0\n"), ("dets", b"shot M2\n"), ("dets", b"shot L2\n"), ("dets", b"shot X0\n"), ("dets", b"shot M0"),
    ("dets", b"shots M0\n"), ("dets", b"shot  M0\n"), ("dets", b"shot M\n"), ("dets", b"\n"), ("ptb64", b"1234567"),
])
def test_what_is_no_such_file_is_told(format, data, tmp_path):
    path = tmp_path / "shots"
    path.write_bytes(data)
    with pytest.raises(stabsim.BadShots):
        stabsim.read_shots(path, format=format, **NUMBERS)


@pytest.mark.parametrize("format, data, line, said", [
    ("01", b"10101\n101\n", 2, "it has 3 characters, and num_measurements, num_detectors and num_observables add up to 5"), ("01", b"10101\n00000\n10102\n", 3, "neither 0 nor 1"),
    ("01", b"10101\n00", 2, "the last line has no end"), ("hits", b"1\n\n2,x\n", 3, "no number"), ("hits", b"1\n4,5\n", 2, "past the last bit, and num_measurements, num_detectors and num_observables add up to 5"),
    ("hits", b"1\n2,,3\n", 2, "no number"), ("dets", b"shot M0\nshoe M0\n", 2, "begin with the word shot"),
    ("dets", b"shot\n\n", 2, "begin with the word shot"), ("dets", b"shot\nshot M0  M1\n", 2, "two spaces"),
    ("dets", b"shot\nshot M0 Q1\n", 2, "none of M, D and L"), ("dets", b"shot\nshot\nshot D1\n", 3, "past the bits of its kind"),
    ("dets", b"shot\nshot M0", 2, "the last line has no end"),
])
def test_a_line_at_fault_is_named(format, data, line, said, tmp_path):
    path = tmp_path / "shots"
    path.write_bytes(data)
    with pytest.raises(stabsim.BadShots, match=f"^line {line}: .*{said}") as told:
        stabsim.read_shots(path, format=format, **NUMBERS)
    assert told.value.line == line


@pytest.mark.parametrize("format", ["01", "hits", "dets"])
def test_lines_may_end_in_a_carriage_return(format, tmp_path):
    path = tmp_path / "shots"
    path.write_bytes(BYTES[format].replace(b"\n", b"\r\n"))
    assert np.array_equal(stabsim.read_shots(path, format=format, **NUMBERS), SHOTS)


def test_a_byte_too_many_is_told(tmp_path):
    path = tmp_path / "shots"
    path.write_bytes(b"123")
    for numbers in ({"num_detectors": 9}, {}):
        with pytest.raises(stabsim.BadShots):
            stabsim.read_shots(path, format="b8", **numbers)


def test_wrong_arguments_are_told(tmp_path):
    path = tmp_path / "shots"
    for shots in (SHOTS[:, :4], SHOTS[0], SHOTS.astype(int), np.zeros((3, 2), dtype=np.uint8)):
        with pytest.raises(ValueError, match="bool array"):
            stabsim.write_shots(path, shots, format="01", **NUMBERS)
    with pytest.raises(ValueError, match="give one of '01', 'b8'"):
        stabsim.write_shots(path, SHOTS, format="b9", **NUMBERS)
    with pytest.raises(ValueError, match="num_detectors is -1"):
        stabsim.read_shots(path, format="01", num_detectors=-1)
    assert not path.exists()
