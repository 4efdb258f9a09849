"""A circuit's arrays, against values worked by hand and against the program's five formats."""

import dataclasses
import pickle
import re
import stat
import subprocess

import numpy as np
import pytest
import stabsim
from stabsim import program

BELL = "H 0\nCX 0 1\nM 0 1\nDETECTOR rec[-1] rec[-2]\nOBSERVABLE_INCLUDE(0) rec[-1]\n"
MARKED = "R 0 1 2\nI 0 2\nCX 0 1 2 1\nM 1\nDETECTOR rec[-1]\nM 0\nOBSERVABLE_INCLUDE(0) rec[-1]\n"
# Records that are free and fixed, in more than one byte.
MANY = "H 0\nX 1\nM 0 1\nREPEAT 5 {\nH 0 2\nM 0 1 2\nDETECTOR rec[-2]\nDETECTOR rec[-1] rec[-3]\n}\nOBSERVABLE_INCLUDE(1) rec[-1]\n"


def test_numbers_are_counted_with_blocks_written_out():
    has = stabsim.Circuit(MANY).numbers()
    assert has == stabsim.Numbers(qubits=3, items=5, steps=4 + 5 * 7 + 1, records=17, detectors=10, observables=2, coins=17)


def test_both_records_of_a_bell_pair_agree_and_come_both_ways():
    records = stabsim.Circuit(BELL).sample(200, seed=7)
    assert records.dtype == np.bool_ and records.shape == (200, 2)
    assert np.array_equal(records[:, 0], records[:, 1])
    assert 0 < records[:, 0].sum() < 200


def test_detectors_and_observables_are_parities_of_records():
    circuit = stabsim.Circuit(MANY)
    records = circuit.sample(20, seed=3)
    detectors, observables = circuit.detect(20, seed=3, separate_observables=True)
    assert np.array_equal(detectors[:, 0::2], records[:, 3::3])
    assert np.array_equal(detectors[:, 1::2], records[:, 2::3] ^ records[:, 4::3])
    assert np.array_equal(observables, np.stack([np.zeros(20, dtype=bool), records[:, -1]], axis=1))
    assert np.array_equal(circuit.detect(20, seed=3), detectors)


def written(layout, command=("sample",)):
    return program.run([*command, "--shots", "9", "--seed", "5", "--out_format", layout], MANY)


def test_the_array_says_what_the_five_formats_say():
    shots = stabsim.Circuit(MANY).sample(9, seed=5)
    lines = ["".join("01"[bit] for bit in shot.astype(int)) for shot in shots]
    hits = [",".join(map(str, np.flatnonzero(shot))) for shot in shots]
    dets = [" ".join(["shot", *(f"M{place}" for place in np.flatnonzero(shot))]) for shot in shots]
    assert written("01").decode() == "".join(line + "\n" for line in lines)
    assert written("hits").decode() == "".join(line + "\n" for line in hits)
    assert written("dets").decode() == "".join(line + "\n" for line in dets)
    assert written("b8") == b"".join(int(line[::-1], 2).to_bytes(3, "little") for line in lines)
    # Fewer than 255 zeros are in front of each 1 here, the one that is put after the bits too.
    assert written("r8") == b"".join(bytes(map(len, (line + "1").split("1")[:-1])) for line in lines)


def test_no_bits_and_no_shots_make_empty_arrays():
    assert stabsim.Circuit("X 0\n").sample(3).shape == (3, 0)
    assert stabsim.Circuit(BELL).sample(0).shape == (0, 2)
    detectors, observables = stabsim.Circuit("M 0\n").detect(2, separate_observables=True)
    assert detectors.shape == observables.shape == (2, 0)


def test_a_bell_pair_is_stabilised_by_two_products():
    assert stabsim.Circuit("H 0\nCX 0 1\nZ 0\n").stabilisers() == ["-XX", "+ZZ"]


def test_what_a_coin_decides_is_not_deterministic():
    found = stabsim.Circuit("H 0\nCX 0 1\nM 0 1\nDETECTOR rec[-1]\nDETECTOR rec[-1] rec[-2]\nOBSERVABLE_INCLUDE(0)\n").deterministic()
    assert found.detectors.tolist() == [False, True] and found.observables.tolist() == [True]


def test_marked_faults_flip_what_they_pass():
    # X on qubit 0 reaches both measurements, X on qubit 2 the first alone, and Z none.
    table = stabsim.Circuit(MARKED).faults()
    assert table.steps.tolist() == [3, 3, 4, 4]
    assert table.paths.tolist() == ["1", "1", "1", "1"]
    assert table.paulis.tolist() == ["X", "Z", "X", "Z"]
    assert table.qubits.tolist() == [0, 0, 2, 2]
    assert [table.flipped(fault).tolist() for fault in range(4)] == [[0, 1], [], [0], []]
    assert (table.num_detectors, table.num_observables, len(table)) == (1, 1, 4)


def test_paths_of_blocks_come_with_their_numbers():
    table = stabsim.Circuit("R 0\nREPEAT 12 {\nX 0\nREPEAT 2 {\nTICK\nI 0\n}\n}\n").faults()
    assert table.paths.tolist() == ["1/1/1"] * 48
    assert table.steps.tolist() == [2 + 3 * (fault // 4) + fault // 2 % 2 for fault in range(48)]


def test_sparse_faults_are_those_of_the_format_01():
    text = stabsim.codes.surface_code(3, 3)
    table = stabsim.Circuit(text).faults(everywhere=True)
    lines = program.run(["faults", "--everywhere", "--out_format", "01"], text).decode().split()
    assert np.array_equal(table.dense(), np.array([[bit == "1" for bit in line] for line in lines]))
    words = [line.split() for line in program.run(["faults", "--everywhere"], text).decode().splitlines()]
    assert table.steps.tolist() == [int(word[0]) for word in words]
    assert table.paths.tolist() == [word[1] for word in words]
    assert table.paulis.tolist() == [word[2][0] for word in words]
    assert table.qubits.tolist() == [int(word[2][1:]) for word in words]


def test_a_circuit_without_places_has_an_empty_table():
    table = stabsim.Circuit("M 0\nDETECTOR rec[-1]\n").faults()
    assert len(table) == 0 and table.indptr.tolist() == [0] and table.dense().shape == (0, 1)


def test_an_empty_table_says_that_no_place_is_marked():
    circuit = stabsim.Circuit("M 0\nDETECTOR rec[-1]\n")
    assert "no place is marked by I, and everywhere=True asks for all places" in repr(circuit.faults())
    assert "4 faults" in repr(circuit.faults(everywhere=True)) and "marked" not in repr(circuit.faults(everywhere=True))
    # There is no place at all, marked or not.
    assert repr(stabsim.Circuit("TICK\n").faults(everywhere=True)) == "<stabsim.FaultTable: 0 faults, 0 detectors, 0 observables>"
    assert "marked" not in repr(stabsim.Circuit(MARKED).faults())


def test_coordinates_are_shifted_in_every_round():
    text = """QUBIT_COORDS(1, 2) 0 3
SHIFT_COORDS(10)
QUBIT_COORDS(1, 2) 3
DETECTOR(0.5, 0)
REPEAT 2 {
    DETECTOR(1)
    REPEAT 3 {
        DETECTOR[a](1, 1e1) # DETECTOR(7)
        SHIFT_COORDS(0, 1)
    }
    SHIFT_COORDS(0, 0, 5)
    detector
}
DETECTOR(0, 0, 0, 0)
M 4
"""

    def inner(at):
        return [[11, at + row, np.nan, np.nan] for row in (10, 11, 12)]

    nothing = [np.nan] * 4
    one = [11, np.nan, np.nan, np.nan]
    wanted = [[10.5, 0, np.nan, np.nan], one, *inner(0), nothing, one, *inner(3), nothing, [10, 6, 10, 0]]
    np.testing.assert_array_equal(stabsim.Circuit(text).detector_coordinates(), wanted)
    assert stabsim.Circuit(text).numbers().detectors == len(wanted)
    np.testing.assert_array_equal(stabsim.Circuit(text).qubit_coordinates(),
                                  [[1, 2], [np.nan, np.nan], [np.nan, np.nan], [11, 2], [np.nan, np.nan]])


def test_a_qubit_placed_in_a_block_has_the_last_place():
    text = "REPEAT 3 {\nQUBIT_COORDS(0) 0\nSHIFT_COORDS(2)\n}\nQUBIT_COORDS(0) 1\nM 0 1\n"
    assert stabsim.Circuit(text).qubit_coordinates().tolist() == [[4], [6]]


def test_a_circuit_without_coordinates_has_arrays_of_no_width():
    circuit = stabsim.Circuit("M 0\nDETECTOR rec[-1]\n")
    assert circuit.detector_coordinates().shape == (1, 0) and circuit.qubit_coordinates().shape == (1, 0)


@pytest.mark.parametrize("text", [
    "REPEAT 1000000000 {\nDETECTOR\n}\n",
    "REPEAT 1000 {\nREPEAT 1000 {\nREPEAT 1000 {\nDETECTOR(1, 2)\nSHIFT_COORDS(1)\n}\n}\n}\n",
])
def test_coordinates_of_too_many_detectors_are_refused_before_any_are_made(text):
    with pytest.raises(stabsim.Refused) as told:
        stabsim.Circuit(text).detector_coordinates()
    assert told.value.number == 9


def test_rounds_without_detectors_shift_those_behind_them_at_once():
    text = "REPEAT 1000000000000 {\nREPEAT 1000 {\nSHIFT_COORDS(0.5, 1)\nQUBIT_COORDS(0, 0) 1\n}\n}\nDETECTOR(1, 2)\nM 1\n"
    circuit = stabsim.Circuit(text)
    assert circuit.detector_coordinates().tolist() == [[5e14 + 1, 1e15 + 2]]
    assert circuit.qubit_coordinates()[1].tolist() == [5e14, 1e15]


def test_a_refusal_has_its_number_name_and_line_and_the_words_of_check():
    with pytest.raises(stabsim.Refused) as told:
        stabsim.Circuit("M 0\nFOO 0\n").sample(1)
    assert (told.value.number, told.value.name, told.value.line) == (1, "UnsupportedName", 2)
    # Carets, what is wrong, and what to do.
    assert told.value.explanation.startswith("2: FOO 0\n   ^^^\n") and len(told.value.explanation.splitlines()) == 4
    assert str(told.value) == f"line 2: refused 1 UnsupportedName\n{told.value.explanation}"
    again = pickle.loads(pickle.dumps(told.value))
    assert vars(again) == vars(told.value) and str(again) == str(told.value)


def test_a_refusal_without_a_line_has_none():
    with pytest.raises(stabsim.Refused) as told:
        stabsim.Circuit("DETECTOR rec[-1]\n").detect(1)
    assert (told.value.number, told.value.line) == (8, None)


def test_every_call_explains_why_a_circuit_is_refused():
    circuit = stabsim.Circuit("REPEAT 3 {\n    M 0\n    DETECTOR rec[-2]\n}\n")
    for call in (circuit.numbers, lambda: circuit.sample(1), lambda: circuit.detect(1), circuit.stabilisers, circuit.deterministic,
                 circuit.faults, circuit.detector_coordinates, circuit.qubit_coordinates, circuit.edit):
        with pytest.raises(stabsim.Refused, match="looks back past the first record") as told:
            call()
        assert told.value.number == 8 and told.value.explanation.startswith("3:     DETECTOR rec[-2]\n")


def test_a_detector_that_coins_decide_is_named():
    with pytest.raises(stabsim.Refused) as told:
        stabsim.Circuit("MX 0\nDETECTOR rec[-1]\n").faults()
    assert told.value.number == 18 and "detector 0, item 1" in told.value.explanation
    assert stabsim.Circuit("MX 0\nI 0\nDETECTOR rec[-1]\n").faults(sure_only=True).dense().tolist() == [[False], [False]]


NOISY = "# two\nR 0\nX_ERROR(0.1) 0\nREPEAT 2 {\n    m[a](0.2) 0\n    M 0\n}\nDETECTOR(1) rec[-1]\n"


def test_a_noisy_file_is_opened_with_its_noise(tmp_path):
    path = tmp_path / "noisy.stim"
    path.write_text(NOISY)
    circuit = stabsim.Circuit.from_file(path)
    assert circuit.text == NOISY and [line.partition(":")[0] for line in circuit.left_out] == ["line 3", "line 5"]
    assert circuit.circuit.text == circuit.without_noise().text == stabsim.without_noise(NOISY) and circuit.circuit.left_out == []
    assert repr(circuit) == f"<stabsim.Circuit: {NOISY.count(chr(10))} lines, noise in 2 of them>"
    assert circuit.numbers().records == 4
    assert repr(circuit) == "<stabsim.Circuit: 1 qubits, 6 steps, 1 detectors, noise in 2 lines>"
    with circuit.edit() as session:
        assert session.circuit(comments=True) == NOISY.replace("m[a]", "M[a]")


def test_a_file_without_noise_is_opened_as_it_is(tmp_path):
    path = tmp_path / "quiet.stim"
    text = "M 0 # M(0.1) 0\nM() 0\nDETECTOR(1) rec[-1]\n"
    path.write_text(text)
    assert stabsim.Circuit.from_file(path).text == text and stabsim.Circuit.from_file(path).left_out == []
    path.write_text(f"{text}EXIT(1)\n")
    with pytest.raises(stabsim.Refused, match="line 4: refused 1 UnsupportedName"):
        stabsim.Circuit.from_file(path)


def test_a_circuit_stays_as_it_is():
    circuit = stabsim.Circuit(BELL)
    for name in ("text", "left_out", "known_numbers"):
        with pytest.raises(dataclasses.FrozenInstanceError):
            setattr(circuit, name, "M 0\n")
    assert circuit.text == BELL and circuit.numbers().detectors == 1
    again = pickle.loads(pickle.dumps(circuit))
    assert again == circuit and hash(again) == hash(circuit)


def test_a_circuit_has_its_noise_whatever_reads_it():
    for text in ("R 0\nX_ERROR(1) 0\nM 0", "M(1) 0", "X 0\nM 0"):
        assert all(made(text).sample(2).all() for made in (stabsim.Circuit, stabsim.StimCircuit, stabsim.from_stim))
    assert stabsim.StimCircuit is stabsim.Circuit and stabsim.NoisySession is stabsim.Session


def test_a_missing_program_is_told_with_what_to_do(monkeypatch, tmp_path):
    monkeypatch.setenv("STABSIM", str(tmp_path / "nothing"))
    with pytest.raises(stabsim.MissingProgram, match="No such file.*Build it by"):
        stabsim.Circuit(BELL).sample(1)
    monkeypatch.setenv("STABSIM", "/bin/true")
    with pytest.raises(stabsim.MissingProgram, match="no program stabsim"):
        stabsim.Circuit(BELL).sample(1)


def test_an_old_program_is_told_with_the_version_that_is_needed(monkeypatch, tmp_path):
    old = tmp_path / "stabsim"
    old.write_text("#!/bin/sh\necho stabsim 0.0.9\n")
    old.chmod(old.stat().st_mode | stat.S_IXUSR)
    monkeypatch.setenv("STABSIM", str(old))
    needed = program.version_text(program.NEEDED_VERSION)
    with pytest.raises(stabsim.MissingProgram, match=re.escape(f"of version 0.0.9; {needed} or later is needed")):
        stabsim.find_program()


def test_a_program_without_an_option_is_too_old(monkeypatch, tmp_path):
    old = tmp_path / "stabsim"
    old.write_text("#!/bin/sh\n[ \"$1\" = --version ] && echo stabsim 9.0.0 && exit\necho \"unexpected argument '--framed'\" >&2\nexit 2\n")
    old.chmod(old.stat().st_mode | stat.S_IXUSR)
    monkeypatch.setenv("STABSIM", str(old))
    with pytest.raises(stabsim.MissingProgram, match="too old"):
        stabsim.Circuit(BELL).edit()


def test_the_program_is_found_on_the_path(monkeypatch, tmp_path):
    found = stabsim.find_program()
    monkeypatch.delenv("STABSIM", raising=False)
    link = tmp_path / "bin" / "stabsim"
    link.parent.mkdir()
    link.write_text(f"#!/bin/sh\nexec '{found}' \"$@\"\n")
    link.chmod(link.stat().st_mode | stat.S_IXUSR)
    monkeypatch.setenv("PATH", str(link.parent), prepend=":")
    # A copy of the package by itself, as if it is installed, has no program beside it.
    monkeypatch.setattr(program, "__file__", str(tmp_path / "site-packages" / "stabsim" / "program.py"))
    assert stabsim.find_program() == str(link)
    assert subprocess.run([link, "--version"], capture_output=True, check=True).stdout.startswith(b"stabsim ")


def test_bytes_that_are_no_text_stay_as_they_are(tmp_path):
    path = tmp_path / "circuit.stim"
    path.write_bytes(b"M 0 # \xff\r\nDETECTOR[\xfe] rec[-1]\n")
    circuit = stabsim.Circuit.from_file(path)
    assert program.bytes_of(circuit.text) == path.read_bytes() and circuit.numbers().detectors == 1
    with circuit.edit() as session:
        assert program.bytes_of(session.circuit()) == b"M 0\nDETECTOR[\xfe] rec[-1]\n"
        session.delete(1)
        assert session.undo() and program.bytes_of(session.item(1)) == b"DETECTOR[\xfe] rec[-1]\n"


def test_numbers_out_of_range_are_value_errors():
    circuit = stabsim.Circuit(BELL)
    for wrong in (lambda: circuit.sample(-1), lambda: circuit.sample(1, seed=-1), lambda: circuit.sample(1, seed=2**64),
                  lambda: circuit.detect(1, first_shot=2**64), lambda: circuit.stabilisers(seed=-1), lambda: circuit.edit(seed=2**64)):
        with pytest.raises(ValueError):
            wrong()
    with pytest.raises(ValueError, match="qubits is 2000: give a whole number from 0 to 1024"):
        circuit.edit(qubits=2000)


def test_circuits_of_one_text_are_one():
    assert stabsim.Circuit(BELL) == stabsim.Circuit(BELL) != stabsim.Circuit(MANY)
    assert len({stabsim.Circuit(BELL), stabsim.Circuit(BELL)}) == 1
    assert str(stabsim.Circuit(BELL)) == BELL and "5 lines" in repr(stabsim.Circuit(BELL))


def test_every_name_of_the_package_is_there():
    assert all(hasattr(stabsim, name) for name in stabsim.__all__)
    assert not hasattr(stabsim, "nothing_of_this_name")
