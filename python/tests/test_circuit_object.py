"""A circuit as an object: its items, what it counts, sums and multiples, files and seeds."""

import dataclasses
import pathlib
import pickle
import time

import numpy as np
import pytest
import stabsim
from stabsim import codes
from stabsim.text.sizes import sizes_of

TEXT = """# a comment
qubit_coords(1, 2) 7
H[first] 0
cnot 0 1 # parity
REPEAT[rounds] 3{
    MZ(0) 0 !1
    REPEAT 2 {
        TICK
        MPP X0*!Z12 Y3
    }
    DETECTOR(1, 0.5) rec[-1]
}
OBSERVABLE_INCLUDE(3) rec[-1]
TICK
"""
# The program takes no argument of a measurement.
READ = TEXT.replace("(0)", "")


def test_items_have_paths_names_tags_arguments_and_targets():
    coordinates, first, pair, block, included, tick = stabsim.Circuit(TEXT)
    assert (coordinates.name, coordinates.arguments, coordinates.targets) == ("QUBIT_COORDS", ("1", "2"), ("7",))
    assert (first.name, first.tag, first.targets, first.path, first.line, first.repeat) == ("H", "first", ("0",), "1", 3, None)
    assert (pair.name, pair.targets) == ("CX", ("0", "1"))
    assert (block.name, block.tag, block.repeat, block.targets, block.arguments, block.path, block.line) == ("REPEAT", "rounds", 3, ("3",), (), "3", 5)
    measured, inner, detector = block.items
    assert (measured.name, measured.arguments, measured.targets, measured.path) == ("M", ("0",), ("0", "!1"), "3/0")
    assert [(item.path, item.name) for item in inner.items] == [("3/1/0", "TICK"), ("3/1/1", "MPP")]
    assert inner.items[1].targets == ("X0*!Z12", "Y3") and detector.numbers() == [1, 0.5] and measured.items == ()
    assert (included.numbers(), included.path, tick.path) == ([3], "4", "5")
    assert [item.path for item in stabsim.Circuit(TEXT).walk()] == ["0", "1", "2", "3", "3/0", "3/1", "3/1/0", "3/1/1", "3/2", "4", "5"]


def test_paths_are_those_of_sessions():
    circuit = stabsim.Circuit(READ)
    with circuit.edit() as session:
        assert [session.item(item.path) for item in circuit.walk()] == [f"{item}\n" for item in circuit.walk()]


def test_the_text_of_items_is_that_which_a_session_writes():
    for text in (READ, codes.surface_code(3, 4), "", "REPEAT 2 {\n}\n"):
        circuit = stabsim.Circuit(text)
        with circuit.edit() as session:
            assert "".join(f"{item}\n" for item in circuit) == session.circuit()


def test_what_is_counted_by_hand():
    circuit = stabsim.Circuit(READ)
    # Each round has two records and twice two; qubit 12 is the greatest, and observable 3.
    assert (circuit.num_qubits, circuit.num_records, circuit.num_detectors, circuit.num_observables, circuit.num_ticks) == (13, 18, 3, 4, 7)
    empty = stabsim.Circuit()
    assert [empty.num_qubits, empty.num_records, empty.num_detectors, empty.num_observables, empty.num_ticks, len(empty)] == [0] * 6
    # A TICK is counted by the rounds of the blocks around it, and not in comments, tags or other names.
    ticks = "tick # TICK\nREPEAT[{] 3 {\n\tTICK[}]\n    REPEAT 2 { # {\n        TICK\n    }\n}\nI[TICK] 0\n"
    assert stabsim.Circuit(ticks).num_ticks == 1 + 3 * (1 + 2)


@pytest.mark.parametrize("text", [
    READ, codes.surface_code(3, 7), codes.colour_code(3, 2), codes.bacon_shor_code(3, 4), codes.steane_code(3), codes.dense_circuit(9, 400, 5),
    "QUBIT_COORDS(1) 9\n", "M 0\nCX rec[-1] 3\nDETECTOR rec[-1]\nOBSERVABLE_INCLUDE(12)\n", "MPP X0*Z17\nMR !4\n", "R 007\n",
    "REPEAT 1000000000000 {\n    REPEAT 3 {\n        TICK\n    }\n}\n", "I 5\nDETECTOR\nSHIFT_COORDS(77)\n",
])
def test_sizes_of_items_are_those_that_the_program_counts(text):
    circuit = stabsim.Circuit(text)
    its = sizes_of(circuit.items)
    assert (its.qubits, its.records, its.detectors, its.observables, its.ticks) \
        == (circuit.num_qubits, circuit.num_records, circuit.num_detectors, circuit.num_observables, circuit.num_ticks)
    assert len(circuit) == circuit.numbers().items


def test_what_the_program_does_not_read_is_not_counted():
    for text, number, line in [("M 0\nNONE 0 1\n", 1, 2), ("M 0\nREPEAT 2 {\n", 5, 2), ("}\n", 5, 1), ("M 0\n 7\n", 11, 2),
                               ("OBSERVABLE_INCLUDE(0.5)\n", 2, 1), ("OBSERVABLE_INCLUDE\n", 2, 1)]:
        with pytest.raises(stabsim.Refused) as told:
            stabsim.Circuit(text).num_records
        assert (told.value.number, told.value.line) == (number, line)


def test_nothing_of_it_can_be_set():
    circuit = stabsim.Circuit(READ)
    for name in ("items", "num_qubits"):
        with pytest.raises((dataclasses.FrozenInstanceError, AttributeError)):
            setattr(circuit, name, 1)
    with pytest.raises(dataclasses.FrozenInstanceError):
        circuit.items[1].name = "X"
    with pytest.raises(TypeError):
        circuit.items[1].targets[0] = "3"
    again = pickle.loads(pickle.dumps(circuit))
    assert again == circuit and again.items == circuit.items and hash(circuit.items[3]) == hash(again.items[3])


def test_a_sum_is_one_circuit_and_then_the_other():
    one, other = stabsim.Circuit("X 0\nM 0"), stabsim.Circuit("DETECTOR rec[-1]\nM 3\n")
    assert (one + other).text == "X 0\nM 0\nDETECTOR rec[-1]\nM 3\n"
    assert (one + other).detect(1).tolist() == [[True]]
    assert one + stabsim.Circuit() == stabsim.Circuit() + one == stabsim.Circuit("X 0\nM 0\n")
    with pytest.raises(TypeError):
        one + "X 0"


def test_a_multiple_is_a_block_of_so_many_rounds():
    once = stabsim.Circuit("X 0\n\nREPEAT 2 {\n    M 0\n}")
    assert (once * 3).text == "REPEAT 3 {\n    X 0\n\n    REPEAT 2 {\n        M 0\n    }\n}\n" and 3 * once == once * 3
    assert (3 * once).sample(1).tolist() == [[True, True, False, False, True, True]]
    assert (0 * once).text == "" and (1 * once).text == once.text + "\n"
    with pytest.raises(ValueError):
        -1 * once
    with pytest.raises(TypeError):
        once * 1.5


@pytest.mark.parametrize("one, other", [
    ("M 0", "M 0\n"), ("M 0", "\n# a comment\n  m 0  # another\n\n"), ("cnot 0 01", "CX 0 1"), ("MPP !x0*Z01", "MPP !X0*Z1"),
    ("REPEAT 2 {\nM 0\n}", "repeat 2{\n    MZ 0\n\n}\n"), ("DETECTOR(1.0, 2) rec[-1]", "DETECTOR(1,2e0) rec[-01]"), ("", "# nothing\n"),
])
def test_circuits_are_equal_if_their_items_are(one, other):
    for made in (stabsim.Circuit, stabsim.from_stim):
        first, second = made(f"M 7\n{one}"), made(f"M 7\n{other}")
        assert first == second and hash(first) == hash(second) and len({first, second}) == 1


@pytest.mark.parametrize("one, other", [
    ("M 0", "M 1"), ("M 0", "M !0"), ("M 0\nM 1", "M 0 1"), ("M[a] 0", "M 0"), ("X 0", "x_error 0"), ("DETECTOR(1)", "DETECTOR(1, 0)"),
    ("REPEAT 2 {\nM 0\n}", "REPEAT 3 {\nM 0\n}"), ("REPEAT 2 {\nX 0\n}\nM 0", "REPEAT 2 {\nX 0\nM 0\n}"), ("CX 1 0", "CX 10"), ("}", "}\n"),
])
def test_circuits_of_other_items_differ(one, other):
    assert stabsim.Circuit(one) != stabsim.Circuit(other) and stabsim.Circuit(one) == stabsim.Circuit(one)
    assert stabsim.Circuit("M 0") == stabsim.from_stim("M 0") and stabsim.Circuit("M 0") != "M 0"


def test_a_slice_is_a_circuit_of_its_items_with_their_noise():
    text = "R 0\nX_ERROR(0.5) 0 # noise\nREPEAT 2 {\n    M(0.25) 0\n}\nM 0\n"
    read = stabsim.from_stim(text)
    assert read[1:3].text == "X_ERROR(0.5) 0\nREPEAT 2 {\n    M(0.25) 0\n}\n" and read[::-3].text == "M 0\nR 0\n" and read[:] == read
    assert read[0].name == "R" and read[-1] is read[3] and read[2].repeat == 2 and isinstance(read[4:], stabsim.StimCircuit) and read[4:].text == ""
    assert read[:2] + read[2:] == read
    for place in (4, -5):
        with pytest.raises(IndexError, match="place is .*: give a whole number from 0 to 3"):
            read[place]
    for place in (1.5, "0", None, True):
        with pytest.raises(TypeError, match="place is .*: give a whole number"):
            read[place]


def test_noise_counts_in_whether_circuits_are_equal():
    noisy = stabsim.from_stim("R 0\nX_ERROR(0.10) 0\nM(1e-2) 0\n")
    assert noisy == stabsim.from_stim("R 0\nx_error(0.1) 0\n\nMZ(0.01) 00") != stabsim.from_stim("R 0\nX_ERROR(0.2) 0\nM(0.01) 0")
    assert noisy.circuit == stabsim.Circuit("R 0\nM 0")


def test_blocks_that_are_not_closed_are_put_in_front_of_nothing():
    for text in ("REPEAT 2 {\n", "}\nREPEAT 3 {\n"):
        for made in (lambda text=text: 2 * stabsim.Circuit(text), lambda text=text: stabsim.Circuit(text) + stabsim.Circuit("}\n"),
                     lambda text=text: stabsim.Circuit() + stabsim.Circuit(text)):
            with pytest.raises(stabsim.Refused, match="BadBlock"):
                made()


def test_a_file_has_the_text_byte_by_byte(tmp_path):
    file = tmp_path / "circuit.stim"
    file.write_bytes(b"M 0 # \xff\r\nTICK")
    stabsim.Circuit.from_file(file).to_file(tmp_path / "other.stim")
    assert (tmp_path / "other.stim").read_bytes() == file.read_bytes()


def test_of_a_long_file_each_line_is_looked_at_by_the_program_alone(tmp_path):
    file = tmp_path / "circuit.stim"
    file.write_text("".join(f"M {line % 1000}\n" for line in range(500_000)) + "TICK\n")
    began = time.process_time()
    circuit = stabsim.Circuit.from_file(file)
    assert (circuit.num_qubits, circuit.num_records, circuit.num_ticks, (2 * circuit).num_records) == (1000, 500_000, 1, 1_000_000)
    # A reader in Python takes several seconds.
    assert time.process_time() - began < 2


def test_a_text_that_is_too_long_is_refused_before_its_lines_are_read(tmp_path):
    file = tmp_path / "circuit.stim"
    text = "M 0\nX_ERROR(2) 0\n" * 1_000_000
    file.write_text(text)
    began = time.process_time()
    for made in (lambda: stabsim.Circuit.from_file(file), lambda: stabsim.from_stim(text), lambda: stabsim.Circuit(text).num_records,
                 lambda: stabsim.Circuit(text).items):
        with pytest.raises(stabsim.Refused, match="14 TooLong"):
            made()
    assert time.process_time() - began < 2


FREE = stabsim.Circuit("H 0 1 2 3 4\nM 0 1 2 3 4\nDETECTOR rec[-1]\nOBSERVABLE_INCLUDE(0) rec[-2]\n")
NOISY = stabsim.error_model("R 0\nX_ERROR(0.5) 0\nM 0\nDETECTOR rec[-1]\nOBSERVABLE_INCLUDE(0) rec[-1]\n")


@pytest.mark.parametrize("drawn", [
    lambda seed: FREE.sample(200, seed=seed), lambda seed: FREE.detect(200, seed=seed),
    lambda seed: FREE.detect(200, seed=seed, separate_observables=True)[0], lambda seed: FREE.detect(200, seed=seed, separate_observables=True)[1],
    lambda seed: NOISY.sample(200, seed=seed)[0], lambda seed: NOISY.sample(200, seed=seed)[1],
])
def test_without_a_seed_a_fresh_one_is_drawn_and_kept(drawn):
    one, other = drawn(None), drawn(None)
    assert 0 <= one.seed < 2**64 and one.seed != other.seed and not np.array_equal(one, other)
    assert np.array_equal(one, drawn(one.seed)) and drawn(7).seed == 7


def test_an_array_keeps_its_seed_in_parts_and_copies_and_not_in_what_is_computed():
    drawn = FREE.sample(9, seed=5)
    assert drawn.dtype == np.bool_ and drawn[2:, :1].seed == drawn.copy().seed == 5
    again = pickle.loads(pickle.dumps(drawn))
    assert again.seed == 5 and np.array_equal(again, drawn)
    assert type(drawn ^ drawn) is np.ndarray and type(drawn.any()) is np.bool_ and type(drawn.sum(axis=0)) is np.ndarray


def test_the_version_is_that_of_the_program():
    said = (pathlib.Path(stabsim.__file__).parent / "programs" / "shipped.txt").read_text().split("\n")
    assert f"version {stabsim.__version__}" in said
