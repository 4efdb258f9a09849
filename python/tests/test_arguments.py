"""What a public call is given and can't take: a TypeError, or a ValueError, names it in one sentence with what to give."""

import pathlib
import re

import numpy as np
import pytest
import stabsim
from stabsim import codes

CIRCUIT = stabsim.Circuit("R 0 1\nI 0\nM 0 1\nDETECTOR rec[-1]\nOBSERVABLE_INCLUDE(0) rec[-2]\n")
NOISY = stabsim.from_stim("R 0 1\nX_ERROR(0.1) 0\nM 0 1\nDETECTOR rec[-1]\n")
MODEL = stabsim.error_model("R 0\nX_ERROR(0.1) 0\nM 0\nDETECTOR rec[-1]\n")
RECORDS = np.zeros((3, 2), dtype=bool)
HERE = pathlib.Path(__file__)


@pytest.mark.parametrize("call", [
    lambda: stabsim.Circuit(None), lambda: stabsim.Circuit(b"M 0"), lambda: stabsim.Circuit(HERE), lambda: stabsim.from_stim(None),
    lambda: stabsim.from_stim(HERE), lambda: stabsim.from_stim(CIRCUIT), lambda: stabsim.without_noise(None),
    lambda: CIRCUIT.sample(1.5), lambda: CIRCUIT.sample("3"), lambda: CIRCUIT.sample(None), lambda: CIRCUIT.sample(2, seed=True),
    lambda: CIRCUIT.sample(2, seed=1.0), lambda: CIRCUIT.sample(2, first_shot=0.5), lambda: CIRCUIT.sample(2, parts=1.5),
    lambda: CIRCUIT.sample(2, executor=4), lambda: CIRCUIT.detect(1e3), lambda: CIRCUIT.iter_sample(10, 2.5), lambda: CIRCUIT.iter_detect("x", 2),
    lambda: CIRCUIT.iter_sample(5, 2, seed=1.5), lambda: CIRCUIT.stabilisers(seed=None), lambda: CIRCUIT.distance(letters=3),
    lambda: CIRCUIT.distance(most=1.5), lambda: CIRCUIT.edit(qubits=1.5), lambda: CIRCUIT.edit(stride="x"), lambda: CIRCUIT.edit(seed=None),
    lambda: CIRCUIT.has_flow(None), lambda: CIRCUIT.flow_generators(qubits=3), lambda: CIRCUIT.flow_generators(qubits=["a"]),
    lambda: CIRCUIT.same_flows("M 0"), lambda: CIRCUIT.same_distribution("M 0"), lambda: CIRCUIT.with_detectors([5]),
    lambda: CIRCUIT.with_detectors([("a",)]), lambda: CIRCUIT.diagram(None), lambda: CIRCUIT.diagram("detslice", tick=0, detectors="D0"),
    lambda: CIRCUIT.diagram("timeslice", tick=1.5), lambda: NOISY.sample(1.5), lambda: NOISY.detect("x"), lambda: NOISY.sample(2, seed=True),
    lambda: stabsim.m2d("M 0", RECORDS), lambda: stabsim.read_shots(HERE, format=1), lambda: stabsim.read_shots(HERE, format="01", num_detectors=1.5),
    lambda: stabsim.write_shots(HERE, RECORDS, format="01", num_measurements="2"), lambda: codes.surface_code(3.0, 3),
    lambda: codes.surface_code(3, 2.5), lambda: codes.repetition_code(True, 2), lambda: codes.css_code(None, None, 2),
    lambda: codes.dense_circuit("3", 10), lambda: stabsim.NoiseModel.sd6(0.1).on(3), lambda: stabsim.NoiseModel.sd6(0.1).on(HERE),
    lambda: stabsim.with_chances(None, lambda channel: 0), lambda: stabsim.fit_rate(10.5, 2), lambda: stabsim.fit_rate(10, "2"),
    lambda: stabsim.NoiseModel.sd6(True), lambda: stabsim.NoiseModel(gate=None), lambda: stabsim.NoiseModel.sd6(0.1).on("M 0", data=3),
    lambda: stabsim.NoiseModel.sd6(0.1).on("M 0", data=["a"]), lambda: CIRCUIT * 1.5, lambda: True * CIRCUIT, lambda: MODEL.flipped(1.5),
    lambda: MODEL.flipped(True), lambda: CIRCUIT.faults().flipped("0"), lambda: CIRCUIT.coins().flipped(None),
    lambda: stabsim.Flow.of_text(3), lambda: stabsim.Flow((), (), records=[-1]), lambda: stabsim.CircuitError.of_line(None),
    lambda: stabsim.with_chances(NOISY, lambda channel: None), lambda: stabsim.with_chances(NOISY, lambda channel: "0.1"),
    lambda: stabsim.with_chances(NOISY, 0.1), lambda: stabsim.combine(["a.csv"]), lambda: stabsim.combine(3),
    lambda: stabsim.Circuit.from_file(3), lambda: NOISY.to_file(None), lambda: stabsim.read_shots(3, format="01"),
    lambda: stabsim.write_shots(HERE, [[True, False]], format="01", num_measurements=2), lambda: stabsim.m2d(CIRCUIT, [[0, 1]]),
    lambda: stabsim.plot(3, x="p"), lambda: stabsim.plot([3], x="p"), lambda: stabsim.collect({"a": MODEL}, ("no", len), shots=1, seed=1, save=3),
    lambda: stabsim.collect({"a": MODEL}, ("no", len), shots=1, seed=1, metadata=3), lambda: stabsim.collect({"a": MODEL}, ("no", len), shots="1", seed=1),
    lambda: stabsim.fit_rate(10, 2, max_likelihood_factor="a"), lambda: stabsim.rate_per_round("a", 2), lambda: stabsim.rate_per_round(0.1, None),
])
def test_a_value_of_another_kind_is_a_type_error(call):
    with pytest.raises(TypeError, match="^[^\n]* is [^\n]*: give [^\n]*$"):
        call()


@pytest.mark.parametrize("call", [
    lambda: CIRCUIT.sample(-1), lambda: CIRCUIT.sample(2, seed=2**64), lambda: CIRCUIT.sample(2, first_shot=2**64), lambda: CIRCUIT.sample(2, parts=0),
    lambda: CIRCUIT.sample(2, first_shot=2**64 - 1), lambda: CIRCUIT.iter_sample(10, 0), lambda: CIRCUIT.distance(letters="Q"),
    lambda: CIRCUIT.distance(most=-1), lambda: CIRCUIT.edit(qubits=1025), lambda: CIRCUIT.edit(stride=0), lambda: CIRCUIT.edit(stride=65537),
    lambda: CIRCUIT.flow_generators(qubits=[-1]), lambda: CIRCUIT.diagram("pie"), lambda: NOISY.diagram("pie"), lambda: NOISY.sample(-1), lambda: NOISY.sample(2, first_shot=2**64),
    lambda: stabsim.read_shots(HERE, format="csv", num_detectors=1), lambda: stabsim.read_shots(HERE, format="01", num_detectors=-1),
    lambda: codes.memory("foo", 3), lambda: codes.deepest("foo", 3), lambda: codes.dense_circuit(0, 10), lambda: CIRCUIT * -1,
    lambda: codes.surface_code(1, 3), lambda: codes.surface_code(3, 0), lambda: CIRCUIT.diagram("timeslice", tick=[]),
    lambda: CIRCUIT.diagram("detslice", tick=range(0)), lambda: stabsim.Flow("X", "X"), lambda: stabsim.Flow(((0, "Q"),), ()),
    lambda: stabsim.Flow((), ((0, "X"), (0, "Z"))), lambda: stabsim.CircuitError.of_line("a"), lambda: stabsim.m2d(CIRCUIT, RECORDS[:, :1]),
    lambda: stabsim.with_chances(NOISY, lambda channel: 1.5), lambda: stabsim.with_chances(NOISY, lambda channel: [0.1, 0.1]),
    lambda: stabsim.fit_rate(10, 11), lambda: stabsim.fit_rate(10, 1, max_likelihood_factor=0.5), lambda: stabsim.rate_per_round(1.5, 2),
    lambda: stabsim.rate_per_round(0.1, 0), lambda: stabsim.Circuit("M 0 # \ud800"), lambda: stabsim.from_stim("M 0 # \ud800"),
    lambda: stabsim.ErrorModel.from_dem("error(0.1) D0 # \udfff"), lambda: stabsim.without_noise("M 0 # \ud800"),
])
def test_a_value_out_of_range_is_a_value_error(call):
    with pytest.raises(ValueError, match="^[^\n]* is [^\n]*: give [^\n]*$"):
        call()


@pytest.mark.parametrize("call, kind", [
    (lambda session: session.insert(None, "X 0"), TypeError), (lambda session: session.insert(1.5, "X 0"), TypeError),
    (lambda session: session.insert(True, "X 0"), TypeError), (lambda session: session.insert(-1, "X 0"), ValueError),
    (lambda session: session.insert("a", "X 0"), ValueError), (lambda session: session.insert(0, None), TypeError),
    (lambda session: session.insert(0, b"X 0"), TypeError), (lambda session: session.insert(0, " # nothing"), ValueError),
    (lambda session: session.replace(0, None), TypeError), (lambda session: session.delete(None), TypeError),
    (lambda session: session.split(0, "x"), TypeError), (lambda session: session.split(0, -1), ValueError),
    (lambda session: session.why(3), TypeError), (lambda session: session.why("x"), ValueError), (lambda session: session.sign(5), TypeError),
    (lambda session: session.distance(None), TypeError), (lambda session: session.distance(-1), ValueError),
    (lambda session: session.insert_errors(None), TypeError), (lambda session: session.insert_errors([5]), TypeError),
    (lambda session: session.sign(""), ValueError), (lambda session: session.sign("X0 Z1"), ValueError), (lambda session: session.sign("X0\nX1"), ValueError),
    (lambda session: session.insert(0, "X 0 # \ud800"), ValueError),
])
def test_a_session_names_what_it_can_not_take_and_goes_on(call, kind):
    with CIRCUIT.edit() as session:
        with pytest.raises(kind, match="^[^\n]* is [^\n]*: give [^\n]*$"):
            call(session)
        assert session.numbers().records == 2 and not session.undo()


@pytest.mark.parametrize("call, count", [
    (lambda at: MODEL.flipped(at), 1), (lambda at: MODEL.explain(at), 1), (lambda at: MODEL.all_parts[at], 1), (lambda at: CIRCUIT.faults().flipped(at), 2),
    (lambda at: stabsim.Circuit("MX 0").coins().flipped(at), 1),
])
def test_a_row_that_is_none_is_an_index_error(call, count):
    for at in (-1, count):
        with pytest.raises(IndexError, match=f"^[^\n]* is {at}: give a whole number from 0 to {count - 1}$"):
            call(at)
    with pytest.raises(IndexError, match="^fault is 0, and there is none$"):
        NOISY.circuit.faults().flipped(0)


def test_no_message_has_a_range_of_rust():
    for path in pathlib.Path(stabsim.__file__).parent.glob("**/*.py"):
        for line in path.read_text(encoding="utf-8").splitlines():
            assert "\"\"\"" in line or not re.search(r"f?\".*[\d})]\.\.=?[\d{*].*\"", line), (path, line)


@pytest.mark.parametrize("shots", [10**15, 2**63])
def test_shots_that_no_memory_holds_are_refused_before_one_is_drawn(shots):
    for draw in (CIRCUIT.sample, CIRCUIT.detect, NOISY.sample, NOISY.detect, stabsim.error_model(NOISY).sample):
        with pytest.raises(MemoryError, match="^shots is .* take fewer at once$"):
            draw(shots)
    # Chunks are none of it until they are drawn.
    assert next(CIRCUIT.iter_sample(shots, 5)).shape == (5, 2)


def test_numbers_of_numpy_are_numbers():
    assert np.array_equal(CIRCUIT.sample(np.int64(3), seed=np.uint64(2**63), first_shot=np.int32(1)), CIRCUIT.sample(3, seed=2**63, first_shot=1))
    with CIRCUIT.edit(qubits=np.int64(4)) as session:
        assert session.item(np.int64(1)) == session.item([np.int8(1)]) == "I 0\n" and session.numbers().qubits == 4
    assert codes.surface_code(np.int64(3), np.int64(2)) == codes.surface_code(3, 2)
    assert "X_ERROR(0.25)" in codes.repetition_code(3, 2, noise=codes.Noise(after_reset=np.float64(0.25)))


def test_m2d_takes_a_noisy_circuit_for_the_one_without_noise():
    records = np.array([[0, 1], [1, 0]], dtype=bool)
    assert stabsim.m2d(NOISY, records).tolist() == [[True], [False]]


@pytest.mark.parametrize("text, number", [
    (f"ISWAP {'1' * 5000} 0", 1), (f"MPP X0*X{'1' * 5000}*X0", 6), (f"M {'1' * 5000}", 6), (f"MPAD 1\nX {'1' * 5000}", 6),
    (f"MPAD 1\nX {'1' * 12}", 6), (f"E(0.1) X{'1' * 3000}", 6), (f"REPEAT {'1' * 5000} {{\n}}", 5), ("REPEAT 1 {\n" * 5000 + "}\n" * 5000, 10),
    (f"OBSERVABLE_INCLUDE({'1' * 5000})", 7),
], ids=["a pair", "a product", "a measurement", "beside padding", "twelve digits", "an error", "a count", "blocks", "an observable"])
def test_numbers_and_blocks_past_all_limits_are_refused(text, number):
    with pytest.raises(stabsim.Refused) as told:
        stabsim.from_stim(text)
    assert told.value.number == number and stabsim.Circuit(text) != stabsim.Circuit(f"X 0\n{text}")


@pytest.mark.parametrize("name", ["circuit.stim", "examples/bell.stim", "../circuit"])
def test_a_name_of_a_file_in_place_of_a_text_is_told_what_reads_it(name):
    for read in (stabsim.from_stim, stabsim.error_model, lambda text: stabsim.Circuit(text).sample(1)):
        with pytest.raises(stabsim.Refused, match=r"If this is the name of a file, stabsim.Circuit.from_file\(name\) reads it\.$"):
            read(name)
    with pytest.raises(stabsim.BadErrorModel, match=r"if it is the name of a file, stabsim.ErrorModel.from_file\(name\) reads it"):
        stabsim.ErrorModel.from_dem(name)
    with pytest.raises(stabsim.Refused) as told:
        stabsim.from_stim("DETECTOR(1.5)rec[-1]")
    assert "name of a file" not in str(told.value)
