"""Text of error models: what it stands for by hand, and that a model is read as it was written."""

import dataclasses
import math
import time

import numpy as np
import pytest
import stabsim
from stabsim import codes

NOISE = codes.Noise.uniform(0.01)


def flips_of(model):
    """What each mechanism flips, in words."""
    return [" ".join(map(model.name, model.flipped(it).tolist())) for it in range(len(model))]


def parts_of(model, mechanism):
    return [" ".join(map(model.name, part.tolist())) for part in model.parts[mechanism]]


@pytest.mark.parametrize("text", [codes.surface_code(3, 3, noise=NOISE), codes.repetition_code(3, 2, noise=NOISE),
                                  "R 0\nX_ERROR(0.125) 0\nM 0\nDETECTOR rec[-1]\nDETECTOR\nOBSERVABLE_INCLUDE(3) rec[-1]\n", "M 0\n"])
@pytest.mark.parametrize("decompose", [False, True])
def test_a_model_is_read_as_it_was_written(text, decompose, tmp_path):
    model = stabsim.error_model(text, decompose=decompose)
    read = stabsim.ErrorModel.from_dem(model.dem)
    assert read == model and hash(read) == hash(model) and read.dem == str(read) == model.dem
    # A text shows that a model is decomposed only if some mechanism has several parts.
    assert read.fingerprint == model.fingerprint or read.parts is None and len(model.parts.indptr) == len(model) + 1
    (tmp_path / "model.dem").write_text(model.dem)
    assert stabsim.ErrorModel.from_file(tmp_path / "model.dem") == model


WRITTEN = """error[a tag](0.25) D1 ^ D0 # why
repeat 2 {
    error(0.125) D0 D1
    error(0.25)
    detector(1, 2) D0
    shift_detectors(0, 1) 1
}
error(0.5) L1 ^ D0 L1
ERROR(0.5) d0
"""


def test_a_model_that_is_read_is_written_as_it_was():
    model = stabsim.ErrorModel.from_dem(WRITTEN)
    assert str(model) == model.dem == WRITTEN
    # Errors that flip the same stay apart, and one that flips nothing stays; what parts flip twice they don't flip.
    assert flips_of(model) == ["D0 D1", "D0 D1", "", "D1 D2", "", "D2", "D2"]
    assert model.chances.tolist() == [0.25, 0.125, 0.25, 0.125, 0.25, 0.5, 0.5]
    assert parts_of(model, 0) == ["D1", "D0"] and parts_of(model, 1) == ["D0 D1"] and parts_of(model, 5) == ["L1", "D2 L1"]
    # With something changed it is written anew, with blocks written out.
    changed = dataclasses.replace(model, chances=model.chances / 2)
    assert changed != model and changed.dem.splitlines()[:6] == [
        "error(0.125) D1 ^ D0", "error(0.0625) D0 D1", "error(0.125)", "error(0.0625) D1 D2", "error(0.125)", "error(0.25) L1 ^ D2 L1"]
    assert stabsim.ErrorModel.from_dem(changed.dem) == changed


def test_models_compare_by_what_they_have():
    text = "error(0.25) D0 D1\nerror(0.125) D1\ndetector(1) D0\n"
    model = stabsim.ErrorModel.from_dem(text)
    assert model == stabsim.ErrorModel.from_dem("# the same\n" + text.replace(" D1", "  d1")) and model
    for other in ("0.25", "0.125"), ("D0 D1", "D0 ^ D1"), ("D0 D1", "D0 L0"), ("(1)", "(2)"), ("detector(1) D0", "detector(1) D2"):
        assert model != stabsim.ErrorModel.from_dem(text.replace(*other))
    assert model != text and not model == None  # noqa: E711: what is compared is the model.


def lines_of(text):
    """The lines of a text's model, joined, without those of detectors and observables."""
    return [line for line in stabsim.ErrorModel.from_dem(text).joined().dem.splitlines() if line.startswith("error")]


def test_equal_errors_are_joined_and_silent_ones_left_out_if_that_is_asked_for():
    [line, other] = lines_of("error(0.25) D1\nERROR[tag](0.5) d1 # twice\nerror(0.1) D0 D0\nerror(0.3)\nerror(0.125) L2 D0 D1 D0 \n")
    assert line == f"error({0.25 * 0.5 + 0.5 * 0.75}) D1" and other == "error(0.125) D1 L2"
    # A model of a circuit is joined.
    model = stabsim.error_model(codes.repetition_code(3, 2, noise=NOISE))
    assert model.joined() == model and model.joined().explain(2) == model.explain(2)


def test_blocks_are_shifted_each_time():
    model = stabsim.ErrorModel.from_dem("""
detector(0.5, 9) D0
shift_detectors(1, 2, 3) 0
repeat 2 {
    error(0.125) D0 D2
    repeat[x] 3 {
        error(0.25) D0 L1
        shift_detectors(10) 1
    }
    detector(7) D0
    detector(7, 7) D1 D2
}
error(0.0625) D0
detector D9
logical_observable L4
""")
    assert flips_of(model) == ["D0 D2", "D0 L1", "D1 L1", "D2 L1", "D3 D5", "D3 L1", "D4 L1", "D5 L1", "D6"]
    # D9 is after shifts of six detectors.
    assert (model.num_detectors, model.num_observables) == (16, 5)
    wanted = {0: (0.5, 9), 3: (38, math.nan), 4: (38, 9), 5: (38, 9), 6: (68, math.nan), 7: (68, 9), 8: (68, 9)}
    for detector, place in enumerate(model.coordinates.tolist()):
        np.testing.assert_equal(place, wanted.get(detector, (math.nan, math.nan)))


def test_a_block_without_errors_has_any_count():
    for count in (1, 10**17):
        model = stabsim.ErrorModel.from_dem(f"repeat {count} {{\n}}\nrepeat {count} {{\nshift_detectors(1) 0\n}}\nerror(0.1) D0\ndetector(0) D0\n")
        assert (len(model), model.coordinates.tolist()) == (1, [[count]])


def test_a_block_is_what_its_rounds_are_written_out():
    body = "error(0.1) D0 D3 ^ D1 L0\nerror(0.2) D0\nerror(0.3) D1 D2\nerror(0.1) D1 L0\ndetector(1, 2) D0\nshift_detectors(0, 1) 2\n"
    block, written = (stabsim.ErrorModel.from_dem(it) for it in (f"repeat 5 {{\n{body}}}\n", 5 * body))
    assert block == written and len(block) == 20 and parts_of(block, 16) == ["D8 D11", "D9 L0"]


def test_joined_parts_are_those_of_the_likeliest_error():
    model = stabsim.ErrorModel.from_dem("error(0.25) D1 D2\nerror(0.1) D0 ^ D1 D2\nerror(0.2) D0 D1 L0 ^ D2 L0\nerror(0.05) D2 D1 D0\n").joined()
    # No part becomes a mechanism.
    assert flips_of(model) == ["D0 D1 D2", "D1 D2"]
    assert parts_of(model, 0) == ["D0 D1 L0", "D2 L0"] and parts_of(model, 1) == ["D1 D2"]
    assert stabsim.ErrorModel.from_dem(model.dem) == model


def test_blocks_are_nested_16_deep_and_no_deeper():
    def nested(deep):
        return "repeat 1 {\n" * deep + "error(0.1) D0\n" + "}\n" * deep

    assert len(stabsim.ErrorModel.from_dem(nested(16))) == 1
    for deep in (17, 5000):
        with pytest.raises(stabsim.BadErrorModel, match="line 17: blocks are nested over 16 deep"):
            stabsim.ErrorModel.from_dem(nested(deep))


def test_lines_that_are_written_otherwise_are_read_alike():
    plain = "error(0.125) D0 ^ D1 L0\nerror(0.25)\ndetector(1, -2.5) D1\n"
    for other in (plain.replace("\n", "\r\n"), plain.upper(), plain.replace("(", "[tag](").replace("\n", " # why\n"),
                  plain.replace(" ", "\t ").replace(",\t", ","), plain.replace("0.", ".").replace("D1\n", "D01\n")):
        assert stabsim.ErrorModel.from_dem(other) == stabsim.ErrorModel.from_dem(plain)


@pytest.mark.parametrize("line, why", [
    ("error D0", "one chance"), ("error(1.5) D0", "one chance"), ("error(0.1, 0.2) D0", "one chance"), ("error(x) D0", "numbers"),
    ("error(0.1) X0", "neither D nor L"), ("error(0.1) D-1", "neither"), ("error(0.1) ^ D0", "no targets"), ("error(0.1) D0 ^", "no targets"),
    ("error(0.1) D0 ^ ^ D1", "no targets"), ("detector L0", "declares"), ("logical_observable D0", "declares"), ("shift_detectors D1", "by a number"),
    ("shift_detectors(x) 1", "numbers"), ("X 0", "nothing that"), ("repeat x {", "not closed"), ("}", "not closed"),
    ("error(0.1) D\u0663", "neither"), ("error(0.\u0663) D0", "not all numbers"), ("error(1_0e-2) D0", "not all numbers"), ("detector(\u0663) D0", "not all numbers"),
    ("shift_detectors \u0663", "by a number"), ("repeat \u0663 {\nerror(0.1) D0\n}", "not closed"), ("shift_detectors 1234567890", "9 digits"),
    ("error(0.1) L999999999", "L999999999 is past the last .*, L1048575"), ("logical_observable L1048576", "L1048576 is past"),
    ("error(0.1) D1 D999999999", "D999999999 is past the last .*, D67108863"), ("detector D67108864", "D67108864 is past"),
    ("repeat 1000000000 {\nerror(0.1) D0\n}", "more than"), ("repeat 1000000000 {\nshift_detectors 1\n}", "more than"),
])
def test_what_is_no_error_model_is_told_with_its_line(line, why):
    with pytest.raises(stabsim.BadErrorModel, match=why) as told:
        stabsim.ErrorModel.from_dem(f"error(0.1) D0\n\n{line}\n")
    assert told.value.line == 3


@pytest.mark.parametrize("line", ["R 0", "CNOT 0 1", "X_ERROR(0.1) 0", "MPP X0*X1", "MXX 0 1", "ISWAP 0 1", "TICK", "QUBIT_COORDS(1) 0", "E(0.1) X0"])
def test_a_circuit_in_place_of_a_model_is_told_what_makes_its_model(line):
    with pytest.raises(stabsim.BadErrorModel, match=r"line 1: .* stabsim.error_model\(text\), or the command analyze_errors, makes the model of a circuit"):
        stabsim.ErrorModel.from_dem(f"{line}\nM 0\n")


def test_shifts_past_all_detectors_are_told_at_the_last_line():
    with pytest.raises(stabsim.BadErrorModel, match="line 3: D67108864 is past"):
        stabsim.ErrorModel.from_dem("shift_detectors 67108863\nerror(0.1) D0\nerror(0.1) D1\n")
    assert stabsim.ErrorModel.from_dem("shift_detectors 67108863\nerror(0.1) D0\n").num_detectors == 2**26


def test_a_model_that_was_read_samples_as_the_one_that_was_made():
    model = stabsim.error_model(codes.surface_code(3, 3, noise=NOISE))
    read = stabsim.ErrorModel.from_dem(model.dem)
    assert all(map(np.array_equal, model.sample(500, seed=3), read.sample(500, seed=3)))
    with pytest.raises(ValueError, match="was read"):
        read.explain(0)


def test_a_line_of_a_model_takes_few_microseconds():
    text = stabsim.error_model(codes.surface_code(7, 7, noise=NOISE), decompose=True).dem
    took = []
    for _ in range(3):
        began = time.process_time()
        stabsim.ErrorModel.from_dem(text)
        took.append(time.process_time() - began)
    # It is 2 to 5 microseconds, on a machine that does much else too.
    assert min(took) < 10e-6 * text.count("\n")
