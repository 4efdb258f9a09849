"""Circuits of codes: their counts, that they are quiet, and their distances."""

import functools
import itertools
import signal
import subprocess
import sys

import numpy as np
import pytest
import stabsim
from searching import Search
from stabsim import codes

HAMMING = [[1, 0, 1, 0, 1, 0, 1], [0, 1, 1, 0, 0, 1, 1], [0, 0, 0, 1, 1, 1, 1]]
# The polynomials x^3 + y + y^2 and y^3 + x + x^2.
SEVENTY_TWO = ([(3, 0), (0, 1), (0, 2)], [(0, 3), (1, 0), (2, 0)])
# Distances and rounds.
SIZES, COLOUR_SIZES = [(2, 2), (3, 1), (3, 4), (4, 3), (5, 2), (7, 3)], [(3, 1), (3, 4), (5, 2), (7, 2)]
TEXTS = {
    "surface, Z": codes.surface_code(3, 4),
    "surface, X": codes.surface_code(4, 3, basis="X"),
    "surface, bad schedule": codes.surface_code(3, 2, bad_schedule=True),
    "surface, one round": codes.surface_code(5, 1),
    "repetition": codes.repetition_code(5, 3),
    "colour": codes.colour_code(5, 3),
    "Bacon-Shor": codes.bacon_shor_code(3, 3),
    "Steane": codes.steane_code(3),
    "unrotated surface, Z": codes.unrotated_surface_code(3, 3),
    "unrotated surface, X": codes.unrotated_surface_code(4, 2, basis="X"),
    "toric, Z": codes.toric_code(3, 3),
    "toric, X": codes.toric_code(2, 2, basis="X"),
    "CSS, Z": codes.css_code(HAMMING, HAMMING, 3),
    "CSS, X": codes.css_code(HAMMING, HAMMING, 2, basis="X"),
    "bivariate bicycle": codes.bivariate_bicycle_code(6, 6, *SEVENTY_TWO, rounds=3),
}
MEMORIES = {
    **TEXTS,
    **{f"surface, distance {d}, {rounds} rounds": codes.surface_code(d, rounds) for d, rounds in SIZES},
    **{f"repetition, distance {d}, {rounds} rounds": codes.repetition_code(d, rounds) for d, rounds in SIZES},
    **{f"Bacon-Shor, distance {d}, {rounds} rounds": codes.bacon_shor_code(d, rounds) for d, rounds in SIZES},
    **{f"colour, distance {d}, {rounds} rounds": codes.colour_code(d, rounds) for d, rounds in COLOUR_SIZES},
}
# How many logical qubits there are if not one.
OBSERVABLES = {"toric, Z": 2, "toric, X": 2, "bivariate bicycle": 12}


@pytest.mark.parametrize("name", MEMORIES)
def test_the_first_line_tells_steps_and_records(name):
    has = stabsim.Circuit(MEMORIES[name]).numbers()
    assert MEMORIES[name].split("\n")[0].endswith(f": {has.steps} steps, {has.records} records")


@pytest.mark.parametrize("name", MEMORIES)
def test_detectors_and_the_observable_are_0_whatever_the_coins(name):
    circuit = stabsim.Circuit(MEMORIES[name])
    deterministic = circuit.deterministic()
    detectors, observables = circuit.detect(3, seed=1, separate_observables=True)
    assert deterministic.detectors.all() and deterministic.observables.all() and deterministic.observables.shape == (OBSERVABLES.get(name, 1),)
    assert not detectors.any() and not observables.any()


def test_counts_are_those_of_the_layouts():
    # The checks of one letter speak in the first round and at the end, and all of them in each round between.
    for text, detectors, qubits in [
        (codes.surface_code(3, 4), 4 + 3 * 8 + 4, 26), (codes.surface_code(5, 2, basis="X"), 12 + 24 + 12, 64),
        (codes.repetition_code(4, 6), 3 + 5 * 3 + 3, 7), (codes.colour_code(5, 3), 9 + 2 * 18 + 9, 19),
        (codes.bacon_shor_code(3, 3), 2 + 2 * 4 + 2, 9), (codes.steane_code(3), 3 + 2 * 6 + 3, 13),
        (codes.unrotated_surface_code(3, 3), 6 + 2 * 12 + 6, 25), (codes.toric_code(3, 2), 9 + 18 + 9, 36),
    ]:
        has = stabsim.Circuit(text).numbers()
        assert (has.detectors, has.qubits) == (detectors, qubits)
    for d, rounds in SIZES:
        # The checks of Z are half of all, rounded down; a Bacon-Shor code has checks of either letter for each gap.
        between = (d**2 - 1) * (rounds - 1)
        assert stabsim.Circuit(codes.surface_code(d, rounds)).numbers().detectors == (d**2 - 1) // 2 * 2 + between
        assert stabsim.Circuit(codes.repetition_code(d, rounds)).numbers().detectors == (d - 1) * (rounds + 1)
        assert stabsim.Circuit(codes.bacon_shor_code(d, rounds)).numbers().detectors == (d - 1) * 2 * rounds
    for d, rounds in COLOUR_SIZES:
        # There are (3 d^2 - 3) / 8 faces, with two checks each.
        assert stabsim.Circuit(codes.colour_code(d, rounds)).numbers().detectors == (3 * d**2 - 3) // 4 * rounds


def test_a_repetition_code_of_distance_2_is_this_text():
    assert codes.repetition_code(2, 2, noise=codes.Noise.phenomenological(0.25)) == """\
# Repetition code of distance 2, 2 rounds: 15 steps, 4 records
R 0 1 2
DEPOLARIZE1(0.25) 0 2
TICK
CX 0 1
TICK
CX 2 1
TICK
X_ERROR(0.25) 1
MR 1
DETECTOR(1, 0) rec[-1]
DEPOLARIZE1(0.25) 0 2
TICK
CX 0 1
TICK
CX 2 1
TICK
X_ERROR(0.25) 1
MR 1
SHIFT_COORDS(0, 1)
DETECTOR(1, 0) rec[-1] rec[-2]
X_ERROR(0.25) 0 2
M 0 2
DETECTOR(1, 1) rec[-1] rec[-2] rec[-3]
OBSERVABLE_INCLUDE(0) rec[-1]
"""


def test_the_time_of_a_detector_is_its_third_coordinate():
    # Except for the repetition code, which lies on a line.
    for text in (text for name, text in TEXTS.items() if name != "repetition"):
        rounds = int(text.split(" round")[0].rsplit(" ", 1)[1])
        times = stabsim.Circuit(text).detector_coordinates()[:, 2].tolist()
        # A round has as many detectors as another, except the first and the end, which have the same.
        ends = times.count(0.0)
        inner = (len(times) - 2 * ends) // max(rounds - 1, 1)
        assert times == [0.0] * ends + [float(now) for now in range(1, rounds) for _ in range(inner)] + [float(rounds)] * ends


def test_products_depolarise_on_their_qubits_and_have_wrong_records():
    lines = codes.colour_code(3, 1, noise=codes.Noise.uniform(0.125)).splitlines()
    for letter in "XZ":
        [place] = [place for place, line in enumerate(lines) if line.startswith(f"MPP(0.125) {letter}")]
        factors = [factor for product in lines[place].split()[1:] for factor in product.split("*")]
        assert lines[place + 1] == " ".join(["DEPOLARIZE1(0.125)", *(factor[1:] for factor in factors)]) and len(factors) == 12
    assert "DEPOLARIZE1" not in codes.colour_code(3, 1, noise=codes.Noise(before_measurement=0.1))


def test_the_noise_of_each_code_has_a_name():
    # Circuit-level if there are gates to err, and phenomenological plus data if checks are products.
    for name, model in codes.NOISE_MODELS.items():
        text = codes.memory(name, 3).text(2)
        assert model == ("phenomenological plus data" if "MPP" in text else "circuit-level") and ("CX" in text) == ("MPP" not in text)
    assert set(codes.NOISE_MODELS) == {*codes.MOST_DISTANCES, "steane_code"}


UNIFORM, PHENOMENOLOGICAL, DATA = codes.Noise.uniform(0.001), codes.Noise.phenomenological(0.001), codes.Noise(before_round=0.1)
# Codes with the distances of their circuits under noise of one parameter, with wrong records, and by errors of data qubits alone.
DISTANCES = {
    "repetition": (codes.repetition_code, {"distance": 3, "rounds": 3}, 3, 3, 3),
    "repetition, distance 5": (codes.repetition_code, {"distance": 5, "rounds": 2}, 5, 5, 5),
    "surface, distance 2": (codes.surface_code, {"distance": 2, "rounds": 2}, 2, 2, 2),
    "surface": (codes.surface_code, {"distance": 3, "rounds": 3}, 3, 3, 3),
    "surface, X": (codes.surface_code, {"distance": 3, "rounds": 3, "basis": "X"}, 3, 3, 3),
    "surface, distance 4": (codes.surface_code, {"distance": 4, "rounds": 2}, 4, 4, 4),
    "surface, distance 5": (codes.surface_code, {"distance": 5, "rounds": 2}, 5, 5, 5),
    "surface, bad schedule": (codes.surface_code, {"distance": 3, "rounds": 3, "bad_schedule": True}, 2, 3, 3),
    "surface, bad schedule, distance 5": (codes.surface_code, {"distance": 5, "rounds": 2, "bad_schedule": True}, 3, 5, 5),
    "colour": (codes.colour_code, {"distance": 3, "rounds": 3}, 3, 3, 3),
    "colour, distance 5": (codes.colour_code, {"distance": 5, "rounds": 2}, 5, 5, 5),
    "Bacon-Shor": (codes.bacon_shor_code, {"distance": 3, "rounds": 3}, 3, 3, 3),
    "Bacon-Shor, distance 4": (codes.bacon_shor_code, {"distance": 4, "rounds": 2}, 4, 4, 4),
    "Bacon-Shor, distance 5": (codes.bacon_shor_code, {"distance": 5, "rounds": 2}, 5, 5, 5),
    "Steane": (codes.steane_code, {"rounds": 3}, 2, 3, 3),
    "Steane by matrices": (codes.css_code, {"hx": HAMMING, "hz": HAMMING, "rounds": 3}, 2, 3, 3),
    "unrotated surface": (codes.unrotated_surface_code, {"distance": 3, "rounds": 3}, 3, 3, 3),
    "unrotated surface, X": (codes.unrotated_surface_code, {"distance": 3, "rounds": 2, "basis": "X"}, 3, 3, 3),
    "unrotated surface, distance 4": (codes.unrotated_surface_code, {"distance": 4, "rounds": 2}, 4, 4, 4),
    "toric, distance 2": (codes.toric_code, {"distance": 2, "rounds": 2}, 2, 2, 2),
    "toric": (codes.toric_code, {"distance": 3, "rounds": 3}, 3, 3, 3),
    "toric, X": (codes.toric_code, {"distance": 3, "rounds": 2, "basis": "X"}, 3, 3, 3),
    "toric, distance 4": (codes.toric_code, {"distance": 4, "rounds": 2}, 4, 4, 4),
    "unrotated surface, distance 5": (codes.unrotated_surface_code, {"distance": 5, "rounds": 2}, 5, 5, 5),
}


@pytest.mark.parametrize("name", DISTANCES)
def test_a_circuit_has_the_distance_that_is_said(name):
    make, given, *distances = DISTANCES[name]
    models = [stabsim.error_model(make(**given, noise=noise)) for noise in (UNIFORM, PHENOMENOLOGICAL, DATA)]
    assert [model.distance().distance for model in models] == distances
    # The slow search finds no other for the first.
    assert Search.of_model(models[0]).distance() == distances[0]


def test_the_search_finds_what_all_sets_have():
    for make, given in [(codes.repetition_code, (3, 1)), (codes.surface_code, (2, 1)), (codes.steane_code, (1,))]:
        model = stabsim.error_model(make(*given, noise=UNIFORM))
        flips = [frozenset(model.flipped(number).tolist()) for number in range(len(model))]
        sets = ((size, some) for size in range(1, 4) for some in itertools.combinations(flips, size))
        least = next(size for size, some in sets if functools.reduce(frozenset.symmetric_difference, some) == {model.num_detectors})
        assert least == Search.of_model(model).distance()


def test_noise_comes_off_again():
    noise = codes.Noise.uniform(0.01)
    for name, given in [("surface_code", (3, 3)), ("repetition_code", (3, 3)), ("colour_code", (3, 2)), ("bacon_shor_code", (3, 2)),
                        ("toric_code", (3, 2)), ("css_code", (HAMMING, HAMMING, 2))]:
        make = getattr(codes, name)
        assert stabsim.without_noise(make(*given, noise=noise)) == make(*given)
    assert stabsim.without_noise(codes.steane_code(2, noise=noise)) == codes.steane_code(2)


def test_written_out_rounds_give_the_same():
    for name, given in [("surface_code", (3, 5)), ("repetition_code", (3, 5)), ("colour_code", (3, 5)), ("bacon_shor_code", (3, 5))]:
        block, written = (stabsim.Circuit(getattr(codes, name)(*given, written_out=it)) for it in (False, True))
        assert "REPEAT" in block.text and "REPEAT" not in written.text
        assert np.array_equal(block.sample(2, seed=4), written.sample(2, seed=4))
        assert np.array_equal(block.detector_coordinates(), written.detector_coordinates())


# The largest repetition code takes long.
GREATEST = [*(codes.MOST_DISTANCES | {"repetition_code": 3}).items()]


@pytest.mark.parametrize("name, distance", [("surface_code", 3), *GREATEST])
def test_the_deepest_has_a_round_less_than_too_many_steps(name, distance):
    rounds = codes.deepest(name, distance)
    assert stabsim.Circuit(getattr(codes, name)(distance, rounds)).numbers().steps <= codes.MOST_STEPS
    with pytest.raises(ValueError, match="rounds"):
        getattr(codes, name)(distance, rounds + 1)


def test_what_is_out_of_range_is_a_value_error():
    for wrong in (lambda: codes.surface_code(1, 1), lambda: codes.surface_code(22, 1), lambda: codes.colour_code(4, 1),
                  lambda: codes.repetition_code(3, 0), lambda: codes.surface_code(3, 1, basis="Y"), lambda: codes.toric_code(17, 1),
                  lambda: codes.unrotated_surface_code(3, 1, basis="Y"), lambda: codes.css_code(HAMMING, HAMMING, 1, basis="Y")):
        with pytest.raises(ValueError):
            wrong()


def test_a_dense_circuit_has_just_so_many_steps():
    for qubits, steps in [(2, 50), (17, 1000), (2, 100), (5, 301), (16, 1000)]:
        has = stabsim.Circuit(codes.dense_circuit(qubits, steps, 3)).numbers()
        assert (has.qubits, has.steps) == (qubits, steps)


def test_codes_need_no_numpy():
    code = "import sys; sys.modules['numpy'] = None; from stabsim import codes; print(len(codes.surface_code(3, 2)))"
    done = subprocess.run([sys.executable, "-c", code], capture_output=True, text=True, check=True)
    assert int(done.stdout) == len(codes.surface_code(3, 2))


def test_the_command_prints_the_same_text():
    for words, text in [(["surface_code", "--distance", "3", "--rounds", "2"], codes.surface_code(3, 2)),
                        (["steane_code", "--rounds", "2", "--noise", "0.01"], codes.steane_code(2, noise=codes.Noise.uniform(0.01))),
                        (["dense_circuit", "--qubits", "3", "--steps", "40", "--seed", "2"], codes.dense_circuit(3, 40, 2)),
                        (["bivariate_bicycle_code", "--orders", "6", "3", "--a", "x^3+y+y2", "--b", "1 + x*y + x^2*y*y", "--rounds", "2", "--basis", "X"],
                         codes.bivariate_bicycle_code(6, 3, [(3, 0), (0, 1), (0, 2)], [(0, 0), (1, 1), (2, 2)], 2, basis="X")),
                        (["surface_code", "--distance", "3", "--rounds", "2", "--bad-schedule"], codes.surface_code(3, 2, bad_schedule=True)),
                        # The [[144, 12, 12]] code, with 12 rounds.
                        (["bivariate_bicycle_code"], codes.bivariate_bicycle_code(12, 6, *SEVENTY_TWO, 12)),
                        (["bivariate_bicycle_code", "--basis", "X"], codes.bivariate_bicycle_code(12, 6, *SEVENTY_TWO, 12, basis="X"))]:
        done = subprocess.run([sys.executable, "-m", "stabsim.codes", *words], capture_output=True, text=True, check=True)
        assert done.stdout == text


@pytest.mark.parametrize("wrong", ["x+", "z", "x^-1", "2*x", "", "x*"])
def test_the_command_refuses_what_is_no_polynomial(wrong):
    words = ["bivariate_bicycle_code", "--orders", "6", "3", "--a", wrong, "--b", "1+x+y", "--rounds", "2"]
    done = subprocess.run([sys.executable, "-m", "stabsim.codes", *words], capture_output=True, text=True, check=False)
    assert done.returncode == 2 and not done.stdout and "is no term such as 1, x, y^2 and x^3*y" in done.stderr


def test_a_closed_pipe_ends_the_command_without_a_word():
    # Its text is longer than a pipe holds.
    words = [sys.executable, "-m", "stabsim.codes", "surface_code", "--distance", "21", "--rounds", "9", "--written-out"]
    with subprocess.Popen(words, stdout=subprocess.PIPE, stderr=subprocess.PIPE, text=True) as running:
        assert running.stdout.readline().startswith("# Rotated surface code of distance 21")
        running.stdout.close()
        assert running.stderr.read() == "" and running.wait() == -signal.SIGPIPE


@pytest.mark.parametrize("output, why", [(">&-", "standard output is closed"), (">/dev/full", "No space left on device")])
@pytest.mark.parametrize("distance", [3, 21])
def test_an_output_that_is_closed_or_full_has_a_line(output, why, distance):
    # A short text is written at the end alone, and a long one in parts.
    words = f"surface_code --distance {distance} --rounds 2 --written-out {output}"
    done = subprocess.run(["sh", "-c", f'exec "$0" -m stabsim.codes {words}', sys.executable], capture_output=True, text=True, check=False)
    assert (done.returncode, done.stderr.count("\n")) == (1, 1) and done.stderr.endswith(f"{why}\n")
