"""Noise models: their tables as published, what they put on codes of distance 3, counted by hand, and what that does."""

import collections
import dataclasses
import re

import numpy as np
import pytest
import stabsim
from stabsim import codes
from stabsim.noise.noise_placing import OF_MIXED_PAIR, independent_chance
from stabsim.text import names

P = 0.001
# Gidney, Newman, Fowler and Broughton, A fault-tolerant honeycomb memory (2021), as parts of p: DEP1 after a Clifford gate on one qubit,
# DEP2 after one on two, the flip after a reset, that of a measured result, DEP1 on an idle qubit, and on one that waits for
# resets and measurements of others.
PUBLISHED = {"sd6": (1, 1, 1, 1, 1, 0), "si1000": (1 / 10, 1, 2, 5, 1 / 10, 2), "em3": (1, None, 1 / 2, 1 / 2, 1, 0)}


def counted(circuit):
    """How many targets, or pairs, each kind of noise has with each chance; rounds of blocks count as often as they are done."""
    found = collections.Counter()
    add_counts(found, stabsim.from_stim(circuit.text).noisy_items(), 1)
    return dict(found)


def add_counts(found, items, times):
    for item in items:
        if item.repeat:
            add_counts(found, item.items, times * item.repeat)
        elif item.name in names.NOISE or item.name in names.MEASURING and item.arguments:
            size = len(item.targets) if item.name == "E" else 2 if item.name == "DEPOLARIZE2" else 1
            found[item.name, *item.numbers()] += times * (len(item.targets) // size)


@pytest.mark.parametrize("name", PUBLISHED)
def test_chances_are_those_that_are_published(name):
    model = getattr(stabsim.NoiseModel, name)(P)
    given = (model.gate, model.pair, model.reset, model.record, model.idle, model.waiting)
    assert given == pytest.approx(tuple(None if part is None else part * P for part in PUBLISHED[name]))


def test_sd6_on_a_surface_code_of_distance_3():
    # 17 resets; two layers of 4 Hadamards, in each of which 13 qubits wait; four layers of 6 CX, in each of which 5 wait; and 17 measurements.
    # The 8 qubits of checks are reset again.
    assert counted(stabsim.NoiseModel.sd6(P).on(codes.surface_code(3, 1))) == {
        ("X_ERROR", P): 17 + 8, ("DEPOLARIZE1", P): 2 * (4 + 13) + 4 * 5, ("DEPOLARIZE2", P): 24, ("MR", P): 8, ("M", P): 9,
    }


def test_si1000_on_a_surface_code_of_distance_3():
    # In each of the three rounds 9 data qubits wait for the measurement of checks, and at the end the 8 qubits of these for that of data.
    assert counted(stabsim.NoiseModel.si1000(P).on(codes.surface_code(3, 3))) == {
        ("X_ERROR", 2 * P): 17 + 3 * 8, ("DEPOLARIZE1", P / 10): 3 * (2 * (4 + 13) + 4 * 5 + 9) + 8, ("DEPOLARIZE1", 2 * P): 3 * 9 + 8,
        ("DEPOLARIZE2", P): 3 * 24, ("MR", 5 * P): 3 * 8, ("M", 5 * P): 9,
    }


def test_em3_on_a_bacon_shor_code_of_distance_3():
    # 6 pairs of X and 6 of Z, in which all 9 qubits are: none waits.
    each = float(f"{independent_chance(P):.15g}")
    assert counted(stabsim.NoiseModel.em3(P).on(codes.bacon_shor_code(3, 1))) == {("X_ERROR", P / 2): 9, ("E", each): 31 * 12, ("M", P / 2): 9}


def test_uniform_noise_depolarises_the_qubits_of_products():
    assert counted(stabsim.NoiseModel.uniform(P).on("R 0 1 2 3\nTICK\nMPP X0*X1 Z1*Z2*Z3\nTICK\nMXX 0 1\nTICK\nMPP Z0")) == {
        ("X_ERROR", P): 4, ("MPP", P): 4, ("DEPOLARIZE2", P): 2, ("DEPOLARIZE1", P): 3 + 2 + 1 + 3,
    }


def test_one_of_32_errors_is_made_of_31_independent_ones():
    chance = 0.3
    chances = np.zeros(32)
    chances[0] = 1
    for number in range(1, 32):
        with_it = chances[np.arange(32) ^ number]
        chances = (1 - independent_chance(chance)) * chances + independent_chance(chance) * with_it
    assert len(OF_MIXED_PAIR) == len(set(OF_MIXED_PAIR)) == 31
    np.testing.assert_allclose(chances, [1 - chance * 31 / 32] + [chance / 32] * 31, rtol=1e-12)
    assert independent_chance(1) == 0.5


def test_an_error_of_a_mixed_pair_is_met_before_it_is_measured():
    # Half of the 32 errors make the first record wrong; Z0*Z1 anticommutes with half of the Paulis, of which a quarter of 16 keep X0*X1.
    text = stabsim.NoiseModel.em3(0.32).on("RX 0 1\nTICK\nMPP[a] X0*X1\nTICK\nDETECTOR rec[-1]").text
    without_resets = re.sub(r"Z_ERROR.*\n|DEPOLARIZE1.*\n", "", text)
    assert "MPP[a] X0*X1*Z2" in text
    [chance] = stabsim.error_model(without_resets).chances
    assert chance == pytest.approx(0.16)


def by_hand_of_code_capacity():
    """What X and Y of data qubits flip of a rotated surface code: two checks of X are pairs, whose two qubits' errors flip the same."""
    single = 2 * P / 3
    both = 2 * single * (1 - single)
    return sorted([single] * 5 + [both] * 2)


@pytest.mark.parametrize("rounds", [1, 3])
def test_code_capacity_is_an_error_of_each_data_qubit(rounds):
    noisy = stabsim.NoiseModel.code_capacity(P).on(codes.surface_code(3, rounds))
    assert counted(noisy) == {("DEPOLARIZE1", P): 9}
    # Z flips no detector: those of checks of X compare later rounds with the first.
    assert sorted(stabsim.error_model(noisy).chances) == pytest.approx(by_hand_of_code_capacity())


def test_phenomenological_noise_of_a_surface_code_of_distance_3():
    noisy = stabsim.NoiseModel.phenomenological(P).on(codes.surface_code(3, 3))
    assert counted(noisy) == {("DEPOLARIZE1", P): 27, ("MR", P): 24}
    # In front of the first round 7 kinds of X and Y; in front of both others 7 of X, 7 of Z and 9 of Y; wrong records of 4 checks of Z in 3
    # rounds; and of 4 checks of X in the middle one: in the first and the last they flip what a Z flips.
    model = stabsim.error_model(noisy)
    assert len(model) == 7 + 2 * (7 + 7 + 9) + 3 * 4 + 4
    assert len(noisy.distance().errors) == 3


HAMMING = [[1, 0, 1, 0, 1, 0, 1], [0, 1, 1, 0, 0, 1, 1], [0, 0, 0, 1, 1, 1, 1]]


@pytest.mark.parametrize("text, data", [
    (codes.repetition_code(3, 3), 3), (codes.surface_code(3, 1), 9), (codes.surface_code(3, 3, basis="X"), 9), (codes.unrotated_surface_code(3, 2), 13),
    (codes.surface_code(3, 3, written_out=True), 9), (codes.toric_code(3, 2), 18), (codes.colour_code(3, 3), 7), (codes.bacon_shor_code(3, 3), 9),
    (codes.steane_code(3), 7), (codes.css_code(HAMMING, HAMMING, 3), 7),
])
def test_data_qubits_of_codes_of_distance_3_are_found(text, data):
    rounds = int(re.search(r"(\d+) rounds?:", text)[1])
    for model, times in ((stabsim.NoiseModel.code_capacity(P), 1), (stabsim.NoiseModel.phenomenological(P), rounds)):
        noisy = model.on(text)
        assert counted(noisy)["DEPOLARIZE1", P] == data * times
        assert len(noisy.distance().errors) == 3


def test_a_block_begins_a_round_and_once_is_in_front_of_it():
    text = "R 0 1\nREPEAT 5 {\n    TICK\n    CX 0 1\n    TICK\n    MR 1\n    DETECTOR rec[-1]\n}\nM 0\n"
    each = stabsim.NoiseModel.phenomenological(P).on(text).text.splitlines()
    once = stabsim.NoiseModel.code_capacity(P).on(text).text.splitlines()
    assert each[1:5] == ["REPEAT 5 {", "    TICK", "    DEPOLARIZE1(0.001) 0", "    CX 0 1"] and "    MR(0.001) 1" in each and each[-1] == "M 0"
    assert once == ["R 0 1", "DEPOLARIZE1(0.001) 0", *text.splitlines()[1:]]


def test_data_qubits_are_said_if_detectors_do_not_show_them():
    text = "R 0 1\nCX 0 1\nM 1 0"
    with pytest.raises(ValueError, match=r"give data="):
        stabsim.NoiseModel.phenomenological(P).on(text)
    assert stabsim.NoiseModel.phenomenological(P).on(text, data=[0]).text == "R 0 1\nDEPOLARIZE1(0.001) 0\nCX 0 1\nM(0.001) 1\nM 0\n"


def test_lines_of_the_circuit_stay():
    text = "# memory\nRX[a] 0 1 # both\nTICK[10ns]\nREPEAT 2 {\n\tMRY !0\n\n}\nSQRT_XX 0 1\nCX rec[-1] 1\nXCZ 1 rec[-1]\nMPAD 1\nI 0\n"
    found = stabsim.NoiseModel.uniform(0.125).on(text).text.splitlines()
    assert [line.replace("(0.125)", "") for line in found if line.lstrip().partition("(")[0] not in names.NOISE] == text.splitlines()
    assert [line for line in found if line.lstrip().partition("(")[0] in names.NOISE] == [
        "Z_ERROR(0.125) 0 1", "\tX_ERROR(0.125) 0", "\tDEPOLARIZE1(0.125) 1", "DEPOLARIZE2(0.125) 0 1", "DEPOLARIZE1(0.125) 0",
    ]


@pytest.mark.parametrize("model, text, why", [
    ("sd6", "MPP X0*X1", "line 1: MPP X0.X1 measures products"), ("si1000", "H 0\nMZZ 0 1", "line 2"), ("em3", "CX 0 1", "no gates on pairs"),
    ("em3", "MPP X0*X1*X2", "no product of two qubits"), ("uniform", "M 0\nX_ERROR(0.1) 0", "has noise.*: line 2"),
    ("uniform", "M(0.1) 0", "has noise"), ("uniform", "SPP X0", "no model has"),
])
def test_what_a_model_does_not_have_is_said(model, text, why):
    with pytest.raises(ValueError, match=why):
        getattr(stabsim.NoiseModel, model)(P).on(text)


@pytest.mark.parametrize("chance", [-0.1, 1.5, float("nan")])
def test_chances_are_from_0_to_1(chance):
    with pytest.raises(ValueError, match="give a chance, a number from 0 to 1"):
        stabsim.NoiseModel.uniform(chance)
    with pytest.raises(ValueError, match="record is 1.5"):
        stabsim.NoiseModel.si1000(0.3)


def test_a_circuit_that_is_no_circuit_is_refused_by_its_line():
    with pytest.raises(stabsim.Refused, match="line 2"):
        stabsim.NoiseModel.uniform(P).on("M 0\nNOPE 1")


def test_a_model_is_changed_field_by_field():
    biased = dataclasses.replace(stabsim.NoiseModel.sd6(P), record=0.25, idle=0)
    assert counted(biased.on("R 0 1\nTICK\nM 0")) == {("X_ERROR", P): 2, ("M", 0.25): 1}


@pytest.mark.parametrize("text", [codes.surface_code(3, 2), codes.colour_code(3, 2), codes.repetition_code(5, 3)])
def test_a_circuit_with_noise_has_the_items_of_the_circuit(text):
    noisy = stabsim.NoiseModel.uniform(P).on(text)
    assert [str(item) for item in noisy.circuit] == [str(item) for item in stabsim.Circuit(text)]


def channels_of(circuit):
    """How often each channel comes, by its name, qubits and chance."""
    found = collections.Counter()
    stabsim.with_chances(circuit, lambda it: found.update([(it.name, it.qubits, *np.round(it.chances, 12))]) or it.chances)
    return found


def test_a_rule_changes_each_channel_by_itself():
    noisy = stabsim.NoiseModel.si1000(P).on(codes.surface_code(3, 2))
    changed = stabsim.with_chances(noisy, lambda it: [10 * chance for chance in it.chances] if 9 in it.qubits else it.chances)
    wanted = {(name, qubits, round(10 * chance, 12) if 9 in qubits else chance): count for (name, qubits, chance), count in channels_of(noisy).items()}
    assert channels_of(changed) == wanted
    # Qubit 9 is reset, waits, meets four data qubits and is measured.
    assert sum(9 in qubits for _, qubits, _ in wanted) == 1 + 1 + 4 + 1
    assert np.array_equal(changed.circuit.sample(100, seed=3), noisy.circuit.sample(100, seed=3))
    assert stabsim.with_chances(noisy, lambda it: it.chances).text == noisy.text


def test_a_rule_takes_noise_out_and_keeps_what_follows_it():
    text = "E(0.25) X0\nELSE_CORRELATED_ERROR(0.5) Z0\nPAULI_CHANNEL_1(0.1, 0, 0.2) 0 1\nMPP[t](0.1) X0*X1 Z0\nM 0 # last\n"
    without = stabsim.with_chances(text, lambda it: 0 if it.name == "E" else [chance / 2 for chance in it.chances])
    assert without.text.splitlines() == [
        "E(0) X0", "ELSE_CORRELATED_ERROR(0.25) Z0", "PAULI_CHANNEL_1(0.05, 0, 0.1) 0 1", "MPP[t](0.05) X0*X1 Z0", "M 0 # last",
    ]
    seen = []
    stabsim.with_chances(text, lambda it: seen.append((it.line, it.name, it.tag, it.targets)) or it.chances)
    assert seen == [(1, "E", "", ("X0",)), (2, "ELSE_CORRELATED_ERROR", "", ("Z0",)), (3, "PAULI_CHANNEL_1", "", ("0",)),
                    (3, "PAULI_CHANNEL_1", "", ("1",)), (4, "MPP", "t", ("X0*X1",)), (4, "MPP", "t", ("Z0",))]


def test_a_circuit_takes_the_noise_of_a_model_and_gives_it_up():
    text = codes.surface_code(3, 2)
    model = stabsim.NoiseModel.si1000(0.002)
    for circuit in (stabsim.Circuit(text), stabsim.from_stim(text)):
        noisy = circuit.with_noise(model)
        assert noisy == model.on(text) and len(noisy) > len(circuit) and noisy.without_noise() == circuit.without_noise() == stabsim.Circuit(text)
    with pytest.raises(ValueError, match="this circuit has noise"):
        noisy.with_noise(model)
    with pytest.raises(TypeError, match="model is 0.01, .*: give a NoiseModel"):
        noisy.with_noise(0.01)
    assert "DEPOLARIZE1(0.5) 3" in stabsim.Circuit("R 3\nCX 3 4\nM 4").with_noise(stabsim.NoiseModel(data=0.5), data=[3]).text


def test_a_product_and_a_pair_are_one_channel_each():
    text = "MPP(0.5) X0 * X1 Z2\nMZZ(0.5) 0 1 2 3\nDEPOLARIZE2(0.5) 0 1 2 3\n"
    changed = stabsim.with_chances(text, lambda it: 0.25 if 0 in it.qubits else it.chances).text
    assert changed.splitlines() == ["MPP(0.25) X0*X1", "MPP(0.5) Z2", "MZZ(0.25) 0 1", "MZZ(0.5) 2 3", "DEPOLARIZE2(0.25) 0 1", "DEPOLARIZE2(0.5) 2 3"]


@pytest.mark.parametrize("wrong", [1.5, -1, float("nan"), [0.1, 0.1]])
def test_a_rule_that_gives_no_chance_is_told_with_its_line(wrong):
    with pytest.raises(ValueError, match="what the rule gives X_ERROR of line 2 is"):
        stabsim.with_chances("R 0\nX_ERROR(0.1) 0", lambda it: wrong)
