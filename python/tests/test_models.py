"""Error models: mechanisms worked by hand, every fault by itself in a session, and sampled frequencies."""

import itertools
import math
import subprocess
import sys
from fractions import Fraction

import numpy as np
import pytest
import stabsim
from stabsim import codes

from single_faults import mechanisms_by_sessions


def mechanisms(model):
    """What each mechanism flips, as words, and its chance."""
    return {" ".join(map(model.name, model.flipped(place).tolist())): chance for place, chance in enumerate(model.chances)}


def close(found, wanted):
    return set(found) == set(wanted) and all(math.isclose(found[it], wanted[it], rel_tol=1e-9) for it in wanted)


def test_a_repetition_code_of_distance_3_has_five_mechanisms_a_round_and_three():
    # A round has an X of each of three data qubits and two wrong records; the last measurement has three wrong records. X or Y of
    # a data qubit that depolarises by p come with chance 2p/3; Z flips nothing.
    p = 0.06
    found = stabsim.error_model(codes.repetition_code(3, 4, noise=codes.Noise.phenomenological(p)))
    wanted = {}
    for now in range(4):
        left, right = f"D{2 * now}", f"D{2 * now + 1}"
        wanted |= {left: 2 * p / 3, f"{left} {right}": 2 * p / 3, f"{right} L0": 2 * p / 3}
        wanted |= {f"{left} D{2 * now + 2}": p, f"{right} D{2 * now + 3}": p}
    wanted |= {"D8": p, "D8 D9": p, "D9 L0": p}
    assert len(wanted) == 5 * 4 + 3
    assert close(mechanisms(found), wanted)


def test_equal_errors_are_joined_and_silent_ones_left_out():
    found = stabsim.error_model("R 0 1\nX_ERROR(0.1) 0\nY_ERROR(0.2) 0\nZ_ERROR(0.3) 0\nX_ERROR(0.4) 1\nX_ERROR(0) 0\nM 0 1\nDETECTOR rec[-2]\n")
    assert close(mechanisms(found), {"D0": 0.1 * 0.8 + 0.2 * 0.9})


def test_an_error_of_several_qubits_flips_what_all_do():
    found = stabsim.error_model("R 0 1 2\nE(0.1) X0 Z1 Y2\nCORRELATED_ERROR(0.2) X0\nM 0 1 2\nDETECTOR rec[-3]\nDETECTOR rec[-2]\n"
                                "OBSERVABLE_INCLUDE(0) rec[-1]\n")
    assert close(mechanisms(found), {"D0 L0": 0.1, "D0": 0.2})


def test_a_wrong_record_is_wrong_alone():
    found = stabsim.error_model("R 0\nM(0.1) 0\nM 0\nDETECTOR rec[-2]\nDETECTOR rec[-1]\n")
    assert close(mechanisms(found), {"D0": 0.1})


def test_a_wrong_record_of_a_measured_reset_is_wrong_alone():
    for letter in ("", "X", "Y", "Z"):
        found = stabsim.error_model(f"R{letter} 0\nMR{letter}(0.1) !0\nM{letter} 0\nDETECTOR rec[-2]\nDETECTOR rec[-1]\n")
        assert close(mechanisms(found), {"D0": 0.1})


def test_a_wrong_record_of_a_product_is_wrong_alone():
    text = "RX 0 1\nR 2\nMPP(0.1) X0*X1 Z2 !X0*!X1*Z2\nMPP X0*X1 Z2\nMX 0 1\n" + "".join(f"DETECTOR rec[-{back}]\n" for back in range(7, 0, -1))
    assert close(mechanisms(stabsim.error_model(text)), {"D0": 0.1, "D1": 0.1, "D2": 0.1})


NOISY = {
    "surface code": codes.surface_code(3, 2, noise=codes.Noise.uniform(0.01), written_out=True),
    "logical X": codes.surface_code(2, 2, basis="X", noise=codes.Noise.uniform(0.02), written_out=True),
    "colour code": codes.colour_code(3, 2, noise=codes.Noise.phenomenological(0.03), written_out=True),
    "all measurements": "RX 0\nRY 1\nR 2\nPAULI_CHANNEL_1(0.08, 0.02, 0.18) 0 1 2\nE(0.2) X0 Y1 Z2\nMX(0.1) 0 !0 0\nMY(0.2) 1\nMZ 2\nMRX(0.3) 0\nMRY(0.1) 1\n"
    "MPP(0.25) Z2 !X0*Y1*Z2\nM 2\nDEPOLARIZE2(0.1) 0 2\nMX 0\nM 2\n" + "".join(f"DETECTOR rec[-{back}]\n" for back in range(11, 0, -1)),
}


@pytest.mark.parametrize("name", NOISY)
def test_every_error_by_itself_in_a_session_makes_the_same_model(name):
    assert close(mechanisms(stabsim.error_model(NOISY[name])), mechanisms_by_sessions(NOISY[name]))


@pytest.mark.parametrize("name, given", [("surface_code", (3, 4)), ("repetition_code", (4, 6)), ("colour_code", (3, 3))])
def test_blocks_make_the_model_of_the_rounds_written_out(name, given):
    noise = codes.Noise.uniform(0.01)
    block, written = (stabsim.error_model(getattr(codes, name)(*given, noise=noise, written_out=it)) for it in (False, True))
    assert np.array_equal(block.indptr, written.indptr) and np.array_equal(block.indices, written.indices)
    np.testing.assert_allclose(block.chances, written.chances, rtol=1e-12)
    assert np.array_equal(block.coordinates, written.coordinates)


def test_blocks_in_blocks_repeat_their_errors():
    body = "M(0.1) 0\nDETECTOR rec[-1]\nREPEAT 2 {\nX_ERROR(0.2) 0\nM 0\nDETECTOR rec[-1] rec[-2]\n}\n"
    found = stabsim.error_model(f"R 0\nREPEAT 3 {{\n{body}}}\n")
    written = stabsim.error_model("R 0\n" + 3 * body.replace("REPEAT 2 {\n", "").replace("}\n", "X_ERROR(0.2) 0\nM 0\nDETECTOR rec[-1] rec[-2]\n"))
    assert mechanisms(found) == mechanisms(written) and len(found) > 6


def test_gates_named_I_of_the_circuit_are_no_errors():
    found = stabsim.error_model("R 0\nI 0\nX_ERROR(0.1) 0\nI 0 1\nM 0\nDETECTOR rec[-1]\n")
    assert close(mechanisms(found), {"D0": 0.1})


def test_the_text_of_a_model_is_this():
    found = stabsim.error_model("R 0 1\nX_ERROR(0.25) 0\nX_ERROR(0.125) 1\nM 0 1\nDETECTOR(1, 2.5) rec[-2]\nSHIFT_COORDS(1)\n"
                                "DETECTOR rec[-1] rec[-2]\nOBSERVABLE_INCLUDE(1) rec[-1]\n")
    assert found.dem == """\
error(0.25) D0 D1
error(0.125) D1 L1
detector(1, 2.5) D0
detector D1
logical_observable L0
logical_observable L1
"""
    detectors, observables = found.check_matrices()
    assert detectors.astype(int).tolist() == [[1, 0], [1, 1]] and observables.astype(int).tolist() == [[0, 0], [0, 1]]


def test_disjoint_errors_are_approximated_only_where_that_is_asked_for():
    text = "R 0\n\nPAULI_CHANNEL_1(0.1, 0, 0.2) 0\nM 0\nDETECTOR rec[-1]\n"
    with pytest.raises(stabsim.UnsupportedNoise, match="approximate_disjoint_errors") as told:
        stabsim.error_model(text)
    assert told.value.line == 3
    found = stabsim.error_model(text, approximate_disjoint_errors=True)
    assert close(mechanisms(found), {"D0": 0.1}) and found.approximated == (3,)
    assert "lines [3] approximated" in repr(found) and found.dem.startswith("# The disjoint errors of line 3")


def chain(*chances):
    """A circuit with X, Y and Z of qubit 0 as a chain, whose chances are these if none before them happened."""
    names = ["E", "ELSE_CORRELATED_ERROR", "else_correlated_error[tag]"]
    lines = "".join(f"{name}({chance!r}) {letter}0 X1\n" for name, chance, letter in zip(names, chances, "XYZ"))
    return f"R 0\nRX 2\nCX 2 0\nR 1\n{lines}CX 2 0\nM 0 1\nMX 2\nDETECTOR rec[-3]\nDETECTOR rec[-2]\nDETECTOR rec[-1]\n"


def test_a_chain_is_independent_errors_if_some_make_it():
    # X and Z, each with X on the other qubit, happen independently with chances 0.1 and 0.2, and in place of Y is their product: I of the
    # other qubit. It has X too here, so no independent errors make it.
    disjoint = (0.1 * 0.8, 0.1 * 0.2, 0.9 * 0.2)
    given = [disjoint[0], disjoint[1] / (1 - disjoint[0]), disjoint[2] / (1 - disjoint[0] - disjoint[1])]
    with pytest.raises(stabsim.UnsupportedNoise, match="line 7: .*approximate_disjoint_errors"):
        stabsim.error_model(chain(*given))
    text = "".join(line.replace(" X1", "") if "Y0" in line else line for line in chain(*given).splitlines(keepends=True))
    # X flips detectors 0 and 1, Z, which a control of the check meets, detectors 1 and 2.
    assert close(mechanisms(stabsim.error_model(text)), {"D0 D1": 0.1, "D1 D2": 0.2})


def test_a_chain_is_taken_for_independent_errors_if_that_is_asked_for():
    found = stabsim.error_model(chain(0.1, 0.2, 0.5), approximate_disjoint_errors=True)
    assert close(mechanisms(found), {"D0 D1": 0.1, "D0 D1 D2": 0.9 * 0.2, "D1 D2": 0.9 * 0.8 * 0.5}) and found.approximated == (5, 6, 7)


def test_letters_of_one_qubit_are_multiplied_and_a_silent_error_hinders_those_behind_it():
    text = "R 0\nE(0.5) X0 X00\nELSE_CORRELATED_ERROR(0.25) Y0 Z0\nM 0\nDETECTOR rec[-1]\n"
    assert close(mechanisms(stabsim.error_model(text)), {"D0": 0.125})


def test_a_chain_is_of_lines_side_by_side():
    for between in ("TICK", "X_ERROR(0.1) 0", "REPEAT 2 {\nTICK\n}"):
        with pytest.raises(stabsim.Refused, match="follows E"):
            stabsim.error_model(f"E(0.1) X0\n{between}\nELSE_CORRELATED_ERROR(0.1) X0\nM 0\n")
    text = "R 0\nE(0.1) X0\n# a comment\n\nELSE_CORRELATED_ERROR(0.5) X0\nE(0.2) X0\nM 0\nDETECTOR rec[-1]\n"
    assert close(mechanisms(stabsim.error_model(text)), {"D0": 0.55 * 0.8 + 0.45 * 0.2})


def test_a_refusal_shows_a_line_of_a_chain_as_it_is_written():
    with pytest.raises(stabsim.Refused) as told:
        stabsim.error_model("R 0\nE(0.1) X0\n\tELSE_CORRELATED_ERROR[a](0.1) X0\tZ1024 # far\n")
    assert told.value.line == 3
    quoted, marks = told.value.explanation.split("\n")[:2]
    assert quoted == "3:  ELSE_CORRELATED_ERROR[a](0.1) X0 Z1024 # far" and quoted.index("Z1024") + 1 == marks.index("^")


EXPLAINED = """R 0 1 2
REPEAT 2 {
    X_ERROR(0.1) 0 1
    REPEAT 3 {
        DEPOLARIZE2(0.15) 0 1
        M(0.01) 0 2
        DETECTOR rec[-2]
    }
}
MPP(0.02) Z1*Z2 Z1
DETECTOR rec[-1]
E(0.3) X1
M 1
OBSERVABLE_INCLUDE(0) rec[-1]
"""


def test_a_mechanism_is_explained_by_lines_and_rounds():
    model = stabsim.error_model(EXPLAINED)
    number = {name: at for at, name in enumerate(mechanisms(model))}
    each = (1 - (1 - 16 * 0.15 / 15) ** 0.125) / 2
    # A wrong record alone: of the third round of the inner block in the first of the outer.
    assert model.explain(number["D2"]) == [(6, "M", "record of 0", 0.01, (0, 2))]
    # A wrong record of the product, and the last error, whose qubit no detector looks at any more.
    assert model.explain(number["D6"]) == [(10, "MPP", "record of Z1", 0.02, ())]
    assert model.explain(number["L0"]) == [(12, "E", "X1", 0.3, ())]
    # What flips the last detector of the blocks alone comes in its round; D5 of qubit 0 has letters on qubit 1 that nothing sees.
    found = model.explain(number["D5"])
    assert [(cause.line, cause.error, cause.rounds) for cause in found] == [
        *((5, error, (1, 2)) for error in ("X0", "X0*Z1", "Y0", "Y0*Z1")), (6, "record of 0", (1, 2))]
    assert all(cause.chance == pytest.approx(each) for cause in found[:-1])
    # All of both blocks flip the end by qubit 1.
    ends = model.explain(number["D6 L0"])
    assert [cause.rounds for cause in ends if cause.line == 3] == [(0,), (1,)] and {cause.error for cause in ends} == {"X1", "Y1", "Z0*X1", "Z0*Y1"}
    assert len(ends) == 2 + 6 * 4


@pytest.mark.parametrize("name", NOISY)
def test_what_explains_a_mechanism_has_its_chance_together(name):
    model = stabsim.error_model(NOISY[name])
    for mechanism, chance in enumerate(model.chances):
        total = 0.0
        for cause in model.explain(mechanism):
            total = total * (1 - cause.chance) + cause.chance * (1 - total)
        assert math.isclose(total, chance, rel_tol=1e-9)
    with pytest.raises(IndexError):
        model.explain(len(model))


def test_sparse_matrices_are_the_dense_ones():
    scipy = pytest.importorskip("scipy.sparse")
    model = stabsim.error_model(codes.surface_code(3, 2, noise=codes.Noise.uniform(0.02)))
    for form, kind in (("csr", scipy.csr_matrix), ("csc", scipy.csc_matrix)):
        for dense, sparse in zip(model.check_matrices(), model.sparse_check_matrices(form)):
            assert sparse.form == form and sparse.shape == dense.shape and np.array_equal(sparse.dense(), dense)
            made = sparse.to_scipy()
            assert isinstance(made, kind) and made.has_canonical_format and np.array_equal(made.toarray(), dense)
    with pytest.raises(ValueError, match="one of 'csr', 'csc'"):
        model.sparse_check_matrices("coo")


def test_sparse_matrices_need_no_scipy():
    code = ("import sys; sys.modules['scipy'] = None; import stabsim; "
            "print(stabsim.ErrorModel.from_dem('error(0.1) D1 L0').sparse_check_matrices()[0].indices.tolist())")
    assert subprocess.run([sys.executable, "-c", code], capture_output=True, text=True, check=True).stdout == "[1]\n"


@pytest.mark.parametrize("line", ["HERALDED_ERASE(0.1) 0", "HERALDED_PAULI_CHANNEL_1(0.1, 0, 0, 0.1) 0", "DEPOLARIZE1(0.8) 0", "DEPOLARIZE2(0.95) 0 1"])
def test_noise_without_a_model_is_told_with_its_line(line):
    with pytest.raises(stabsim.UnsupportedNoise) as told:
        stabsim.error_model(f"R 0\n{line}\nM 0\n")
    assert told.value.line == 2 and str(told.value).startswith("line 2: ")


def test_a_refusal_names_the_line_of_the_noisy_text():
    for text, number, line, said in [
        ("R 0\nREPEAT 2 {\n\nM(0.1) 0 0\nX_ERROR(0.1) 0 # a comment\n}\nT 0\n", 1, 7, "7: T 0\n   ^\n"),
        ("X_ERROR(0.1) a\n", 3, 1, "1: X_ERROR(0.1) a\n                ^\n"),
        ("R 0\nE[tag](0.1) X0\tZ1024\r\n", 6, 2, "2: E[tag](0.1) X0 Z1024\n                   ^^^^\n"),
        ("R 0\n\tM[x](0.125) 0 rec[-1] # c\n", 3, 2, "2:  M[x](0.125) 0 rec[-1] # c\n                  ^^^^^^^\n"),
        ("REPEAT 2 {\nX_ERROR(0.1) 0\n", 5, 1, "1: REPEAT 2 {\n"),
        # The program never computes with coordinates, and leaves it to others whether they are numbers.
        ("X_ERROR(0.1) 0\nM(0.1) 0\nDETECTOR(0, 1e) rec[-1]\n", 2, 3, "(0, 1e) are not all numbers."),
    ]:
        with pytest.raises(stabsim.Refused) as told:
            stabsim.error_model(text)
        assert (told.value.number, told.value.line) == (number, line) and told.value.explanation.startswith(said)


def test_a_refusal_names_the_item_of_the_noisy_text():
    # With its marks the circuit has other items: those of a noisy measurement are three.
    text = "R 0\nX_ERROR(0.1) 0\nREPEAT 2 {\n    M(0.1) 0 0\n    X_ERROR(0.1) 0\n    M 0\n    DETECTOR rec[-4]\n}\n"
    with pytest.raises(stabsim.Refused, match="3 records are before item 2/3") as told:
        stabsim.error_model(text)
    assert told.value.number == 8 and told.value.explanation.startswith("7:     DETECTOR rec[-4]\n")
    with pytest.raises(stabsim.Refused) as told:
        stabsim.error_model("R 0\nM(0.1) 0 0\nI 0\nMX(0.1) 0\nDETECTOR rec[-2]\nDETECTOR rec[-1]\n")
    assert told.value.number == 18 and told.value.explanation == "detector 1, item 5, is not the same for all coins: c3@3 decides it"


def test_a_circuit_of_too_many_errors_is_refused_before_they_are_counted():
    # A thousand million errors would take gibibytes; and errors alone may be too many beside the steps of the circuit.
    for text in ("REPEAT 1000 {\nREPEAT 1000 {\nREPEAT 1000 {\nX_ERROR(0.1) 0\n}\n}\n}\n", "REPEAT 400000 {\nM(0.1) 0\n}\n"):
        with pytest.raises(stabsim.Refused) as told:
            stabsim.error_model(text)
        assert told.value.number == 9 and told.value.line is None and told.value.explanation


def test_blocks_without_errors_may_have_any_number_of_rounds():
    found = stabsim.error_model("R 0\nREPEAT 1000000000000000 {\nREPEAT 100000000 {\nTICK\n}\n}\nX_ERROR(0.1) 0\nM 0\nDETECTOR rec[-1]\n")
    assert close(mechanisms(found), {"D0": 0.1})


def test_what_coins_decide_is_refused_or_left_out():
    text = "R 0\nH 0\nX_ERROR(0.1) 0\nM 0\nDETECTOR rec[-1]\nDETECTOR\n"
    with pytest.raises(stabsim.Refused, match="18 NotDeterministic"):
        stabsim.error_model(text)
    assert len(stabsim.error_model(text, sure_only=True)) == 0


def test_a_circuit_without_noise_has_an_empty_model():
    found = stabsim.error_model("M 0\nDETECTOR rec[-1]\n")
    assert len(found) == 0 and found.dem == "detector D0\n"
    assert not found.sample(5, seed=0)[0].any()


def test_noise_is_taken_out_and_all_else_stays():
    text = "# two\nR 0 1 # x\n  X_ERROR(0.1) 0\nREPEAT 2 {\n\tm[a(b)] (0.25)  !0 # M(1)\n depolarize1(0.1) 1\n}\nMPP(0.1) X0*X1\nE(0.1) X0\n" \
           "ELSE_CORRELATED_ERROR(0.1) X1\nMR(0.1)\nOBSERVABLE_INCLUDE(0) rec[-1]\nDETECTOR(1, 2)"
    assert stabsim.without_noise(text) == "# two\nR 0 1 # x\nREPEAT 2 {\n\tm[a(b)]  !0 # M(1)\n}\nMPP X0*X1\nMR\n" \
                                          "OBSERVABLE_INCLUDE(0) rec[-1]\nDETECTOR(1, 2)"
    # The records of heralded errors stay, of a qubit that nothing else names.
    assert stabsim.without_noise("HERALDED_ERASE(0.1) 0 2  # heralds\n") == "R 3\nMR 3\nMR 3\n"


def exact(model):
    """The chance of each set of flips, by all combinations of mechanisms."""
    chances = {}
    for happened in itertools.product([False, True], repeat=len(model)):
        flips = np.zeros(model.num_detectors + model.num_observables, dtype=bool)
        chance = 1.0
        for mechanism, there in enumerate(happened):
            chance *= model.chances[mechanism] if there else 1 - model.chances[mechanism]
            if there:
                flips[model.flipped(mechanism)] ^= True
        chances[tuple(flips)] = chances.get(tuple(flips), 0) + chance
    return chances


def test_combinations_of_errors_come_as_often_as_they_should():
    model = stabsim.error_model("R 0 1 2\nX_ERROR(0.3) 0\nX_ERROR(0.05) 1\nDEPOLARIZE2(0.2) 0 1\nCX 0 2 1 2\nM(0.1) 0 1 2\nDETECTOR rec[-3]\n"
                                "DETECTOR rec[-2]\nOBSERVABLE_INCLUDE(0) rec[-1]\n")
    shots = 200_000
    drawn = np.concatenate(model.sample(shots, seed=11), axis=1)
    for flips, chance in exact(model).items():
        found = int((drawn == np.array(flips)).all(axis=1).sum())
        assert abs(found - shots * chance) < 5 * math.sqrt(shots * chance * (1 - chance)) + 1


def test_any_split_of_the_shots_is_the_same():
    model = stabsim.error_model(codes.surface_code(3, 2, noise=codes.Noise.uniform(0.02)))
    whole = model.sample(4000, seed=2**64 - 1, first_shot=500)
    for bounds in ([0, 1, 64, 65, 1024, 4000], [0, 524, 525, 3999, 4000]):
        parts = [model.sample(end - start, seed=2**64 - 1, first_shot=500 + start) for start, end in itertools.pairwise(bounds)]
        for bits, split in zip(whole, zip(*parts)):
            assert np.array_equal(bits, np.concatenate(split))
    assert not np.array_equal(whole[0], model.sample(4000, seed=1, first_shot=500)[0])


def test_chunks_are_the_shots_one_after_another():
    model = stabsim.error_model(codes.surface_code(3, 2, noise=codes.Noise.uniform(0.02)))
    whole = model.sample(3000, seed=7, first_shot=100)
    for chunk in (1, 1024, 1500, 5000):
        parts = list(model.iter_sample(3000 if chunk > 1 else 3, chunk, seed=7, first_shot=100))
        assert max(len(detectors) for detectors, _ in parts) <= chunk
        for bits, split in zip(whole, zip(*parts)):
            assert np.array_equal(bits if chunk > 1 else bits[:3], np.concatenate(split))
    packed = list(zip(*model.iter_sample(3000, 700, seed=7, first_shot=100, bit_packed=True)))
    for bits, split in zip(whole, packed):
        assert np.array_equal(np.packbits(bits, axis=1, bitorder="little"), np.concatenate(split))
    # What is wrong is determined by the call, and not by the first chunk.
    for wrong in ((-1, 5), (5, 0)):
        with pytest.raises(ValueError):
            model.iter_sample(*wrong, seed=1)


def test_an_error_is_drawn_always_or_never_at_the_ends_of_chance():
    model = stabsim.error_model("R 0 1 2\nX_ERROR(1) 0\nX_ERROR(1e-300) 1\nX_ERROR(1e-17) 2\nM 0 1 2\nDETECTOR rec[-3]\nDETECTOR rec[-2]\nDETECTOR rec[-1]\n")
    detectors, observables = model.sample(3000, seed=3)
    assert detectors[:, 0].all() and not detectors[:, 1:].any() and observables.shape == (3000, 0)


def test_a_shot_is_drawn_from_raw_words():
    """Numpy keeps the words of Philox, and not what it makes of them. Word by word: the next shot in which a mechanism happens is the first
    up to which it happens with a chance above the word's part of its range, in whole numbers here."""
    model = stabsim.error_model("R 0 1\nX_ERROR(0.25) 0\nX_ERROR(0.015625) 1\nM 0 1\nDETECTOR rec[-2]\nDETECTOR rec[-1]\n")
    words = np.random.Philox(key=9, counter=[0, 0, 3, 0])
    happened = [[], []]
    places, running = [-1, -1], [0, 1]
    while running:
        for mechanism, word in zip(running, words.random_raw(len(running)).tolist(), strict=True):
            passed, left = 0, Fraction(1)
            while 1 - left <= Fraction(word, 2**64):
                passed, left = passed + 1, left * (1 - Fraction(model.chances[mechanism]))
            places[mechanism] += passed
            if places[mechanism] < 1024:
                happened[mechanism].append(places[mechanism])
        running = [mechanism for mechanism in running if places[mechanism] < 1024]
    detectors, _ = model.sample(1024, seed=9, first_shot=3 * 1024)
    assert [np.flatnonzero(column).tolist() for column in detectors.T] == happened


def test_models_of_other_chances_have_other_fingerprints():
    one, other = (stabsim.error_model(f"R 0\nX_ERROR({chance}) 0\nM 0\nDETECTOR rec[-1]\n") for chance in (0.1, 0.2))
    assert one.fingerprint != other.fingerprint
    assert one.fingerprint == stabsim.error_model("R 0\nX_ERROR(0.10) 0\nM 0\nDETECTOR rec[-1]\n").fingerprint


def test_a_circuit_without_noise_has_a_model_without_mechanisms():
    noisy = stabsim.Circuit("R 0\nX_ERROR(0.25) 0\nM 0\nDETECTOR rec[-1]\n")
    assert stabsim.error_model(noisy.circuit).dem == "detector D0\n" and stabsim.error_model(noisy).dem == "error(0.25) D0\ndetector D0\n"


MODEL = stabsim.ErrorModel.from_dem("error(0.25) D0 L0\n")


@pytest.mark.parametrize("call, kind", [
    (lambda: stabsim.error_model(None), TypeError), (lambda: stabsim.error_model(5), TypeError), (lambda: stabsim.ErrorModel.from_dem(None), TypeError),
    (lambda: stabsim.ErrorModel.from_dem(b"error(0.1) D0"), TypeError), (lambda: MODEL.sample(1.5), TypeError), (lambda: MODEL.sample(-1), ValueError),
    (lambda: MODEL.sample(1, seed=True), TypeError), (lambda: MODEL.sample(1, first_shot="0"), TypeError), (lambda: MODEL.explain(None), TypeError),
    (lambda: MODEL.sparse_check_matrices("coo"), ValueError), (lambda: MODEL.distance(most=-1), ValueError), (lambda: MODEL.distance(most=0.5), TypeError),
])
def test_what_a_model_can_not_take_is_named_with_what_to_give(call, kind):
    with pytest.raises(kind, match="^[^\n]* is [^\n]*: give [^\n]*$"):
        call()


def test_a_mechanism_that_is_none_is_an_index_error():
    for number in (-1, 1):
        with pytest.raises(IndexError, match="give a whole number from 0 to 0"):
            MODEL.flipped(number)
