"""Stim's whole circuit text: which lines become what, the noise beside them, refusals by the user's lines, and shots with noise."""

import math
import pickle
from concurrent.futures import ThreadPoolExecutor

import numpy as np
import pytest
import stabsim
from stabsim import codes

TEXT = """# two rounds
R 0 1 2
H_YZ 0  # Hadamard
REPEAT 2 {
    DEPOLARIZE2[a](0.1) 0 1
    ISWAP 0 1
    TICK
    MXX[b](0.25) 0 !1  # a check
    I_ERROR(0.5) 2
    M(0.125) 2
    M 2
}

X_ERROR(0.1) 0
OBSERVABLE_INCLUDE(0) rec[-1]
"""
QUIET = """# two rounds
R 0 1 2
SQRT_X 0 # Hadamard
Z 0
REPEAT 2 {
    SWAP 0 1
    CZ 0 1
    S 0 1
    TICK
    MPP[b] X0*!X1 # a check
    M 2
    M 2
}

OBSERVABLE_INCLUDE(0) rec[-1]
"""


def test_lines_that_are_read_stay_and_others_become_those_that_do_the_same():
    read = stabsim.from_stim(TEXT)
    assert read.circuit.text == QUIET and read.text == str(read) == TEXT and stabsim.without_noise(TEXT) == QUIET
    assert read.circuit.numbers().records == 6 and read.circuit.left_out == [] and len(read.left_out) == 5


def test_lines_and_items_are_known_both_ways():
    read = stabsim.from_stim(TEXT)
    assert dict(read.line_of_item) == {
        "0": 2, "1": 3, "2": 3, "3": 4, "3/0": 6, "3/1": 6, "3/2": 6, "3/3": 7, "3/4": 8, "3/5": 10, "3/6": 11, "4": 15,
    }
    assert dict(read.items_of_line) == {
        2: ("0",), 3: ("1", "2"), 4: ("3",), 6: ("3/0", "3/1", "3/2"), 7: ("3/3",), 8: ("3/4",), 10: ("3/5",), 11: ("3/6",), 15: ("4",),
    }
    assert set(read.line_of_item) == {item.path for item in read.circuit.walk()}


def test_the_noise_stands_beside_with_its_lines_and_places():
    noise = stabsim.from_stim(TEXT).noise
    assert [(it.line, it.path, it.name, it.tag, it.arguments, it.targets) for it in noise] == [
        (5, "2/0", "DEPOLARIZE2", "a", ("0.1",), ("0", "1")),
        (8, "2/3", "MPP", "b", ("0.25",), ("X0*!X1",)),
        (10, "2/5", "M", "", ("0.125",), ("2",)),
        (14, "3", "X_ERROR", "", ("0.1",), ("0",)),
    ]
    assert stabsim.from_stim(TEXT).left_out == [
        "line 5: DEPOLARIZE2[a](0.1) 0 1", "line 8: (0.25) of MXX", "line 9: I_ERROR(0.5) 2", "line 10: (0.125) of M", "line 14: X_ERROR(0.1) 0",
    ]


def test_a_circuit_with_noise_is_written_added_and_repeated_with_it(tmp_path):
    noisy = stabsim.from_stim("R 0\nX_ERROR(0.5) 0\nTICK")
    both = 3 * noisy + stabsim.from_stim("MPAD 1\nM(1) 0\nDETECTOR rec[-1]\n")
    assert both.text == "REPEAT 3 {\n    R 0\n    X_ERROR(0.5) 0\n    TICK\n}\nMPAD 1\nM(1) 0\nDETECTOR rec[-1]\n"
    assert [(item.path, item.name) for item in both.walk()][:3] == [("0", "REPEAT"), ("0/0", "R"), ("0/1", "X_ERROR")] and len(both) == 4
    # The second qubit is that of the known record.
    assert (both.num_qubits, both.num_records, both.num_detectors, both.num_observables, both.num_ticks) == (2, 2, 1, 0, 3)
    both.to_file(tmp_path / "both.stim")
    assert stabsim.StimCircuit.from_file(tmp_path / "both.stim") == both
    # One without noise is added on either side.
    clean = stabsim.Circuit("R 0\nM 0")
    assert (noisy + clean).text == noisy.text + "\nR 0\nM 0\n" and (clean + noisy).text == "R 0\nM 0\n" + noisy.text + "\n"
    assert isinstance(clean + noisy, stabsim.StimCircuit) and isinstance(clean + clean, stabsim.Circuit)
    for other in ("M 0", None):
        with pytest.raises(TypeError):
            both + other
        with pytest.raises(TypeError):
            other + both


def test_a_circuit_with_noise_answers_what_one_without_answers_by_its_own_items():
    # For the program ISWAP is three items, MXX another, and a channel none.
    read = stabsim.from_stim("R 0 1\nX_ERROR(0.25) 0\nISWAP 0 1\nMXX(0.25) 0 1\nMX 0\nM 1 1\nDETECTOR(3) rec[-1] rec[-2]\nI 0\nOBSERVABLE_INCLUDE(0) rec[-3]\n")
    assert read.num_qubits == 2 and read.numbers().items == len(read) == 9 and read.num_detectors == 1
    assert read.coins().paths.tolist() == ["3", "4", "5"] and [bit.coins[0].path for bit in read.explain()] == ["4"]
    table = read.faults(everywhere=True, sure_only=True)
    assert list(dict.fromkeys(table.paths.tolist())) == ["0", "2", "3", "4", "5", "7"] and read.faults(sure_only=True).paths.tolist() == ["7", "7"]
    other = read.circuit.faults(everywhere=True, sure_only=True)
    assert np.array_equal(table.indices, other.indices) and np.array_equal(table.steps, other.steps)
    assert read.deterministic().detectors.tolist() == [True] and read.deterministic().observables.tolist() == [False]
    assert read.has_flow("1 -> X0*X1 xor rec[-4]") == read.circuit.has_flow("1 -> X0*X1 xor rec[-4]") and read.same_flows(read.circuit)
    assert read.same_distribution(read.circuit) and read.stabilisers(seed=3) == read.circuit.stabilisers(seed=3)
    assert read.missing_detectors() == read.circuit.missing_detectors() and read.detector_coordinates().tolist() == [[3.0]]
    assert read.with_detectors([(0, 1)]).text == read.text + "DETECTOR rec[-4] rec[-3]\n"
    assert read.detecting_regions() == read.circuit.detecting_regions() and len(read.flow_generators()) == len(read.circuit.flow_generators())


def test_shots_with_noise_are_the_same_in_chunks_in_parts_and_packed():
    read = stabsim.from_stim("R 0 1\nX_ERROR(0.25) 0\nMR(0.125) 0 1\nDETECTOR rec[-1]\nDETECTOR rec[-2]\nOBSERVABLE_INCLUDE(0) rec[-1]\n")
    records, (detectors, observables) = read.sample(200, seed=5), read.detect(200, seed=5, separate_observables=True)
    assert np.array_equal(np.concatenate(list(read.iter_sample(200, 70, seed=5))), records)
    assert np.array_equal(np.concatenate([its for its, _ in read.iter_detect(200, 70, seed=5)]), detectors)
    with ThreadPoolExecutor(2) as executor:
        assert np.array_equal(read.sample(200, seed=5, executor=executor), records)
        assert np.array_equal(read.detect(200, seed=5, executor=executor), detectors)
    assert np.array_equal(read.sample(200, seed=5, bit_packed=True), np.packbits(records, axis=1, bitorder="little"))
    packed = read.detect(200, seed=5, separate_observables=True, bit_packed=True)
    assert all(np.array_equal(its, np.packbits(wanted, axis=1, bitorder="little")) for its, wanted in zip(packed, (detectors, observables)))
    assert 0 < records[:, 0].mean() < 0.5 and packed[0].seed == 5


def test_errors_of_the_noise_are_at_its_items():
    read = stabsim.from_stim("R 0\nTICK\nISWAP 0 1\nREPEAT 2 {\n    H_XY 0\n    X_ERROR(0.25) 0\n}\nM(0.125) 0\nOBSERVABLE_INCLUDE(0) rec[-1]\n")
    assert [(item.path, item.name) for item in read.noise] == [("3/1", "X_ERROR"), ("4", "M")]
    [error] = read.distance().errors
    assert error.path in ("3/1", "4") and read.distance(everywhere=True).errors[0].path in ("0", "2")
    with pytest.raises(ValueError, match="letters is 'XZ': give everywhere=True"):
        read.distance(letters="XZ")
    assert read.circuit.distance().searched.startswith("no errors, since there is no noise, and no place is marked")
    marked = stabsim.from_stim("MXX 0 1\nI 1\nM 1\nOBSERVABLE_INCLUDE(0) rec[-1]\nOBSERVABLE_INCLUDE(0) rec[-1]\n")
    assert marked.distance().searched == "all marked errors"


def test_an_error_put_in_at_the_place_of_its_channel_flips_what_the_channel_does():
    text = "R 0 1\nX_ERROR(0.125) 0\nISWAP 0 1\nX_ERROR(0.25) 0\nM 0 1\nDETECTOR rec[-1]\nDETECTOR rec[-2]\n"
    read = stabsim.from_stim(text)
    model = stabsim.error_model(read)
    for channel in read.noise:
        with read.edit() as session:
            session.insert(channel.path, f"X {' '.join(channel.targets)}")
            [mechanism] = np.flatnonzero(model.chances == channel.numbers()[0])
            assert session.changed().detectors.tolist() == model.flipped(mechanism).tolist()


def test_a_text_that_the_program_reads_is_the_same():
    for text in ("", "H 0", codes.surface_code(3, 3), "M 0 # \udcff\r\n\tX 1\r\n"):
        read = stabsim.from_stim(text)
        assert read.circuit is read and read.noise == () and read.left_out == [] and "noise" not in repr(read)
    assert repr(stabsim.from_stim(TEXT)) == "<stabsim.Circuit: 15 lines, noise in 5 of them>"


@pytest.mark.parametrize("text, number, line, said", [
    ("M 0\nCX 0 sweep[0]\n", 3, 2, "2: CX 0 sweep[0]\n        ^^^^^^^^\nCX takes pairs, of which a sweep bit, as sweep[0], may decide about a qubit."),
    ("M 0\nCY sweep[0] 1 sweep[1]\n", 3, 2, "2: CY sweep[0] 1 sweep[1]\n                 ^^^^^^^^\nCY takes pairs"),
    ("M 0\nCX sweep[0] 5000\n", 6, 2, "2: CX sweep[0] 5000\n               ^^^^\n"),
    ("M 0\nXCZ sweep[0] 1\n", 3, 2, "2: XCZ sweep[0] 1\n       ^^^^^^^^\nXCZ takes pairs"),
    ("M 0\nCX sweep[x] 1\n", 3, 2, "2: CX sweep[x] 1\n      ^^^^^^^^\n"),
    ("M 0\nSWAP sweep[0] 1\n", 3, 2, "2: SWAP sweep[0] 1\n        ^^^^^^^^\n"),
    ("M 0\n\nOBSERVABLE_INCLUDE(0) rec[-1] X5000\n", 6, 3, "3: OBSERVABLE_INCLUDE(0) rec[-1] X5000\n                                 ^^^^^\n"),
    ("M 0\nOBSERVABLE_INCLUDE(0) rec[-2] X1\n", 8, None, "2: OBSERVABLE_INCLUDE(0) rec[-2] X1\n                         ^^^^^^^\n"),
    ("M 0\nOBSERVABLE_INCLUDE(0) X1 3\n", 3, 2, "2: OBSERVABLE_INCLUDE(0) X1 3\n                            ^\n"),
    ("ISWAP 0 1\nSQRT_XX 0 1 2 1024\n", 6, 2, "2: SQRT_XX 0 1 2 1024\n                 ^^^^\n"),
    ("ISWAP 0 1\nREPEAT 2 {\n    MYY(0.1) 0 1 !7 5000\n}\n", 6, 3, "3:     MYY(0.1) 0 1 !7 5000\n                       ^^^^\n"),
    ("SPP X0*X7777\n", 6, 1, "1: SPP X0*X7777\n       ^^^^^^^^\n"),
    ("H_XY 0\nDEPOLARIZE1(0.1) 0 9999\n", 6, 2, "2: DEPOLARIZE1(0.1) 0 9999\n                      ^^^^\n"),
    ("H_XY 0\nE(0.1) X0 Y9999\n", 6, 2, "2: E(0.1) X0 Y9999\n              ^^^^\n"),
    ("ISWAP 0 1 2\n", 4, 1, "1: ISWAP 0 1 2\n             ^\nISWAP takes pairs of qubits: this one has no partner."),
    ("ISWAP 0 1 10 010\n", 4, 1, "1: ISWAP 0 1 10 010\n                ^^^\nISWAP takes pairs of two different qubits."),
    ("MZZ 0 !0\n", 4, 1, "1: MZZ 0 !0\n         ^^\n"),
    ("SWAPCX 0 1 1 1\n", 4, 1, "1: SWAPCX 0 1 1 1\n                ^\n"),
    ("SWAPCX 0 1 1\n", 4, 1, "1: SWAPCX 0 1 1\n              ^\n"),
    ("XCX 0 rec[-1]\n", 3, 1, "1: XCX 0 rec[-1]\n         ^^^^^^^\nXCX takes qubits, which are numbers."),
    ("YCZ rec[-1] 0\n", 3, 1, "1: YCZ rec[-1] 0\n       ^^^^^^^\nYCZ takes a qubit first, and then a qubit or a record."),
    ("H_XY x\n", 3, 1, "1: H_XY x\n        ^\n"),
    ("MXX 0 !!1\n", 3, 1, "1: MXX 0 !!1\n         ^^^\n"),
    ("SPP X0*Y0\n", 3, 1, "1: SPP X0*Y0\n       ^^^^^\nSPP takes products of X, Y and Z, as X0*!Y1, which are their own inverses."),
    ("SPP X0*\n", 3, 1, "1: SPP X0*\n       ^^^\n"),
    ("MPP Z1 X0*Y0*Z0\n", 3, 1, "1: MPP Z1 X0*Y0*Z0\n          ^^^^^^^^\nMultiplied out, this is i or -i times a product of Paulis"),
    ("MPP X0*Q0\n", 3, 1, "1: MPP X0*Q0\n          ^^\nThis is no factor"),
    ("MPAD 0 2\n", 3, 1, "1: MPAD 0 2\n          ^\nMPAD takes bits, 0 or 1."),
    ("ISWAP(0.5) 0 0\n", 2, 1, "1: ISWAP(0.5) 0 0\n         ^^^\nISWAP takes no arguments"),
    ("M 0\nCZ(0.5) 0 rec[-1]\n", 2, 2, "2: CZ(0.5) 0 rec[-1]\n      ^^^\nCZ takes no arguments"),
    ("MPAD(2) 5\n", 2, 1, "1: MPAD(2) 5\n        ^\nThis is no chance"),
    ("X 0\nT 0\n", 1, 2, "2: T 0\n   ^\n"),
    ("X_ERROR(0.1) 0\nM 0\n}\n", 5, 3, "3: }\n"),
    ("ISWAP 0 1\nMXX 0 1\nREPEAT 3 {\n    M 0\n    CZ 1 rec[-4]\n}\n", 8, None, "5:     CZ 1 rec[-4]\n            ^^^^^^^\nThis looks back past the first record: "
     "2 records are before item 2/1"),
    ("ISWAP 0 1\nREPEAT 600000 {\n    CXSWAP 0 1\n}\n", 9, None, "2: REPEAT 600000 {\n   ^^^^^^^^^^^^^^^\nThere are more than 1048576 steps up to the end of item 1.\n"),
])
def test_a_refusal_speaks_of_the_users_lines_and_items(text, number, line, said):
    with pytest.raises(stabsim.Refused) as told:
        stabsim.from_stim(text)
    assert (told.value.number, told.value.line) == (number, line) and told.value.explanation.startswith(said), told.value


def test_noise_takes_no_step_of_the_circuit():
    text = "REPEAT 600000 {\n    X_ERROR(0.1) 0\n    X 0\n}\n"
    assert stabsim.from_stim(text).circuit.numbers().steps == 600_000


def mechanisms(text):
    model = stabsim.error_model(text)
    return {" ".join(map(model.name, model.flipped(place).tolist())): chance for place, chance in enumerate(model.chances.tolist())}


@pytest.mark.parametrize("text, wanted", [
    ("R 0 1\nMZZ(0.25) 0 1\nMZZ 0 1\nDETECTOR rec[-2]\nDETECTOR rec[-1]\n", {"D0": 0.25}),
    ("R 0 1\nX_ERROR(0.25) 0\nMZZ 0 !1\nDETECTOR rec[-1]\n", {"D0": 0.25}),
    ("R 0\nMPAD(0.25) 0 1\nM 0\nDETECTOR rec[-3]\nDETECTOR rec[-2]\nDETECTOR rec[-1]\n", {"D0": 0.25, "D1": 0.25}),
    # X on the first qubit goes to the second, with a Z on the first that nothing sees.
    ("R 0 1\nX_ERROR(0.25) 0\nISWAP 0 1\nM 0 1\nDETECTOR rec[-2]\nDETECTOR rec[-1]\n", {"D1": 0.25}),
    ("R 0 1\nI_ERROR(0.5) 0\nII_ERROR(0.5) 0 1\nII 0 1\nM 0\nDETECTOR rec[-1]\n", {}),
    ("RX 0\nR 1\nREPEAT 2 {\n    Z_ERROR(0.25) 0\n    XCX 0 1\n    H_NXZ 0 0\n    MX 0\n    DETECTOR rec[-1]\n}\n", {"D0 D1": 0.25, "D1": 0.25}),
])
def test_an_error_model_takes_all_of_the_text(text, wanted):
    assert mechanisms(text) == wanted == mechanisms(stabsim.from_stim(text))


def test_a_model_names_the_users_lines():
    with pytest.raises(stabsim.UnsupportedNoise) as told:
        stabsim.error_model("ISWAP 0 1\nMXX 0 1\nDEPOLARIZE1(0.8) 0\n")
    assert told.value.line == 3
    found = stabsim.error_model("ISWAP 0 1\nCXSWAP 0 1\nPAULI_CHANNEL_1(0.1, 0, 0.2) 0\nM 0\n", approximate_disjoint_errors=True)
    assert found.approximated == (3,)
    with pytest.raises(stabsim.Refused) as told:
        stabsim.error_model("ISWAP 0 1\nX_ERROR(0.1) 0\nMXX 0 1\nDETECTOR rec[-1]\n")
    assert told.value.number == 18 and told.value.explanation == "detector 0, item 3, is not the same for all coins: c0@2 decides it"


# With all chances 1 what happens is worked out by hand.
@pytest.mark.parametrize("text, records", [
    ("X_ERROR(1) 0\nY_ERROR(1) 1\nZ_ERROR(1) 2\nM 0 1 2", "110"),
    ("M(1) 0 !0 0\nM 0", "1010"),
    ("X 0\nMR(1) 0\nM 0", "00"),
    ("MPP(1) Z0*Z1 !Z0\nM 0", "100"),
    ("E(1) X0 Z1 Y2\nM 0 1 2", "101"),
    ("E(0) X0\nELSE_CORRELATED_ERROR(1) X1\nELSE_CORRELATED_ERROR(1) X2\nM 0 1 2", "010"),
    ("E(1) X0\nELSE_CORRELATED_ERROR(1) X1\nE(1) X2\nM 0 1 2", "101"),
    ("PAULI_CHANNEL_1(0, 1, 0) 0\nPAULI_CHANNEL_2(0,0,0, 0,0,0,1, 0,0,0,0, 0,0,0,0) 1 2\nPAULI_CHANNEL_1(0, 0, 1) 3\nM 0 1 2 3", "1100"),
    # A wrong record controls as it is written.
    ("M(1) 0\nCX rec[-1] 1\nM 0 1", "101"),
    ("REPEAT 3 {\n    X_ERROR(1) 0\n    REPEAT 2 {\n        TICK\n    }\n    M 0\n}\nDETECTOR rec[-1]\n", "101"),
    ("MPAD(1) 0 1\nMZZ(1) 0 1", "101"),
    ("REPEAT 1000000000000 {\n    TICK\n}\nX_ERROR(1) 0\nM 0", "1"),
])
def test_what_always_happens_is_in_every_shot(text, records):
    shots = stabsim.from_stim(text).sample(130, seed=3)
    assert shots.dtype == np.bool_ and shots.shape == (130, len(records))
    assert {"".join("01"[bit] for bit in shot) for shot in shots.astype(int)} == {records}


def near(found, shots, chance):
    """Whether something that comes by a chance was found about as often as it should, within five standard deviations."""
    return abs(found - shots * chance) <= 5 * math.sqrt(shots * chance * (1 - chance)) + 1e-9


def test_records_of_shots_come_as_often_as_they_should():
    shots = 6000
    # A coin decides the first record; the second is another by a Y or X of either qubit, or if it is wrong.
    drawn = stabsim.from_stim("H 0\nCX 0 1\nDEPOLARIZE1(0.3) 0\nX_ERROR(0.1) 1\nM 0\nM(0.2) 1\n").sample(shots, seed=5)
    other = 0.2 * 0.9 + 0.8 * 0.1
    other = other * 0.8 + (1 - other) * 0.2
    assert near(drawn[:, 0].sum(), shots, 0.5) and near((drawn[:, 0] ^ drawn[:, 1]).sum(), shots, other)
    drawn = stabsim.from_stim("DEPOLARIZE2(0.6) 0 1\nM 0 1\nE(0.25) X2\nELSE_CORRELATED_ERROR(0.5) X3\nM 2 3\n").sample(shots, seed=6)
    # Of fifteen errors four flip the first alone, four the second, and four both.
    for flips, chance in (((1, 0), 0.16), ((0, 1), 0.16), ((1, 1), 0.16), ((0, 0), 0.52)):
        assert near((drawn[:, :2] == flips).all(axis=1).sum(), shots, chance)
    for flips, chance in (((1, 0), 0.25), ((0, 1), 0.375), ((1, 1), 0), ((0, 0), 0.375)):
        assert near((drawn[:, 2:] == flips).all(axis=1).sum(), shots, chance)


NOISY_CODE = codes.repetition_code(3, 3, noise=codes.Noise.uniform(0.04))


def test_a_shot_with_noise_is_the_same_whatever_is_drawn_with_it():
    read = stabsim.from_stim(NOISY_CODE)
    whole = read.sample(150, seed=9, first_shot=40)
    assert np.array_equal(np.concatenate([read.sample(30, seed=9, first_shot=40), read.sample(120, seed=9, first_shot=70)]), whole)
    assert not np.array_equal(read.sample(150, seed=8, first_shot=40), whole) and read.sample(0, seed=1).shape == (0, 9)
    one, other = read.sample(150), read.sample(150)
    assert one.seed != other.seed and np.array_equal(one, read.sample(150, seed=one.seed))
    for wrong in (lambda: read.sample(-1), lambda: read.sample(1, seed=-1), lambda: read.sample(1, first_shot=-1)):
        with pytest.raises(ValueError):
            wrong()


def test_detectors_of_shots_come_as_often_as_parities_of_records():
    read = stabsim.from_stim(NOISY_CODE)
    shots = 4000
    records = read.sample(shots, seed=2)
    detectors, observables = read.detect(shots, seed=3, separate_observables=True)
    # The detectors of a round compare its two records with those of the round before, and the last ones those of the data qubits.
    checks = np.concatenate([np.zeros((shots, 2), bool), records[:, :6], records[:, 6:8] ^ records[:, 7:9]], axis=1)
    parities = checks[:, 2:] ^ checks[:, :-2]
    for mine, theirs in [*zip(parities.T, detectors.T), (records[:, 8], observables[:, 0])]:
        assert abs(int(mine.sum()) - int(theirs.sum())) < 5 * math.sqrt(2 * shots * 0.25)
        assert theirs.any() and not theirs.all()
    assert detectors.seed == observables.seed == 3 and np.array_equal(read.detect(shots, seed=3), detectors)


def test_detectors_without_noise_are_those_of_the_circuit():
    text = "H 0\nM 0\nDETECTOR rec[-1]\nMPAD 1\nOBSERVABLE_INCLUDE(0) rec[-1]\n"
    read = stabsim.from_stim(text)
    detectors, observables = read.detect(50, seed=4, first_shot=3, separate_observables=True)
    assert np.array_equal(detectors, read.circuit.detect(50, seed=4, first_shot=3)) and observables.all()
    assert np.array_equal(read.sample(50, seed=4), read.circuit.sample(50, seed=4))
    # A detector that a coin decides is not flipped by noise, but is another altogether.
    with pytest.raises(stabsim.Refused, match="18 NotDeterministic"):
        stabsim.from_stim(text + "X_ERROR(0.1) 0\n").detect(1)


def test_flips_are_parities_up_to_those_without_noise():
    read = stabsim.from_stim("X 0\nX_ERROR(0.25) 0 1\nM 0 1\nDETECTOR rec[-2]\nDETECTOR rec[-1]\nOBSERVABLE_INCLUDE(0) rec[-1] rec[-2]\n")
    raw, flipped = (read.detect(200, seed=6, separate_observables=True, flips=flips) for flips in (False, True))
    assert np.array_equal(flipped[0], raw[0] ^ [True, False]) and np.array_equal(flipped[1], ~raw[1])
    assert all(map(np.array_equal, flipped, stabsim.error_model(read).sample(200, seed=6)))
    assert raw[0].seed == flipped[0].seed == 6 and np.array_equal(read.detect(200, seed=6, flips=True), flipped[0])
    # Parts and copies know what they are; parities that are 0 without noise are flips.
    assert not raw[0].are_flips and not pickle.loads(pickle.dumps(raw[0]))[3:].are_flips and flipped[0].are_flips
    assert stabsim.from_stim("X_ERROR(0.25) 0\nM 0\nDETECTOR rec[-1]\n").detect(3).are_flips
    # Without noise nothing is flipped.
    assert not stabsim.from_stim("X 0\nM 0\nDETECTOR rec[-1]\n").detect(3, flips=True).any()


def test_what_coins_decide_has_no_flips():
    for noise in ("", "X_ERROR(0.1) 0\n"):
        read = stabsim.from_stim(f"H 0\n{noise}M 0\nDETECTOR rec[-1]\n")
        for ask in (lambda: read.detect(5, flips=True), lambda: stabsim.m2d(read, np.zeros((2, 1), dtype=bool), flips=True)):
            with pytest.raises(stabsim.Refused, match="detector 0, item .* is not the same for all coins"):
                ask()
    assert stabsim.from_stim("H 0\nM 0\nDETECTOR rec[-1]\n").detect(100, seed=1).any()


LONG = " ".join(map(str, range(300)))


@pytest.mark.parametrize("text", [
    "M 0\n\tX[ä] 0\t1 2000 # ö\r\n", f"M 0\nH {LONG} 3000 {LONG}\n", f"M 0\nCX {LONG} 3000\n", "REPEAT 3 {\n    M 0\n    DETECTOR rec[-2]\n}\n", "T 0\n",
    "H 0\nREPEAT 2 {\n", "H 0 {\n", "X 0\nREPEAT 2000000 {\n    X 0\n}\n", "H[a#b] 0\n", f"R 0 # {LONG}\nMPP {'*'.join(f'X{place}' for place in range(90))}*Q\n",
])
def test_a_text_of_the_programs_is_refused_in_its_words(text):
    told = []
    for read in (stabsim.from_stim, lambda text: stabsim.Circuit(text).numbers()):
        with pytest.raises(stabsim.Refused) as refused:
            read(text)
        told.append(str(refused.value))
    assert told[0] == told[1]


def test_a_long_line_is_quoted_in_part():
    with pytest.raises(stabsim.Refused) as told:
        stabsim.from_stim(f"ISWAP 0 1\nMXX {LONG} 3000 4\n")
    quote, carets = told.value.explanation.split("\n")[:2]
    assert quote.startswith("2: ..") and quote.endswith(" 299 3000 4") and len(quote) < 80 and carets == " " * quote.index("3000") + "^^^^"


def test_it_can_be_sent_to_another_process():
    read = stabsim.from_stim(TEXT)
    assert read.line_of_item and read.noise and read.items_of_line
    again = pickle.loads(pickle.dumps(read))
    assert again == read and again.noise == read.noise and again.circuit == read.circuit
