"""Missing detectors: by hand, against brute force over all coins, and those of codes whose detectors were taken away."""

import functools
import itertools
import operator
import random

import pytest
import stabsim
from coins_by_runs import bits_of
from stabsim import codes
from stabsim.questions import parities
from stabsim.questions.missing import columns_of

CHECKS = [[1, 0, 1, 0, 1, 0, 1], [0, 1, 1, 0, 0, 1, 1], [0, 0, 0, 1, 1, 1, 1]]
MEMORIES = {
    **{f"{name} {distance}, {rounds}": codes.memory(name, distance).text(rounds, True) for name, distance in (
        ("surface_code", 3), ("repetition_code", 3), ("colour_code", 3), ("bacon_shor_code", 2), ("steane_code", 3), ("unrotated_surface_code", 2),
        ("toric_code", 2)) for rounds in (1, 3)},
    "surface_code X": codes.surface_code(3, 2, basis="X", written_out=True),
    "css_code": codes.css_code(CHECKS, CHECKS, 2, written_out=True),
    "css_code of weight 1": codes.css_code([], [[1, 1, 0], [0, 1, 1]], 1, written_out=True),
    "bivariate_bicycle_code": codes.bivariate_bicycle_code(3, 3, [(0, 0), (0, 1), (0, 2)], [(0, 0), (0, 1), (1, 0)], 1, written_out=True),
}
# Which detectors are taken away.
TAKEN = {"all": slice(None), "the last": slice(-1, None), "every second": slice(None, None, 2)}
ACTING = ["H 0", "S 1", "CX 0 1", "CX 1 2", "M 0", "MX !1", "MPP X0*Z1", "X 0", "MR 2", "R 1", "RX 2", "MRY 0", "RY 0"]


def missing(text, **options):
    return [tuple(its.records) for its in stabsim.Circuit(text).missing_detectors(**options)]


def rank_of(sets):
    rows = {}
    for its in sets:
        its = set(its)
        while its and max(its) in rows:
            its ^= rows[max(its)]
        if its:
            rows[max(its)] = its
    return len(rows)


def test_missing_detectors_by_hand():
    assert missing("MX 0 0 0") == [(0, 1), (1, 2)]
    assert [its[:2] for its in stabsim.Circuit("X 0\nM 0\nM 1").missing_detectors()] == [((0,), True), ((1,), False)]
    assert missing("MX 0 0 0\nDETECTOR rec[-1] rec[-3]") == [(0, 1)]
    # A detector that coins decide gives nothing, and an observable does.
    assert missing("MX 0 0\nDETECTOR rec[-1]") == [(0, 1)]
    assert missing("MX 0 0\nOBSERVABLE_INCLUDE(2) rec[-1]\nOBSERVABLE_INCLUDE(2) rec[-2]") == []
    assert missing("REPEAT 2 {\nMX 0\n}\nREPEAT 1 {\nMX 0\nDETECTOR rec[-1] rec[-2]\n}") == [(0, 1)]
    # A record that is fed back counts for what it flips.
    assert missing("H 0\nM 0\nCX rec[-1] 1\nM 1") == [(0, 1)]


def test_unknown_input_leaves_what_any_state_has():
    pair = "MPP Z0*Z1 X0*X1\nTICK\nMPP Z0*Z1 X0*X1\n"
    assert sorted(missing(pair, unknown_input=True)) == [(0, 2), (1, 3)]
    assert sorted(missing(pair)) == [(0,), (0, 2), (1, 3)]
    assert missing(pair + "DETECTOR rec[-2] rec[-4]", unknown_input=True) == [(1, 3)]
    assert missing("M 0", unknown_input=True) == [] and missing("R 0\nM 0", unknown_input=True) == [(0,)]


@pytest.mark.parametrize("seed", range(10))
@pytest.mark.parametrize("unknown_input", [False, True])
def test_missing_detectors_are_all_parities_that_the_runs_of_all_coins_share(seed, unknown_input):
    numbers = random.Random(seed)
    lines = numbers.choices(ACTING, k=5) + ["M 0"]
    # Half of a Bell pair is in any state.
    text = ("H 3 4 5\nCX 3 0 4 1 5 2\n" if unknown_input else "") + "\n".join(lines)
    has = stabsim.Circuit(text).numbers()
    runs = [bits_of(text, coins)[: has.records] for coins in itertools.product((0, 1), repeat=has.coins)]
    found = stabsim.Circuit("\n".join(lines)).missing_detectors(unknown_input=unknown_input)
    for its in found:
        assert {sum(int(run[place]) for place in its.records) % 2 for run in runs} == {int(its.value)}
    # The runs are a space of records, up to one of them, whose dimension is what is random.
    random_part = rank_of({place for place, bit in enumerate(run) if bit != runs[0][place]} for run in runs)
    assert rank_of(its.records for its in found) == len(found) == has.records - random_part


def test_a_logical_operator_is_not_proposed_beside_an_observable():
    text = "R 0 1 2\nX_ERROR(0.1) 0 1 2\nM 0 1 2\nOBSERVABLE_INCLUDE(0) rec[-3]\n"
    circuit = stabsim.from_stim(text).circuit
    mended = circuit.with_detectors(circuit.missing_detectors())
    assert stabsim.from_stim(text + "\n".join(mended.text.splitlines()[-2:])).distance().distance == 3
    # If it is asked for it is, with what it is.
    assert [its for its in circuit.missing_detectors(observables=True)] == [((0,), False, True), ((1,), False, True), ((2,), False, True)]
    # A qubit beside a code is in less than the observable: it begins at one reset, and not at two.
    assert missing(codes.surface_code(2, 2) + "M 30") == [(10,)]


def test_the_logical_operators_of_a_code_without_observables_are_told():
    text = "".join(line + "\n" for line in codes.toric_code(3, 2).splitlines() if not line.startswith(("DETECTOR", "OBSERVABLE")))
    found = [its for its in stabsim.Circuit(text).missing_detectors() if its.is_logical]
    # The last 18 records are those of the data qubits; three on a line around the torus.
    assert len(found) == 2 and all(len(its.records) == 3 and min(its.records) >= 36 for its in found)


def distance_of(circuit):
    return circuit.distance(everywhere=True, letters="XZ", most=4).distance


@pytest.mark.parametrize("text", MEMORIES.values(), ids=MEMORIES)
def test_a_code_whose_detectors_were_taken_away_gets_such_back_that_its_distance_is_what_it_was(text):
    lines = text.splitlines()
    wanted, _ = parities.known_parities(stabsim.Circuit(text).items)
    detectors = [place for place, line in enumerate(lines) if line.startswith("DETECTOR")]
    for taken in TAKEN.values():
        less = stabsim.Circuit("\n".join(line for place, line in enumerate(lines) if place not in detectors[taken]))
        mended = less.with_detectors(less.missing_detectors())
        assert distance_of(mended) == distance_of(stabsim.Circuit(text))
        # More than that: each detector that there was is a sum of those that there are now.
        found, _ = parities.known_parities(mended.items)
        assert rank_of(found) == rank_of(found + wanted)


def test_the_detectors_of_a_surface_code_are_those_that_are_missing_without_them():
    text = codes.surface_code(5, 4, written_out=True)
    wanted, _ = parities.known_parities(stabsim.Circuit(text).items)
    assert sorted(missing("\n".join(line for line in text.splitlines() if not line.startswith("DETECTOR")))) == sorted(tuple(sorted(it)) for it in wanted)


@pytest.mark.parametrize("text", [codes.surface_code(3, 4), codes.colour_code(3, 3), codes.dense_circuit(6, 600, 2), "MX 0 0 0"],
                         ids=["surface", "colour", "dense", "three"])
def test_coins_that_come_no_more_can_be_forgotten(text):
    table = stabsim.Circuit(text).coins()
    plain = table.columns(table.num_records)
    columns, later = columns_of(table, 0)
    columns = list(columns)
    # Each record has the same coins under other numbers, and those that come later have the lowest.
    assert [column.bit_count() for column in columns] == [column.bit_count() for column in plain]
    assert all(column < 1 << count for place, count in enumerate(later) for column in columns[place + 1 :])
    found = parities.local_parities(columns, later=later)
    assert all(functools.reduce(operator.xor, (plain[record] for record in its)) == 0 for its in found)
    ends = [sorted((min(its), max(its)) for its in some) for some in (found, parities.local_parities(plain))]
    assert ends[0] == ends[1]
