"""Parities that no coin decides, and distributions, against brute force over all parities and all coins."""

import itertools
import random

import numpy as np
import pytest
import stabsim
from coins_by_runs import bits_of
from stabsim.questions import coins, parities


def span_of(records):
    return max(records) - min(records)


def subsets(count):
    """All sets of some of the first numbers, except the empty one."""
    for size in range(1, count + 1):
        yield from map(frozenset, itertools.combinations(range(count), size))


def is_deterministic(records, columns):
    total = 0
    for record in records:
        total ^= columns[record]
    return not total


def rank_of(sets):
    rows = {}
    for its in sets:
        its = set(its)
        while its and max(its) in rows:
            its ^= rows[max(its)]
        if its:
            rows[max(its)] = its
    return len(rows)


def least_spans(columns, known):
    """The spans of a basis of all deterministic parities beside known ones, each as little as can be, by looking through all of them."""
    chosen, spans = list(known), []
    for its in sorted(filter(lambda it: is_deterministic(it, columns), subsets(len(columns))), key=span_of):
        if rank_of([*chosen, its]) > rank_of(chosen):
            chosen.append(its)
            spans.append(span_of(its))
    return spans


@pytest.mark.parametrize("seed", range(40))
def test_local_parities_span_as_little_as_any_basis(seed):
    numbers = random.Random(seed)
    columns = [numbers.getrandbits(numbers.choice([1, 2, 3])) for _ in range(9)]
    found = parities.local_parities(columns)
    assert all(is_deterministic(its, columns) for its in found)
    assert sorted(map(span_of, found)) == least_spans(columns, [])
    # Each begins and ends where no other does.
    assert len(set(map(min, found))) == len(set(map(max, found))) == len(found)


def test_records_of_detectors_are_those_of_the_written_out_circuit():
    text = "REPEAT 2 {\nM 0\nREPEAT 2 {\nM 1 2\nDETECTOR rec[-1] rec[-2]\n}\nOBSERVABLE_INCLUDE(1) rec[-5] rec[-1]\n}\nDETECTOR rec[-1] rec[-1] rec[-3]"
    assert parities.known_parities(stabsim.Circuit(text).items) == ([{1, 2}, {3, 4}, {6, 7}, {8, 9}, {7}], [{0, 4, 5, 9}])


def random_circuit(seed, records=4):
    numbers = random.Random(seed)
    lines = []
    while sum(line.startswith("M") for line in lines) < records:
        one, other = numbers.sample(range(3), 2)
        lines.append(numbers.choice([f"H {one}", f"S {one}", f"CX {one} {other}", f"M {one}", f"MX {one}", f"MPP X{one}*Z{other}", f"X {one}",
                                     f"MR {one}", *[f"CX rec[-1] {one}"] * any(line.startswith("M") for line in lines)]))
    return stabsim.Circuit("\n".join(lines))


def all_runs(circuit):
    """The records of the runs of all coins, each once, as a set of tuples."""
    has = circuit.numbers()
    every = itertools.product((0, 1), repeat=has.coins)
    return {tuple(map(int, bits_of(circuit.text, sequence)[: has.records])) for sequence in every}


@pytest.mark.parametrize("seed", range(20))
def test_distributions_are_the_same_if_the_runs_of_all_coins_are(seed):
    first, second = random_circuit(seed, 3), random_circuit(seed + 1000, 3)
    slow = [all_runs(circuit) for circuit in (first, second)]
    found = first.same_distribution(second)
    assert bool(found) == (slow[0] == slow[1])
    if not found:
        values = [{sum(run[place] for place in found.parity) % 2 for run in runs} for runs in slow]
        assert [found.first, found.second] == [None if len(its) == 2 else bool(min(its)) for its in values]
        assert found.first != found.second


def test_a_measurement_is_like_one_by_another_qubit():
    direct = stabsim.Circuit("R 0 1 2\nH 0\nMPP X0*X1\nM 0 1")
    by_another = stabsim.Circuit("R 0 1 2\nH 0\nH 2\nCX 2 0 2 1\nH 2\nM 2\nM 0 1")
    assert direct.same_distribution(by_another)
    other = direct.same_distribution(stabsim.Circuit("R 0 1\nM 0 1\nM 0"))
    assert not other and other.first is None and other.second is False
    with pytest.raises(ValueError, match="in common"):
        direct.same_distribution(stabsim.Circuit("M 0"))


def test_the_lines_of_a_table_are_read():
    table = coins.table_of(b"17 3/0 c12 M4 M9 D2 L0\n20 4 c14\n21 4 c15 D0\n", (10, 3, 1), np.zeros(14, dtype=bool))
    assert table.steps.tolist() == [17, 20, 21] and table.paths.tolist() == ["3/0", "4", "4"] and table.numbers.tolist() == [12, 14, 15]
    assert [table.flipped(row).tolist() for row in range(3)] == [[4, 9, 12, 13], [], [10]]
    assert table.columns(14)[4] == 1 and table.columns(14)[10] == 4 and table.dense().sum() == 5
    assert len(coins.table_of(b"", (2, 0, 0), np.zeros(2, dtype=bool))) == 0


def test_detectors_are_put_in_behind_all_records():
    text = stabsim.Circuit("REPEAT 3 {\n    MX 0\n}").with_detectors([(0, 1), parities.Parity((2,), False)]).text
    assert text == "REPEAT 3 {\n    MX 0\n}\nDETECTOR rec[-3] rec[-2]\nDETECTOR rec[-1]\n"
    with pytest.raises(ValueError, match="not all records"):
        stabsim.Circuit("M 0").with_detectors([(1,)])
