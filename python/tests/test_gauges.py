"""Models of detectors that coins decide, by all errors and coins of small circuits."""

import itertools
import random
from collections import defaultdict

import numpy as np
import pytest
import stabsim


def test_what_a_coin_flips_is_an_error_of_chance_a_half():
    # The example of Stim's own documentation: both records are the coin's.
    text = "H 0\nCNOT 0 1\nM 0 1\nDETECTOR rec[-1]\nDETECTOR rec[-2]\n"
    assert stabsim.error_model(text, allow_gauge_detectors=True).dem == "error(0.5) D0 D1\ndetector D0\ndetector D1\n"
    with pytest.raises(stabsim.Refused, match="18 NotDeterministic"):
        stabsim.error_model(text)
    # By hand: the coin flips the first two, the error the second alone, and the wrong record the third.
    noisy = "RX 0\nM 0\nDETECTOR rec[-1]\nX_ERROR(0.25) 0\nM 0\nDETECTOR rec[-1]\nM(0.125) 0\nDETECTOR rec[-1] rec[-2]\n"
    found = stabsim.error_model(noisy, allow_gauge_detectors=True)
    assert found.dem.splitlines()[:3] == ["error(0.5) D0 D1", "error(0.25) D1", "error(0.125) D2"]
    assert found.explain(0) == [] and found.explain(1)[0].line == 4 and found.distance().distance is None


def test_without_gauges_the_model_is_the_same():
    text = "R 0\nX_ERROR(0.25) 0\nM 0\nDETECTOR(3) rec[-1]\nOBSERVABLE_INCLUDE(0) rec[-1]\n"
    assert stabsim.error_model(text, allow_gauge_detectors=True) == stabsim.error_model(text)


def test_coins_that_decide_an_observable_are_refused():
    with pytest.raises(stabsim.Refused, match="18 NotDeterministic\nobservable 1 is not the same for all coins"):
        stabsim.error_model("MX 0\nDETECTOR rec[-1]\nOBSERVABLE_INCLUDE(1) rec[-1]\n", allow_gauge_detectors=True)


def lines_of(numbers):
    """A circuit of three qubits with a few errors, as its lines: a pair is a qubit that has an error there, and its chance."""
    lines = [f"R{numbers.choice(['', 'X'])} {qubit}" for qubit in range(3)]
    made, errors = 0, 0
    for _ in range(14):
        qubits = numbers.sample(range(3), 2)
        kind = numbers.random()
        if kind < 0.35:
            lines.append(numbers.choice([f"H {qubits[0]}", f"CX {qubits[0]} {qubits[1]}", f"S {qubits[0]}"]))
        elif kind < 0.6:
            lines.append(numbers.choice([f"M {qubits[0]}", f"MX {qubits[0]}", f"MZZ {qubits[0]} {qubits[1]}"]))
            made += 1
        elif kind < 0.75 and errors < 4:
            lines.append((qubits[0], numbers.choice([0.125, 0.25, 0.375])))
            errors += 1
        elif made:
            lines.append("DETECTOR " + " ".join(f"rec[-{back}]" for back in numbers.sample(range(1, made + 1), min(made, 2))))
    return lines


def exact(lines):
    """How often each set of detectors is 1, by all errors, and all coins of the circuit with these."""
    found = defaultdict(float)
    places = [place for place, line in enumerate(lines) if not isinstance(line, str)]
    for happens in itertools.product([False, True], repeat=len(places)):
        chance = 1.0
        for place, did in zip(places, happens):
            chance *= lines[place][1] if did else 1 - lines[place][1]
        did = dict(zip(places, happens))
        text = "\n".join(line if isinstance(line, str) else f"{'X' if did[place] else 'I'} {line[0]}" for place, line in enumerate(lines))
        table = stabsim.Circuit(text).coins()
        first = table.num_records
        rows = [tuple(row) for row in table.dense()[:, first:]]
        for coins in itertools.product([False, True], repeat=len(rows)):
            bits = table.constants()[first:].copy()
            for row, coin in zip(rows, coins):
                bits ^= np.array(row, dtype=bool) & coin
            found[tuple(bits.tolist())] += chance / 2 ** len(rows)
    return found


def by_model(lines):
    """The same by the mechanisms of the model, all of which are independent, from the run of coins 0."""
    text = "\n".join(line if isinstance(line, str) else f"X_ERROR({line[1]}) {line[0]}" for line in lines)
    model = stabsim.error_model(text, allow_gauge_detectors=True)
    found = {tuple(stabsim.Circuit(text).reference_signs()[0].tolist()): 1.0}
    for mechanism, chance in enumerate(model.chances.tolist()):
        flipped, after = set(model.flipped(mechanism).tolist()), defaultdict(float)
        for bits, before in found.items():
            after[bits] += before * (1 - chance)
            after[tuple(bit ^ (place in flipped) for place, bit in enumerate(bits))] += before * chance
        found = after
    return found


@pytest.mark.parametrize("seed", range(25))
def test_the_model_makes_each_set_of_detectors_as_often_as_errors_and_coins_do(seed):
    lines = lines_of(random.Random(seed))
    wanted, found = exact(lines), by_model(lines)
    assert all(found.get(bits, 0) == pytest.approx(wanted.get(bits, 0), abs=1e-12) for bits in {*wanted, *found})
