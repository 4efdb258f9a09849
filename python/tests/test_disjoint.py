"""Disjoint errors as they are drawn: against all of their cases on small circuits, and on larger ones by the chances of parities."""

import itertools
import math
from collections import Counter

import numpy as np
import pytest
import stabsim
from stabsim import codes
from stabsim.formats.combining import rows_of

PAIRS = ["".join(pair) for pair in itertools.product("IXYZ", repeat=2)][1:]
CASES = {"PAULI_CHANNEL_1": "XYZ", "HERALDED_PAULI_CHANNEL_1": "IXYZ", "PAULI_CHANNEL_2": PAIRS}
# Circuits whose detectors and observables are 0 without noise.
TEXTS = [
    "R 0 1 2\nH 2\nPAULI_CHANNEL_1(0.1, 0.2, 0.05) 0 2\nH 2\nCX 0 1 2 1\nX_ERROR(0.25) 1\nM 0 1 2\nDETECTOR rec[-3]\nDETECTOR rec[-2]\nOBSERVABLE_INCLUDE(0) rec[-1]\n",
    "R 0 1\nPAULI_CHANNEL_2(0, 0.3, 0, 0, 0, 0.1, 0.2, 0, 0, 0.05, 0, 0, 0, 0, 0.1) 0 1\nH 1\nM 0\nH 1\nM 1\nDETECTOR rec[-1]\nOBSERVABLE_INCLUDE(1) rec[-2]\n",
    "R 0 1 2\nE(0.25) X0 X1\nELSE_CORRELATED_ERROR(0.5) X1 Z2\nELSE_CORRELATED_ERROR(0.75) Y2\nCX 0 2\nM 0 1 2\nDETECTOR rec[-3]\nDETECTOR rec[-2]\nDETECTOR rec[-1]\n",
    "R 0\nHERALDED_PAULI_CHANNEL_1(0.1, 0.2, 0.3, 0.1) 0\nH 0\nHERALDED_ERASE(0.5) 0\nH 0\nM 0\nDETECTOR rec[-3]\nDETECTOR rec[-2]\nDETECTOR rec[-1]\n",
    "R 0 1\nREPEAT 2 {\nPAULI_CHANNEL_1(0.2, 0.1, 0) 0\nHERALDED_ERASE(0.25) 1\nCX 0 1\nMR 1\nDETECTOR rec[-1]\nDETECTOR rec[-2]\n}\nM 0\nOBSERVABLE_INCLUDE(0) rec[-1]\n",
]


def items_of(text):
    """The instructions of a text with its blocks written out, by name, arguments and targets."""
    return [(it.name, it.numbers(), it.targets) for it in stabsim.Circuit(text).flattened()]


def cases_of(name, chances, targets):
    """Of each time that a channel acts the chances of what it does, as letters by qubit, and whether it makes a record of that."""
    if name in ("X_ERROR", "PAULI_CHANNEL_1", "PAULI_CHANNEL_2"):
        size = 2 if name.endswith("2") else 1
        every = list(zip(chances, CASES.get(name, "X")))
        return [[(chance, dict(zip(targets[at : at + size], case))) for chance, case in every] for at in range(0, len(targets), size)], False
    every = list(zip(chances if len(chances) == 4 else [chances[0] / 4] * 4, "IXYZ"))
    return [[(chance, {target: case}) for chance, case in every] for target in targets], True


def sites_of(items):
    """The channels as sites: at which item, what happens there, and whether it is told. An error with others after it is one site."""
    sites = []
    for place, (name, chances, targets) in enumerate(items):
        paulis = {target[1:]: target[0] for target in targets} if name in ("E", "ELSE_CORRELATED_ERROR") else {}
        if name == "E":
            sites.append((place, [(chances[0], paulis)], False))
        elif name == "ELSE_CORRELATED_ERROR":
            at, before, _ = sites.pop()
            sites.append((at, [*before, (chances[0] * (1 - sum(chance for chance, _ in before)), paulis)], False))
        elif name.endswith(("ERROR", "CHANNEL_1", "CHANNEL_2", "ERASE")):
            each, is_told = cases_of(name, chances, targets)
            sites += [(place, its, is_told) for its in each]
    return sites


def flips_of(items, happens):
    """What is flipped, by hand, if these cases happen at sites, each with its item and whether it is told: detectors, and then observables."""
    x, z, records, detectors, observables = Counter(), Counter(), [], [], {}
    for place, (name, numbers, targets) in enumerate(items):
        for at, case, is_told in happens:
            if at == place:
                for qubit, letter in (case or {}).items():
                    x[qubit] ^= letter in "XY"
                    z[qubit] ^= letter in "ZY"
                records += [case is not None] * is_told
        for qubit in targets if name in ("H", "R", "M", "MR") else ():
            if name == "H":
                x[qubit], z[qubit] = z[qubit], x[qubit]
            if name in ("M", "MR"):
                records.append(bool(x[qubit]))
            if name in ("R", "MR"):
                x[qubit] = z[qubit] = 0
        for control, target in zip(targets[::2], targets[1::2]) if name == "CX" else ():
            x[target] ^= x[control]
            z[control] ^= z[target]
        parity = sum(records[int(target[4:-1])] for target in targets) % 2 if name in ("DETECTOR", "OBSERVABLE_INCLUDE") else 0
        if name == "DETECTOR":
            detectors.append(parity)
        if name == "OBSERVABLE_INCLUDE":
            observables[int(numbers[0])] = parity
    return (*detectors, *(observables.get(it, 0) for it in range(max(observables, default=-1) + 1)))


def chances_of(text):
    """The chance of each list of flips, over all cases at all sites."""
    items = items_of(text)
    sites = sites_of(items)
    every = [[*cases, (1 - sum(chance for chance, _ in cases), None)] for _, cases, _ in sites]
    found = Counter()
    for cases in itertools.product(*every):
        flips = flips_of(items, [(at, case, is_told) for (at, _, is_told), (_, case) in zip(sites, cases)])
        found[flips] += math.prod(chance for chance, _ in cases)
    return found


@pytest.mark.parametrize("text", TEXTS)
def test_flips_come_as_often_as_all_cases_make_them(text):
    chances, shots = chances_of(text), 40_000
    assert sum(chances.values()) == pytest.approx(1) and len(chances) > 3
    found = Counter(map(tuple, np.concatenate(stabsim.Circuit(text).detect(shots, seed=9, separate_observables=True), axis=1).astype(int).tolist()))
    assert not set(found) - {flips for flips, chance in chances.items() if chance > 1e-12}
    wanted = {flips: shots * chance for flips, chance in chances.items() if shots * chance > 8}
    # Pearson's sum has as many degrees of freedom as there are flips, less one; its square root is twice as normal as it need be.
    total = sum((found[flips] - count) ** 2 / count for flips, count in wanted.items())
    assert total < len(wanted) + 4.5 * math.sqrt(2 * len(wanted)), (total, len(wanted))


def test_depolarising_that_is_more_than_full_is_drawn_as_it_is():
    # X and Y flip the detector, each by 0.3.
    text, shots = "R 0\nDEPOLARIZE1(0.9) 0\nM 0\nDETECTOR rec[-1]\n", 20_000
    assert abs(stabsim.Circuit(text).detect(shots, seed=4).mean() - 0.6) < 4.5 * math.sqrt(0.24 / shots)
    with pytest.raises(stabsim.UnsupportedNoise, match="line 2: .* is stronger than full"):
        stabsim.error_model(text)
    assert stabsim.error_model(text, approximate_disjoint_errors=True).approximated == (2,)


def test_a_shot_is_the_same_whatever_others_are_drawn_with_it():
    circuit = stabsim.Circuit(TEXTS[4])
    many = circuit.detect(3000, seed=3)
    assert np.array_equal(circuit.detect(7, seed=3, first_shot=1020), many[1020:1027]) and not np.array_equal(many[:1024], many[1024:2048])


@pytest.mark.parametrize("chance", [1.0, 0.0])
def test_what_always_happens_and_what_never_happens(chance):
    text = f"R 0 1\nPAULI_CHANNEL_1({chance / 2}, {chance / 2}, 0) 0\nHERALDED_PAULI_CHANNEL_1(0, {chance / 2}, {chance / 2}, 0) 1\nM 0 1\nDETECTOR rec[-3]\nDETECTOR rec[-2]\nDETECTOR rec[-1]\n"
    assert (stabsim.Circuit(text).detect(2000, seed=1) == bool(chance)).all()


def parity_chance(noise, bits):
    """How often an odd number of some bits is flipped: each error, and each group of disjoint ones, shrinks the mean of the parity's sign."""
    def is_odd(indptr, indices):
        of_row, columns = rows_of(np.arange(len(indptr) - 1), indptr, indices)
        return np.bincount(of_row[np.isin(columns, bits)], minlength=len(indptr) - 1) % 2 == 1

    its = noise.disjoint
    in_groups = np.add.reduceat(its.chances * is_odd(its.indptr, its.indices), its.starts[:-1])
    alone = noise.chances * is_odd(noise.indptr, noise.indices)
    return (1 - np.prod(1 - 2 * alone) * np.prod(1 - 2 * in_groups)) / 2


def test_parities_of_a_larger_code_are_odd_as_often_as_their_chances_say():
    text = codes.surface_code(5, 4, noise=codes.Noise.uniform(0.01))
    text = text.replace("DEPOLARIZE2(0.01)", f"PAULI_CHANNEL_2({', '.join(['0.004', '0', '0.003'] * 5)})").replace("DEPOLARIZE1(0.01)", "PAULI_CHANNEL_1(0.004, 0.003, 0)")
    circuit, shots = stabsim.Circuit(text), 30_000
    model = stabsim.error_model(circuit, approximate_disjoint_errors=True)
    assert len(model.noise.disjoint.starts) > 500 and model.approximated
    drawn = np.concatenate(circuit.detect(shots, seed=6, separate_observables=True), axis=1)
    numbers = np.random.default_rng(3)
    squares = 0.0
    for _ in range(250):
        bits = numbers.choice(drawn.shape[1], size=numbers.integers(1, 5), replace=False)
        chance = parity_chance(model.noise, bits)
        away = (np.bitwise_xor.reduce(drawn[:, bits], axis=1).mean() - chance) / math.sqrt(chance * (1 - chance) / shots)
        assert abs(away) < 4.5, (bits, chance, away)
        squares += away**2
    assert abs(squares - 250) < 5 * math.sqrt(2 * 250)


HERALDED = "R 0\nHERALDED_ERASE(0.4) 0\nM 0\nDETECTOR rec[-2]\nOBSERVABLE_INCLUDE(0) rec[-1]\n"


def nothing(model):
    return lambda detectors: np.zeros((len(detectors), model.num_observables), dtype=bool)


def as_told(model):
    return lambda detectors: detectors[:, :1]


@pytest.mark.parametrize("decoder", [nothing, as_told])
def test_rates_of_heralded_errors_are_exact(decoder):
    # Of an error X and Y flip the observable, which is half of 0.4; as independent errors, of chance 0.1 each, they would in 0.18 of all shots.
    with stabsim.Circuit("R 0\nM 0\nDETECTOR rec[-1]\nOBSERVABLE_INCLUDE(0) rec[-1]\n").edit(qubits=2) as session:
        session.insert(1, "HERALDED_ERASE(0.4) 0")
        session.replace(3, "DETECTOR rec[-2]")
        rate = session.logical_error_rate(decoder, shots=60_000, seed=2)
        assert session.circuit() == HERALDED and rate.low < 0.2 < rate.high and rate.low > 0.185
        # A wrong guess of each herald is as often wrong.
        model = stabsim.error_model(HERALDED, approximate_disjoint_errors=True)
        [sums] = {it.name: it for it in stabsim.collect({"session": model}, decoder, shots=60_000, seed=2)}.values()
        assert sums.errors == round(rate.best * 60_000)


def test_decoders_are_told_of_independent_errors_and_counts_say_of_what_they_are():
    model = stabsim.error_model(HERALDED, approximate_disjoint_errors=True)
    assert model.approximated == (2,) and model == stabsim.ErrorModel.from_dem(model.dem)
    assert model.fingerprint != stabsim.ErrorModel.from_dem(model.dem).fingerprint
    assert abs(model.sample(60_000, seed=1)[1].mean() - 0.18) < 0.008 and abs(model.drawn(60_000, 1, 0, as_it_is=True)[:, 1].mean() - 0.2) < 0.008
    with pytest.raises(stabsim.UnsupportedNoise, match="line 2"):
        stabsim.error_model(HERALDED)


def test_gauges_are_drawn_with_disjoint_errors():
    text = "RX 0\nR 1\nPAULI_CHANNEL_1(0.25, 0.25, 0) 1\nM 0 1\nDETECTOR rec[-2]\nDETECTOR rec[-1]\n"
    model = stabsim.error_model(text, allow_gauge_detectors=True, approximate_disjoint_errors=True)
    drawn = model.drawn(20_000, 3, 0, as_it_is=True)
    assert np.abs(drawn.mean(axis=0) - 0.5).max() < 0.02 and abs((drawn[:, 0] ^ drawn[:, 1]).mean() - 0.5) < 0.02
