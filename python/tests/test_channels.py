"""Channels as independent errors: closed forms, and that the product of what is found is the channel again."""

import itertools
import math
import random

import pytest
from stabsim.noise.channels import ONE, TWO, depolarising, group_of, independent


def product(left, right):
    """The letter of the product of two letters."""
    return left if right == "I" else right if left == "I" else "I" if left == right else ({"X", "Y", "Z"} - {left, right}).pop()


def disjoint(errors, qubits):
    """The chance of each Pauli if errors happen independently, one convolution for each error."""
    chances = {"".join(it): float(it == ("I",) * qubits) for it in itertools.product("IXYZ", repeat=qubits)}
    for name, chance in errors.items():
        moved = {"".join(map(product, it, name)): part for it, part in chances.items()}
        chances = {it: (1 - chance) * chances[it] + chance * moved[it] for it in chances}
    return chances


def close(left, right):
    return math.isclose(left, right, rel_tol=1e-9, abs_tol=1e-15)


@pytest.mark.parametrize("chance", [1e-12, 0.001, 0.3, 0.75])
def test_one_qubit_depolarises_by_three_equal_errors(chance):
    errors = depolarising(chance, 1)
    assert all(close(each, chance / 3) or close(each, (1 - math.sqrt(1 - 4 * chance / 3)) / 2) for each in errors.values())
    assert all(close(disjoint(errors, 1)[name], chance / 3) for name in ONE)


@pytest.mark.parametrize("chance", [1e-12, 0.001, 0.3, 0.9375])
def test_two_qubits_depolarise_by_fifteen_equal_errors(chance):
    errors = depolarising(chance, 2)
    assert set(errors) == set(TWO)
    if chance > 1e-6:
        assert all(close(each, (1 - (1 - 16 * chance / 15) ** 0.125) / 2) for each in errors.values())
    assert all(close(disjoint(errors, 2)[name], chance / 15) for name in TWO)


def test_stronger_than_full_depolarising_is_nothing():
    assert depolarising(0.76, 1) is None and depolarising(0.94, 2) is None


def test_a_group_has_all_products_of_its_generators():
    assert group_of(["XX", "ZZ"]) == {"XX": 1, "ZZ": 2, "YY": 3}
    assert group_of(["X", "Z", "Y"]) == {"X": 1, "Z": 2, "Y": 3}
    assert set(group_of(["XIZ", "IXI", "XXZ", "IIY"])) == {"XIZ", "IXI", "XXZ", "IIY", "XIX", "IXY", "XXX"}
    # Sixty-four elements are looked through, and more are not.
    singles = ["I" * place + "X" + "I" * (6 - place) for place in range(7)]
    assert len(group_of(singles[:6])) == 63 and group_of(singles) is None


def test_random_independent_errors_of_three_qubits_are_found_again():
    numbers = random.Random(6)
    for _ in range(5):
        errors = {name: numbers.uniform(0.01, 0.1) for name in ("XZI", "IYY", "XXY", "ZIZ")}
        chances = disjoint(errors, 3)
        chances.pop("III")
        found = independent(chances)
        assert all(math.isclose(found.get(name, 0), errors.get(name, 0), abs_tol=1e-12) for name in {*found, *errors})


@pytest.mark.parametrize("qubits", [1, 2])
def test_random_independent_errors_are_found_again(qubits):
    numbers = random.Random(5)
    for _ in range(20):
        errors = {name: numbers.choice([0, numbers.uniform(0, 0.1)]) for name in (ONE if qubits == 1 else TWO)}
        chances = disjoint(errors, qubits)
        found = independent({name: chances[name] for name in errors})
        assert all(math.isclose(found.get(name, 0), chance, abs_tol=1e-12) for name, chance in errors.items())


def test_a_single_error_stays_as_it_is():
    assert independent({"X": 0.0, "Y": 0.9, "Z": 0.0}) == {"Y": 0.9}
    assert independent({"X": 0.0, "Y": 0.0, "Z": 0.0}) == {}


def test_disjoint_errors_of_two_letters_alone_have_no_independent_form():
    # X and Z independent of each other would give Y too.
    assert independent({"X": 0.1, "Y": 0.0, "Z": 0.1}) is None
    assert independent({"X": 0.3, "Y": 0.3, "Z": 0.0}) is None


def test_two_independent_letters_are_told():
    found = independent({"X": 0.1 * 0.8, "Y": 0.1 * 0.2, "Z": 0.9 * 0.2})
    assert set(found) == {"X", "Z"} and close(found["X"], 0.1) and close(found["Z"], 0.2)
