"""Codes by their matrices: their numbers by rank, their distances by search, their logical operators and layers."""

import itertools

import numpy as np
import pytest
import stabsim
from stabsim import codes
from stabsim.codes.colouring import layers_of
from stabsim.codes.lattices import toric_lattice, unrotated_lattice

HAMMING = [[1, 0, 1, 0, 1, 0, 1], [0, 1, 1, 0, 0, 1, 1], [0, 0, 0, 1, 1, 1, 1]]
# By their orders and polynomials, with n, k and d as they are known.
BICYCLES = {
    "72": ((6, 6, [(3, 0), (0, 1), (0, 2)], [(0, 3), (1, 0), (2, 0)]), 72, 12),
    "90": ((15, 3, [(9, 0), (0, 1), (0, 2)], [(0, 0), (2, 0), (7, 0)]), 90, 8),
    "144": ((12, 6, [(3, 0), (0, 1), (0, 2)], [(0, 3), (1, 0), (2, 0)]), 144, 12),
}


def rank(matrix):
    """The rank modulo 2, by elimination on an array."""
    left = np.array(matrix, dtype=np.uint8)
    found = 0
    for column in range(left.shape[1]):
        below = found + np.flatnonzero(left[found:, column])
        if len(below):
            left[[found, below[0]]] = left[[below[0], found]]
            others = np.flatnonzero(left[:, column])
            left[others[others != found]] ^= left[found]
            found += 1
    return found


def rows_of(groups, width):
    """Lists of qubits as rows of a matrix."""
    table = np.zeros((len(groups), width), dtype=np.uint8)
    for row, group in enumerate(groups):
        table[row, group] = 1
    return table


def matrices_of(code):
    return rows_of(code.x_checks, code.n), rows_of(code.z_checks, code.n)


def distance(checks, logical, most):
    """The fewest qubits on which an operator commutes with all checks and anticommutes with a logical operator of the other letter, None
    if there are more than this many.

    The columns of a qubit say which checks and which logical operators it meets: a sum of columns that meets no check and some logical
    operator is wanted. Such a set is two halves that meet the same checks, and all halves are looked through.
    """
    columns = [int("".join(map(str, column)), 2) for column in np.concatenate([logical, checks]).T.tolist()]
    of_checks = (1 << len(checks)) - 1
    found = {0: [0]}
    for size in range(1, most + 1):
        small, great = size // 2, size - size // 2
        if great not in found:
            found[great] = [sum_of(some) for some in itertools.combinations(columns, great)]
        halves = {}
        for one in found[small]:
            halves.setdefault(one & of_checks, set()).add(one)
        if any(other != one for other in found[great] for one in halves.get(other & of_checks, ())):
            return size
    return None


def sum_of(numbers):
    total = 0
    for number in numbers:
        total ^= number
    return total


def both_distances(code, most):
    hx, hz = matrices_of(code)
    return (distance(hz, rows_of(code.logical_z, code.n), most), distance(hx, rows_of(code.logical_x, code.n), most))


CODES = {
    "Steane": (codes.CssCode(HAMMING, HAMMING), 7, 1, (3, 3)),
    "four qubits": (codes.CssCode([[1, 1, 1, 1]], [[1, 1, 1, 1]]), 4, 2, (2, 2)),
    # Of repetition, one letter is not protected.
    "repetition": (codes.CssCode([], [[1, 1, 0], [0, 1, 1]]), 3, 1, (3, 1)),
    "no checks": (codes.CssCode([], [[0, 0]]), 2, 2, (1, 1)),
    # Nine qubits, with X of two lines and Z of pairs.
    "Shor": (codes.CssCode([[1] * 6 + [0] * 3, [0] * 3 + [1] * 6], [[int(at in (q, q + 1)) for at in range(9)] for q in (0, 1, 3, 4, 6, 7)]),
             9, 1, (3, 3)),
    "toric 2": (toric_lattice(2)[0], 8, 2, (2, 2)),
    "toric 3": (toric_lattice(3)[0], 18, 2, (3, 3)),
    "toric 4": (toric_lattice(4)[0], 32, 2, (4, 4)),
    "unrotated 2": (unrotated_lattice(2)[0], 5, 1, (2, 2)),
    "unrotated 3": (unrotated_lattice(3)[0], 13, 1, (3, 3)),
    "unrotated 4": (unrotated_lattice(4)[0], 25, 1, (4, 4)),
}


@pytest.mark.parametrize("name", CODES)
def test_a_code_has_these_numbers(name):
    code, qubits, logicals, distances = CODES[name]
    hx, hz = matrices_of(code)
    assert (code.n, code.k) == (qubits, logicals) == (hx.shape[1], hx.shape[1] - rank(hx) - rank(hz))
    assert both_distances(code, 5) == distances


@pytest.mark.parametrize("name", BICYCLES)
def test_a_bicycle_code_has_these_numbers(name):
    given, qubits, logicals = BICYCLES[name]
    hx, hz = map(np.array, codes.bicycle_matrices(*given))
    assert not (hx @ hz.T % 2).any() and set(hx.sum(axis=1)) == set(hz.sum(axis=1)) == {6} and set(hx.sum(axis=0)) == {3}
    code = codes.CssCode(hx, hz)
    assert (code.n, code.k) == (qubits, logicals) == (hx.shape[1], hx.shape[1] - rank(hx) - rank(hz))


def test_the_smallest_bicycle_code_has_distance_6():
    assert both_distances(codes.CssCode(*codes.bicycle_matrices(*BICYCLES["72"][0])), 6) == (6, 6)


# Their polynomials have three terms each.
SCHEDULED = {"18": (3, 3, [(0, 0), (0, 1), (0, 2)], [(0, 0), (0, 1), (1, 0)]), "72": BICYCLES["72"][0], "90": BICYCLES["90"][0]}


@pytest.mark.parametrize("name", SCHEDULED)
def test_a_round_of_a_bicycle_code_measures_each_check_in_seven_layers(name):
    code = codes.CssCode(*codes.bicycle_matrices(*SCHEDULED[name]))
    lines = codes.bivariate_bicycle_code(*SCHEDULED[name], rounds=1).splitlines()
    layers = [line.split()[1:] for line in lines if line.startswith("CX")]
    assert len(layers) == 7 and all(len(set(layer)) == len(layer) for layer in layers)
    # The ancillas are reset; then a check is its record, and stays what it is.
    [reset] = [line for line in lines if line.startswith("R ") and f" {code.n} " in line]
    [end] = [place for place, line in enumerate(lines) if line.startswith("MR")]
    circuit = stabsim.Circuit("\n".join([reset, *lines[lines.index(reset) + 1 : end + 1]]))
    checks = [*(("X", its) for its in code.x_checks), *(("Z", its) for its in code.z_checks)]
    products = ["*".join(f"{letter}{qubit}" for qubit in its) for letter, its in checks]
    records = [f"rec[{place - len(checks)}]" for place in range(len(checks))]
    assert circuit.flows_that_hold([stabsim.Flow.of_text(f"{product} -> {record}") for product, record in zip(products, records)]).all()
    assert circuit.flows_that_hold([stabsim.Flow.of_text(f"1 -> {product} xor {record}") for product, record in zip(products, records)]).all()


# The layers in which Bravyi and others let checks of X, and those of Z, meet their qubits: 0, 1 and 2 are those that a polynomial's terms
# lead to in the left half, and 3, 4 and 5 those of the other's in the right half.
X_MEETS = (None, 1, 4, 3, 5, 0, 2)
Z_MEETS = (3, 5, 0, 1, 2, 4, None)


def published_bicycle(l, m, a, b, rounds, basis, observables):
    """Their memory experiment: in a round all checks are prepared and measured in their own letters, without H. Detectors are in the order of
    ours, and these are the lines of observables."""
    size = l * m
    left, right, x_checks, z_checks = (range(first, first + size) for first in (0, size, 2 * size, 3 * size))

    def led(half, check, term, sign):
        return half[(check // m + sign * term[0]) % l * m + (check % m + sign * term[1]) % m]

    of_x = [[led(left, check, it, 1) for it in a] + [led(right, check, it, 1) for it in b] for check in range(size)]
    of_z = [[led(left, check, it, -1) for it in b] + [led(right, check, it, -1) for it in a] for check in range(size)]
    lines = [f"{'RX' if basis == 'X' else 'R'} {words(range(2 * size))}"]
    for number in range(rounds):
        lines += [f"RX {words(x_checks)}", f"R {words(z_checks)}"]
        for x, z in zip(X_MEETS, Z_MEETS):
            pairs = [(x_checks[it], of_x[it][x]) for it in range(size) if x is not None] + [(of_z[it][z], z_checks[it]) for it in range(size) if z is not None]
            lines += ["TICK", "CX " + words(qubit for pair in pairs for qubit in pair)]
        lines += [f"MX {words(x_checks)}", f"M {words(z_checks)}"]
        backs = [*(("X", 2 * size - it) for it in range(size)), *(("Z", size - it) for it in range(size))]
        lines += [f"DETECTOR rec[-{back}]" + f" rec[-{back + 2 * size}]" * (number > 0) for letter, back in backs if number or letter == basis]
    lines.append(f"{'MX' if basis == 'X' else 'M'} {words(range(2 * size))}")
    for check, on in enumerate(of_x if basis == "X" else of_z):
        own = 2 * size + (2 if basis == "X" else 1) * size - check
        lines.append(f"DETECTOR {words(f'rec[-{2 * size - qubit}]' for qubit in on)} rec[-{own}]")
    return "\n".join([*lines, *observables, ""])


def words(its):
    return " ".join(map(str, its))


def flipped_by_errors(text):
    """What errors anywhere flip, each once."""
    table = stabsim.Circuit(text).faults(everywhere=True)
    return {tuple(table.flipped(fault).tolist()) for fault in range(len(table))} - {()}


@pytest.mark.parametrize("basis", ["X", "Z"])
@pytest.mark.parametrize("name", ["72", "90"])
def test_errors_of_a_bicycle_code_flip_what_errors_of_the_published_circuit_flip(name, basis):
    ours = codes.bivariate_bicycle_code(*SCHEDULED[name], rounds=3, basis=basis)
    observables = [line for line in ours.splitlines() if line.startswith("OBSERVABLE_INCLUDE")]
    theirs = published_bicycle(*SCHEDULED[name], 3, basis, observables)
    found = flipped_by_errors(ours)
    assert len(observables) == BICYCLES[name][2] and len(found) > 1000 and found == flipped_by_errors(theirs)


@pytest.mark.parametrize("basis", ["X", "Z"])
def test_the_circuit_of_the_smallest_bicycle_code_has_distance_6(basis):
    given = SCHEDULED["72"]
    circuit = stabsim.Circuit(codes.bivariate_bicycle_code(*given, rounds=2, basis=basis))
    assert circuit.distance(everywhere=True, letters="XZ").distance == 6
    # With all checks of X before those of Z errors of ancillas spread further.
    other = stabsim.Circuit(codes.css_code(*codes.bicycle_matrices(*given), 2, basis=basis))
    assert other.distance(everywhere=True, letters="XZ").distance == 4


def test_a_bicycle_code_has_three_terms_in_each_polynomial():
    for a in ([(0, 0), (0, 1)], [(0, 0), (0, 1), (0, 2), (1, 0)], [(0, 0), (1, 0), (4, 0)]):
        for given in ((3, 3, a, SCHEDULED["18"][3]), (3, 3, SCHEDULED["18"][3], a)):
            with pytest.raises(ValueError, match="three different terms"):
                codes.bivariate_bicycle_code(*given, rounds=1)
    assert codes.bivariate_bicycle_code(3, 3, *map(iter, SCHEDULED["18"][2:]), rounds=1).startswith("# Bivariate bicycle code [[18, 4]]")


@pytest.mark.parametrize("name", [*CODES, *BICYCLES])
def test_logical_operators_commute_but_for_those_of_one_qubit(name):
    code = CODES[name][0] if name in CODES else codes.CssCode(*codes.bicycle_matrices(*BICYCLES[name][0]))
    hx, hz = matrices_of(code)
    x, z = rows_of(code.logical_x, code.n), rows_of(code.logical_z, code.n)
    assert not (x @ hz.T % 2).any() and not (z @ hx.T % 2).any()
    assert np.array_equal(x @ z.T % 2, np.eye(code.k))


@pytest.mark.parametrize("seed", range(20))
def test_layers_are_as_few_as_there_can_be(seed):
    numbers = np.random.default_rng(seed)
    table = numbers.random((numbers.integers(1, 12), numbers.integers(1, 12))) < numbers.uniform(0.1, 0.9)
    layers = layers_of([np.flatnonzero(row).tolist() for row in table])
    assert len(layers) == max(table.sum(axis=0).max(), table.sum(axis=1).max())
    assert sorted(pair for layer in layers for pair in layer) == sorted(map(tuple, np.argwhere(table).tolist()))
    for layer in layers:
        checks, qubits = zip(*layer)
        assert len(set(checks)) == len(checks) and len(set(qubits)) == len(qubits)


def test_layers_of_nothing_are_none():
    assert layers_of([]) == [] and layers_of([[], []]) == []


def test_matrices_of_numpy_and_scipy_are_taken():
    wanted = codes.css_code(HAMMING, HAMMING, 2)
    assert codes.css_code(np.array(HAMMING), np.array(HAMMING, dtype=bool), 2) == wanted
    scipy = pytest.importorskip("scipy.sparse")
    assert codes.css_code(scipy.csr_matrix(HAMMING), scipy.csc_matrix(HAMMING), 2) == wanted


@pytest.mark.parametrize("hx, hz, why", [
    ([[1, 1, 0]], [[1, 0, 0]], "check 0 of X and check 0 of Z"), ([[1, 1]], [[1, 1, 0]], "a column is a qubit"), ([], [], "a column is a qubit"),
    ([[1, 2]], [], "0 and 1"), ([[1, 0], [1]], [], "0 and 1"),
])
def test_matrices_of_no_code_are_refused(hx, hz, why):
    with pytest.raises(ValueError, match=why):
        codes.CssCode(hx, hz)


def test_too_many_qubits_are_refused():
    with pytest.raises(ValueError, match="1024 are the most"):
        codes.bivariate_bicycle_code(16, 17, *SCHEDULED["18"][2:], 1)
    with pytest.raises(ValueError, match="l is 0: give a whole number from 1 on"):
        codes.bicycle_matrices(0, 3, [], [])


@pytest.mark.parametrize("given, kind", [
    ((3.0, 3, [(0, 0)], [(0, 0)]), TypeError), ((3, 3, 5, [(0, 0)]), TypeError), ((3, 3, [(0, 0)], [3]), TypeError),
    ((3, 3, [(0, 0)], [(0, "1")]), TypeError), ((3, 3, [(0, 0, 1)], [(0, 0)]), ValueError),
])
def test_polynomials_of_another_form_are_told_with_theirs(given, kind):
    for call in (codes.bicycle_matrices, lambda *given: codes.bivariate_bicycle_code(*given, rounds=1)):
        with pytest.raises(kind, match="^[^\n]* is [^\n]*: give [^\n]*$"):
            call(*given)
