"""Bivariate bicycle codes, by their polynomials, and in which order their checks meet their qubits."""

from collections.abc import Iterable

from stabsim import checking
from stabsim.codes.css import Layers
from stabsim.codes.limits import MOST_QUBITS

# A polynomial as the exponents (i, j) of its terms x^i y^j.
Polynomial = Iterable[tuple[int, int]]
Rows = list[list[int]]
Term = tuple[int, int]

# By layer the term by which checks of X, and those of Z, meet their qubits: of a, 0, or b, 1, and which of its three. They are those of
# Bravyi, Cross, Gambetta, Maslov, Rall and Yoder, Nature 627 (2024) 778.
X_TERMS: tuple[Term | None, ...] = (None, (0, 1), (1, 1), (1, 0), (1, 2), (0, 0), (0, 2))
Z_TERMS: tuple[Term | None, ...] = ((0, 0), (0, 2), (1, 0), (1, 1), (1, 2), (0, 1), None)


def terms_of(name: str, polynomial: Polynomial) -> list[tuple[int, int]]:
    """The exponents of a polynomial's terms, in their order."""
    terms = []
    for term in checking.several(name, polynomial, "[(3, 0), (0, 1), (0, 2)]"):
        exponents = [checking.whole(f"an exponent of {name}", it, -MOST_QUBITS) for it in checking.several(f"a term of {name}", term, "(3, 0)")]
        if len(exponents) != 2:
            raise ValueError(f"a term of {name} is {term!r}: give its exponents of x and y, as (3, 0)")
        terms.append((exponents[0], exponents[1]))
    return terms


def bicycle_matrices(l: int, m: int, a: Polynomial, b: Polynomial) -> tuple[Rows, Rows]:
    """The matrices hx and hz of a bivariate bicycle code.

    l, m: x to the power of l is 1, and y to the power of m. a, b: the exponents (i, j) of the terms x^i y^j. The qubits are two blocks of
    l m; qubit i m + j of a block stands for x^i y^j.
    """
    l, m = checking.whole("l", l, 1), checking.whole("m", m, 1)
    terms = [[(i % l, j % m) for i, j in terms_of(*polynomial)] for polynomial in (("a", a), ("b", b))]
    size = l * m
    hx: Rows = [[0] * (2 * size) for _ in range(size)]
    hz: Rows = [[0] * (2 * size) for _ in range(size)]
    for x in range(l):
        for y in range(m):
            for block, polynomial in enumerate(terms):
                for i, j in polynomial:
                    here, there = x * m + y, (x + i) % l * m + (y + j) % m
                    # hx is A and B side by side, and hz the transposed matrices with their sides exchanged.
                    hx[here][block * size + there] ^= 1
                    hz[there][(1 - block) * size + here] ^= 1
    return hx, hz


def bicycle_layers(l: int, m: int, a: Polynomial, b: Polynomial) -> Layers:
    """In seven layers which check meets which qubit, of X and of Z side by side. ValueError if a or b has not three terms."""
    terms = [list(a), list(b)]
    if any(len({(i % l, j % m) for i, j in polynomial}) != 3 or len(polynomial) != 3 for polynomial in terms):
        raise ValueError("a and b have three different terms each; css_code(*bicycle_matrices(l, m, a, b), rounds) takes others")

    def qubit(check: int, block: int, term: Term, sign: int) -> int:
        i, j = terms[term[0]][term[1]]
        return block * l * m + (check // m + sign * i) % l * m + (check % m + sign * j) % m

    layers: Layers = []
    for x_term, z_term in zip(X_TERMS, Z_TERMS):
        of_x = [("X", check, qubit(check, x_term[0], x_term, 1)) for check in range(l * m)] if x_term else []
        of_z = [("Z", check, qubit(check, 1 - z_term[0], z_term, -1)) for check in range(l * m)] if z_term else []
        layers.append(of_x + of_z)
    return layers
