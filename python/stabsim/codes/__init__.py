"""Circuits of codes, in Stim's circuit text, without noise or with a standard one.

Each of these gives the text (str) of a memory experiment: a logical qubit is prepared, each of the rounds measures all checks,
and the data qubits are measured at the end. Detectors compare neighbouring rounds, and each observable is the letter of a logical qubit.
The time of a detector is its third coordinate, or of the repetition code, which lies on a line, the second.

- `surface_code(distance, rounds, basis="Z")`: the rotated surface code, of distance 2 to 21; basis is the logical letter that is
  kept, Z or X. Data qubits lie at odd coordinates and measured ones at even coordinates. With `bad_schedule` the checks visit
  their qubits in an order by which an error of a measured qubit spreads along the logical operator.
- `repetition_code(distance, rounds)`: data qubits 0, 2, 4 .. on a line, distance 2 to 512.
- `colour_code(distance, rounds)`: the triangular colour code of hexagons, of odd distance 3 to 35, measured by MPP.
- `bacon_shor_code(distance, rounds)`: the Bacon-Shor code on a square, of distance 2 to 32, by MPP on pairs of neighbours: of X
  along columns, of Z along rows. The product of a whole row of such pairs is a check.
- `steane_code(rounds)`: the Steane code, of distance 3, with a qubit for each check. Under circuit-level noise two errors can flip
  the observable unseen, since one of a check's qubit spreads to two data qubits.
- `unrotated_surface_code(distance, rounds, basis="Z")`: the surface code whose sides lie along its lattice, of distance 2 to 16.
- `toric_code(distance, rounds, basis="Z")`: the toric code, with two logical qubits, of distance 2 to 16.
- `css_code(hx, hz, rounds, basis="Z")`: any code with checks of X and checks of Z apart, by its matrices; `CssCode` has its numbers
  and logical operators.
- `bivariate_bicycle_code(l, m, a, b, rounds, basis="Z")`: a bivariate bicycle code by its polynomials, of three terms each, and
  `bicycle_matrices` the matrices of any.
- `dense_circuit(qubits, steps, seed)`: no code, but layers of random Clifford gates, measurements and detectors.

`noise` is a `Noise`, or None. `NOISE_MODELS` names what `Noise.uniform` is for each code: circuit-level, if a qubit for each check
meets data qubits by gates, or phenomenological plus data, if checks are measured as products. The second leaves errors of such gates
out, so rates of codes of the two can't be compared. `written_out` writes each round's lines, without a block. `deepest(NAME, distance)`
is the most rounds that the limit of 1,048,576 steps allows. The first line of a text says how many steps and records the circuit has.
ValueError says what is out of range.

The first two codes follow the layout that `stim gen` has for `surface_code:rotated_memory_z` and `repetition_code:memory`, written
from its description: Stim was not at hand to compare with. `python3 -m stabsim.codes --help` prints circuits. None of this needs
numpy.
"""

from stabsim import checking
from stabsim.codes import bacon_shor, colour, lattices, repetition, surface
from stabsim.codes.bacon_shor import bacon_shor_memory
from stabsim.codes.bicycle import Polynomial, bicycle_layers, bicycle_matrices, terms_of
from stabsim.codes.colour import colour_memory
from stabsim.codes.css import CssCode, Matrix, css_memory
from stabsim.codes.dense import dense_circuit
from stabsim.codes.lattices import toric_memory, unrotated_memory
from stabsim.codes.limits import MOST_QUBITS, MOST_STEPS
from stabsim.codes.noise import Noise
from stabsim.codes.repetition import repetition_memory
from stabsim.codes.steane import steane_memory
from stabsim.codes.surface import surface_memory
from stabsim.codes.text import Memory

__all__ = [
    "CssCode", "MOST_DISTANCES", "MOST_QUBITS", "MOST_STEPS", "NOISE_MODELS", "Noise", "bacon_shor_code", "bicycle_matrices",
    "bivariate_bicycle_code", "colour_code", "css_code", "deepest", "dense_circuit", "memory", "repetition_code", "steane_code",
    "surface_code", "toric_code", "unrotated_surface_code",
]

# The codes that have a distance, and the greatest distance of each.
MOST_DISTANCES = {
    "surface_code": surface.MOST_DISTANCE,
    "repetition_code": repetition.MOST_DISTANCE,
    "colour_code": colour.MOST_DISTANCE,
    "bacon_shor_code": bacon_shor.MOST_DISTANCE,
    "unrotated_surface_code": lattices.MOST_DISTANCE,
    "toric_code": lattices.MOST_DISTANCE,
}
# What noise `Noise.uniform` is for each code. Circuit-level: gates, resets, measurements and waiting data qubits err. Phenomenological
# plus data: a product is measured at once, its record is wrong by the chance, and each of its qubits depolarises by it.
NOISE_MODELS = {
    "surface_code": "circuit-level",
    "repetition_code": "circuit-level",
    "steane_code": "circuit-level",
    "unrotated_surface_code": "circuit-level",
    "toric_code": "circuit-level",
    "colour_code": "phenomenological plus data",
    "bacon_shor_code": "phenomenological plus data",
}
# The codes that keep X as well as Z.
BOTH_BASES = ("surface_code", "unrotated_surface_code", "toric_code")
MEMORIES = {
    "repetition_code": repetition_memory,
    "colour_code": colour_memory,
    "bacon_shor_code": bacon_shor_memory,
}


def memory(name: str, distance: int, basis: str = "Z", noise: Noise | None = None, bad_schedule: bool = False) -> Memory:
    """The parts of a memory experiment of a code that is named as its function is; the Steane code has distance 3."""
    checking.one_of("name", name, NOISE_MODELS)
    distance = checking.whole("distance", distance)
    if basis not in ("X", "Z") or basis == "X" and name not in BOTH_BASES:
        raise ValueError(f"{name} is kept in the basis Z" + (" or X" if name in BOTH_BASES else ""))
    if name == "steane_code":
        return steane_memory(noise)
    if not 2 <= distance <= MOST_DISTANCES[name]:
        raise ValueError(f"distance is {distance}: give a whole number from 2 to {MOST_DISTANCES[name]}")
    if name == "surface_code":
        return surface_memory(distance, basis, noise, bad_schedule)
    if name in BOTH_BASES:
        return (toric_memory if name == "toric_code" else unrotated_memory)(distance, basis, noise)
    return MEMORIES[name](distance, noise)


def surface_code(distance: int, rounds: int, *, basis: str = "Z", noise: Noise | None = None, bad_schedule: bool = False,
                 written_out: bool = False) -> str:
    """The rotated surface code as a memory of the logical letter `basis`."""
    return memory("surface_code", distance, basis, noise, bad_schedule).text(rounds, written_out)


def repetition_code(distance: int, rounds: int, *, noise: Noise | None = None, written_out: bool = False) -> str:
    """The repetition code as a memory of a logical 0."""
    return memory("repetition_code", distance, noise=noise).text(rounds, written_out)


def colour_code(distance: int, rounds: int, *, noise: Noise | None = None, written_out: bool = False) -> str:
    """The triangular colour code of an odd distance as a memory of a logical 0."""
    return memory("colour_code", distance, noise=noise).text(rounds, written_out)


def bacon_shor_code(distance: int, rounds: int, *, noise: Noise | None = None, written_out: bool = False) -> str:
    """The Bacon-Shor code as a memory of a logical 0."""
    return memory("bacon_shor_code", distance, noise=noise).text(rounds, written_out)


def steane_code(rounds: int, *, noise: Noise | None = None, written_out: bool = False) -> str:
    """The Steane code as a memory of a logical 0."""
    return memory("steane_code", 3, noise=noise).text(rounds, written_out)


def unrotated_surface_code(distance: int, rounds: int, *, basis: str = "Z", noise: Noise | None = None, written_out: bool = False) -> str:
    """The surface code whose sides lie along its lattice, as a memory of the logical letter `basis`.

    >>> from stabsim import codes
    >>> codes.unrotated_surface_code(3, 2).splitlines()[0]
    '# Unrotated surface code of distance 3, 2 rounds: 191 steps, 37 records'
    """
    return memory("unrotated_surface_code", distance, basis, noise).text(rounds, written_out)


def toric_code(distance: int, rounds: int, *, basis: str = "Z", noise: Noise | None = None, written_out: bool = False) -> str:
    """The toric code as a memory of two logical qubits in the letter `basis`, an observable for each.

    >>> from stabsim import codes
    >>> codes.toric_code(2, 1).splitlines()[-2:]
    ['OBSERVABLE_INCLUDE(0) rec[-2] rec[-6]', 'OBSERVABLE_INCLUDE(1) rec[-7] rec[-8]']
    """
    return memory("toric_code", distance, basis, noise).text(rounds, written_out)


def css_code(hx: Matrix, hz: Matrix, rounds: int, *, basis: str = "Z", noise: Noise | None = None, written_out: bool = False) -> str:
    """A code with checks of X and checks of Z apart as a memory of all of its logical qubits in the letter `basis`, an observable for each.

    hx, hz: matrices of 0 and 1, a row for each check and a column for each qubit: lists, arrays of numpy or sparse matrices of scipy.
    Data qubits are numbered first, then a qubit for each check of X and of Z. In a round the checks of X meet their qubits, and then
    those of Z, each in as few layers as there can be. ValueError if checks don't commute.

    >>> from stabsim import codes
    >>> checks = [[1, 0, 1, 0, 1, 0, 1], [0, 1, 1, 0, 0, 1, 1], [0, 0, 0, 1, 1, 1, 1]]
    >>> codes.css_code(checks, checks, 3, noise=codes.Noise.uniform(0.001)).splitlines()[0]
    '# CSS code [[7, 1]], 3 rounds: 147 steps, 25 records'
    """
    code = CssCode(hx, hz)
    return css_memory(code, f"CSS code [[{code.n}, {code.k}]]", basis, noise).text(rounds, written_out)


def bivariate_bicycle_code(l: int, m: int, a: Polynomial, b: Polynomial, rounds: int, *, basis: str = "Z", noise: Noise | None = None,
                           written_out: bool = False) -> str:
    """A bivariate bicycle code as a memory of all of its logical qubits in the letter `basis`, an observable for each.

    l, m: x to the power of l is 1, and y to the power of m; a, b: the exponents (i, j) of the three terms x^i y^j of its polynomials. In
    a round checks of X and of Z meet their qubits side by side in the seven layers of Bravyi and others (2024), so the order of the
    terms counts. Here the polynomials are x^3 + y + y^2 and y^3 + x + x^2, and the circuit has distance 6, as the code:

    >>> from stabsim import codes
    >>> text = codes.bivariate_bicycle_code(6, 6, [(3, 0), (0, 1), (0, 2)], [(0, 3), (1, 0), (2, 0)], rounds=6)
    >>> text.splitlines()[0]
    '# Bivariate bicycle code [[72, 12]], 6 rounds: 4116 steps, 504 records'
    """
    a, b = terms_of("a", a), terms_of("b", b)
    code = CssCode(*bicycle_matrices(l, m, a, b))
    title = f"Bivariate bicycle code [[{code.n}, {code.k}]]"
    return css_memory(code, title, basis, noise, layers=bicycle_layers(l, m, a, b)).text(rounds, written_out)


def deepest(name: str, distance: int) -> int:
    """The most rounds of a code, named as its function is, that the limit on steps allows."""
    return memory(name, distance).deepest()
