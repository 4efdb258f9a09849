"""Codes with data qubits on the edges of a square lattice: the toric code, and the surface code without rotation."""

from collections.abc import Callable, Sequence

from stabsim.codes.css import CssCode, Layout, css_memory
from stabsim.codes.noise import Noise
from stabsim.codes.text import Memory

# The greatest distance of codes whose qubits, those of checks too, are numbered below 1,024.
MOST_DISTANCE = 16

Place = tuple[int, int]
BESIDE = ((1, 0), (0, 1), (-1, 0), (0, -1))


def toric_memory(distance: int, basis: str = "Z", noise: Noise | None = None) -> Memory:
    """The toric code of a distance as a memory of its two logical qubits."""
    code, layout = toric_lattice(distance)
    return css_memory(code, f"Toric code of distance {distance}", basis, noise, layout)


def unrotated_memory(distance: int, basis: str = "Z", noise: Noise | None = None) -> Memory:
    """The surface code of a distance whose sides lie along its lattice, as a memory."""
    code, layout = unrotated_lattice(distance)
    return css_memory(code, f"Unrotated surface code of distance {distance}", basis, noise, layout)


def toric_lattice(distance: int) -> tuple[CssCode, Layout]:
    """The toric code: checks of X on the vertices, and of Z on the faces, of a lattice that is closed in both directions."""
    size = 2 * distance
    places = places_in(size)
    data = [place for place in places if sum(place) % 2]
    x_checks, z_checks = ([place for place in places if place[0] % 2 == place[1] % 2 == parity] for parity in (0, 1))
    return lattice_code(data, x_checks, z_checks, lambda place: (place[0] % size, place[1] % size))


def unrotated_lattice(distance: int) -> tuple[CssCode, Layout]:
    """The unrotated surface code: checks of X on the vertices, and of Z on the faces, of a lattice with sides."""
    places = places_in(2 * distance - 1)
    data = [place for place in places if sum(place) % 2 == 0]
    x_checks, z_checks = ([place for place in places if sum(place) % 2 and place[1] % 2 == parity] for parity in (0, 1))
    return lattice_code(data, x_checks, z_checks, lambda place: place)


def places_in(size: int) -> list[Place]:
    """The places of a square, line by line."""
    return [(x, y) for y in range(size) for x in range(size)]


def lattice_code(data: Sequence[Place], x_checks: Sequence[Place], z_checks: Sequence[Place],
                 wrapped: Callable[[Place], Place]) -> tuple[CssCode, Layout]:
    """The code whose checks act on the data qubits beside them; wrapped: the place that one beside the square is the same as."""
    matrices = []
    for checks in (x_checks, z_checks):
        beside = [{wrapped((x + right, y + up)) for right, up in BESIDE} for x, y in checks]
        matrices.append([[int(place in around) for place in data] for around in beside])
    return CssCode(*matrices), Layout(data, x_checks, z_checks)
