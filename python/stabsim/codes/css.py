"""Codes with checks of X and checks of Z apart (CSS codes), from their matrices."""

from collections.abc import Iterable, Sequence

from stabsim.codes.binary import Span, kernel, places_of, rank, vectors_of
from stabsim.codes.colouring import layers_of
from stabsim.codes.limits import MOST_QUBITS
from stabsim.codes.noise import Noise
from stabsim.codes.text import Memory, Text

Matrix = Iterable[Iterable[object]]
Place = tuple[float, ...]
# One layer after another: the letter of a check, its number, and the qubit that it meets.
Layers = list[list[tuple[str, int, int]]]


class CssCode:
    """A code by its checks.

    hx, hz: matrices of 0 and 1, a row for each check of X and of Z and a column for each qubit: lists, arrays of numpy or sparse matrices
    of scipy. n, k: int, how many qubits and logical qubits there are. x_checks, z_checks: a list of qubits for each check; logical_x,
    logical_z: a list of qubits for each logical qubit: X of one and Z of another have an odd number of qubits in common if they
    are of the same logical qubit. ValueError if a check of X and one of Z don't commute.

    >>> from stabsim import codes
    >>> code = codes.CssCode([[1, 1, 1, 1]], [[1, 1, 1, 1]])
    >>> code.n, code.k, code.logical_x, code.logical_z
    (4, 2, [[0, 1], [0, 2]], [[0, 2], [0, 1]])
    """

    def __init__(self, hx: Matrix, hz: Matrix) -> None:
        x_rows, x_width = vectors_of(hx, "hx")
        z_rows, z_width = vectors_of(hz, "hz")
        self.n = max(x_width, z_width)
        if (x_rows and x_width != self.n) or (z_rows and z_width != self.n) or not self.n:
            raise ValueError(f"hx has {x_width} columns and hz has {z_width}: a column is a qubit in both")
        for at, row in enumerate(x_rows):
            for other, column in enumerate(z_rows):
                if (row & column).bit_count() % 2:
                    raise ValueError(f"check {at} of X and check {other} of Z have an odd number of qubits in common, so they don't commute")
        self.k = self.n - rank(x_rows) - rank(z_rows)
        self.x_checks, self.z_checks = list(map(places_of, x_rows)), list(map(places_of, z_rows))
        x, z = paired(logicals(z_rows, x_rows, self.n), logicals(x_rows, z_rows, self.n))
        self.logical_x, self.logical_z = list(map(places_of, x)), list(map(places_of, z))

    def __repr__(self) -> str:
        return f"<stabsim.codes.CssCode [[{self.n}, {self.k}]]: {len(self.x_checks)} checks of X, {len(self.z_checks)} of Z>"


def logicals(others: Sequence[int], own: Sequence[int], width: int) -> list[int]:
    """Operators that commute with all checks of the other letter and are no products of checks of their own, one for each logical qubit."""
    span = Span(own)
    return [vector for vector in kernel(others, width) if span.add(vector)]


def paired(x: list[int], z: list[int]) -> tuple[list[int], list[int]]:
    """The same operators, with others multiplied in, so that those of one number and no others anticommute."""
    x, z = list(x), list(z)
    for at in range(len(x)):
        partner = next(place for place in range(at, len(z)) if (x[at] & z[place]).bit_count() % 2)
        z[at], z[partner] = z[partner], z[at]
        for place in range(len(z)):
            if place != at and (x[at] & z[place]).bit_count() % 2:
                z[place] ^= z[at]
        for place in range(at + 1, len(x)):
            if (x[place] & z[at]).bit_count() % 2:
                x[place] ^= x[at]
    return x, z


class Layout:
    """Where the qubits of a code lie, if that is known: a place for each data qubit, and for each check of X and of Z."""

    def __init__(self, data: Sequence[Place] = (), x_checks: Sequence[Place] = (), z_checks: Sequence[Place] = ()) -> None:
        self.data, self.x_checks, self.z_checks = data, x_checks, z_checks

    def of_check(self, letter: str, check: int) -> Place:
        """The place of a check; if none is known, its number, and 0 of X or 1 of Z."""
        places = self.x_checks if letter == "X" else self.z_checks
        return places[check] if places else (check, int(letter == "Z"))

    def describe(self, text: Text) -> None:
        """Writes the places of qubits, which are numbered data first, then checks of X and of Z."""
        for qubit, place in enumerate([*self.data, *self.x_checks, *self.z_checks]):
            text.add(f"QUBIT_COORDS({', '.join(map(str, place))}) {qubit}")


def x_before_z(code: CssCode) -> Layers:
    """All checks of X meet their qubits, then all of Z: so no order within them disturbs another check."""
    sides = (("X", code.x_checks), ("Z", code.z_checks))
    return [[(letter, check, qubit) for check, qubit in layer] for letter, checks in sides for layer in layers_of(checks)]


class Rounds:
    """The rounds of a code with a qubit for each check, which meet theirs in these layers."""

    def __init__(self, code: CssCode, layers: Layers) -> None:
        self.data = list(range(code.n))
        self.x_ancillas = list(range(code.n, code.n + len(code.x_checks)))
        self.z_ancillas = list(range(code.n + len(code.x_checks), code.n + len(code.x_checks) + len(code.z_checks)))
        self.layers = [[self.pair(*meeting) for meeting in layer] for layer in layers]

    def pair(self, letter: str, check: int, qubit: int) -> tuple[int, int]:
        """The qubits of a CX by which a check meets a qubit."""
        return (self.x_ancillas[check], qubit) if letter == "X" else (qubit, self.z_ancillas[check])

    def measure_checks(self, text: Text) -> None:
        """All checks are measured."""
        text.round_begins(self.data)
        text.add("TICK")
        text.gate("H", self.x_ancillas)
        for layer in self.layers:
            text.add("TICK")
            text.pairs("CX", layer)
        text.add("TICK")
        text.gate("H", self.x_ancillas)
        text.add("TICK")
        text.measure("MR", self.x_ancillas + self.z_ancillas)

    def back(self, letter: str, check: int) -> int:
        """How many records before the end of a round a check's own is."""
        return len(self.z_ancillas) - check + (len(self.x_ancillas) if letter == "X" else 0)


def css_memory(code: CssCode, title: str, basis: str, noise: Noise | None, layout: Layout | None = None,
               layers: Layers | None = None) -> Memory:
    """A code as a memory of all of its logical qubits in the letter `basis`, an observable for each. Without layers X is before Z."""
    if basis not in ("X", "Z"):
        raise ValueError("a code is kept in the basis X or Z")
    rounds, layout = Rounds(code, layers or x_before_z(code)), layout or Layout()
    qubits = rounds.data + rounds.x_ancillas + rounds.z_ancillas
    if len(qubits) > MOST_QUBITS:
        raise ValueError(f"with a qubit for each check this code has {len(qubits)} qubits, and {MOST_QUBITS} are the most")
    suffix = "" if basis == "Z" else basis
    own = code.z_checks if basis == "Z" else code.x_checks
    each = len(rounds.x_ancillas) + len(rounds.z_ancillas)

    head = Text(noise)
    layout.describe(head)
    head.reset("R" + suffix, rounds.data)
    head.reset("R", rounds.x_ancillas + rounds.z_ancillas)
    rounds.measure_checks(head)
    for check in range(len(own)):
        head.detector((*layout.of_check(basis, check), 0), [rounds.back(basis, check)])

    body = Text(noise)
    rounds.measure_checks(body)
    body.add("SHIFT_COORDS(0, 0, 1)")
    for letter, checks in (("X", code.x_checks), ("Z", code.z_checks)):
        for check in range(len(checks)):
            back = rounds.back(letter, check)
            body.detector((*layout.of_check(letter, check), 0), [back, back + each])

    tail = Text(noise)
    tail.measure("M" + suffix, rounds.data)
    for check, around in enumerate(own):
        of_data = sorted(code.n - qubit for qubit in around)
        tail.detector((*layout.of_check(basis, check), 1), of_data + [code.n + rounds.back(basis, check)])
    for number, operator in enumerate(code.logical_z if basis == "Z" else code.logical_x):
        tail.observable(number, sorted(code.n - qubit for qubit in operator))
    return Memory(title + ("" if basis == "Z" else ", logical X"), head, body, tail)
