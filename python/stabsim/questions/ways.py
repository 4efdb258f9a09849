"""The way of a Pauli string that is put into a circuit, and what each error flips and leaves."""

from dataclasses import dataclass

from stabsim import checking

# A string without letters.
NONE = "1"


@dataclass(frozen=True)
class Turn:
    """An item after which a string that was put in is another one, or a tick.

    steps: int, how many steps are before its end once blocks are written out; path: str, of the item, or of the last one with a step before the
    tick; pauli: str, the string there, as X3*Z4, or 1 if it is gone.

    >>> import stabsim
    >>> [turn] = stabsim.Circuit("REPEAT 2 {\\n    M 0\\n}\\nR 0").propagate("X0", at="0").turns
    >>> turn
    Turn(steps=3, path='1', pauli='1')
    """

    steps: int
    path: str
    pauli: str


@dataclass(frozen=True)
class Way:
    """What a Pauli string becomes that is put into a circuit, and what it flips.

    turns: a tuple of Turn, in order; records, detectors, observables: tuples of int, those that it flips; left: str, the string at the end,
    as X3*Z4, or 1 if it is gone.

    >>> import stabsim
    >>> way = stabsim.Circuit("R 0 1\\nCX 0 1\\nM 1\\nDETECTOR rec[-1]").propagate("X0", at="1")
    >>> way.turns, way.records, way.detectors, way.observables, way.left
    ((Turn(steps=3, path='1', pauli='X0*X1'),), (0,), (0,), (), 'X0*X1')
    """

    turns: tuple[Turn, ...]
    records: tuple[int, ...]
    detectors: tuple[int, ...]
    observables: tuple[int, ...]
    left: str


@dataclass(frozen=True)
class Effect:
    """What an error flips, and which string it leaves.

    steps: int, how many steps are in front of it once blocks are written out; path: str, of the item that it is at; pauli: str, as X17; records,
    detectors, observables: tuples of int, those that it flips; left: str, the string at the end, as X3*Z4, or 1 if it is gone.

    >>> import stabsim
    >>> error, _ = stabsim.Circuit("R 0 1\\nI 0\\nCX 0 1\\nM 1\\nDETECTOR rec[-1]").propagate_each()
    >>> error.pauli, error.path, error.records, error.detectors, error.observables, error.left
    ('X0', '1', (0,), (0,), (), 'X0*X1')
    """

    steps: int
    path: str
    pauli: str
    records: tuple[int, ...]
    detectors: tuple[int, ...]
    observables: tuple[int, ...]
    left: str


def place_word(at: str | None, after: int | None) -> str:
    """The word of a place: a path, or a number of steps."""
    if (at is None) == (after is None):
        raise ValueError("a string is put in at a path or after some steps: one of both is wanted.")
    return at if at is not None else f"@{checking.whole('after', after)}"


def string_word(pauli: str) -> str:
    """The word of a string."""
    # A sign changes nothing, and would be taken for an option.
    return checking.of_kind("pauli", pauli, str, "give a product as X3*Z4").removeprefix("-")


def way_of(written: str) -> Way:
    """The way that the program writes."""
    *lines, flips, left = written.splitlines()
    return Way(tuple(map(turn_of, lines)), *numbers_of(flips.split()[1:]), left.split()[1])


def numbers_of(flipped: list[str]) -> tuple[tuple[int, ...], tuple[int, ...], tuple[int, ...]]:
    """The numbers of records, detectors and observables, of bits as M3, D24 and L0."""
    records, detectors, observables = (tuple(int(bit[1:]) for bit in flipped if bit[0] == letter) for letter in "MDL")
    return records, detectors, observables


def turn_of(line: str) -> Turn:
    """The turn of a line."""
    steps, path, pauli = line.split()
    return Turn(int(steps), path, pauli)


def effect_of(line: str) -> Effect:
    """The error of a line."""
    steps, path, pauli, *flipped, _, left = line.split()
    return Effect(int(steps), path, pauli, *numbers_of(flipped), left)
