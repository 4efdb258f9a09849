"""Heralded errors as lines that do the same: each error also flips a qubit that no other line names, and this qubit is measured."""

from collections.abc import Callable, Iterator

from stabsim.text.names import ELSE, FIRST
from stabsim.text.reading import Parts


def heralded(line: Parts, spare: Callable[[], int]) -> list[Parts]:
    """The lines that do the same as heralded errors, of which those that are no noise make the same records without errors: all 0. Its
    chances were judged.

    spare: answers a qubit that the circuit names nowhere.
    """
    if not line.targets:
        return [Parts("M", line.tag, (), ())]
    qubit = str(spare())
    lines = [Parts("R", line.tag, (), (qubit,))]
    for target in line.targets:
        lines += [*errors(line, qubit, target), Parts("MR", line.tag, (), (qubit,))]
    return lines


def errors(line: Parts, herald: str, target: str) -> Iterator[Parts]:
    """The errors on one target, of which at most one happens: X, Y, Z and none."""
    given = [float(it) for it in line.arguments]
    # Without an error on the qubit comes first in what is written, and last here: so the first line names both qubits.
    none, *letters = given if len(given) == 4 else [given[0] / 4] * 4
    left, name = 1.0, FIRST
    for letter, chance in zip(("X", "Y", "Z", ""), (*letters, none)):
        # Each may happen if none before it did.
        now = min(1.0, chance / left) if left > 0 else 0.0
        yield Parts(name, line.tag, (repr(now),), (f"X{herald}", *([letter + target] if letter else [])))
        left, name = left - chance, ELSE
