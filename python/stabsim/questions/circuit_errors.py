"""Errors of a circuit at their places."""

import re
from dataclasses import dataclass

from stabsim import checking

FACTOR = re.compile(r"([XYZ])(\d+)")
LINE = re.compile(r"\s*\d+ \d+(/\d+)* (M\d+|[XYZ]\d+(\*[XYZ]\d+)*)( [DL]\d+)*\s*", re.ASCII)
EXAMPLE = "a line as `stabsim distance` writes it, such as '1207 3/0/2 X3*Z4 D24 L0'"


@dataclass(frozen=True)
class CircuitError:
    """One error of a circuit: Paulis at once, or a wrong record.

    steps: int, how many steps are in front of it once blocks are written out; path: str, of its item; paulis: tuple of pairs of a qubit
    and its letter, none of a wrong record; record: int, the number of the record that is wrong, or None; detectors, observables: tuples
    of int, what it flips by itself, if that is known.

    >>> import stabsim
    >>> error = stabsim.CircuitError.of_line("1207 3/0/2 X3*Z4 D24 L0")
    >>> str(error), error.steps, error.path, error.paulis, error.detectors, error.observables
    ('X3*Z4', 1207, '3/0/2', ((3, 'X'), (4, 'Z')), (24,), (0,))
    """

    steps: int
    path: str
    paulis: tuple[tuple[int, str], ...] = ()
    record: int | None = None
    detectors: tuple[int, ...] = ()
    observables: tuple[int, ...] = ()

    @classmethod
    def of_line(cls, line: str) -> "CircuitError":
        """The error of a line such as `1207 3/0/2 X3*Z4 D24 L0`, or with `M17` for a wrong record."""
        if not LINE.fullmatch(checking.of_kind("line", line, str, EXAMPLE)):
            raise ValueError(f"line is {checking.shown(line)}: give {EXAMPLE}")
        steps, path, error, *bits = line.split()
        paulis = tuple((int(qubit), letter) for letter, qubit in FACTOR.findall(error))
        record = int(error[1:]) if error.startswith("M") else None
        detectors, observables = (tuple(int(bit[1:]) for bit in bits if bit[0] == kind) for kind in "DL")
        return cls(int(steps), path, paulis, record, detectors, observables)

    def __str__(self) -> str:
        if self.record is not None:
            return f"M{self.record}"
        return "*".join(f"{letter}{qubit}" for qubit, letter in self.paulis)
