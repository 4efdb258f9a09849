"""What a session answers, as records of numbers."""

from dataclasses import dataclass, field

import numpy as np
from numpy.typing import NDArray

Places = NDArray[np.int64]


@dataclass(frozen=True)
class SessionNumbers:
    """How many of each thing the circuit has, as it is now; of qubits, as many as the session has.

    >>> import stabsim
    >>> with stabsim.Circuit("M 0").edit(qubits=3) as session:
    ...     session.numbers()
    SessionNumbers(qubits=3, steps=1, records=1, detectors=0, observables=0)
    """

    qubits: int
    steps: int
    records: int
    detectors: int
    observables: int


@dataclass(frozen=True)
class ItemSteps:
    """Which of all unrolled steps an item's are, and which records, detectors and coins are theirs: a range of numbers each.

    In a block they are those of the first round of each block around the item. An item without steps, or with no records, has an
    empty range, which begins where the next ones would.

    >>> import stabsim
    >>> with stabsim.Circuit("R 0 1\\nM 0 1").edit() as session:
    ...     session.place(1)
    ItemSteps(steps=range(2, 4), records=range(0, 2), detectors=range(0, 0), coins=range(2, 4))
    """

    steps: range
    records: range
    detectors: range
    coins: range


@dataclass(frozen=True)
class Changed:
    """What differs from the mark, place by place: numbers of detectors, observables and records, int64 (changed,) each. Those of records
    are none unless `changed(records=True)` asked for them.

    lengths has, for each of the three whose number of places has changed, that number at the mark and now.

    >>> import stabsim
    >>> with stabsim.Circuit("M 0\\nDETECTOR rec[-1]").edit() as session:
    ...     session.insert(0, "X 0")
    ...     session.insert(3, "DETECTOR")
    ...     changed = session.changed()
    >>> changed.detectors.tolist(), changed.lengths
    ([0], {'detectors': (1, 2)})
    """

    detectors: Places
    observables: Places
    records: Places
    lengths: dict[str, tuple[int, int]] = field(default_factory=dict)
