"""The detecting regions of a circuit: which Pauli on each qubit shows at each tick whether a detector is flipped.

Pauli targets of observables count as if they were measured where they stand.
"""

from collections.abc import Collection, Iterable
from typing import TYPE_CHECKING

import numpy as np

from stabsim import checking
from stabsim.errors import Refused
from stabsim.noise.flipped import Flipped, Letters
from stabsim.noise.marking import marked
from stabsim.noise.pauli_observables import flipped_with_paulis
from stabsim.questions.flows import pauli_text
from stabsim.text.reading import items_of
from stabsim.text.ticks import marked_at, numbers_of

if TYPE_CHECKING:
    from stabsim.circuit.circuit import Circuit

MARKS_COUNT = "A step more is counted for each qubit at each tick that is asked for: these are too many."


def regions_by_name(circuit: "Circuit", ticks: int | Iterable[int] | None, detectors: Iterable[int | str] | None) -> dict[str, dict[int, str]]:
    """For each detector and observable that has a region, by its name, the Pauli at each tick at which it has one, as `X0*Z3`."""
    names = names_of(circuit, detectors)
    every = range(circuit.num_ticks + 1)
    shown = every if ticks is None else numbers_of(ticks if isinstance(ticks, int) else list(ticks), circuit.num_ticks)
    regions = sorted(regions_at(circuit, shown).items())
    found = {bit: {tick: pauli_text(its[bit].items()) for tick, its in regions if bit in its} for bit in names}
    return {names[bit]: its for bit, its in found.items() if its}


def regions_at(circuit: "Circuit", ticks: Collection[int]) -> dict[int, dict[int, Letters]]:
    """For each tick and each detector that has a region there, and each observable counted on after them, the letter on each qubit. The
    program is asked once, for the errors at all these ticks."""
    has = circuit.numbers()
    if not has.qubits:
        return {}
    mark = " ".join(["I", *map(str, range(has.qubits))])
    items = items_of(marked(circuit.noisy_items(), True).text)
    text = "\n".join([*[mark] * (0 in ticks), *marked_at(items, set(ticks), mark)])
    try:
        flipped = flipped_with_paulis(text, True, lambda lines: Flipped.of(lines, has.detectors, has.observables, sure_only=True))
    except Refused as refused:
        # Its places are those of the text with marks.
        raise Refused(refused.number, refused.name, None, MARKS_COUNT if refused.name == "TooManySteps" else "") from None
    # The marks come one after another in time.
    ordered = sorted(set(ticks))
    return {ordered[place]: its for place, its in flipped.regions(has.qubits, np.arange(len(flipped.indices))).items()}


def names_of(circuit: "Circuit", detectors: Iterable[int | str] | None) -> dict[int, str]:
    """The names of detectors, all or some, and of observables, by their numbers, which count observables on after detectors."""
    has = circuit.numbers()
    names = [*(f"D{number}" for number in range(has.detectors)), *(f"L{number}" for number in range(has.observables))]
    if detectors is None:
        return dict(enumerate(names))
    some = checking.several("detectors", detectors, "[3, 'D4', 'L0']")
    return {bit: names[bit] for bit in sorted({bit_of(it, has.detectors, has.observables) for it in some})}


def bit_of(name: int | str, detectors: int, observables: int) -> int:
    """The place of a detector, as 3 or `D3`, or of an observable, as `L0`, among both."""
    text = f"D{name}" if isinstance(name, int) else checking.of_kind("a detector", name, str, "a number or a name, as 3, 'D3' or 'L0'")
    kind, number = text[:1], int(text[1:]) if text[1:].isdigit() else -1
    if kind not in ("D", "L") or not 0 <= number < (detectors if kind == "D" else observables):
        raise ValueError(f"{name} is no detector, as 3 or D3, and no observable, as L0, of {detectors} and {observables}")
    return number if kind == "D" else detectors + number
