"""Observables with Pauli targets, which no record has: what an error in front of such a Pauli flips by anticommuting with it.

Each is asked of the program by a text of its own. There a qubit that the circuit does not name controls the observable's Paulis and is measured
at the end, so that what anticommutes with one of them turns its record over, beside the records that the observable adds up. These gates would
disturb other bits: detectors and other observables are asked of a text without them.
"""

import re
from collections.abc import Callable, Collection, Iterable, Iterator, Sequence

import numpy as np

from stabsim.errors import Refused
from stabsim.formats.combining import Numbers, starts_of
from stabsim.noise.flipped import Flipped
from stabsim.text.profile import OBSERVABLE, spare_qubit
from stabsim.text.reading import Block, Instruction, Item, headed, instruction_of, items_of, lines_like
from stabsim.text.sizes import observable_of
from stabsim.text.targets import PAULI

# Lines of an observable that may have a Pauli target.
WITH_PAULI = re.compile(rf"^[ \t]*{OBSERVABLE}.*[XYZ]\d.*", re.MULTILINE | re.IGNORECASE)
# The states of the controlling qubit: by the second one an observable is known whose Paulis anticommute with each other.
RESETS = ("RX", "RY")
# Answers the lines that take the place of a detector or observable.
Declare = Callable[[Instruction], Iterable[str]]


def pauli_observables(text: str) -> list[int]:
    """The observables of a text that have Pauli targets."""
    found = (instruction_of(line, "") for line in lines_like(text, WITH_PAULI))
    return sorted({observable_of(item) for item in found if any(map(PAULI.fullmatch, item.targets))})


def lines_with(items: Iterable[Item], declare: Declare) -> Iterator[str]:
    """The lines of items with others in the place of detectors and observables; a TICK keeps a block from being empty."""
    for item in items:
        if isinstance(item, Block):
            yield f"{headed('REPEAT', item.tag)} {item.repeat} {{"
            yield from lines_with(item.items, declare)
            yield "}"
        elif item.name in ("DETECTOR", OBSERVABLE):
            yield from [*declare(item)] or ["TICK"]
        else:
            yield str(item)


def lines_without(items: Sequence[Item], observables: Sequence[int]) -> list[str]:
    """The lines of items without some observables."""
    return list(lines_with(items, lambda it: [] if it.name == OBSERVABLE and observable_of(it) in observables else [str(it)]))


def controlled_lines(items: Iterable[Item], observables: Collection[int], reset: str, qubit: int) -> list[str]:
    """The lines of items with some observables alone, whose Paulis a qubit controls that begins by a reset."""

    def declare(item: Instruction) -> Iterator[str]:
        if item.name != OBSERVABLE or observable_of(item) not in observables:
            return
        records = [target for target in item.targets if not PAULI.fullmatch(target)]
        if records:
            yield " ".join([f"{OBSERVABLE}({observable_of(item)})", *records])
        yield from (f"C{target[0].upper()} {qubit} {target[1:]}" for target in item.targets if PAULI.fullmatch(target))

    return [f"{reset} {qubit}", *lines_with(items, declare)]


def column_of(items: Sequence[Item], observable: int, qubit: int, sure_only: bool) -> Numbers:
    """Which rows of marks flip an observable that has Paulis. Of one that coins decide there are none with sure_only, and else it is refused."""
    for reset in RESETS:
        try:
            lines = [*controlled_lines(items, [observable], reset, qubit), f"MX {qubit}", f"{OBSERVABLE}({observable}) rec[-1]"]
            flipped = Flipped.of(lines, 0, observable + 1)
            return np.flatnonzero(np.diff(flipped.indptr))
        except Refused as refused:
            if refused.name != "NotDeterministic":
                # Its place is that of this text.
                raise Refused(refused.number, refused.name) from None
    if sure_only:
        return np.zeros(0, dtype=np.int64)
    raise Refused(18, "NotDeterministic", None, f"observable {observable}, with its Paulis, is not the same for all coins")


def flipped_with_paulis(text: str, sure_only: bool, ask: Callable[[Sequence[str]], Flipped]) -> Flipped:
    """What X and Z of each mark of a text flip, by Pauli targets of observables too; ask: the same of lines without such observables."""
    observables = pauli_observables(text)
    if not observables:
        return ask([text])
    items, qubit = items_of(text), spare_qubit(text)
    # There are as many observables as before.
    table = ask([*lines_without(items, observables), f"{OBSERVABLE}({max(observables)})"])
    return with_columns(table, observables, [column_of(items, observable, qubit, sure_only) for observable in observables])


def with_columns(table: Flipped, observables: Sequence[int], columns: Sequence[Numbers]) -> Flipped:
    """Rows of marks with more observables that are flipped by some."""
    rows = np.concatenate([np.repeat(np.arange(len(table.indptr) - 1), np.diff(table.indptr)), *columns])
    bits = np.concatenate([table.indices, *(np.full(len(its), table.num_detectors + it) for it, its in zip(observables, columns))])
    indptr = starts_of(np.bincount(rows, minlength=len(table.indptr) - 1))
    return Flipped(indptr, bits[np.lexsort((bits, rows))], table.num_detectors, table.num_observables)
