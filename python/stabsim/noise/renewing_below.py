"""An error model after an edit that is not far below a block: some last rounds are split off the block, so that a cut is between its rounds."""

from typing import TYPE_CHECKING

from stabsim.noise.causes import Causes
from stabsim.noise.changed_lines import Change, change_of
from stabsim.noise.known_lines import Around, KnownLines
from stabsim.noise.renewing_circuit import renewed_circuit
from stabsim.noise.renewing_splits import renewed_split

if TYPE_CHECKING:
    from stabsim.noise.models import ErrorModel

# How many rounds are split off, one after the other, if a cut in front of them is too near.
LAST_ROUNDS = (3, 6)


def renewed_below(model: "ErrorModel", causes: Causes, change: Change, qubits: int) -> "ErrorModel | None":
    """The model of a text, from that of the text before an edit below a block; None if no block there is longer than the rounds that are split
    off, or if it is not seen."""
    first = change.before.outermost(change.first).begin
    above = [it for it in change.before.blocks if it.end < first and not change.before.depths[it.begin]]
    for few in LAST_ROUNDS:
        if not above or above[-1].rounds <= few:
            return None
        split = change_of(change.before, with_last_rounds(change.before, above[-1], few))
        its = change_of(split.after, with_last_rounds(change.after, above[-1], few))
        apart = renewed_split(model, causes, split, chances_stay=True)
        found = renewed_circuit(apart, apart.causes, its, qubits) if apart and apart.causes else None
        if found and found.causes:
            return renewed_split(found, found.causes, change_of(its.after, change.after.text))
    return None


def with_last_rounds(known: KnownLines, block: Around, few: int) -> str:
    """A text in which this many last rounds are split off a block of the outermost list, and the last of them by itself: what errors flip near
    the edit, where a cut is looked for first, is then of that round alone."""
    inside, lines = known.lines[block.begin + 1 : block.end + 1], known.lines
    several = [line for rounds in (block.rounds - few, few - 1, 1) for line in (f"REPEAT {rounds} {{", *inside)]
    return "\n".join([*lines[: block.begin], *several, *lines[block.end + 1 :]])
