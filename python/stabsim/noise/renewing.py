"""An error model after edits: renewed, and not made anew.

What an error flips is decided by where it is and by the steps after it alone: `parity_flips`, by which the program's table of faults is stated
(`PlacesFlipDeterministicParities` in crates/stab_regions/specs/FaultLaws.antt), is asked of these steps. So errors after an edit flip what
they did. Errors before it do so too if the regions of all detectors and observables just before the edit are what they were, since those
further back are made of them alone (`region_before` in Regions.antt there): `renewing_circuit` asks the program for regions, and
`renewing_blocks` for those in few rounds of a block. If only noise changed, or what has no part in regions, as Pauli gates, all regions stay
(`renewing_noise`), and so do steps if blocks are split (`renewing_splits`). An edit in several places is renewed by one after another.

The program is asked for the errors of the lines that changed, which alone are marked in its text. Of mechanisms those are renewed that
errors make or made which flip something else.
"""

from collections.abc import Sequence
from typing import TYPE_CHECKING

from stabsim.errors import Refused, UnsupportedNoise
from stabsim.noise.changed_lines import CHAINED, Change, change_of
from stabsim.noise.marked_faults import undetermined
from stabsim.noise.renewing_below import renewed_below
from stabsim.noise.renewing_blocks import renewed_block
from stabsim.noise.renewing_circuit import renewed_circuit
from stabsim.noise.renewing_detectors import renewed_detectors
from stabsim.noise.renewing_noise import renewed_noise
from stabsim.noise.renewing_splits import renewed_split
from stabsim.noise.several_changes import changes_apart
from stabsim.text.judging import judged
from stabsim.text.rewriting import WrongWord

if TYPE_CHECKING:
    from stabsim.noise.models import ErrorModel

# How many changes are made one after another at most: each takes up to a sixth of the time that a model takes.
MOST_CHANGES = 6


def renewed(model: "ErrorModel", text: str, sure_only: bool, qubits: int | None = None) -> "ErrorModel | None":
    """The model of a text, from that of the text before edits; None if that is not seen, or if disjoint errors are taken for independent
    ones. Texts are as sessions print them, without comments; qubits: how many there are, if it is known."""
    causes = model.causes
    if causes is None or model.approximated or model.parts is not None or CHAINED in text or CHAINED in causes.text:
        return None
    try:
        change = change_of(causes.known, text)
        changes = changes_apart(change)
        found = after_changes(model, changes, sure_only, qubits) if 1 < len(changes) <= MOST_CHANGES else None
        return found or after_change(model, change, sure_only, qubits)
    except Refused as refused:
        # It is said of the whole text; of a circuit that coins decide by what the program said.
        if refused.name == "NotDeterministic":
            raise undetermined(judged(text)) from None
    except (ValueError, WrongWord, UnsupportedNoise):
        pass
    return None


def after_changes(model: "ErrorModel", changes: Sequence[Change], sure_only: bool, qubits: int | None) -> "ErrorModel | None":
    """The model after several changes, one after another; None also if the program refuses a circuit between them."""
    found: ErrorModel | None = model
    try:
        for change in changes:
            found = found and after_change(found, change, sure_only, qubits)
    except Refused:
        return None
    return found


def after_change(model: "ErrorModel", change: Change, sure_only: bool, qubits: int | None) -> "ErrorModel | None":
    """The model after one change."""
    causes = model.causes
    assert causes, "a model that is renewed was made of a circuit"
    found = renewed_split(model, causes, change) or renewed_noise(model, causes, change, sure_only)
    # Which detectors coins decided before is not known of a model that leaves them out.
    if found or not qubits or sure_only:
        return found
    found = renewed_detectors(model, causes, change, qubits)
    if found or change.before.is_fed_back() or change.after.is_fed_back():
        return found
    return next(filter(None, (its(model, causes, change, qubits) for its in (renewed_block, renewed_circuit, renewed_below))), None)
