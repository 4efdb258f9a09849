"""What the program says of a circuit with marks in the place of its noise, with refusals that speak of the user's lines."""

from collections.abc import Sequence
from typing import TYPE_CHECKING

from stabsim import checking
from stabsim.errors import Refused
from stabsim.noise.flipped import Flipped
from stabsim.noise.gauges import Basis, gauges_of, table_with_gauges
from stabsim.noise.marking import Marked, marked
from stabsim.noise.pauli_observables import flipped_with_paulis, lines_without, pauli_observables
from stabsim.questions.asked import Asked, numbers_of
from stabsim.text.judging import in_users_words, judged
from stabsim.text.profile import Profile

if TYPE_CHECKING:
    from stabsim.circuit.circuit import Circuit

MARKS_COUNT = "A step more is counted for each qubit that an error may meet, before a measurement and after it: these are too many."


def profile_of(circuit: "str | Circuit") -> Profile:
    """What a circuit becomes for the program, with its noise beside it."""
    if isinstance(circuit, Asked) and isinstance(getattr(circuit, "profile", None), Profile):
        found: Profile = circuit.profile
        return found
    return judged(checking.of_kind("circuit", circuit, str, "a text of a circuit, or a stabsim.Circuit"))


def faults_of(profile: Profile, approximate: bool, sure_only: bool = False, has_gauges: bool = False) -> tuple[Marked, Flipped, Basis]:
    """The circuit of a text with noise, with marks; what X and Z of each mark flip; and a basis of gauges, if these are asked for."""
    circuit = marked(profile.noisy.items(), approximate)
    observables = pauli_observables(circuit.text)
    basis = gauges_of("\n".join(lines_without(profile.circuit.items(), observables))) if has_gauges else {}
    has = numbers_of(profile.counts)

    def ask(lines: Sequence[str]) -> Flipped:
        try:
            return (table_with_gauges(lines, basis, has.detectors, has.observables) if basis
                    else Flipped.of(lines, has.detectors, has.observables, sure_only))
        except Refused as refused:
            # Its places are those of the text with marks.
            if refused.name == "NotDeterministic" and not observables:
                raise undetermined(profile) from None
            raise Refused(refused.number, refused.name, None, MARKS_COUNT if refused.name == "TooManySteps" else "") from None

    return circuit, flipped_with_paulis(circuit.text, sure_only, ask), basis


def undetermined(profile: Profile) -> Refused:
    """The refusal of a circuit of which coins decide a detector or observable: as of the judged text, by the user's items."""
    try:
        Asked(profile.judged.text).faults()
    except Refused as refused:
        return in_users_words(refused, profile)
    raise ValueError("no coin decides a bit of this circuit")
