"""Items as a session puts them in, and its spare qubits: those that the circuit names nowhere, and that records of padding and heralds take."""

from collections.abc import Callable
from dataclasses import dataclass

from stabsim import program
from stabsim.errors import Refused
from stabsim.text.carrying import MARKED, carried, riding_of, stands_for_one
from stabsim.text.judging import in_users_words
from stabsim.text.names import ELSE
from stabsim.text.profile import Profile, profile_of, qubits_named
from stabsim.text.reading import Block, content_of, items_of, parts_of, walk


@dataclass(frozen=True)
class Spare:
    """A spare qubit, and the item whose records it makes: its path, and its line."""

    qubit: int
    path: str
    item: str


def spares_of(text: str) -> list[Spare]:
    """The spare qubits of a text of the program's: what is in a block that stands for one instruction, and not named by that."""
    if f"REPEAT{MARKED}" not in text:
        return []
    found = []
    for block in walk(items_of(text)):
        if isinstance(block, Block) and stands_for_one(block):
            item = content_of(riding_of(block)[-1])
            qubits = qubits_named("\n".join(map(str, block.items))) - qubits_named(item)
            found += [Spare(qubit, block.path, item) for qubit in sorted(qubits)]
    return found


def refuse_spares(named: set[int], spares: list[Spare], replaced: str | None) -> None:
    """Raises stabsim.Refused if an item names a spare qubit; replaced: the path of the item that goes, whose own spares are free then."""
    for spare in spares:
        goes = replaced is not None and f"{spare.path}/".startswith(f"{replaced}/")
        if spare.qubit in named and not goes:
            said = f"Qubit {spare.qubit} makes the records of item {spare.path}, {spare.item}: name another one, or open a new session of circuit()."
            raise Refused(6, "QubitOutOfRange", None, said)


def carried_item(text: str, circuit: Callable[[], str]) -> str:
    """An item of Stim's as the program's; circuit: answers the text that it comes into. Raises stabsim.Refused as `from_stim` does."""
    parts = parts_of(content_of(text))
    if parts and parts.name == ELSE:
        # It may come after another, which is judged with the whole circuit.
        return carried(text)
    profile, fault = profile_of(text)
    if fault:
        raise fault
    if profile.left_out:
        judge(profile)
    return carried(text, others=circuit)


def judge(profile: Profile) -> None:
    """Raises what is wrong with an item's noise."""
    try:
        program.run(["check"], profile.judged.text)
    except Refused as refused:
        # A lookback is judged in the whole circuit, of which an item by itself says nothing; such a fault has no line.
        if refused.line is not None:
            raise in_users_words(refused, profile) from None
