"""What an instruction does to which qubits, as pictures show it: one by one, in pairs, or as products."""

from collections.abc import Iterator, Sequence
from dataclasses import dataclass

from stabsim.text import names
from stabsim.text.moments import PAULIS
from stabsim.text.reading import Instruction
from stabsim.text.targets import FACTOR

ON_PAIRS = frozenset((*names.TWO_QUBITS, "DEPOLARIZE2", "PAULI_CHANNEL_2"))
ON_ONE = frozenset((*names.ONE_QUBIT, *names.RESETS, *names.MEASUREMENTS, *names.CHANNELS)) - {"MPP"} - ON_PAIRS


@dataclass(frozen=True)
class Action:
    """What one target, pair or product of an instruction does.

    name: of the instruction; qubits: on which it acts; letters: of a product, one for each of its qubits, with `!` if it is inverted;
    record: of a Pauli that a record controls, how far that lies back, else 0; place: which of the instruction's targets it is, from 0;
    is_inverted: whether the record of its one qubit is.
    """

    name: str
    qubits: tuple[int, ...]
    letters: tuple[str, ...] = ()
    record: int = 0
    place: int = 0
    is_inverted: bool = False

    @property
    def is_measured(self) -> bool:
        """Whether it makes a record."""
        return self.name in names.MEASUREMENTS

    @property
    def is_pauli(self) -> bool:
        return self.name in PAULIS


def actions_of(item: Instruction) -> Iterator[Action]:
    """What an instruction does, in the order of its targets; annotations do nothing."""
    if item.name == "MPP":
        for place, target in enumerate(item.targets):
            yield product_of(item.name, target.split("*"), place)
    elif item.name in names.CORRELATED and item.targets:
        yield product_of(item.name, item.targets, 0)
    elif item.name in ON_PAIRS:
        for first, second in zip(item.targets[::2], item.targets[1::2]):
            if first.startswith("rec["):
                yield Action(item.name, (int(second),), record=-int(first[4:-1]))
            else:
                yield Action(item.name, (int(first), int(second)))
    elif item.name in ON_ONE:
        for place, target in enumerate(item.targets):
            yield Action(item.name, (int(target.lstrip("!")),), place=place, is_inverted=target.startswith("!"))


def product_of(name: str, factors: Sequence[str], place: int) -> Action:
    """What is done with a product of Paulis."""
    known = [found for factor in factors if (found := FACTOR.fullmatch(factor))]
    return Action(name, tuple(int(it[3]) for it in known), tuple(it[1] + it[2].upper() for it in known), place=place)
