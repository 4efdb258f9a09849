"""What noise models ask of a circuit: its qubits, which of them are data qubits, and where rounds begin."""

from collections.abc import Iterable, Iterator, Sequence
from dataclasses import dataclass

from stabsim.text import names, rewriting
from stabsim.text.reading import Block, Instruction, Item, walk
from stabsim.text.sizes import most_of
from stabsim.text.targets import qubits_of

ONE_QUBIT = frozenset((*names.ONE_QUBIT, *rewriting.ON_ONE))
TWO_QUBITS = frozenset((*names.TWO_QUBITS, *rewriting.ON_TWO))
PRODUCTS = frozenset(("MPP", *rewriting.OF_PAIRS))
ALONE = frozenset(names.MEASUREMENTS) - PRODUCTS


@dataclass(frozen=True)
class Rounds:
    """What is known of a circuit.

    qubits: those on which something acts; data: the data qubits, None if the circuit doesn't show them; spare: a qubit that it does not
    name; with_detectors, with_meetings: the lines of blocks with a DETECTOR, and with a gate on a pair or a measured product.
    """

    qubits: frozenset[int]
    data: frozenset[int] | None
    spare: int
    with_detectors: frozenset[int]
    with_meetings: frozenset[int]


def rounds_of(items: Sequence[Item], data: Iterable[int] | None) -> Rounds:
    """What is known of a circuit; data: its data qubits, if they are said."""
    instructions = list(instructions_of(items))
    acting = [it for it in instructions if it.name not in (*names.ANNOTATIONS, "MPAD")]
    qubits = frozenset(qubit for it in acting for target in it.targets if "[" not in target for qubit in qubits_of(target))
    spare = 1 + max((most_of(it.targets) for it in instructions), default=-1)
    blocks = [it for it in walk(items) if isinstance(it, Block)]
    with_detectors = frozenset(block.line for block in blocks if any(it.name == "DETECTOR" for it in instructions_of(block.items)))
    with_meetings = frozenset(block.line for block in blocks if any(map(meets, instructions_of(block.items))))
    return Rounds(qubits, data_of(instructions, qubits) if data is None else frozenset(data), spare, with_detectors, with_meetings)


def instructions_of(items: Iterable[Item]) -> Iterator[Instruction]:
    """All instructions, those in blocks once."""
    return (it for it in walk(items) if isinstance(it, Instruction))


def meets(item: Instruction) -> bool:
    """Whether qubits meet in it: by a gate on a pair, or in a measured product."""
    return item.name in PRODUCTS or bool(item.name in TWO_QUBITS and met_pairs(item.targets))


def met_pairs(targets: Sequence[str]) -> list[tuple[str, str]]:
    """The pairs of a gate, without those in which a record or a sweep bit decides: such a Pauli is kept track of, and no gate is done."""
    return [pair for pair in zip(targets[::2], targets[1::2]) if not any("[" in target for target in pair)]


def data_of(instructions: Iterable[Instruction], qubits: frozenset[int]) -> frozenset[int] | None:
    """The qubits that no round but the last measures by themselves, where DETECTORs end a round; None if there is but one round."""
    rounds, alone, is_measured = list[set[int]](), set[int](), False
    for it in instructions:
        if it.name in ALONE:
            alone |= {qubit for target in it.targets for qubit in qubits_of(target)}
        is_measured |= it.name in ALONE or it.name in PRODUCTS
        if it.name == "DETECTOR" and is_measured:
            rounds.append(alone)
            alone, is_measured = set(), False
    if is_measured:
        rounds.append(alone)
    return qubits.difference(*rounds[:-1]) if len(rounds) > 1 else None
