"""The chances of noise changed by a rule, channel by channel."""

import itertools
from collections.abc import Callable, Iterable, Iterator
from dataclasses import dataclass

from stabsim import checking
from stabsim.circuit.circuit import Circuit, circuit_text, from_stim
from stabsim.noise.noise_placing import number_text, products_of
from stabsim.text import names
from stabsim.text.reading import Instruction, Line, headed, lines_of
from stabsim.text.targets import qubits_of

# How many targets a channel has that is on single qubits or pairs.
PAIRED = ("DEPOLARIZE2", "PAULI_CHANNEL_2", "MXX", "MYY", "MZZ")
Chances = tuple[float, ...]


@dataclass(frozen=True)
class Channel:
    """One place of noise: a qubit or pair of a channel, a correlated error, or a measured target whose record may be wrong.

    line: int, of the text, from 1; name, tag: str, of its instruction; targets: as they are written; chances: a tuple of one float, or of
    as many as PAULI_CHANNEL_1 and PAULI_CHANNEL_2 have.

    >>> import stabsim
    >>> stabsim.Channel(1, "E", "", ("X3", "Z5"), (0.1,)).qubits == {3, 5}
    True
    """

    line: int
    name: str
    tag: str
    targets: tuple[str, ...]
    chances: Chances

    @property
    def qubits(self) -> frozenset[int]:
        """Its qubits."""
        return frozenset(qubit for target in self.targets for qubit in qubits_of(target))


Rule = Callable[[Channel], float | Iterable[float]]


def with_chances(circuit: str | Circuit, rule: Rule) -> Circuit:
    """A noisy circuit whose chances are those that a rule gives of each channel; all else stays.

    circuit: any of Stim's, perhaps as text. rule: a function of a channel to its chance, or to all of its chances. One of 0 has no line.
    Targets of a line that get other chances than their neighbours get a line of their own.

    >>> import stabsim
    >>> text = "R 0 1 2\\nX_ERROR(0.25) 0 1 2\\nM(0.125) 0 1"
    >>> print(stabsim.with_chances(text, lambda channel: 0 if 1 in channel.qubits else channel.chances[0] / 2), end="")
    R 0 1 2
    X_ERROR(0.125) 0
    X_ERROR(0.125) 2
    M(0.0625) 0
    M 1
    """
    if not callable(rule):
        raise TypeError(f"rule is {checking.shown(rule)}: give a function of a channel, as lambda channel: channel.chances")
    lines = [written for line in lines_of(circuit_text(circuit).removesuffix("\n")) for written in lines_by(line, rule)]
    return from_stim("\n".join([*lines, ""]))


def lines_by(line: Line, rule: Rule) -> Iterator[str]:
    """What a line becomes: it stays if no chance of it changes."""
    channels = [] if line.opens or line.closes else list(channels_of(line))
    runs = [(chances, list(run)) for chances, run in itertools.groupby(channels, lambda it: chances_by(it, rule))]
    if all(channel.chances == chances for chances, run in runs for channel in run):
        yield line.text
        return
    for chances, run in runs:
        head, is_record = headed(run[0].name, run[0].tag), run[0].name in names.MEASURING
        # Without an error in front, one that may happen if it did not would be another's; and records stay.
        if any(chances) or run[0].name in (*names.CORRELATED, *names.HERALDED):
            head += f"({', '.join(map(number_text, chances))})"
        elif not is_record:
            continue
        yield " ".join([line.indentation + head, *(target for channel in run for target in channel.targets)])


def chances_by(channel: Channel, rule: Rule) -> Chances:
    """The chances of a channel by a rule. Raises TypeError or ValueError if they are none, or not as many as it has."""
    given: object = rule(channel)
    name = f"what the rule gives {channel.name} of line {channel.line}"
    each = given if isinstance(given, Iterable) and not isinstance(given, str) else [given]
    chances = tuple(checking.chance(name, it) for it in each)
    if len(chances) != len(channel.chances):
        count = len(channel.chances)
        raise ValueError(f"{name} is {checking.shown(given)}: give {f'{count} chances' if count > 1 else 'a chance'}, as the channel has")
    return chances


def channels_of(line: Line) -> Iterator[Channel]:
    """The channels of a line, in its order; none if it has no noise."""
    parts = line.parts
    if not parts or not parts.arguments or parts.name not in (*names.NOISE, *names.HERALDED, *names.MEASURING):
        return
    chances = tuple(Instruction(line.number, *parts).numbers())
    targets = tuple(products_of(parts)) if parts.name == "MPP" else parts.targets
    together = len(targets) if parts.name in names.CORRELATED else 2 if parts.name in PAIRED else 1
    for place in range(0, len(targets), max(together, 1)):
        yield Channel(line.number, parts.name, parts.tag, targets[place : place + together], chances)
