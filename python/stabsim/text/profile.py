"""Stim's circuit text as texts of the program's: the circuit without its noise, and with it.

Nothing is asked of the program here.
"""

import functools
from collections.abc import Callable, Sequence
from dataclasses import dataclass, field
from typing import NamedTuple

from stabsim.errors import Refused
from stabsim.text import names, quoting
from stabsim.text.heralds import heralded
from stabsim.text.noise_lines import check_channel, check_measurement
from stabsim.text.reading import Instruction, Item, Line, Parts, content_of, is_number, items_of, lines_of
from stabsim.text.rewriting import WrongWord, rewritten
from stabsim.text.sweeping import is_swept
from stabsim.text.targets import LONG_NUMBER, PAULI, qubits_of

MOST_QUBITS = 1024
OBSERVABLE = "OBSERVABLE_INCLUDE"


@dataclass
class Copy:
    """A text that is made of another, line by line: its lines, and for each the number of the line that it comes from."""

    lines: list[str] = field(default_factory=list)
    origins: list[int] = field(default_factory=list)

    def add(self, lines: Sequence[str], origin: int) -> None:
        """Adds lines that come from one."""
        self.lines += lines
        self.origins += [origin] * len(lines)

    @property
    def text(self) -> str:
        """The text."""
        return "\n".join(self.lines)

    def items(self) -> tuple[Item, ...]:
        """Its items, with the lines that they come from."""
        return items_of(Line(origin, line, content_of(line)) for line, origin in zip(self.lines, self.origins))


@dataclass
class Unchanged:
    """A text as a copy of itself, whose lines are looked at if they are asked for."""

    text: str

    @functools.cached_property
    def lines(self) -> list[str]:
        """Its lines."""
        return self.text.split("\n")

    @functools.cached_property
    def origins(self) -> list[int]:
        """The number of each."""
        return list(range(1, len(self.lines) + 1))

    def items(self) -> tuple[Item, ...]:
        """Its items."""
        return items_of(self.text)


class Made(NamedTuple):
    """What one line becomes in each text of a profile, and what is left out of it, if it has noise."""

    circuit: Sequence[str]
    noisy: Sequence[str]
    judged: Sequence[str]
    left_out: str = ""


@dataclass(frozen=True)
class Profile:
    """The texts that one of Stim's becomes.

    text: Stim's; circuit: without noise; noisy: with the channels and chances that do something; judged: as the circuit, with lines that name the
    qubits of channels and do nothing, so that the program judges these too; left_out: what is left out of each line of noise; said: what
    `check` says of the text, if the program reads it as it is; counts: what it says of what is judged, once it was.
    """

    text: str
    circuit: Copy | Unchanged = field(default_factory=Copy)
    noisy: Copy | Unchanged = field(default_factory=Copy)
    judged: Copy | Unchanged = field(default_factory=Copy)
    left_out: dict[int, str] = field(default_factory=dict)
    said: bytes | None = None
    counts: bytes = b""

    @property
    def noisy_lines(self) -> int:
        """How many lines have noise."""
        return sum(not what.endswith(OBSERVABLE) for what in self.left_out.values())

    @classmethod
    def of_read(cls, text: str, said: bytes) -> "Profile":
        """The profile of a text that the program reads, which stays as it is."""
        copy = Unchanged(text)
        return cls(text, copy, copy, copy, said=said, counts=said)

    def add(self, origin: int, made: Made) -> None:
        """Adds what one line becomes in each text."""
        for copy, lines in ((self.circuit, made.circuit), (self.noisy, made.noisy), (self.judged, made.judged)):
            assert isinstance(copy, Copy), "the program does not read the text as it is"
            copy.add(lines, origin)
        if made.left_out:
            self.left_out[origin] = made.left_out


def profile_of(text: str) -> tuple[Profile, Refused | None]:
    """The texts that a text of Stim's becomes, and None; or those of the lines in front of the first line that can't become such, and
    why it can't: stabsim.Refused at noise that Stim refuses, and at targets that an instruction which the program does not read can't have."""
    profile = Profile(text)
    # Most circuits need no qubit of its own for known records, and it takes another look at the whole text.
    spare = functools.cache(lambda: spare_qubit(text))
    before = ""
    for line in lines_of(text):
        parts = line.parts
        try:
            profile.add(line.number, made_of(line, parts, before, spare))
        except WrongWord as wrong:
            said = quoting.quoted(line, wrong.word, wrong.cure, is_argument=wrong.name == "BadArguments")
            return profile, Refused(wrong.number, wrong.name, line.number, said)
        if line.content:
            before = parts.name if parts else ""
    return profile, None


def made_of(line: Line, parts: Parts | None, before: str, spare: Callable[[], int]) -> Made:
    """What a line with these parts becomes; before: the name of the instruction on the line before it."""
    if parts is None or line.opens or (len(line.text) > 4000 and LONG_NUMBER.search(line.text)):
        return Made([line.text], [line.text], [line.text])
    if parts.name in names.UNREAD_NOISE:
        return channel(line, parts, before, spare)
    if parts.name == OBSERVABLE and any(map(PAULI.fullmatch, parts.targets)):
        return observable(line, parts)
    return instruction(line, parts, spare)


def channel(line: Line, parts: Parts, before: str, spare: Callable[[], int]) -> Made:
    """What a channel becomes: a line with its qubits that does nothing is judged in its place, beside the records that it makes."""
    check_channel(parts, before)
    qubits = (target[1:] for target in parts.targets) if parts.name in names.CORRELATED else parts.targets
    judged = " ".join(["QUBIT_COORDS", *qubits])
    if parts.name in names.HERALDED:
        made = heralded(parts, spare)
        noisy, quiet = ([line.indentation + str(Instruction(line.number, *it)) for it in made if it.name not in left] for left in ((), names.NOISE))
        return Made(quiet, noisy, [judged, *quiet], line.content)
    return Made([], [] if parts.name in names.IDLE else [line.text], [judged], line.content)


def observable(line: Line, parts: Parts) -> Made:
    """What an observable with Pauli targets becomes: no record has these, so only errors can flip them, and they are kept beside noise."""
    paulis = [target for target in parts.targets if PAULI.fullmatch(target)]
    records = tuple(target for target in parts.targets if target not in paulis)
    _, hash_sign, comment = line.text.partition("#")
    quiet = line.indentation + str(Instruction(line.number, parts.name, parts.tag, parts.arguments, records)) + f" #{comment}" * bool(hash_sign)
    judged = " ".join(["QUBIT_COORDS", *(target[1:] for target in paulis)])
    return Made([quiet], [line.text], [quiet, judged], f"{' '.join(paulis)} of {OBSERVABLE}")


def instruction(line: Line, parts: Parts, spare: Callable[[], int]) -> Made:
    """What an instruction becomes: itself, or what does the same. Arguments of measurements are the chance of a wrong record."""
    is_noisy = bool(parts.arguments) and parts.name in names.MEASURING
    left_out = ""
    if is_noisy:
        check_measurement(parts)
        left_out = f"({', '.join(parts.arguments)}) of {parts.name}"
    rewriting = rewritten(parts, spare)
    if rewriting is None:
        quiet = [line.without_arguments() if is_noisy else line.text]
        return Made(quiet, [line.text], quiet, left_out)
    _, hash_sign, comment = line.text.partition("#")
    written = [str(Instruction(line.number, *it)) for it in rewriting]
    without = [str(Instruction(line.number, it.name, it.tag, () if is_noisy else it.arguments, it.targets)) for it in rewriting]
    noisy, quiet = ([line.indentation + it for it in lines] for lines in (written, without))
    if quiet and hash_sign:
        quiet[0] += f" #{comment}"
    # Qubits about which sweep bits decide are judged too.
    swept = [" ".join(["QUBIT_COORDS", *filter(is_number, parts.targets)])] if is_swept(parts) else []
    return Made(quiet, noisy, [*quiet, *swept], left_out)


def qubits_named(text: str, *, noise: bool = True) -> set[int]:
    """The qubits that a text names; noise: those that channels alone name too."""
    named: set[int] = set()
    for line in lines_of(text):
        if line.parts and not line.opens and line.parts.name != "MPAD" and (noise or line.parts.name not in names.UNREAD_NOISE):
            named.update(*(qubits_of(target) for target in line.parts.targets if "[" not in target))
    # A greater one is refused.
    return named & set(range(MOST_QUBITS))


def spare_qubit(text: str) -> int:
    """The qubit next to the greatest that a text names, or if there is none the lowest that it does not name."""
    named = qubits_named(text)
    beyond = max(named, default=-1) + 1
    candidates: list[int] = [beyond, *range(beyond)]
    for qubit in candidates:
        if qubit < MOST_QUBITS and qubit not in named:
            return qubit
    raise WrongWord("", 6, "QubitOutOfRange", f"A known record takes a qubit of its own, and all {MOST_QUBITS} are named.")
