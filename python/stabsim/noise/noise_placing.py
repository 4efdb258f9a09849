"""Where the noise of a model goes in a text: lines of channels between its own, and chances of wrong records."""

import itertools
import math
from collections.abc import Callable, Iterable, Iterator, Sequence
from dataclasses import dataclass, field

from stabsim import checking
from stabsim.noise.noise_rounds import ALONE, ONE_QUBIT, PRODUCTS, TWO_QUBITS, Rounds, met_pairs, rounds_of
from stabsim.text import names, rewriting
from stabsim.text.reading import PARTS, Line, Parts, items_of, lines_of
from stabsim.text.targets import qubits_of

# The errors of a measured pair: none or a Pauli on each of its two qubits, and the record right or wrong.
OF_MIXED_PAIR = [it for it in itertools.product(("", "X", "Y", "Z"), ("", "X", "Y", "Z"), ("", "X")) if any(it)]


@dataclass(frozen=True)
class Placing:
    """The chances of a noise model, by place: `NoiseModel` says what each is."""

    gate: float = 0.0
    pair: float | None = 0.0
    reset: float = 0.0
    record: float = 0.0
    product: float | None = 0.0
    after_product: float = 0.0
    mixed_pair: float = 0.0
    idle: float = 0.0
    waiting: float = 0.0
    data: float = 0.0
    each_round: bool = False
    checks_alone: bool = False

    def __post_init__(self) -> None:
        for name, value in vars(self).items():
            is_no_chance = name in ("each_round", "checks_alone") or name in ("pair", "product") and value is None
            if not is_no_chance:
                checking.chance(name, value)


def text_with_noise(text: str, model: Placing, data: Iterable[int] | None) -> str:
    """A text without noise with that of a model. Raises ValueError at an instruction that the model has not."""
    rounds = rounds_of(items_of(text), data)
    if model.data and rounds.data is None:
        raise ValueError("no DETECTOR comes before the last measurement, which would tell data qubits from others: give data=[..]")
    written = NoisyText(model, rounds)
    for line in lines_of(text.removesuffix("\n")):
        written.line(line)
    written.end_moment()
    return "\n".join([*written.lines, ""])


@dataclass
class NoisyText:
    """A text with noise that grows line by line.

    used: the qubits on which something acts in the moment so far; measured: those of them that are measured or reset; is_fresh: whether
    no gate on a pair or measured product came in the round so far.
    """

    model: Placing
    rounds: Rounds
    lines: list[str] = field(default_factory=list)
    indentation: str = ""
    used: set[int] = field(default_factory=set)
    measured: set[int] = field(default_factory=set)
    is_fresh: bool = True

    def line(self, line: Line) -> None:
        """Adds a line with what noise it has."""
        parts = line.parts
        if line.opens or line.closes or parts and parts.name == "TICK":
            self.end_moment()
        if line.opens:
            self.begin_block(line)
        if line.content and not line.closes:
            self.indentation = line.indentation
        if not parts or line.opens or parts.name in (*names.ANNOTATIONS, "MPAD"):
            self.is_fresh |= parts is not None and parts.name == "DETECTOR" and self.model.each_round
            self.lines.append(line.text)
        else:
            self.instruction(line, parts)

    def begin_block(self, line: Line) -> None:
        """A block with DETECTORs begins a round, each time. In front of one with the first round of all are errors that come once."""
        self.indentation = line.indentation
        if self.model.each_round:
            self.is_fresh |= line.number in self.rounds.with_detectors
        elif line.number in self.rounds.with_meetings:
            self.begin_round()

    def begin_round(self) -> None:
        """Puts errors of data qubits in front of a round, unless it has them."""
        if self.is_fresh:
            self.add("DEPOLARIZE1", self.model.data, sorted(self.rounds.data or ()))
            self.is_fresh = False

    def end_moment(self) -> None:
        """Puts errors of qubits that wait at the end of a moment in which something acts."""
        if self.used:
            self.add("DEPOLARIZE1", self.model.idle, sorted(self.rounds.qubits - self.used))
        if self.measured:
            self.add("DEPOLARIZE1", self.model.waiting, sorted(self.rounds.qubits - self.measured))
        self.used, self.measured = set(), set()

    def add(self, name: str, chance: float, targets: Sequence[object]) -> None:
        """A line of noise, if its chance and targets make it one."""
        if chance and targets:
            self.lines.append(" ".join([f"{self.indentation}{name}({number_text(chance)})", *map(str, targets)]))

    def instruction(self, line: Line, parts: Parts) -> None:
        """Adds an instruction that does something."""
        place = next((place for kind, place in PLACES if parts.name in kind), None)
        if place is None:
            raise ValueError(f"line {line.number}: {line.content} is an instruction that no model has")
        place(self, line, parts)

    def on_one(self, line: Line, parts: Parts) -> None:
        """A gate on single qubits."""
        self.lines.append(line.text)
        self.used |= set(map(int, parts.targets))
        self.add("DEPOLARIZE1", self.model.gate, parts.targets)

    def on_pairs(self, line: Line, parts: Parts) -> None:
        """A gate on pairs."""
        pairs = met_pairs(parts.targets)
        if pairs:
            self.begin_round()
        if pairs and self.model.pair is None:
            raise ValueError(f"line {line.number}: {line.content} is on pairs, and the model has no gates on pairs")
        self.lines.append(line.text)
        self.used |= {int(target) for pair in pairs for target in pair}
        self.add("DEPOLARIZE2", self.model.pair or 0, [target for pair in pairs for target in pair])

    def reset(self, line: Line, parts: Parts) -> None:
        """A reset of qubits."""
        self.lines.append(line.text)
        self.after_reset(parts)

    def after_reset(self, parts: Parts) -> None:
        """What resets of qubits meet, those after a measurement too."""
        qubits = [int(target.lstrip("!")) for target in parts.targets]
        self.used |= set(qubits)
        self.measured |= set(qubits)
        self.add("Z_ERROR" if parts.name.endswith("X") else "X_ERROR", self.model.reset, qubits)

    def measurement(self, line: Line, parts: Parts) -> None:
        """A measurement of qubits, cut into several if some records are right and others are not."""

        def chance_of(target: str) -> float:
            return 0 if self.model.checks_alone and int(target.lstrip("!")) in (self.rounds.data or ()) else self.model.record

        runs = [(chance, list(run)) for chance, run in itertools.groupby(parts.targets, chance_of)]
        if len(runs) == 1:
            self.lines.append(with_chance(line, runs[0][0]))
        else:
            self.lines += [with_chance(line, chance, run) for chance, run in runs]
        qubits = {qubit for target in parts.targets for qubit in qubits_of(target)}
        self.used |= qubits
        self.measured |= qubits
        if parts.name.startswith("MR"):
            self.after_reset(parts)

    def products(self, line: Line, parts: Parts) -> None:
        """Measured products."""
        if self.model.product is None:
            raise ValueError(f"line {line.number}: {line.content} measures products, and the model measures single qubits")
        self.begin_round()
        products = list(products_of(parts))
        on = [sorted(qubits_of(product)) for product in products]
        self.used.update(*on)
        self.measured.update(*on)
        if self.model.mixed_pair:
            for product, qubits in zip(products, on):
                self.mixed(line, parts.tag, product, qubits)
            return
        self.lines.append(with_chance(line, self.model.product))
        self.add("DEPOLARIZE2", self.model.after_product, [qubit for qubits in on if len(qubits) == 2 for qubit in qubits])
        self.add("DEPOLARIZE1", self.model.after_product, [qubit for qubits in on if len(qubits) != 2 for qubit in qubits])

    def mixed(self, line: Line, tag: str, product: str, qubits: list[int]) -> None:
        """A measured pair with one of 32 errors. They are the products of 31 independent ones: a qubit in 0, which is measured with the pair,
        makes the record wrong if it is flipped."""
        if len(qubits) != 2:
            raise ValueError(f"line {line.number}: {product} is no product of two qubits, and the model measures such alone")
        on = (*qubits, self.rounds.spare)
        self.lines.append(f"{self.indentation}R {self.rounds.spare}")
        for letters in OF_MIXED_PAIR:
            self.add("E", independent_chance(self.model.mixed_pair), [f"{letter}{qubit}" for letter, qubit in zip(letters, on) if letter])
        self.lines.append(f"{self.indentation}MPP{f'[{tag}]' * bool(tag)} {product}*Z{self.rounds.spare}")


# What adds each kind of instruction.
PLACES: list[tuple[Iterable[str], Callable[[NoisyText, Line, Parts], None]]] = [
    (ONE_QUBIT, NoisyText.on_one), (TWO_QUBITS, NoisyText.on_pairs), (names.RESETS, NoisyText.reset), (PRODUCTS, NoisyText.products),
    (ALONE, NoisyText.measurement),
]


def number_text(number: float) -> str:
    """A number as a line has it."""
    return f"{number:.15g}"


def with_chance(line: Line, chance: float, targets: Sequence[str] = ()) -> str:
    """A line with the chance of a wrong record, if it is more than 0, and perhaps other targets."""
    found = PARTS.match(line.text)
    assert found
    rest = " " + " ".join(targets) if targets else found[5]
    return f"{found[1]}{found[2]}{found[3] or ''}" + (f"({number_text(chance)})" if chance else "") + rest


def products_of(parts: Parts) -> Iterator[str]:
    """The products that an instruction measures, each as a target of MPP."""
    if parts.name == "MPP":
        yield from rewriting.SPACED_STAR.sub("*", " ".join(parts.targets)).split()
        return
    letter = rewriting.OF_PAIRS[parts.name]
    for pair in zip(parts.targets[::2], parts.targets[1::2]):
        yield "*".join(f"{'!' * target.startswith('!')}{letter}{target.lstrip('!')}" for target in pair)


def independent_chance(chance: float) -> float:
    """The chance of each of 31 independent errors that together are one of 32, all as likely, by this chance: 16 of them anticommute with
    any one operator, whose expectation both shrink by 1 - chance."""
    return -math.expm1(math.log1p(-chance) / 16) / 2 if chance < 1 else 0.5
