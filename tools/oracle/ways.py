"""What a Pauli string becomes that is put in between two steps, and what it flips, step by step."""

from collections.abc import Iterator, Sequence
from random import Random

from . import numbers, states, sums
from .numbers import Step
from .reading import Block, Items, Operation
from .states import Factors, String, images, sent, string_of

# Errors of a circuit go over no more steps than these.
MOST_STEPS = 400000


class Way:
    """A string on its way over steps, and the records that it flips."""

    def __init__(self) -> None:
        self.string = String()
        self.flips: list[int] = []
        self.detectors: list[int] = []
        self.observables: dict[int, int] = {}

    def letters(self) -> str:
        x, z = self.string.x, self.string.z
        found = [f"{'IXZY'[(x >> qubit & 1) + 2 * (z >> qubit & 1)]}{qubit}" for qubit in range((x | z).bit_length()) if (x | z) >> qubit & 1]
        return "*".join(found) or "1"

    def flipped(self) -> str:
        """What it flips, as M3 D24 L0, each after a space."""
        kinds = ("M", enumerate(self.flips)), ("D", enumerate(self.detectors)), ("L", sorted(self.observables.items()))
        return "".join(f" {kind}{number}" for kind, bits in kinds for number, bit in bits if bit)

    def parity(self, lookbacks: list[int]) -> int:
        return sum(self.flips[-back] for back in lookbacks) % 2

    def over(self, step: Step) -> None:
        if step[0] == "gate":
            qubits = step[2:]
            self.string = sent(self.string, sum(1 << qubit for qubit in qubits), images(step[1], qubits))
        elif step[0] == "controlled":
            _, letter, back, qubit = step
            if self.flips[-back]:
                self.string = self.string.times(string_of([(letter, qubit)]))
        elif step[0] == "measure":
            self.measured(*step[1:])
        elif step[0] == "detector":
            self.detectors.append(self.parity(list(step[1])))
        else:
            self.observables[step[1]] = self.observables.get(step[1], 0) ^ self.parity(list(step[2]))

    def measured(self, factors: Factors, _inverted: int, recorded: bool, resets: bool) -> None:
        if recorded:
            self.flips.append(int(self.string.anticommutes(string_of(factors))))
        if resets:
            [(_, qubit)] = factors
            self.string = String(self.string.x & ~(1 << qubit), self.string.z & ~(1 << qubit))


def ticks_too(items: Items, above: str = "") -> Iterator[tuple[str, Operation]]:
    """The unrolled instructions with their paths; of a block without a step only the first round."""
    for place, item in enumerate(items):
        if not isinstance(item, Block):
            yield f"{above}{place}", item
        else:
            for _ in range(item.count if numbers.summary(item.body)[0] else 1):
                yield from ticks_too(item.body, f"{above}{place}/")


def tick_line(way: Way, done: int, place: int, factors: Factors, paths: list[str]) -> str:
    """The line of a tick after this many steps."""
    if done == place:
        way = Way()
        way.string = string_of(factors)
    return f"{done} {paths[max(done - 1, 0)] if paths else 0} {way.letters()}\n"


def text_of(items: Items, place: int, factors: Factors, every: bool) -> bytes:
    """What is written of a string that is put in after this many steps."""
    states.refuse_if_large(items, numbers.qubits(items))
    way, out, done = Way(), [], 0
    paths = [path for path, _ in numbers.placed_steps(items)]
    for path, operation in ticks_too(items):
        before = way.letters()
        if every and operation.name == "TICK" and done >= place:
            out.append(tick_line(way, done, place, factors, paths))
        for step in numbers.steps_of(operation):
            if done == place:
                way.string = way.string.times(string_of(factors))
                before = way.letters()
            way.over(step)
            done += 1
        if not every and done > place and way.letters() != before:
            out.append(f"{done} {path} {way.letters()}\n")
    if done == place:
        way.string = way.string.times(string_of(factors))
    return ("".join(out) + f"flips{way.flipped()}\nleft {way.letters()}\n").encode()


def each_text(items: Items, everywhere: bool) -> bytes:
    """What is written of each error: it goes over the steps after it, by itself."""
    states.refuse_if_large(items, numbers.qubits(items))
    steps, errors = numbers.unroll(items), sums.errors(items, everywhere)
    if len(steps) * len(errors) > MOST_STEPS:
        raise states.TooLarge
    return "".join(error_line(steps, path, *placed) for path, placed in errors).encode()


def error_line(steps: Sequence[Step], path: str, before: int, letter: str, qubit: int) -> str:
    way = Way()
    for number, step in enumerate(steps):
        if number == before:
            way.string = string_of([(letter, qubit)])
        way.over(step)
    if before == len(steps):
        way.string = string_of([(letter, qubit)])
    return f"{before} {path} {letter}{qubit}{way.flipped()} left {way.letters()}\n"


def asked(dice: Random, items: Items) -> tuple[int, list[tuple[str, int]]]:
    """A place among the steps, and a string of some letters."""
    n = numbers.qubits(items)
    return dice.randint(0, len(numbers.unroll(items))), [(dice.choice("XYZ"), qubit) for qubit in dice.sample(range(n), dice.randint(1, min(3, n)))]
