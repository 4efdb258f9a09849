"""Records, detectors and observables as sums of coins and of letters that are put in, by one run over rows; and tables of them."""

from collections.abc import Iterator, Sequence
from functools import lru_cache

from . import formats, numbers
from .numbers import Step
from .printing import arguments_text
from .reading import Items, Operation, item_at
from .states import Rows, Run, first_bit, refuse_if_large

# A letter that is put in: how many steps are in front of it, the letter and the qubit.
Placed = tuple[int, str, int]


class NotDeterministic(Exception):
    """A detector or observable that is not the same for all random bits, and the line that names it."""


@lru_cache(2)
def run_over_rows(qubits: int, observables: int, steps: tuple[Step, ...]) -> Run:
    """The run with each coin as itself."""
    return Run(Rows(qubits), observables, steps, lambda coin: 2 << coin)


class Sums:
    """What a circuit gives as sums: bit 0 is the part that is known, then there is a bit for each coin, and then for each letter that
    is put in."""

    def __init__(self, items: Items, letters: Sequence[Placed] = ()) -> None:
        qubits = numbers.qubits(items)
        refuse_if_large(items, qubits)
        self.placed = numbers.placed_steps(items)
        self.paths = [path for path, step in self.placed if step[0] == "detector"]
        # For each coin how many steps are in front of the one that takes it, and the path of its item.
        self.coin_places = [(number, path) for number, (path, step) in enumerate(self.placed) if numbers.uses_coin(step)]
        self.run = run_over_rows(qubits, numbers.observables(items), tuple(self.steps_with(letters)))
        self.bits = self.run.bits()
        all_coins = (1 << len(self.coin_places)) - 1
        self.deterministic = [sum_ >> 1 & all_coins == 0 for sum_ in self.bits]

    def steps_with(self, letters: Sequence[Placed]) -> Iterator[Step]:
        """The steps with each letter in its place, which is put in if its bit is 1."""
        put_in: dict[int, list[Step]] = {}
        for number, (before, letter, qubit) in enumerate(letters):
            put_in.setdefault(before, []).append(("letter", letter, qubit, 2 << len(self.coin_places) + number))
        for number, (_, step) in enumerate(self.placed):
            yield from put_in.get(number, [])
            yield step
        yield from put_in.get(len(self.placed), [])

    def flipped(self, letter: int) -> list[bool]:
        """For each detector and observable whether it is deterministic and the letter of this number flips it."""
        at = 1 + len(self.coin_places) + letter
        return [is_deterministic and sum_ >> at & 1 == 1 for sum_, is_deterministic in zip(self.bits, self.deterministic)]

    def name(self, bit: int) -> str:
        """What dets calls a detector or observable."""
        return formats.name(bit, len(self.paths))

    def names(self, flips: Sequence[int]) -> list[str]:
        """What dets calls those that are 1; records are first, if there are bits for them."""
        records = len(flips) - len(self.bits)
        return [f"M{place}" if place < records else self.name(place - records) for place, flip in enumerate(flips) if flip]

    def path(self, bit: int) -> str:
        """The path of the first item of a detector or observable."""
        number = bit - len(self.paths)
        return self.paths[bit] if number < 0 else next(path for path, step in self.placed if step[:2] == ("observable", number))

    def need_deterministic(self) -> None:
        """Raises `NotDeterministic` of the first bit that some coin decides, with its first coin."""
        if not all(self.deterministic):
            bit = self.deterministic.index(False)
            named = f"detector {bit}" if bit < len(self.paths) else f"observable {bit - len(self.paths)}"
            coin = first_bit(self.bits[bit] >> 1)
            where = self.coin_places[coin][1]
            raise NotDeterministic(f"stabsim: {named}, item {self.path(bit)}, is not the same for all coins: c{coin}@{where} decides it\n".encode())


def value(sum_: int, coins: int) -> int:
    """A sum if coin k is bit k of a number."""
    return (sum_ & 1) ^ (sum_ >> 1 & coins).bit_count() % 2


def deterministic(items: Items, form: str) -> bytes:
    """What the command of this name writes."""
    sums = Sums(items)
    return formats.shot(form, sums.deterministic, len(sums.paths))


def coins_text(items: Items, form: str | None) -> bytes:
    """What the command `coins` writes, by lines or in a format. In `dets` records are named too."""
    sums = Sums(items)
    out = []
    for coin in (coin for coin, free in enumerate(sums.run.free) if free):
        flips = [sum_ >> coin + 1 & 1 for sum_ in sums.run.records + sums.bits]
        before, path = sums.coin_places[coin]
        if form is None:
            out.append(" ".join([str(before), path, f"c{coin}", *sums.names(flips)]).encode() + b"\n")
        elif form == "dets":
            out.append(" ".join(["shot", *sums.names(flips)]).encode() + b"\n")
        else:
            out.append(formats.shot(form, flips))
    return b"".join(out)


def explained(items: Items) -> bytes:
    """What `deterministic --explain` writes."""
    sums = Sums(items)
    out = []
    for bit, sum_ in enumerate(sums.bits):
        deciding = [f"c{coin}@{path}" for coin, (_, path) in enumerate(sums.coin_places) if sum_ >> coin + 1 & 1]
        if deciding:
            path = sums.path(bit)
            item = item_at(items, [int(number) for number in path.split("/")])
            assert isinstance(item, Operation)
            coordinates = [arguments_text(item).decode()] if item.name == "DETECTOR" and item.arguments else []
            out.append(" ".join([sums.name(bit), path, *coordinates, *deciding]).encode() + b"\n")
    return b"".join(out)


def sites(step: Step, everywhere: bool) -> list[tuple[int, bool]]:
    """The places for faults at a step: a qubit, and whether it is after the step."""
    if not everywhere:
        return [(step[2], False)] if step[:2] == ("gate", "I") else []
    return [(qubit, after) for qubit in numbers.qubits_of(step) for after in ((False, True) if numbers.records_of(step) else (True,))]


def errors(items: Items, everywhere: bool) -> list[tuple[str, Placed]]:
    """Each fault: the path of its item, how many steps are in front of it, its letter and its qubit."""
    return [(path, (number + after, letter, qubit)) for number, (path, step) in enumerate(numbers.placed_steps(items))
            for qubit, after in sites(step, everywhere) for letter in "XZ"]


def faults(items: Items, form: str | None, everywhere: bool, deterministic_only: bool) -> bytes:
    """What the command of this name writes; or `NotDeterministic`, with the line that is printed."""
    found = errors(items, everywhere)
    sums = Sums(items, [letter for _, letter in found])
    if not deterministic_only:
        sums.need_deterministic()
    out = []
    for number, (path, (before, letter, qubit)) in enumerate(found):
        flipped = sums.flipped(number)
        line = " ".join([str(before), path, f"{letter}{qubit}", *sums.names(flipped)]).encode() + b"\n"
        out.append(line if form is None else formats.shot(form, flipped, len(sums.paths)))
    return b"".join(out)
