"""Random circuits with marked places: steps by the grammar with parities of records that are mostly deterministic, and products that
commute and are measured twice, which are codes of different distances."""

from collections.abc import Sequence
from random import Random

from . import numbers
from .making import Maker
from .reading import Refused, items_of
from .sums import Sums

# How many parities are tried on a circuit, half of them of records that are deterministic together, others by chance.
TRIED = 16
MOST_STEPS = 60
# A product, by the letter on each qubit.
Product = dict[int, str]

TAGS = ("", "", "[X]", "[Y]", "[Z]", "[XZ]", "[pairs]", "[none of these]")


class MarkingMaker(Maker):
    """Writes marked places in place of most annotations, and more measurements."""

    def line(self) -> str:
        if self.random.random() < 0.7:
            return super().line()
        name = self.random.choice(("M", "MR", "MX", "MPP", "MPP", "CX"))
        return f"{name} {self.targets(name)}"

    def annotation(self) -> str:
        way = self.random.random()
        if way < 0.1:
            return super().annotation()
        return "TICK" if way < 0.3 else f"I {' '.join(str(self.qubit()) for _ in range(self.random.randint(1, 2)))}"


def sums_of_text(text: bytes) -> Sums:
    items = items_of(text)
    numbers.check(items)
    if numbers.summary(items)[0] > MOST_STEPS:
        raise Refused(9)
    return Sums(items)


def deterministic_sets(records: Sequence[int]) -> list[int]:
    """Sets of records, which are sums of coins, whose parity is deterministic: a bit for each record, and the last of each is another."""
    basis: dict[int, tuple[int, int]] = {}
    found = []
    for place, record in enumerate(records):
        coins, chosen = record >> 1, 1 << place
        while (size := coins.bit_length()) in basis:
            coins, chosen = coins ^ basis[size][0], chosen ^ basis[size][1]
        if coins:
            basis[size] = coins, chosen
        else:
            found.append(chosen)
    return found


def parity_line(random: Random, lookbacks: Sequence[int] | None = None) -> str:
    if lookbacks is None:
        lookbacks = [random.randint(1, random.choice((2, 5, 9))) for _ in range(random.randint(1, 3))]
    name = "DETECTOR" if random.random() < 0.75 else f"OBSERVABLE_INCLUDE({random.randint(0, 2)})"
    return " ".join([name] + [f"rec[-{back}]" for back in lookbacks])


def deterministic_line(random: Random, records: Sequence[int], before: Sequence[str]) -> str:
    """A parity after these lines that is deterministic, or, if they end in a block, one by chance."""
    try:
        count = numbers.summary(items_of("\n".join(before).encode()))[1]
    except Refused:
        return parity_line(random)
    sets = deterministic_sets(records[:count])
    if not sets:
        return parity_line(random)
    chosen = random.choice(sets) ^ (random.choice(sets) if random.random() < 0.4 else 0)
    return parity_line(random, [back for back in range(1, count + 1) if chosen >> count - back & 1])


def with_deterministic_parities(random: Random, lines: list[str]) -> list[str]:
    """The lines with parities put in that are deterministic, as far as some are met by chance."""
    records = sums_of_text("\n".join(lines).encode()).run.records
    for _ in range(TRIED):
        place = random.randint(0, len(lines))
        line = deterministic_line(random, records, lines[:place]) if random.random() < 0.5 else parity_line(random)
        more = lines[:place] + [line] + lines[place:]
        try:
            if all(sums_of_text("\n".join(more).encode()).deterministic):
                lines = more
        except Refused:
            continue
    return lines


def fault_circuit(random: Random) -> bytes:
    """The text of a circuit on up to four qubits, with a parity by chance besides, now and then."""
    maker = MarkingMaker(random, random.randint(1, 4))
    lines = maker.lines(random.randint(3, 12))
    try:
        lines = with_deterministic_parities(random, lines)
    except Refused:
        pass
    if random.random() < 0.2:
        lines.insert(random.randint(0, len(lines)), parity_line(random))
    return "\n".join(lines).encode()


def commute(one: Product, other: Product) -> bool:
    """Whether two products commute: they differ at an even number of qubits that both have."""
    return sum(one[qubit] != other[qubit] for qubit in one.keys() & other.keys()) % 2 == 0


def commuting(dice: Random, n: int) -> list[Product]:
    """Some products that commute, the last of which is to be an observable."""
    found: list[Product] = []
    for _ in range(40):
        one = {qubit: dice.choice("XYZ") for qubit in dice.sample(range(n), dice.randint(1, min(n, 4)))}
        if all(commute(one, other) for other in found) and one not in found:
            found.append(one)
    return found[: dice.choice((n, n, dice.randint(1, n + 1)))]


def marks(dice: Random, n: int) -> list[str]:
    """Instructions that mark most qubits."""
    chosen = [qubit for qubit in range(n) if dice.random() < 0.9]
    dice.shuffle(chosen)
    cut = dice.randint(0, len(chosen))
    return [f"I{dice.choice(TAGS)} {' '.join(map(str, part))}" for part in (chosen[:cut], chosen[cut:]) if part]


def code_circuit(dice: Random) -> bytes:
    """The text of a circuit in which each product is measured twice, and all that is the same is a detector or the observable."""
    n = dice.randint(2, 5)
    products = commuting(dice, n)
    measured = "MPP " + " ".join("*".join(f"{letter}{qubit}" for qubit, letter in one.items()) for one in products)
    rounds = dice.choice((1, 1, 2))
    lines = [measured]
    for _ in range(rounds):
        lines += [*marks(dice, n), measured]
        lines += [f"DETECTOR rec[-{back}] rec[-{back + len(products)}]" for back in range(2, len(products) + 1)]
    lines.append(f"OBSERVABLE_INCLUDE({dice.choice((0, 0, 1))}) rec[-1] rec[-{1 + rounds * len(products)}]")
    return "\n".join(lines).encode()
