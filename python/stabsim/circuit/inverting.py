"""Circuits of gates turned round: the last gate first, each as its inverse."""

from collections.abc import Iterator, Sequence
from dataclasses import replace

from stabsim.text import names
from stabsim.text.reading import Block, Instruction, Item, Parts
from stabsim.text.rewriting import BY_SECOND, GATES, ON_TWO, products

# Gates that the program does not read, and their inverses; each other gate is its own, or is read.
PAIRS = (
    ("C_NXYZ", "C_ZYNX"), ("C_XNYZ", "C_ZNYX"), ("C_XYNZ", "C_NZYX"), ("CXSWAP", "SWAPCX"), ("ISWAP", "ISWAP_DAG"),
    ("SQRT_XX", "SQRT_XX_DAG"), ("SQRT_YY", "SQRT_YY_DAG"), ("SQRT_ZZ", "SQRT_ZZ_DAG"), ("SPP", "SPP_DAG"),
)
INVERSES = names.INVERSES | {first: second for pair in PAIRS for first, second in (pair, pair[::-1])}
ON_PAIRS = frozenset((*names.TWO_QUBITS, *ON_TWO, *BY_SECOND))
ALL = frozenset((*names.ONE_QUBIT, *ON_PAIRS, *GATES))


def inverted(items: Sequence[Item]) -> list[Item]:
    """The items that undo these, one after another: QUBIT_COORDS comes first, and channels and TICK stay what they are. Raises ValueError at
    what has no inverse."""
    placing: list[Item] = [item for item in items if item.name == "QUBIT_COORDS"]
    return placing + [turned for group in reversed(list(groups_of(items))) for turned in group]


def groups_of(items: Sequence[Item]) -> Iterator[list[Item]]:
    """The inverse of each item; of an error and those that may happen if it did not, all together."""
    chain: list[Item] = []
    for place, item in enumerate(items):
        if item.name in names.CORRELATED:
            chain.append(item)
            following = items[place + 1].name if place + 1 < len(items) else ""
            if following != names.ELSE:
                yield chain
                chain = []
        elif item.name != "QUBIT_COORDS":
            yield [inverse_of(item)]


def inverse_of(item: Item) -> Item:
    """What undoes an item."""
    if isinstance(item, Block):
        return replace(item, items=tuple(inverted(item.items)))
    if item.name == "TICK" or item.name in (*names.CHANNELS, *names.IDLE):
        return item
    # Records that control a gate come after a measurement, which has none.
    if item.name not in ALL:
        raise ValueError(f"line {item.line}: {item} has no inverse: give gates, channels, TICK and QUBIT_COORDS alone")
    return replace(item, name=INVERSES.get(item.name, item.name), targets=tuple(backwards(item)))


def backwards(item: Instruction) -> list[str]:
    """The targets of a gate, the last ones first."""
    if item.name in ("SPP", "SPP_DAG"):
        return list(reversed(products(Parts(item.name, item.tag, item.arguments, item.targets))))
    if item.name not in ON_PAIRS:
        return list(reversed(item.targets))
    pairs = list(zip(item.targets[::2], item.targets[1::2]))
    return [target for pair in reversed(pairs) for target in pair]
