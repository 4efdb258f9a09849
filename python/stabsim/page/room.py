"""How many qubits an item names, and whether a session may be opened anew on more."""

import re

from stabsim.errors import Refused
from stabsim.text.reading import Block, Item, items_of

# The most qubits that a circuit may have.
MOST_QUBITS = 1024
# How many more than there are an item may name: a greater number is rather a slip of the pen.
MOST_MORE = 64
# A session is opened on some qubits more than it needs, so that the next ones find room.
SPARE = 16
# A qubit in a target, as 5, !5, X5 or !X5*Z6, and no lookback.
QUBIT = re.compile(r"(?<![-\d])\d+")


def qubits_named(text: str) -> int:
    """One more than the greatest qubit that an item's text names; 0 if it names none, or is no item."""
    try:
        return max(map(named_by, items_of(text)), default=0)
    except Refused:
        return 0


def may_name(text: str, qubits: int) -> bool:
    """Whether an item's text may name a qubit that is not below a number: some number in it is as great."""
    return any(int(number) >= qubits for number in set(QUBIT.findall(text)))


def named_by(item: Item) -> int:
    if isinstance(item, Block):
        return max(map(named_by, item.items), default=0)
    targets = [target for target in item.targets if not target.lower().startswith("rec[")]
    return max((int(number) + 1 for target in targets for number in QUBIT.findall(target)), default=0)


def room_for(named: int, now: int) -> int:
    """On how many qubits a session of `now` is opened anew so that `named` find room; `now` if it stays as it is."""
    if named <= now or named > min(MOST_QUBITS, now + MOST_MORE):
        return now
    return min(MOST_QUBITS, -(-named // SPARE) * SPARE)
