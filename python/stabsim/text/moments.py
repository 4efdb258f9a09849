"""Where a circuit is cut into moments: at each TICK, and in front of an item that acts on a qubit on which the moment has acted before.

The page's `static/cuts.js` cuts by the same rules, so that both count moments alike, and pictures of a tick have layers by them. If a block
would meet what is before it, it is cut in front; if its rounds would meet each other, each is cut in front of its first item that acts.
"""

import functools
import re
from collections.abc import Iterable
from dataclasses import dataclass, field

from stabsim.text import names
from stabsim.text.reading import Block, Instruction, Item, items_of, walk

PAULIS = ("X", "Y", "Z")
QUBIT = re.compile(r"\d+")


class Acted(dict[int, bool]):
    """The qubits on which a moment has acted, and whether a Pauli has after something else."""

    def meets(self, qubits: Iterable[int], is_pauli: bool) -> bool:
        """Whether what acts on qubits begins another moment. A Pauli may come after one other thing on its qubit, as an error does that is
        put on a gate."""
        return any(qubit in self and (self[qubit] or not is_pauli) for qubit in qubits)

    def act(self, qubits: Iterable[int], is_pauli: bool) -> None:
        """Acts on qubits."""
        self.update({qubit: is_pauli and qubit in self for qubit in qubits})


@dataclass
class Cuts:
    """What a list of items comes to: the lines in front of which it is cut, the qubits of its first moment, those on which its last has
    acted, whether there is more than one moment, and the line of its first item that acts, if it has one and is not cut in front of it."""

    lines: list[int] = field(default_factory=list)
    first: set[int] = field(default_factory=set)
    last: Acted = field(default_factory=Acted)
    has_several: bool = False
    begins: int | None = None

    def cut(self) -> None:
        """Begins the next moment."""
        if not self.has_several:
            self.first = set(self.last)
        self.has_several = True
        self.last = Acted()

    def add(self, item: Item) -> None:
        if isinstance(item, Block):
            self.add_block(item)
        elif item.name == "TICK":
            self.cut()
        elif qubits := qubits_of(item):
            self.add_acting(item.line, qubits, item.name in PAULIS)

    def add_acting(self, line: int, qubits: list[int], is_pauli: bool) -> None:
        if self.last.meets(qubits, is_pauli):
            self.lines.append(line)
            self.cut()
        elif self.begins is None and not self.has_several:
            self.begins = line
        self.last.act(qubits, is_pauli)

    def add_block(self, block: Block) -> None:
        its = cuts_of(block.items)
        first = its.first if its.has_several else set(its.last)
        meets_itself = block.repeat > 1 and any(qubit in its.last for qubit in first)
        if its.begins is not None and meets_itself:
            self.lines.append(its.begins)
            self.cut()
        elif any(qubit in self.last for qubit in first):
            self.lines.append(block.line)
            self.cut()
        elif self.begins is None and not self.has_several:
            self.begins = its.begins
        self.lines += its.lines
        if its.has_several:
            self.last.update(dict.fromkeys(first, False))
            self.cut()
        self.last.update(its.last)


def cuts_of(items: Iterable[Item]) -> Cuts:
    """What items come to, from the beginning of a moment on."""
    found = Cuts()
    for item in items:
        found.add(item)
    if not found.has_several:
        found.first = set(found.last)
    return found


def qubits_of(item: Instruction) -> list[int]:
    """The qubits on which an instruction acts, without records that control it."""
    return qubits_in(item.targets) if item.name in names.ACTING else []


# The same targets come again in each round, also where rounds are written out.
@functools.lru_cache(maxsize=4096)
def qubits_in(targets: tuple[str, ...]) -> list[int]:
    return [int(number) for target in targets if not target.startswith("rec[") for number in QUBIT.findall(target)]


@functools.lru_cache(maxsize=1)
def cut_items(text: str) -> tuple[tuple[Item, ...], frozenset[int]]:
    """The items of a text that act or are TICKs, with their blocks, and the lines in front of which they are cut."""
    items = items_of(text, ("TICK", *names.spellings(names.ACTING)))
    return items, frozenset(cuts_of(items).lines)


def marked(text: str, mark: str) -> str:
    """A text with a line put in at the end of each moment. It has a line for each item, as a session writes it."""
    lines = text.rstrip("\n").split("\n")
    items, cuts = cut_items(text)
    ticks = {item.line for item in walk(items) if item.name == "TICK"}
    found = [f"{mark}\n{line}" if number in cuts or number in ticks else line for number, line in enumerate(lines, start=1)]
    return "\n".join(found) + f"\n{mark}\n"
