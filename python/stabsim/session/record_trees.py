"""A circuit before and after edits in one tree, in which each record is known by where it was and where it is."""

import difflib
import functools
from bisect import bisect_right
from collections import defaultdict
from collections.abc import Iterable, Iterator, Sequence
from dataclasses import dataclass, field
from itertools import accumulate, count

from stabsim.text.names import DECLARATIONS, FED_BACK, HERALDED, MEASURING, PAIRS
from stabsim.text.reading import Block, Instruction, Item
from stabsim.text.rewriting import SPACED_STAR


# What makes records, and what names them.
RECORDING = frozenset((*MEASURING, *HERALDED))
NAMING = frozenset((*DECLARATIONS, *FED_BACK))


@dataclass(eq=False, slots=True)
class Node:
    """An item, as it was, or None if it was put in, and as it is after the edits, if it is still there. Of a block the items are in
    `inside`. following: its lookbacks, if they name the records that they named, and not those that its new text names."""

    was: Item | None
    now: Item
    inside: "Level | None" = None
    following: Sequence[int] = ()
    # How many records it made, in one round of the blocks around it, and how many it makes; and how many rounds a block has more than it had.
    had: int = 0
    has: int = 0
    more_rounds: int = 0
    # How it was written, from when that is first asked for.
    text_was: str = ""

    def settle(self) -> None:
        """Finds out how many records and rounds it has."""
        if self.inside:
            self.inside.settle()
            was, now = self.was and self.was.repeat or 1, self.now.repeat or 1
            self.had, self.has, self.more_rounds = was * self.inside.had if self.was else 0, now * self.inside.has, now - was
        else:
            self.had = len(measured(self.was))
            self.has = self.had if self.now is self.was else len(measured(self.now))

    def __str__(self) -> str:
        """How it is written."""
        return self.before() if self.now is self.was else str(self.now)

    def before(self) -> str:
        """How it was written."""
        self.text_was = self.text_was or str(self.was)
        return self.text_was


@dataclass(eq=False)
class Level:
    """A list of items, of a block or the outermost one, as it was and as it is. `settle` closes it, once all edits are made."""

    old: list[Node] = field(default_factory=list)
    new: list[Node] = field(default_factory=list)
    # How many records of the list are in front of each item, and of its end, and all in all; the places of the nodes; where those of the list's
    # records are that its own instructions made.
    had_before: list[int] = field(init=False)
    has_before: list[int] = field(init=False)
    had: int = field(init=False)
    has: int = field(init=False)
    place_was: dict[int, int] = field(init=False)
    place: dict[int, int] = field(init=False)
    went: dict[int, int] = field(init=False)
    follows: bool = field(init=False)
    # For each item that was there the run of items that moved alike, and by how many records they did, or None.
    runs: list[tuple[int, int | None]] = field(init=False)

    def settle(self) -> None:
        """Finds out where each record of the list went, and whether lookbacks in it follow."""
        pair_moved(self)
        for node in {id(it): it for it in (*self.old, *self.new)}.values():
            node.settle()
        self.had_before = list(accumulate((it.had for it in self.old), initial=0))
        self.has_before = list(accumulate((it.has for it in self.new), initial=0))
        self.had, self.has = self.had_before[-1], self.has_before[-1]
        self.place_was = {id(node): place for place, node in enumerate(self.old)}
        self.place = {id(node): place for place, node in enumerate(self.new)}
        self.follows = any(it.inside.follows if it.inside else bool(it.following) for it in self.new)
        self.went = records_in_list(self)
        self.runs = list(runs_of(self))

    @property
    def is_as_it_was(self) -> bool:
        """Whether each of its records is where it was."""
        return self.had == self.has and all(run == (0, 0) for run in self.runs)

    def is_steady(self, was_at: int, at: int, back: int) -> bool:
        """Whether the records that were up to `back` records back from an item, at a place of the list, are as far back now."""
        first = self.had_before[was_at] - back
        if first < 0 or not was_at:
            return False
        run = self.runs[bisect_right(self.had_before, first) - 1]
        return run == self.runs[was_at - 1] and run[1] == self.has_before[at] - self.had_before[was_at]

    def reach(self) -> int:
        """How many records in front of the list its lookbacks reach, at most, from the first round of each block in it."""
        far = 0
        for place, node in enumerate(self.old):
            if id(node) not in self.place:
                continue
            own = node.inside.reach() if node.inside else max(node.following or lookbacks_of(node.was), default=0)
            far = max(far, own - self.had_before[place])
        return far

    def position(self, number: int) -> int | None:
        """How many records of the list are in front of one, of which `number` were; None if it is gone."""
        if number in self.went:
            return self.went[number]
        place = bisect_right(self.had_before, number) - 1
        node, offset = self.old[place], number - self.had_before[place]
        if not node.inside or id(node) not in self.place:
            return None
        # The last rounds stay the last, if there are more or fewer than there were.
        round_number, within = divmod(offset, node.inside.had)
        round_number += node.more_rounds
        at = node.inside.position(within)
        return None if at is None or round_number < 0 else self.has_before[self.place[id(node)]] + round_number * node.inside.has + at


def tree_of(items: Iterable[Item], is_new: bool = False) -> list[Node]:
    """Nodes of items, which are as they were, or put in."""
    return [
        Node(None if is_new else it, it, level_of(it.items, is_new) if isinstance(it, Block) else None, () if is_new else lookbacks_of(it))
        for it in items
    ]


def level_of(items: Iterable[Item], is_new: bool = False) -> Level:
    nodes = tree_of(items, is_new)
    return Level([] if is_new else list(nodes), nodes)


def lookbacks_of(item: Item | None) -> tuple[int, ...]:
    """How many records back each record is that an item names."""
    return lookbacks_in(item.targets) if item and item.name in NAMING else ()


@functools.lru_cache(maxsize=8192)
def lookbacks_in(targets: tuple[str, ...]) -> tuple[int, ...]:
    """The same of its targets alone, which instructions of the same text share."""
    return tuple([int(target[5:-1]) for target in targets if target[:5] == "rec[-"])


def pair_moved(level: Level) -> None:
    """Takes what one edit has taken out, and another has put in with the same text, as moved: it stays the same item."""
    staying = {id(node) for node in level.new}
    taken: dict[str, list[Node]] = defaultdict(list)
    for node in level.old:
        if id(node) not in staying:
            taken[node.before()].append(node)
    for place, node in enumerate(level.new):
        if node.was is None and taken.get(str(node.now)):
            level.new[place] = as_it_was(taken[str(node.now)].pop(0))


def as_it_was(node: Node) -> Node:
    """A node, whatever was done to it before it was taken out."""
    assert node.was, "it was there"
    node.now, node.following = node.was, lookbacks_of(node.was)
    if node.inside:
        node.inside.new = list(map(as_it_was, node.inside.old))
    return node


def runs_of(level: Level) -> Iterator[tuple[int, int | None]]:
    """The runs of a list: an item without records is of the one in front of it."""
    number = 0
    shift: int | None = 0
    for was_at, node in enumerate(level.old):
        if node.had:
            at = level.place.get(id(node))
            is_same = node.now is node.was or node.inside and not node.more_rounds and node.inside.is_as_it_was
            moved = level.has_before[at] - level.had_before[was_at] if at is not None and is_same else None
            if moved is None or moved != shift:
                number, shift = number + 1, moved
        yield number, shift


def records_in_list(level: Level) -> dict[int, int]:
    """Where each record that the list's own instructions made is now: how many of the list were in front of it, to how many are. A record
    is of the same measurement if that has the same qubits and item, or, in another item, the same name too."""
    went: dict[int, int] = {}
    left: list[tuple[Node, int, str]] = []
    found: dict[tuple[int, str], list[int]] = defaultdict(list)
    for node, first, end in zip(level.new, level.has_before, level.has_before[1:]):
        if first == end or node.inside:
            continue
        if node.now is node.was:
            went.update(zip(count(level.had_before[level.place_was[id(node)]]), range(first, end)))
        else:
            for number, target in enumerate(measured(node.now)):
                found[id(node), target].append(first + number)
    for node, first in zip(level.old, level.had_before):
        is_known = node.inside or node.now is node.was and id(node) in level.place
        for number, target in enumerate(() if is_known else measured(node.was), start=first):
            if found[id(node), target]:
                went[number] = found[id(node), target].pop(0)
            else:
                left.append((node, number, target))
    elsewhere: dict[tuple[str, str], list[int]] = defaultdict(list)
    for node in level.new if left else ():
        for target in dict.fromkeys(measured(node.now) if not node.inside else ()):
            elsewhere[node.now.name, target] += found[id(node), target]
    for node, number, target in left:
        same = elsewhere[node.was.name if node.was else "", target]
        if same:
            went[number] = same.pop(0)
    return went


def measured(item: Item | None) -> list[str]:
    """What an instruction measures, without what inverts it."""
    if not isinstance(item, Instruction) or item.name not in RECORDING:
        return []
    targets = SPACED_STAR.sub("*", " ".join(item.targets).replace("!", "")).split()
    return [f"{first} {second}" for first, second in zip(targets[::2], targets[1::2])] if item.name in PAIRS else targets


def differing(level: Level, items: Sequence[Item]) -> None:
    """Makes the items of a list others: those of the same text stay, and a block in the place of another has its items compared."""
    before, after = [str(node.now) for node in level.new], [str(item) for item in items]
    found: list[Node] = []
    for kind, first, end, start, stop in difflib.SequenceMatcher(None, before, after, autojunk=False).get_opcodes():
        if kind == "equal":
            found += level.new[first:end]
        elif kind != "delete":
            found += changed_to(level.new[first:end], items[start:stop])
    level.new[:] = found


def changed_to(nodes: Sequence[Node], items: Sequence[Item]) -> list[Node]:
    """Items in the place of some: of as many, each is that of its number, changed."""
    if len(nodes) != len(items):
        return tree_of(items, is_new=True)
    return [replaced(node, item) for node, item in zip(nodes, items)]


def replaced(node: Node, item: Item) -> Node:
    """An item in the place of a node's: the same node if it is the same kind of thing."""
    if isinstance(item, Block) != bool(node.inside):
        [other] = tree_of([item], is_new=True)
        return other
    if node.inside:
        differing(node.inside, item.items)
        node.now = item
    else:
        if node.now.name != item.name or lookbacks_of(node.now) != lookbacks_of(item):
            node.following = ()
        node.now = item
    return node
