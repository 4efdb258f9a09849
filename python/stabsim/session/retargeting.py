"""Edits of a circuit whose lookbacks go on naming the records that they named."""

from collections.abc import Callable, Iterable, Iterator, Sequence
from dataclasses import dataclass
from typing import TYPE_CHECKING

import numpy as np
from numpy.typing import NDArray

from stabsim.session.record_trees import Level, Node, level_of, replaced, tree_of
from stabsim.session.retargeting_order import RecordEdit, Written, edits_to
from stabsim.session.script import path_text
from stabsim.text import names
from stabsim.text.reading import Item, headed, items_of

if TYPE_CHECKING:
    from stabsim.circuit.circuit import Circuit

Put = Callable[[Item, Item], Item]
# How many rounds of a block may be taken out, since their lookbacks out of it can't be the same.
MOST_ROUNDS = 1000


@dataclass(frozen=True)
class Retargeted:
    """A circuit after edits, with lookbacks that follow their records.

    text: str, the circuit's; records: where each record is now, int64 (records,), -1 for one that is gone; lost: the detectors and observables that
    lost a record, as `D3` and `L0` by their numbers now; edits: those that a session makes, one after another, of the circuit before,
    each of which it takes: ("split", path, round), ("insert", path, text), ("replace", path, text) or ("delete", path).

    >>> import stabsim
    >>> made = stabsim.retargeted(stabsim.Circuit("M 0\\nM 1\\nDETECTOR rec[-1] rec[-2]"), [("delete", 0)])
    >>> made.records, made.lost, made.edits
    (array([-1,  0]), ('D0',), (('replace', '2', 'DETECTOR rec[-1]'), ('delete', '0')))
    """

    text: str
    records: NDArray[np.int64]
    lost: tuple[str, ...]
    edits: tuple[RecordEdit, ...]


@dataclass(frozen=True)
class Frame:
    """A round of a list of items; of a block, with the places at which that was and is in the list around it."""

    level: Level
    round_number: int = 0
    was_at: int = 0
    at: int = 0


def retargeted(circuit: "Circuit", edits: Iterable[Sequence[object]]) -> Retargeted:
    """A circuit after edits: each lookback of the items that stay names the record that it named, and one that is gone leaves the lists that
    named it. In a block an edit is made in each round; the first rounds are taken out of it if their lookbacks out of it can't be
    the same. Raises Refused if an item is misshapen, ValueError if there is no such item, or if a record would come after an
    item that names it.

    edits: ("insert", path, text), ("replace", path, text), ("delete", path), or ("move", path, to) in front of the item at `to`, made in
    their order. What one takes out and another puts in again, with the same text in the same list, is moved and stays the same. Lookbacks
    of what is put in are those of the circuit that the edits make.

    >>> import stabsim
    >>> circuit = stabsim.Circuit("REPEAT 2 {\\n    MR 0\\n}\\nM 1\\nDETECTOR rec[-1] rec[-3]")
    >>> made = stabsim.retargeted(circuit, [("insert", "0/1", "M 2")])
    >>> print(made.text, made.records)
    REPEAT 2 {
        MR 0
        M 2
    }
    M 1
    DETECTOR rec[-1] rec[-5]
     [0 2 4]
    """
    return of_items(circuit.items, edits)


def of_items(items: Iterable[Item], edits: Iterable[Sequence[object]], put: Put = lambda old, new: new) -> Retargeted:
    """The same of a circuit's items. put: what comes in the place of one item for another."""
    root = level_of(items)
    written, lost = followed(root, edits, put)
    text = "".join(f"{it}\n" for it in written)
    return Retargeted(text, records_of(root), lost, tuple(edits_to(root, written)))


def followed(root: Level, edits: Iterable[Sequence[object]], put: Put = lambda old, new: new) -> tuple[list[Written], tuple[str, ...]]:
    """Makes edits of a tree; answers its items after them, and what lost a record."""
    for edit in edits:
        apply(root, edit, put)
    root.settle()
    written = Follower().items([Frame(root)])
    return written, tuple(dict.fromkeys(lost_of(written, [0])))


def apply(root: Level, edit: Sequence[object], put: Put) -> None:
    """Makes one edit of a tree."""
    kind, path = str(edit[0]), path_text(edit[1])  # type: ignore[arg-type]
    level, place = at_path(root, path, kind == "insert")
    if kind == "delete":
        del level.new[place]
    elif kind == "move":
        other, to = at_path(root, path_text(edit[2]), True)  # type: ignore[arg-type]
        if other is not level:
            raise ValueError(f"item {path} is moved within its list alone")
        node = level.new.pop(place)
        level.new.insert(to - (to > place), node)
    elif kind in ("insert", "replace"):
        item, old = item_of(str(edit[2])), level.new[place] if kind == "replace" else None
        level.new[place:place + bool(old)] = [replaced(old, put(old.now, item))] if old else tree_of([item], is_new=True)
    else:
        raise ValueError(f"{kind} is no edit: there are insert, replace, delete and move")


def item_of(text: str) -> Item:
    items = items_of(text)
    if len(items) != 1:
        raise ValueError(f"{text!r} is not one item: give one instruction, or one whole block")
    return items[0]


def at_path(root: Level, path: str, is_end_too: bool) -> tuple[Level, int]:
    """The list that a path leads to, and the place in it; ValueError if there is none."""
    level, (*outer, last) = root, map(int, path.split("/"))
    for place in outer:
        inside = level.new[place].inside if place < len(level.new) else None
        if inside is None:
            raise ValueError(f"there is no block on the way to {path}")
        level = inside
    if last >= len(level.new) + is_end_too:
        raise ValueError(f"there is no item {path}")
    return level, last


class Follower:
    """Writes the items of a tree after the edits."""

    def __init__(self) -> None:
        # What instructions become whose lookbacks stay in the block: the same in each round.
        self.staying: dict[int, Written | None] = {}
        # The lookbacks of other instructions in the round that was written last, and what they became by them: often the same as in the next one.
        self.last: dict[int, tuple[list[int | None], Written | None]] = {}

    def items(self, frames: list[Frame]) -> list[Written]:
        """The items of the last frame's list, in its round."""
        found: list[Written] = []
        for place, node in enumerate(frames[-1].level.new):
            if node.inside is not None:
                found += self.block(node, place, frames)
            elif node.following:
                written = self.followed(node, place, frames)
                found += [written] if written else []
            else:
                found.append(Written(node, str(node)))
        return found

    def block(self, node: Node, place: int, frames: list[Frame]) -> list[Written]:
        """A block, of which the first rounds are blocks by themselves if they are others than the last ones."""
        inside, repeat = node.inside, node.now.repeat or 1
        assert inside
        was_at = frames[-1].level.place_was.get(id(node), 0)
        reach = inside.reach() if inside.follows else 0
        alike_from = 0 if reach <= 0 else -(-reach // inside.had) if inside.had else repeat
        count = min(alike_from, repeat - 1) + 1
        if count > MOST_ROUNDS:
            raise ValueError(f"{count} rounds of {head_of(node, repeat)} would have to be taken out of it: their lookbacks can't be the same")
        bodies = [tuple(self.items([*frames, Frame(inside, number, was_at, place)])) for number in range(count)]
        apart = count - 1
        while apart and bodies[apart - 1] == bodies[-1]:
            apart -= 1
        parts = [(1, body) for body in bodies[:apart]] + [(repeat - apart, bodies[-1])]
        return [Written(node, head_of(node, rounds), body, rounds, any(it.has_lost for it in body)) for rounds, body in parts]

    def followed(self, node: Node, place: int, frames: list[Frame]) -> Written | None:
        """An instruction with its records where they are now; None if it acts by records alone, and all of them are gone."""
        level, back = frames[-1].level, max(node.following)
        was_at = level.place_was[id(node)]
        if level.is_steady(was_at, place, back):
            return Written(node, str(node))
        if back > level.had_before[was_at] + frames[-1].round_number * level.had:
            return self.moved(node, was_at, place, frames)
        if id(node) not in self.staying:
            self.staying[id(node)] = self.moved(node, was_at, place, frames)
        return self.staying[id(node)]

    def moved(self, node: Node, was_at: int, place: int, frames: list[Frame]) -> Written | None:
        """The same of an instruction that was, and is, at a place of the last frame's list."""
        backs = [lookback(frames, was_at, place, back) for back in node.following]
        known, written = self.last.get(id(node), (None, None))
        if backs != known:
            written = with_lookbacks(node, backs)
            self.last[id(node)] = backs, written
        return written


def with_lookbacks(node: Node, backs: Iterable[int | None]) -> Written | None:
    """An instruction with other lookbacks, without those that are None; None if it acts by records alone, and all of them are gone."""
    head, *targets = str(node).rsplit(" ", len(node.now.targets))
    left = iter(backs)
    for number, target in enumerate(targets):
        if target[:5] != "rec[-":
            continue
        back = next(left)
        if back is not None and back <= 0:
            raise ValueError(f"{node}: the record that {target} names would come after it")
        targets[number] = "" if back is None else f"rec[-{back}]"
    has_lost = "" in targets
    if has_lost and node.now.name in names.FED_BACK:
        # A gate that is controlled by a record which is gone goes with it.
        targets = [it for pair in zip(targets[::2], targets[1::2]) if all(pair) for it in pair]
        if not targets:
            return None
    return Written(node, " ".join([head, *filter(None, targets)]), has_lost=has_lost)


def lookback(frames: Sequence[Frame], was_at: int, at: int, back: int) -> int | None:
    """How many records back a record is now that was `back` records back from an item; None if it is gone, 0 or less if it comes after
    it. The item was, and is, at a place of the last frame's list."""
    level = frames[-1].level
    now = level.went.get(level.had_before[was_at] - back)
    if now is not None:
        # Its list made it, in the same round.
        return level.has_before[at] - now
    far = 0
    for frame in reversed(frames):
        level = frame.level
        back, far = back - level.had_before[was_at], far + level.has_before[at]
        # In how many rounds before its own it is, if it is in this block.
        earlier = -(-back // level.had) if back > 0 and level.had else 0
        if back <= 0 or level.had and earlier <= frame.round_number:
            now = level.position(earlier * level.had - back)
            return None if now is None else far + earlier * level.has - now
        back -= frame.round_number * level.had
        far += frame.round_number * level.has
        was_at, at = frame.was_at, frame.at
    raise ValueError("a lookback reaches in front of the circuit")


def head_of(node: Node, repeat: int) -> str:
    return f"{headed('REPEAT', node.now.tag)} {repeat}"


def lost_of(written: Iterable[Written], counted: list[int]) -> Iterator[str]:
    """The detectors and observables that lost a record; `counted` has how many detectors come before."""
    for it in written:
        if it.items is not None and it.has_lost:
            for _ in range(it.rounds):
                yield from lost_of(it.items, counted)
        elif it.has_lost and it.node.now.name in ("DETECTOR", "OBSERVABLE_INCLUDE"):
            yield f"D{counted[0]}" if it.node.now.name == "DETECTOR" else f"L{it.node.now.arguments[0]}"
            counted[0] += it.node.now.name == "DETECTOR"
        else:
            counted[0] += detectors_in(it)


def detectors_in(it: Written) -> int:
    """How many detectors an item declares."""
    return it.node.now.name == "DETECTOR" if it.items is None else it.rounds * sum(map(detectors_in, it.items))


def records_of(level: Level) -> NDArray[np.int64]:
    """Where each record of a list is now, from its beginning on, -1 for one that is gone."""
    found = np.full(level.had, -1, dtype=np.int64)
    for place, node in enumerate(level.old):
        first = level.had_before[place]
        if not node.inside:
            for number in range(node.had):
                found[first + number] = level.went.get(first + number, -1)
        elif id(node) in level.place and node.inside.had:
            within = records_of(node.inside)
            rounds = np.arange(node.had // node.inside.had)[:, None] + node.more_rounds
            now = np.where((within < 0) | (rounds < 0), -1, level.has_before[level.place[id(node)]] + rounds * node.inside.has + within)
            found[first:first + node.had] = now.ravel()
    return found
