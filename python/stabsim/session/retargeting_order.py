"""The edits by which a session goes from a circuit to another one of the same tree, so that it takes each of them.

Rounds are split off first. What makes more records comes next, from the front to the end; then lookbacks and all else; what makes fewer
records comes last, from the end to the front. So there are never fewer records in front of an item than at the beginning or at the
end, and no lookback reaches in front of the circuit on the way.
"""

from bisect import bisect_left
from collections.abc import Iterator, Sequence
from dataclasses import dataclass
from typing import NamedTuple

from stabsim.session.record_trees import Level, Node
from stabsim.text.reading import indented

# An edit of a session: its kind, its path, and what it puts in, or the round that it splits off.
RecordEdit = tuple[str, ...]


class Written(NamedTuple):
    """An item as it is after the edits: its text, or that in front of a block's brace, with the items and rounds of the block.
    has_lost: whether it, or an item in it, lost a record."""

    node: Node
    text: str
    items: tuple["Written", ...] | None = None
    rounds: int = 1
    has_lost: bool = False

    def __str__(self) -> str:
        if self.items is None:
            return self.text
        return f"{self.text} {{\n{indented(''.join(f'{it}' + chr(10) for it in self.items))}}}"


@dataclass(eq=False, slots=True)
class Slot:
    """An item as the session has it by now; of a block its items say how it is written."""

    node: Node
    text: str
    items: "list[Slot] | None" = None
    # What it becomes; None if it goes.
    written: Written | None = None


def edits_to(root: Level, written: Sequence[Written]) -> Iterator[RecordEdit]:
    """The edits, in their order."""
    slots = slots_of(root.old)
    yield from splits(slots, written, "")
    yield from growing(slots, written, "")
    yield from changes(slots, "")
    yield from deletions(slots, "")


def slots_of(nodes: Sequence[Node]) -> list[Slot]:
    return [Slot(node, "", slots_of(node.inside.old)) if node.inside else Slot(node, node.before()) for node in nodes]


def copy_of(slot: Slot) -> Slot:
    return Slot(slot.node, slot.text, None if slot.items is None else list(map(copy_of, slot.items)))


def splits(slots: list[Slot], written: Sequence[Written], above: str) -> Iterator[RecordEdit]:
    """Finds what each item becomes, and splits the rounds off that are to be blocks by themselves."""
    staying = staying_of(slots, written)
    place, number = 0, 0
    while place < len(slots):
        node = slots[place].node
        if id(node) not in staying:
            place += 1
            continue
        while written[number].node is not node:
            number += 1
        parts = parts_at(written, number) if node.inside else written[number:number + 1]
        for rest, part in enumerate(parts):
            slot = slots[place]
            if rest < len(parts) - 1:
                yield "split", f"{above}{place}", "0"
                slots.insert(place + 1, copy_of(slot))
            slot.written = part
            if slot.items is not None and part.items is not None:
                yield from splits(slot.items, part.items, f"{above}{place}/")
            place += 1
        number += len(parts)


def parts_at(written: Sequence[Written], number: int) -> Sequence[Written]:
    """What one item becomes, from its first part on: parts of a block follow each other."""
    end = number
    while end < len(written) and written[end].node is written[number].node:
        end += 1
    return written[number:end]


def staying_of(slots: Sequence[Slot], written: Sequence[Written]) -> set[int]:
    """The nodes that stay where they are: of those that are there before and after, as many as come in the same order. A block with
    more or fewer rounds is put in anew."""
    place_was = {id(slot.node): place for place, slot in enumerate(slots)}
    both = dict.fromkeys(it.node for it in written if id(it.node) in place_was and not it.node.more_rounds)
    places = [place_was[id(node)] for node in both]
    if places == sorted(places):
        return set(map(id, both))
    # The longest run that goes up: `ends` has the least last place of a run of each length, and `before` the node in front of each.
    ends: list[int] = []
    last: list[Node] = []
    before: dict[int, Node | None] = {}
    for node, place in zip(both, places):
        length = bisect_left(ends, place)
        ends[length:length + 1] = [place]
        last[length:length + 1] = [node]
        before[id(node)] = last[length - 1] if length else None
    found, node_at = set(), last[-1] if last else None
    while node_at:
        found.add(id(node_at))
        node_at = before[id(node_at)]
    return found


def growing(slots: list[Slot], written: Sequence[Written], above: str) -> Iterator[RecordEdit]:
    """Puts in what is not there, and has items that make more records make them."""
    slot_of = {id(slot.written): slot for slot in slots if slot.written}
    place = 0
    for it in written:
        slot = slot_of.get(id(it))
        if slot is None:
            slots.insert(place, Slot(it.node, str(it), None, it))
            yield "insert", f"{above}{place}", str(it)
        else:
            while slots[place] is not slot:
                place += 1
            if slot.items is not None and it.items is not None:
                yield from growing(slot.items, it.items, f"{above}{place}/")
            elif slot.text != it.text and it.node.has > it.node.had:
                slot.text = it.text
                yield "replace", f"{above}{place}", it.text
        place += 1


def changes(slots: Sequence[Slot], above: str) -> Iterator[RecordEdit]:
    """Writes what makes as many records as it did, and is written otherwise."""
    for place, slot in enumerate(slots):
        it = slot.written
        if it and slot.items is not None:
            yield from changes(slot.items, f"{above}{place}/")
        elif it and it.items is None and slot.text != it.text and it.node.has >= it.node.had:
            slot.text = it.text
            yield "replace", f"{above}{place}", it.text


def deletions(slots: Sequence[Slot], above: str) -> Iterator[RecordEdit]:
    """Takes out what is gone, and has items that make fewer records make those."""
    for place in reversed(range(len(slots))):
        slot = slots[place]
        if slot.written is None:
            yield "delete", f"{above}{place}"
        elif slot.items is not None:
            yield from deletions(slot.items, f"{above}{place}/")
        elif slot.written.items is None and slot.text != slot.written.text:
            yield "replace", f"{above}{place}", slot.written.text
