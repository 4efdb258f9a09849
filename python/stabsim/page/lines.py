"""Edits of whole lines of a circuit's text: made a block, taken out of one, reversed, or written anew."""

from collections.abc import Iterable, Sequence
from dataclasses import dataclass, replace

from stabsim.page.edits import Edit
from stabsim.page.following import SESSIONS
from stabsim.session.record_trees import Level, differing, level_of
from stabsim.session.retargeting import head_of
from stabsim.session.retargeting_order import Written, edits_to
from stabsim.session.rounds import place_behind
from stabsim.text import names
from stabsim.text.reading import Block, Instruction, Item, items_of

# How many lines a block may become that is taken apart.
MOST_LINES = 5000


@dataclass(frozen=True)
class LineEdits:
    """What is done with lines: its name in the history, the edits that leave each record and its lookbacks as they are, and those after
    them in which lookbacks follow."""

    name: str
    first: Sequence[Edit]
    then: Sequence[Edit] = ()


def items_at(circuit: str, place: str, count: int) -> tuple[Item, ...]:
    """Some items, from the one at a path on; ValueError if there are not as many."""
    items = items_of(circuit)
    *outer, first = map(int, place.split("/"))
    for at in outer:
        items = items[at].items
    if not 0 < count <= len(items) - first:
        raise ValueError("there are no such lines")
    return items[first:first + count]


def repeated(circuit: str, place: str, count: int, rounds: int) -> LineEdits:
    """Makes lines a block of some rounds. They become one of a single round first, so that it is known which records are the last round's."""
    if rounds < 1:
        raise ValueError("a block has one round or more")
    items = items_at(circuit, place, count)
    once = [Edit("insert", place, str(Block(0, 1, items=items)))] + [Edit("delete", place_behind(place)) for _ in items]
    return LineEdits(f"make REPEAT {rounds} of {said_of(count)}", once, [Edit("replace", place, str(Block(0, rounds, items=items)))] if rounds > 1 else [])


def taken_out(circuit: str, place: str) -> LineEdits:
    """Writes all rounds of a block out in its place."""
    [block] = items_at(circuit, place, 1)
    if not isinstance(block, Block):
        raise ValueError("this is no block")
    lines = len(block.items) * block.repeat
    if lines > MOST_LINES:
        raise ValueError(f"they would be {lines} lines, and no more than {MOST_LINES} are made: take single rounds out")
    written = [Edit("insert", place_behind(place, number), str(item)) for number, item in enumerate(block.items * block.repeat)]
    return LineEdits(f"take {place} out of REPEAT {block.repeat}", [*written, Edit("delete", place_behind(place, lines))])


def reversed_(circuit: str, place: str, count: int) -> LineEdits:
    """Puts the inverses of lines in their places, the last one first."""
    items = items_at(circuit, place, count)
    turned = [str(inverse(item)) for item in reversed(items)]
    edits = [Edit("replace", place_behind(place, number), text) for number, text in enumerate(turned) if text != str(items[number])]
    if not edits:
        raise ValueError("they are their own inverse")
    return LineEdits(f"reverse {said_of(count)}", edits)


def inverse(item: Item) -> Item:
    """What takes an item back."""
    if isinstance(item, Block):
        return replace(item, items=tuple(map(inverse, reversed(item.items))))
    if item.name not in (*names.ONE_QUBIT, *names.TWO_QUBITS, "TICK"):
        raise ValueError(f"{item} can't be reversed: gates, ticks, and blocks of them can")
    size = 2 if item.name in names.TWO_QUBITS else 1
    groups = [item.targets[at:at + size] for at in range(0, len(item.targets), size)]
    return Instruction(item.line, names.INVERSES.get(item.name, item.name), item.tag, item.arguments, tuple(target for group in reversed(groups) for target in group))


def said_of(count: int) -> str:
    return "1 line" if count == 1 else f"{count} lines"


def between(before: str, after: str) -> list[Edit]:
    """The edits, of the items that differ, that make one circuit's text of another's, in an order in which each is taken."""
    root = level_of(items_of(before))
    differing(root, items_of(after))
    root.settle()
    return [Edit(SESSIONS[kind], place, words[0] if words else "") for kind, place, *words in edits_to(root, list(written_of(root)))]


def written_of(level: Level) -> Iterable[Written]:
    """The items of a list as they are to be, with lookbacks as they are written."""
    for node in level.new:
        if node.inside is None:
            yield Written(node, str(node))
        else:
            rounds = node.now.repeat or 1
            yield Written(node, head_of(node, rounds), tuple(written_of(node.inside)), rounds)
