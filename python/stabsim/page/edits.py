"""Edits as the page and the session speak of them, and how each is undone."""

import dataclasses
from typing import Any, Literal, NamedTuple

from stabsim.page.opening import Opened
from stabsim.session.rounds import longest_part, parts_of_block, place_behind
from stabsim.text.carrying import written_back

Kind = Literal["insert", "replace", "delete", "split", "open"]
# What a tab may ask for as an edit; a split and another circuit it asks for by themselves.
KINDS: tuple[Kind, ...] = ("insert", "replace", "delete")
# Words of items whose coming or going moves detectors, observables or coordinates.
MOVING = ("DETECTOR", "OBSERVABLE", "COORDS", "REPEAT")


class Edit(NamedTuple):
    """An edit at a place, the path of an item as `edit` counts them, with the text of the item that it puts in. For a split that
    is the number of the round, and `block` the text of the block, as the program prints it. That which opens another circuit has its name as
    the place, and its text as the item; `source` is that circuit."""

    kind: Kind
    place: str
    item: str = ""
    block: str = ""
    source: Opened | None = None

    @classmethod
    def of_message(cls, message: dict[str, Any]) -> "Edit":
        """What a tab asks for; ValueError if it is no edit."""
        kind, place, item = message.get("kind"), message.get("place"), message.get("item", "")
        if kind not in KINDS or not isinstance(place, str) or not isinstance(item, str):
            raise ValueError("no edit")
        return cls(kind, place, item.strip())

    def message(self) -> dict[str, Any]:
        return {"kind": self.kind, "place": self.place, "item": self.item}

    def first_line(self) -> str:
        """What names it in the history."""
        return f"open {self.place}" if self.kind == "open" else self.lines().split("\n")[0]

    def may_move_bits(self) -> bool:
        """Whether bits may come, go or move if its item is put in or taken out."""
        return self.kind == "open" or any(word in self.item.upper() for word in MOVING)

    def lines(self) -> str:
        """The lines of an edit script that make it. A script that is not framed knows no split, so that is made of its parts."""
        if self.kind == "open":
            return ""
        if self.kind == "split":
            return "".join(edit.lines() for edit in splitting(self.place, written_back(self.block, comments=False), int(self.item)))
        return f"{self.kind} {self.place} {self.item}".strip() + "\n"


def moves_bits(edit: Edit, undone: list[Edit]) -> bool:
    """Whether bits may come, go or move by an edit and what takes it back. A split moves none, nor does it if the records of a detector or of
    an observable are others."""
    if edit.kind == "split" or edit.kind == "replace" and is_listing(edit.item) and without_records(edit.item) == without_records(undone[0].item):
        return False
    return any(it.may_move_bits() for it in [edit, *undone])


def is_listing(item: str) -> bool:
    return item.startswith(("DETECTOR", "OBSERVABLE_INCLUDE"))


def without_records(item: str) -> str:
    return item.split(" rec[", 1)[0]


@dataclasses.dataclass
class Made:
    """Edits that were made, those that take them back, whether bits may have come, gone or moved, and what was flipped, if the session does not
    say it."""

    forth: list[Edit] = dataclasses.field(default_factory=list)
    back: list[Edit] = dataclasses.field(default_factory=list)
    moves_bits: bool = False
    changed: list[str] | None = None

    def add(self, edit: Edit, undone: list[Edit]) -> None:
        self.forth.append(edit)
        self.back[:0] = undone
        self.moves_bits |= moves_bits(edit, undone)
        self.changed = None


def name_of(edits: list[Edit]) -> str:
    """What names several edits in the history that are made as one."""
    more = f" and {len(edits) - 1} more" if len(edits) > 1 else ""
    return edits[0].first_line() + more


def undoing(edit: Edit, old: str) -> list[Edit]:
    """The edits that take one back, with `old` the text of the item at its place before it."""
    if edit.kind == "insert":
        return [Edit("delete", edit.place)]
    if edit.kind == "split":
        return joining(edit.place, written_back(old, comments=False).strip(), int(edit.item))
    return [Edit("insert" if edit.kind == "delete" else "replace", edit.place, old.strip())]


def joining(place: str, block: str, number: int) -> list[Edit]:
    """The edits that take a split back: the longest part becomes the whole block, and the others go, the last one first. So there
    are never fewer records than at the end, and no lookback is refused on the way."""
    parts = parts_of_block(block, number)
    longest = longest_part(parts)
    others = [it for it in reversed(range(len(parts))) if it != longest]
    return [Edit("replace", place_behind(place, longest), block)] + [Edit("delete", place_behind(place, it)) for it in others]


def splitting(place: str, block: str, number: int) -> list[Edit]:
    """The edits that split one round off a block for those who know no `split`.

    The later parts are put in first, and the first part takes the place of the block last: so there are never fewer records
    than before, and no lookback is refused on the way.
    """
    first, *others = (part.text for part in parts_of_block(block, number))
    return [Edit("insert", place_behind(place), part) for part in reversed(others)] + [Edit("replace", place, first)]
