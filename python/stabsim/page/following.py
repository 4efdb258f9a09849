"""Edits of the page that have lookbacks follow the records that they name."""

from collections.abc import Callable, Sequence
from dataclasses import dataclass

import stabsim
from stabsim.page.edits import Edit, Kind
from stabsim.page.nearby import Nearby, nearby
from stabsim.session.record_trees import level_of
from stabsim.session.retargeting import followed as records_followed
from stabsim.session.retargeting_order import edits_to
from stabsim.text import names
from stabsim.text.reading import items_of, walk


# The edits of a session, by their names.
SESSIONS: dict[str, Kind] = {"insert": "insert", "replace": "replace", "delete": "delete", "split": "split"}


@dataclass
class Followed:
    """The edits to be made; which detectors and observables they take a record from; and the paths of blocks off which the first round is
    split, one after another."""

    edits: Sequence[Edit]
    lost: tuple[str, ...] = ()
    split_off: tuple[str, ...] = ()


def following(session: stabsim.Session, edits: Sequence[Edit], text: Callable[[], str]) -> Followed:
    """What makes edits of a session's circuit, which `text` answers, so that each lookback goes on naming its record. Edits that bring, take
    and move no records are as they are."""
    if not any(changes_records(session, edit, len(edits) > 1) for edit in edits):
        return Followed(edits)
    return followed(text(), edits)


def followed(circuit: str, edits: Sequence[Edit]) -> Followed:
    """The same of edits that bring, take or move records."""
    try:
        near = nearby(circuit, edits)
        root = level_of(items_of(near.text))
        written, lost = records_followed(root, [(edit.kind, near.inwards(edit.place), edit.item) for edit in edits])
    except (ValueError, IndexError):
        # What is wrong is said of the whole circuit.
        near = Nearby(circuit, 1, 0)
        root = level_of(items_of(circuit))
        written, lost = records_followed(root, [(edit.kind, edit.place, edit.item) for edit in edits])
    found = [Edit(SESSIONS[kind], near.outwards(place), words[0] if words else "") for kind, place, *words in edits_to(root, written)]
    return Followed(found, tuple(map(near.bit, lost)), tuple(edit.place for edit in found if edit.kind == "split"))


def changes_records(session: stabsim.Session, edit: Edit, is_moved: bool) -> bool:
    """Whether an edit brings or takes records, as far as that can be seen: of several edits each moves the places of the others."""
    if edit.kind == "delete" and is_moved:
        return True
    try:
        before = "" if edit.kind == "insert" or is_moved else session.item(edit.place)
        return makes_records(edit.item) or makes_records(before)
    except stabsim.Refused:
        # The session says what is wrong.
        return False


def makes_records(text: str) -> bool:
    return any(item.name in names.MEASUREMENTS for item in walk(items_of(text)))
