"""Errors put into a session at steps of the written out circuit, inside blocks and items too."""

from collections.abc import Iterable
from dataclasses import dataclass, replace
from typing import TYPE_CHECKING

from stabsim.questions.circuit_errors import CircuitError
from stabsim.text import names
from stabsim.text.reading import Block, Instruction, Item, items_of
from stabsim.text.sizes import sizes_of

if TYPE_CHECKING:
    from stabsim.session.session import Session


@dataclass(frozen=True)
class Found:
    """Where a step or a record is: the item at a path, how many of its own are in front within it, and of the outermost block of several
    rounds around it the path and the round."""

    path: str
    item: Instruction | None
    offset: int = 0
    block: str = ""
    round_number: int = 0


def located(items: tuple[Item, ...], number: int, is_record: bool, above: str = "") -> Found:
    """Where the step, or record, of a number is, counted from 0: past all of the steps it is after all items. IndexError if there is
    none."""
    for place, item in enumerate(items):
        path = f"{above}{place}"
        its = sizes_of(item.items if isinstance(item, Block) else (item,))
        once = its.records if is_record else its.steps
        if number >= once * (item.repeat or 1):
            number -= once * (item.repeat or 1)
        elif isinstance(item, Block):
            inner = located(item.items, number % once, is_record, f"{path}/")
            return replace(inner, block=path, round_number=number // once) if item.repeat > 1 else inner
        else:
            return Found(path, item, number)
    if number or is_record:
        raise IndexError(f"there {'is no such record' if is_record else 'are not as many steps'} in the circuit")
    return Found(f"{above}{len(items)}", None)


def by_itself(session: "Session", number: int, is_record: bool) -> Found:
    """Where a step or record is, once the rounds around it are split off their blocks."""
    found = located(items_of(session.printed()), number, is_record)
    while found.block:
        session.split(found.block, found.round_number)
        found = located(items_of(session.printed()), number, is_record)
    session.write_out(found.path)
    return found


def put_in(session: "Session", errors: Iterable[CircuitError]) -> None:
    """Puts errors in, the last one first, so that the places of the others stay. They may be on spare qubits: these are reset before a record."""
    every = list(errors)
    for error in sorted((it for it in every if it.record is None), key=lambda it: -it.steps):
        put_paulis(session, error)
    for error in every:
        if error.record is not None:
            invert(session, error.record)


def put_paulis(session: "Session", error: CircuitError) -> None:
    """Puts Paulis in, in front of a step. An item of which some steps come before is cut in two: its later part comes first, so that no
    record is missing on the way."""
    found = by_itself(session, error.steps, False)
    path = found.path
    if found.item and found.offset:
        cut = found.offset * (2 if found.item.name in names.TWO_QUBITS else 1)
        first, second = (str(replace(session.plain(found.item), targets=its)) for its in (found.item.targets[:cut], found.item.targets[cut:]))
        *outer, last = path.split("/")
        path = "/".join([*outer, str(int(last) + 1)])
        session.insert_item(path, second)
        session.replace_item(found.path, first)
    for qubit, letter in error.paulis:
        session.insert_item(path, f"{letter} {qubit}")


def invert(session: "Session", record: int) -> None:
    """Inverts the target that makes a record."""
    found = by_itself(session, record, True)
    assert found.item, "a record is made by an item"
    targets = list(found.item.targets)
    target = targets[found.offset]
    targets[found.offset] = target.removeprefix("!") if target.startswith("!") else f"!{target}"
    session.replace_item(found.path, str(replace(session.plain(found.item), targets=tuple(targets))))
