"""Where errors of a circuit's noise are in the circuit without it."""

from collections.abc import Sequence
from dataclasses import replace

from stabsim.noise.marking import Source, paulis_of
from stabsim.questions.circuit_errors import CircuitError
from stabsim.text.names import FIRST, NOISE
from stabsim.text.reading import Block, Instruction, Item, without
from stabsim.text.sizes import Sizes, sizes_of


def placed(items: Sequence[Item], source: Source, rounds: Sequence[int], at: int) -> CircuitError:
    """The error of a source in some rounds, from the outermost block on, and of its times in these the one of a number.

    items: those of the circuit with noise. Steps, records and paths are counted without it.
    """
    before, place = Sizes(), 0
    for item in items:
        if isinstance(item, Block) and item.line < source.line < item.end:
            inner = placed(item.items, source, rounds[1:], at)
            before = before.before(sizes_of(without(item.items, NOISE)), rounds[0])
            record = None if inner.record is None else before.records + inner.record
            return replace(inner, steps=before.steps + inner.steps, path=f"{place}/{inner.path}", record=record)
        if isinstance(item, Instruction) and is_of(item, source):
            return at_item(item, source, at, CircuitError(before.steps, str(place), record=before.records))
        quiet = list(without([item], NOISE))
        before, place = before.before(sizes_of(quiet), 1), place + len(quiet)
    raise ValueError(f"there is no noise in line {source.line}")


def is_of(item: Instruction, source: Source) -> bool:
    """Whether an item has the error of a source. Of a line of heralded errors each target has an item."""
    is_named = (item.line, item.name) == (source.line, source.name)
    return is_named and (item.name != FIRST or paulis_of(item).keys() <= set(source.targets))


def at_item(item: Instruction, source: Source, at: int, before: CircuitError) -> CircuitError:
    """The error of a source at its item, before which there are this many steps and records."""
    if not source.is_record:
        each = len(source.letters)
        paulis = zip(map(int, source.targets[at * each : (at + 1) * each]), source.letters)
        return replace(before, paulis=tuple((qubit, letter) for qubit, letter in paulis if letter != "I"), record=None)
    # What is measured may be measured by the item several times: it is the record of as many as are counted.
    target = source.targets[at]
    same = [number for number, its in enumerate(item.targets) if its == target]
    number = same[source.targets[:at].count(target)]
    assert before.record is not None
    return replace(before, steps=before.steps + number, record=before.record + number)
