"""Numbers of a circuit: qubits, observables, unrolled steps and records, and how far back it looks."""

from collections.abc import Iterable, Iterator
from typing import Any

from .reading import COLLAPSES, CONTROLLED, MOST_STEPS, Block, Item, Operation, Refused

# An unrolled step, which begins with its kind.
Step = tuple[Any, ...]


def measuring(factors: list[tuple[str, int]], inverted: int, recorded: bool = True, resets: bool = False) -> Step:
    """The step that measures letters on qubits: whether its record is inverted, whether it has one, and whether its qubit is reset."""
    return "measure", tuple(factors), inverted, recorded, resets


def steps_of(operation: Operation) -> list[Step]:
    """The unrolled steps of one instruction, in order."""
    name, targets = operation.name, operation.targets
    if name == "DETECTOR":
        return [("detector", tuple(targets))]
    if name == "OBSERVABLE_INCLUDE":
        return [("observable", operation.number, tuple(targets))]
    if name in ("TICK", "QUBIT_COORDS", "SHIFT_COORDS"):
        return []
    if name == "MPP":
        return [measuring([factor[:2] for factor in factors], sum(inverted for *_, inverted in factors) % 2) for factors in targets]
    if name in COLLAPSES:
        letter, recorded, resets = COLLAPSES[name]
        return [measuring([(letter, qubit)], int(inverted), recorded, resets) for qubit, inverted in targets]
    if name in CONTROLLED or name == "SWAP":
        return [("controlled", CONTROLLED[name], first[1], second) if isinstance(first, tuple) else ("gate", name, first, second)
                for first, second in zip(targets[::2], targets[1::2])]
    return [("gate", name, qubit) for qubit in targets]


def lookbacks(step: Step) -> list[int]:
    if step[0] in ("detector", "observable"):
        return list(step[-1])
    return [step[2]] if step[0] == "controlled" else []


def records_of(step: Step) -> int:
    return int(step[0] == "measure" and step[3])


def uses_coin(step: Step) -> bool:
    return bool(step[0] == "measure")


def qubits_of(step: Step) -> list[int]:
    """The qubits that a step acts on, except for a control."""
    if step[0] == "gate":
        return list(step[2:])
    return [step[3]] if step[0] == "controlled" else [qubit for _, qubit in step[1]] if step[0] == "measure" else []


def summary(items: Iterable[Item]) -> tuple[int, int, int]:
    """Steps, records, and how many records must be before: all counted without unrolling."""
    steps = records = need = 0
    for item in items:
        if isinstance(item, Block):
            inner_steps, inner_records, inner_need = summary(item.body)
            need = max(need, inner_need - records)
            steps += item.count * inner_steps
            records += item.count * inner_records
            continue
        for step in steps_of(item):
            for lookback in lookbacks(step):
                need = max(need, lookback - records)
            records += records_of(step)
            steps += 1
    return steps, records, need


def check(items: Iterable[Item]) -> None:
    """Refuses a whole circuit: 8 before 9."""
    steps, _, need = summary(items)
    if need > 0:
        raise Refused(8)
    if steps > MOST_STEPS:
        raise Refused(9)


def operations(items: Iterable[Item]) -> Iterator[Operation]:
    """The instructions, once each."""
    for item in items:
        yield from operations(item.body) if isinstance(item, Block) else [item]


def qubits_named(item: Operation) -> list[int]:
    return item.targets if item.name == "QUBIT_COORDS" else [qubit for step in steps_of(item) for qubit in qubits_of(step)]


def qubits(items: Iterable[Item]) -> int:
    """One more than the greatest qubit, or 0."""
    return 1 + max((qubit for item in operations(items) for qubit in qubits_named(item)), default=-1)


def observables(items: Iterable[Item]) -> int:
    """One more than the greatest observable, or 0."""
    return 1 + max((item.number for item in operations(items) if item.number is not None), default=-1)


def unrolled(items: Iterable[Item], above: str = "") -> Iterator[tuple[str, Operation]]:
    """The unrolled instructions, each with the path of its item."""
    for place, item in enumerate(items):
        if not isinstance(item, Block):
            yield f"{above}{place}", item
        elif summary(item.body)[0] > 0:
            for _ in range(item.count):
                yield from unrolled(item.body, f"{above}{place}/")


def placed_steps(items: Iterable[Item]) -> list[tuple[str, Step]]:
    """The unrolled steps, each with the path of its item."""
    return [(path, step) for path, operation in unrolled(items) for step in steps_of(operation)]


def unroll(items: Iterable[Item]) -> list[Step]:
    return [step for _, step in placed_steps(items)]
