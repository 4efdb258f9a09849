"""What is between two ticks, with the rounds of blocks written out, and circuits with marks at ticks."""

import itertools
from collections.abc import Collection, Iterable, Iterator, Sequence
from dataclasses import dataclass

from stabsim import checking
from stabsim.text.reading import Block, Instruction, Item
from stabsim.text.sizes import Sizes, sizes_of


@dataclass(frozen=True)
class Placed:
    """An instruction in the run: how many ticks, records and detectors come before it."""

    item: Instruction
    tick: int
    records: int
    detectors: int


def placed(items: Iterable[Item], ticks: range, before: Sizes = Sizes()) -> Iterator[Placed]:
    """The instructions of these ticks, in the order of the run; tick 0 begins with the circuit, and tick k with its k-th TICK."""
    for item in items:
        if before.ticks >= ticks.stop:
            return
        once = sizes_of(item.items if isinstance(item, Block) else (item,))
        if isinstance(item, Block):
            yield from rounds_of(item, once, ticks, before)
            before = before.before(once, item.repeat)
        else:
            before_it, before = before, before.before(once, 1)
            if before_it.ticks in ticks and item.name != "TICK":
                yield Placed(item, before_it.ticks, before_it.records, before_it.detectors)


def rounds_of(block: Block, once: Sizes, ticks: range, before: Sizes) -> Iterator[Placed]:
    """The instructions of the rounds of a block that reach into some ticks."""
    rounds = range(block.repeat)
    if once.ticks:
        first = max(0, (ticks.start - before.ticks) // once.ticks - 1)
        rounds = range(first, min(block.repeat, max(0, (ticks.stop - before.ticks) // once.ticks + 1)))
    elif before.ticks not in ticks:
        return
    for number in rounds:
        yield from placed(block.items, ticks, before.before(once, number))


def numbers_of(tick: int | range | Sequence[int], count: int) -> list[int]:
    """The ticks that are asked for; IndexError at one that a circuit of this many lacks."""
    wanted = [checking.whole("tick", it) for it in (tick if isinstance(tick, Iterable) else [tick])]
    if not wanted:
        raise ValueError(f"tick is {checking.shown(tick)}: give one tick, as 3, or several, as range(3, 6)")
    for it in wanted:
        if not 0 <= it <= count:
            raise IndexError(f"tick {it} is not from 0 to {count}: tick 0 is the beginning, and tick k the k-th TICK")
    return wanted


def marked_at(items: Iterable[Item], ticks: Collection[int], mark: str) -> Iterator[str]:
    """The lines of items with a mark at some of their ticks, counted from 1, and no other: instructions `I` are left out. Of a block the rounds
    that are marked alike are one."""
    before = 0
    for item in items:
        once = sizes_of(item.items if isinstance(item, Block) else (item,)).ticks
        if isinstance(item, Block):
            for rounds, its in marked_rounds(ticks, before, once, item.repeat):
                body = list(marked_at(item.items, its, mark))
                # Without its idle gates a body may be empty.
                yield from [f"REPEAT {rounds} {{", *body, "}"] if body else []
            before += once * item.repeat
            continue
        before += once
        if once and before in ticks:
            yield mark
        if item.name != "I":
            yield str(item)


def marked_rounds(ticks: Collection[int], before: int, once: int, repeat: int) -> list[tuple[int, set[int]]]:
    """Rounds of a block of this many ticks each, before which there are some: how many after each other have which of the ticks, counted in the
    round from 1."""
    of_round: dict[int, set[int]] = {}
    for tick in ticks:
        if before < tick <= before + once * repeat:
            number, place = divmod(tick - before - 1, once)
            of_round.setdefault(number, set()).add(place + 1)
    runs: list[tuple[int, set[int]]] = []
    end = 0
    for number, its in sorted(of_round.items()):
        runs += [(number - end, set[int]())] * (number > end) + [(1, its)]
        end = number + 1
    runs += [(repeat - end, set[int]())] * (repeat > end)
    return [(sum(rounds for rounds, _ in alike), its) for its, alike in itertools.groupby(runs, key=lambda run: run[1])]
