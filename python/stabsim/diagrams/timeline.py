"""A circuit along its time: a wire for each qubit, blocks drawn once in a frame, ticks as bands, noise, and what detectors are made of."""

import math
from collections.abc import Iterable
from dataclasses import dataclass, field

from stabsim.diagrams.elements import Element, Glyph, Path, Words, box, line
from stabsim.diagrams.marks import marks_of
from stabsim.diagrams.numbering import Numbering
from stabsim.diagrams.shapes import GATES
from stabsim.diagrams.targets import Action, actions_of
from stabsim.text import names
from stabsim.text.reading import Block, Instruction, Item, without
from stabsim.text.sizes import observable_of, sizes_of

ROW, COLUMN, SIDE = 44.0, 40.0, 26.0
LEFT, TOP = 52.0, 58.0
# How wide a letter is of a bit's words, of a record's or a chance's, and of a block's, and how high a line is of a bit's.
LETTER, SMALL, BOLD, LINE = 6.1, 5.5, 7.0, 14.0
FRAME = 14.0
MOST_RECORDS = 4
# The labels of channels that aren't of one letter.
CHANNELS = {"DEPOLARIZE1": "D1", "DEPOLARIZE2": "D2", "PAULI_CHANNEL_1": "P1", "PAULI_CHANNEL_2": "P2"}


@dataclass
class Timeline:
    """A picture that grows to the right.

    rows: the row of each qubit; x: where the tick that is drawn begins; columns: how many columns of it each row has filled; bits: lines
    of words below the wires, of the tick so far; depth: how many lines any tick has; numbered: where the number of the last tick ends.
    """

    rows: dict[int, int]
    under: list[Element] = field(default_factory=list)
    over: list[Element] = field(default_factory=list)
    x: float = LEFT
    columns: list[int] = field(default_factory=list)
    recorded: int = 0
    bits: list[str] = field(default_factory=list)
    depth: int = 0
    numbered: float = LEFT

    def __post_init__(self) -> None:
        self.columns = [0] * len(self.rows)

    @property
    def bottom(self) -> float:
        """Where the wires end and words of bits begin."""
        return TOP + len(self.rows) * ROW + 8

    def y(self, qubit: int) -> float:
        """The wire of a qubit."""
        return TOP + (self.rows[qubit] + 0.5) * ROW

    def items(self, items: Iterable[Item], now: Numbering) -> Numbering:
        """Draws items, and answers what is counted after them."""
        for item in items:
            if isinstance(item, Block):
                now = self.block(item, now)
            else:
                self.instruction(item, now)
                now = now.behind(sizes_of(without((item,), names.NOISE)), 1)
        return now

    def block(self, block: Block, now: Numbering) -> Numbering:
        """Draws one round of a block, in a frame."""
        self.end_part()
        left, self.x = self.x, self.x + FRAME
        once = sizes_of(without(block.items, names.NOISE))
        self.items(block.items, now.within(once, block.repeat))
        self.end_part()
        words = f"REPEAT {block.repeat}" + (f", round {now.letter}" if block.repeat > 1 else "")
        self.x = max(self.x, left + BOLD * len(words))
        inset = 8.0 * now.depth
        self.under.append(Path(box((left + 3, TOP - 18 + inset), self.x - left + FRAME - 6, self.bottom - TOP + 18 - 2 * inset, 6), stroke="quiet",
                               width=1.5))
        self.over.append(Words(words, left + 9, TOP - 26 + 11 * now.depth, 11, "ink", "start", weight=600, halo="sheet"))
        self.x += FRAME
        return now.behind(once, block.repeat)

    def instruction(self, item: Instruction, now: Numbering) -> None:
        """Draws one instruction in the first columns that are free."""
        if item.name == "TICK":
            self.end_part()
            self.tick(now)
        elif item.name == "DETECTOR":
            self.bits.append(f"D{now.detectors.text}: {records_text(item, now)}")
        elif item.name == "OBSERVABLE_INCLUDE":
            self.bits.append(f"L{observable_of(item)}: {records_text(item, now)}")
        else:
            for action in actions_of(item):
                self.action(action, now, chance_text(item))

    def tick(self, now: Numbering) -> None:
        """A dashed line at a tick, with the number of what begins there, to the right of the number of the tick before."""
        words = now.ticks.plus(1).text
        half = LETTER * len(words) / 2
        at = max(self.x + 4, self.numbered + half)
        self.under.append(Path(line((at, TOP - 6), (at, self.bottom)), stroke="edge", dash=(2, 4)))
        self.over.append(Words(words, at, TOP - 42, 10, "quiet"))
        self.x, self.numbered = at + 4, at + half

    def end_part(self) -> None:
        """Ends the columns of a tick, as wide as they and the words below are."""
        width = COLUMN * max(self.columns, default=0)
        for place, words in enumerate(self.bits):
            self.over.append(Words(words, self.x + 6, self.bottom + 16 + LINE * place, 10, "ink", "start", is_mono=True))
        if self.bits:
            width = max(width, 14 + LETTER * max(map(len, self.bits)))
        self.depth = max(self.depth, len(self.bits))
        self.x += width
        self.columns, self.recorded, self.bits = [0] * len(self.rows), 0, []

    def action(self, action: Action, now: Numbering, chance: str) -> None:
        """Draws what one target, pair or product does, with its record and the chance of an error."""
        words = record_text(action, now)
        if action.is_measured and chance:
            words, chance = f"{words}({chance})", ""
        its = [self.rows[qubit] for qubit in action.qubits]
        span = range(min(its), max(its) + 1)
        column = max([self.columns[row] for row in span] + [self.recorded] * bool(action.record))
        # Words that are wider than a column have several.
        wide = max(1, math.ceil(SMALL * max(len(words), len(chance)) / COLUMN))
        for row in span:
            self.columns[row] = column + wide
        if action.is_measured:
            self.recorded = max(self.recorded, column + wide)
        x = self.x + (column + wide / 2) * COLUMN
        ends = [(x, self.y(qubit)) for qubit in action.qubits]
        if len(ends) > 1:
            self.under.append(Path(line(min(ends), max(ends)), stroke="wire", width=1.8))
        self.glyphs(action, ends)
        if words:
            self.over.append(Words(words, x, max(y for _, y in ends) + SIDE * 0.5 + 7, 9, "quiet", is_mono=True, halo="sheet"))
        if chance:
            self.over.append(Words(chance, x, min(y for _, y in ends) - SIDE * 0.5 - 5, 9, "flip", is_mono=True, halo="sheet"))

    def glyphs(self, action: Action, ends: list[tuple[float, float]]) -> None:
        """The shapes of an action at its ends."""
        if action.name == "MPP":
            self.over += [Glyph("factor", *at, SIDE, letter[-1].lower(), letter) for letter, at in zip(action.letters, ends)]
        elif action.name in names.NOISE:
            letters = action.letters or names.FLIPS.get(action.name, "") * len(ends)
            self.over += [Glyph(letter, *at, SIDE, letter.lower(), letter) for letter, at in zip(letters, ends)]
            self.over += [Glyph("gate", *at, SIDE, "flip", CHANNELS[action.name]) for at in ends[len(letters):]]
        else:
            gate = GATES[action.name[-1] if action.record else action.name]
            self.over += marks_of(gate["marks"], {**gate, "label": "!" * action.is_inverted + gate.get("label", "")}, ends, SIDE).over


def record_text(action: Action, now: Numbering) -> str:
    """The record that an action makes, or that controls it."""
    if action.is_measured:
        return f"M{now.records.plus(action.place).text}"
    return f"if M{now.records.plus(-action.record).text}" if action.record else ""


def chance_text(item: Instruction) -> str:
    """The chance of an error that an instruction has, of several the sum of all."""
    if item.name not in names.NOISE and item.name not in names.MEASUREMENTS or not item.arguments:
        return ""
    return "Σ" * (len(item.arguments) > 1) + f"{sum(item.numbers()):.2g}"


def records_text(item: Instruction, now: Numbering) -> str:
    """The records of a detector or observable, by their numbers, and its Paulis."""
    added = [f"M{now.records.plus(int(target[4:-1])).text}" if target.startswith("rec[") else target.upper() for target in item.targets]
    return " ".join(added[:MOST_RECORDS] + [f"and {len(added) - MOST_RECORDS} more"] * (len(added) > MOST_RECORDS)) or "0"


def qubits_of(items: Iterable[Item]) -> set[int]:
    """The qubits on which something acts."""
    found: set[int] = set()
    for item in items:
        found |= qubits_of(item.items) if isinstance(item, Block) else {qubit for action in actions_of(item) for qubit in action.qubits}
    return found


def drawn_timeline(items: tuple[Item, ...]) -> tuple[list[Element], float, float]:
    """The picture of a circuit along its time, and its size."""
    picture = Timeline({qubit: row for row, qubit in enumerate(sorted(qubits_of(items)))})
    picture.items(items, Numbering())
    picture.end_part()
    end = picture.x + 10
    wires: list[Element] = []
    for qubit in picture.rows:
        wires.append(Path(line((LEFT - 12, picture.y(qubit)), (end, picture.y(qubit))), stroke="qubit"))
        wires.append(Words(f"q{qubit}", LEFT - 18, picture.y(qubit), 11, "ink", "end"))
    words: list[Element] = [Words("ticks", 8, TOP - 42, 10, "quiet", "start")] if any(it.name == "TICK" for it in names_in(items)) else []
    width = max([end + 16, *(it.x + LETTER * len(it.text) / 2 + 8 for it in picture.over if isinstance(it, Words) and it.anchor == "middle")])
    return [*wires, *words, *picture.under, *picture.over], width, picture.bottom + 24 + LINE * picture.depth


def names_in(items: Iterable[Item]) -> Iterable[Instruction]:
    """All instructions."""
    for item in items:
        if isinstance(item, Block):
            yield from names_in(item.items)
        else:
            yield item
