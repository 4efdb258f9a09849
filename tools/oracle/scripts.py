"""Edit scripts: what lines ask for, what an edit leaves, and the replies."""

import re
from collections.abc import Callable, Iterator, Sequence
from dataclasses import replace

from . import formats, numbers, printing, states, sums, ways
from .numbers import Step
from .reading import (
    MOST_BYTES, MOST_DEPTH, REFUSALS, Block, Items, Path, Refused, block_at, content_of, item_at, item_of, product_of)
from .states import Factors, Run

MOST_LINE = 65_536
MOST_PLACE_DIGITS = 18
MOST_PLACE_NUMBERS = 17
FIRST_WORD = re.compile(rb"([^ \t\r]*)[ \t\r]*(.*)", re.DOTALL)
# The lists that any script shows, by their names in a run.
LISTS = {b"measurements": "records", b"free": "free", b"detectors": "detectors", b"observables": "observables"}


def first_word(text: bytes) -> tuple[bytes, bytes]:
    """The first word of a text, and what follows it without the spacing in front."""
    found = FIRST_WORD.match(text)
    assert found
    return found[1], found[2]


def number_of(word: bytes) -> int:
    """A number, or 13."""
    if not word.isdigit() or len(word) > MOST_PLACE_DIGITS:
        raise Refused(13)
    return int(word)


def number_within(word: bytes, most: int) -> int:
    """A number of steps, of which there are at most this many; or 2 or 12."""
    if not word.isdigit() or len(word) > MOST_PLACE_DIGITS:
        raise Refused(2)
    if int(word) > most:
        raise Refused(12)
    return int(word)


def place_of(word: bytes) -> Path:
    """The numbers of a path, or 13."""
    parts = word.split(b"/")
    if len(parts) > MOST_PLACE_NUMBERS:
        raise Refused(13)
    return [number_of(part) for part in parts]


def depth(items: Items) -> int:
    """How deep blocks are nested."""
    return max((1 + depth(item.body) for item in items if isinstance(item, Block)), default=0)


def changed(items: Items, path: Path, change: Callable[[Items, int], Items]) -> Items:
    """The items after a change of the list that a path leads to: 12 and 17 along it."""
    place, *inner = path
    if not inner:
        return change(items, place)
    block = block_at(items, place)
    return [*items[:place], replace(block, body=changed(block.body, inner, change)), *items[place + 1:]]


def steps_before(items: Items, path: Path) -> list[Step]:
    """The unrolled steps before a place, in the first round of each block around it."""
    place, *inner = path
    before = numbers.unroll(items[:place])
    return before + steps_before(block_at(items, place).body, inner) if inner else before


def place_numbers(steps: Sequence[Step]) -> tuple[int, ...]:
    """How many steps, records, detectors and coins."""
    detectors = sum(step[0] == "detector" for step in steps)
    return len(steps), sum(map(numbers.records_of, steps)), detectors, sum(map(numbers.uses_coin, steps))


def string_of_word(word: bytes, qubits: int) -> tuple[bool, Factors]:
    """A signed string by its letters, or by a product as MPP has it."""
    bare = word[1:] if word[:1] in (b"+", b"-") else word
    negative = word[:1] == b"-"
    if all(byte in b"I_XYZ" for byte in bare):
        if len(bare) != qubits:
            raise Refused(3)
        return negative, [(letter, qubit) for qubit, letter in enumerate(bare.decode()) if letter in "XYZ"]
    factors = product_of(bare)
    if any(qubit >= qubits for _, qubit, _ in factors):
        raise Refused(6)
    negative ^= sum(inverted for *_, inverted in factors) % 2 == 1
    return negative, [(letter, qubit) for letter, qubit, _ in factors]


def block_text(first: bytes, lines: Iterator[bytes]) -> bytes:
    """The text of a block that begins with a line, with the lines up to its end, or the last ones; 14 if one of them is too long, which
    neither opens nor closes."""
    opened, parts, is_short = 1, [first], True
    for line in lines:
        if len(line) > MOST_LINE:
            is_short = False
            continue
        parts.append(content_of(line))
        opened += -1 if parts[-1] == b"}" else int(parts[-1].endswith(b"{"))
        if opened == 0:
            break
    if not is_short:
        raise Refused(14)
    return b"\n".join(parts)


class Session:
    """The items between two lines of a script, and what the lines so far were replied. A counted one keeps the bits at the mark too; the
    first mark is at the opening."""

    def __init__(self, items: Items, qubits: int, coin: Callable[[int], int] = lambda number: 0, framed: bool = False) -> None:
        self.items = items
        self.qubits = qubits
        self.coin = coin
        self.framed = framed
        # The last run, and the items that it is of.
        self.ran: tuple[Items, Run] | None = None
        self.replies: list[bytes] = []
        self.refused = False
        if framed:
            self.mark = self.run()
            self.replies.append(b"ready 1 " + self.numbers())

    def run(self) -> Run:
        if self.ran is None or self.ran[0] is not self.items:
            self.ran = self.items, states.run_of(self.items, self.qubits, self.coin)
        return self.ran[1]

    def reply(self, text: bytes) -> None:
        """A reply that is no refusal, with its number of lines before it if the script is counted."""
        self.replies.append(b"ok %d\n%b" % (text.count(b"\n"), text) if self.framed else text)

    def edit(self, kind: bytes, path: Path, text: bytes) -> None:
        """Edits the items, unless something refuses it."""
        if len(text) > MOST_BYTES:
            raise Refused(14)
        put = [] if kind == b"delete" else [item_of(text)]
        taken = int(kind != b"insert")

        def change(items: Items, place: int) -> Items:
            if place + taken > len(items):
                raise Refused(12)
            return items[:place] + put + items[place + taken:]

        after = changed(self.items, path, change)
        if depth(after) > MOST_DEPTH:
            raise Refused(10)
        if numbers.qubits(after) > self.qubits:
            raise Refused(6)
        numbers.check(after)
        self.items = after
        self.reply(b"" if self.framed else b"ok\n")

    def split(self, path: Path, number: int) -> None:
        """Puts a round of the block at a path into a block by itself, between the rounds before and after it."""
        def cut(items: Items, place: int) -> Items:
            block = block_at(items, place)
            if number >= block.count:
                raise Refused(12)
            parts = [replace(block, count=rounds) for rounds in (number, 1, block.count - number - 1) if rounds > 0]
            return [*items[:place], *parts, *items[place + 1:]]

        self.items = changed(self.items, path, cut)
        self.reply(b"")

    def shown(self, what: bytes) -> bytes:
        """What `show` writes."""
        if what == b"circuit":
            return printing.printed(self.items)
        if what == b"stabilisers":
            return states.rows_text(self.run().state)
        if what in LISTS:
            return formats.shot("01", getattr(self.run(), LISTS[what]))
        if not self.framed:
            raise Refused(13)
        return self.shown_framed(*first_word(what))

    def shown_framed(self, word: bytes, rest: bytes) -> bytes:
        """What only a counted script is shown."""
        operand, more = first_word(rest)
        if (word, rest) == (b"deterministic", b""):
            return sums.deterministic(self.items, "01")
        if (word, rest) == (b"numbers", b""):
            return self.numbers()
        if word == b"changed" and rest in (b"", b"records"):
            return self.changed_bits([("M", "records")] if rest else [("D", "detectors"), ("L", "observables")])
        if word == b"sign" and operand and not more:
            negative, factors = string_of_word(operand, self.qubits)
            sign = self.run().state.sign(factors)
            return b"0\n" if sign is None else b"-\n" if sign ^ negative else b"+\n"
        if word == b"way" and more:
            return self.way(operand, *first_word(more))
        if word not in (b"item", b"place"):
            raise Refused(13)
        path = place_of(operand)
        if more:
            raise Refused(13)
        item = item_at(self.items, path)
        return printing.printed([item]) if word == b"item" else self.numbers_at(path)

    def way(self, at: bytes, string: bytes, more: bytes) -> bytes:
        """The way of a string that is put in at a place."""
        if more:
            raise Refused(13)
        place = self.steps_at(at)
        _, factors = string_of_word(string, self.qubits)
        return ways.text_of(self.items, place, factors, False)

    def steps_at(self, at: bytes) -> int:
        """How many steps are in front of a place."""
        steps = numbers.unroll(self.items)
        if at[:1] == b"@":
            return number_within(at[1:], len(steps))
        try:
            path = place_of(at)
        except Refused:
            raise Refused(2) from None
        if path == [len(self.items)]:
            return len(steps)
        item_at(self.items, path)
        return len(steps_before(self.items, path))

    def numbers(self) -> bytes:
        run = self.run()
        shown = (self.qubits, numbers.summary(self.items)[0], len(run.records), len(run.detectors), len(run.observables))
        return " ".join(map(str, shown)).encode() + b"\n"

    def numbers_at(self, path: Path) -> bytes:
        """The number of the first step of an item, and how many it has, and the same of records, detectors and coins."""
        firsts = place_numbers(steps_before(self.items, path))
        counts = place_numbers(numbers.unroll([item_at(self.items, path)]))
        return " ".join(f"{first} {count}" for first, count in zip(firsts, counts)).encode() + b"\n"

    def changed_bits(self, kinds: list[tuple[str, str]]) -> bytes:
        """The bits of some kinds that differ from those at the mark, and a line for each kind of which there are more or fewer."""
        names, counts = [], ""
        for letter, kind in kinds:
            old, new = getattr(self.mark, kind), getattr(self.run(), kind)
            names += [f"{letter}{place}" for place, (before, after) in enumerate(zip(old, new)) if before != after]
            counts += f"{kind} {len(old)} {len(new)}\n" if len(old) != len(new) else ""
        return f"{' '.join(names)}\n{counts}".encode()

    def command(self, word: bytes, rest: bytes, lines: Iterator[bytes]) -> None:
        """Takes a line that is not empty, and those after it that are of its block."""
        operand, text = first_word(rest)
        if word in (b"insert", b"replace", b"delete"):
            path = place_of(operand)
            if (text == b"") != (word == b"delete"):
                raise Refused(13)
            self.edit(word, path, block_text(text, lines) if text.endswith(b"{") else text)
        elif word == b"show":
            self.reply(self.shown(rest))
        elif word == b"mark" and self.framed and not rest:
            self.mark = self.run()
            self.reply(b"")
        elif word == b"split" and self.framed:
            round_word, more = first_word(text)
            if more:
                raise Refused(13)
            number = number_of(round_word)
            self.split(place_of(operand), number)
        else:
            raise Refused(13)

    def play(self, text: bytes) -> None:
        """Takes the lines of a script."""
        lines = iter(text.removesuffix(b"\n").split(b"\n"))
        for line in lines:
            try:
                if len(line) > MOST_LINE:
                    raise Refused(14)
                if content := content_of(line):
                    self.command(*first_word(content), lines)
            except Refused as refused:
                self.refused = True
                self.replies.append(f"refused {refused.number} {REFUSALS[refused.number]}\n".encode())
