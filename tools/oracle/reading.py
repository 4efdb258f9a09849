"""Circuit text: what each line means, the items of a text, and the one fault of a text that has none."""

import re
from dataclasses import dataclass, field
from typing import Any

from stabsim.text.names import ONE_QUBIT
from stabsim.text.names import ALIASES

SPACING = b" \t\r"
COORDINATE = re.compile(rb"[0-9+\-.eE]+")

MOST_BYTES = 16_777_216
MOST_QUBITS = 1_024
MOST_OBSERVABLES = 4_096
MOST_STEPS = 1_048_576
MOST_LOOKBACK = 16_777_215
MOST_DEPTH = 16
MOST_COUNT_DIGITS = 18

REFUSALS = {
    1: "UnsupportedName", 2: "BadArguments", 3: "BadTarget", 4: "BadPairing", 5: "BadBlock", 6: "QubitOutOfRange",
    7: "ObservableOutOfRange", 8: "LookbackTooFar", 9: "TooManySteps", 10: "TooDeep", 11: "BadLine",
    12: "PlaceOutOfRange", 13: "BadCommand", 14: "TooLong", 17: "NotABlock", 18: "NotDeterministic",
}

CONTROLLED = {"CX": "X", "CY": "Y", "CZ": "Z"}
# Which letter is measured, whether it is recorded, and whether the qubit is reset.
COLLAPSES = {
    "M": ("Z", True, False), "MX": ("X", True, False), "MY": ("Y", True, False),
    "MR": ("Z", True, True), "MRX": ("X", True, True), "MRY": ("Y", True, True),
    "R": ("Z", False, True), "RX": ("X", False, True), "RY": ("Y", False, True),
}
OTHERS = ["SWAP", "MPP", "DETECTOR", "OBSERVABLE_INCLUDE", "TICK", "QUBIT_COORDS", "SHIFT_COORDS", "REPEAT"]
NAMES = [*ONE_QUBIT, *CONTROLLED, *COLLAPSES, *OTHERS]
WITH_COORDINATES = ("DETECTOR", "QUBIT_COORDS", "SHIFT_COORDS")


class Refused(Exception):
    """A refusal of a text: its number, and its line or 0."""

    def __init__(self, number: int, line: int = 0) -> None:
        super().__init__(number, line)
        self.number = number
        self.line = line

    def told(self) -> bytes:
        """What the program says of it."""
        where = f"line {self.line}: " if self.line else ""
        return f"stabsim: {where}refused {self.number} {REFUSALS[self.number]}\n".encode()


@dataclass
class Operation:
    """One instruction: its first name, the number of an observable, its targets as tuples, its tag and its arguments."""

    name: str
    number: int | None
    targets: list[Any]
    tag: bytes = b""
    arguments: list[bytes] = field(default_factory=list)


@dataclass
class Block:
    """A body that is gone through `count` times."""

    count: int
    body: "list[Operation | Block]" = field(default_factory=list)
    tag: bytes = b""


Item = Operation | Block
Items = list[Item]
# The place of an item, and the places of the blocks around it, the outermost first.
Path = list[int]


def content_of(line: bytes) -> bytes:
    return line.split(b"#", 1)[0].strip(SPACING)


# A name, a tag, arguments, what targets are cut from, and `{`.
SHAPE = re.compile(rb"([A-Za-z]\w*)(?:\[([^]]*)\])?(?:\(([^){}]*)\))?((?:[ \t\r][^{}]*)?)(\{?)")


def cut(content: bytes) -> tuple[str, bytes, list[bytes], list[bytes], bool]:
    """The name, the tag, the arguments, the words of the targets and whether `{` ends it; 11 if it has no shape."""
    shape = SHAPE.fullmatch(content)
    if shape is None:
        raise Refused(11)
    name, tag, arguments, targets, opens = shape.groups(b"")
    parts = [part.strip(SPACING) for part in arguments.split(b",")] if arguments.strip(SPACING) else []
    return name.decode().upper(), tag, parts, re.findall(rb"[^ \t\r]+", targets), opens == b"{"


def number_of(name: str, arguments: list[bytes]) -> int | None:
    """The number of an observable, or None; 2 if the arguments do not suit the name."""
    if name == "OBSERVABLE_INCLUDE" and len(arguments) == 1 and arguments[0].isdigit():
        return int(arguments[0])
    may_be = name in WITH_COORDINATES and all(COORDINATE.fullmatch(it) for it in arguments)
    if name == "OBSERVABLE_INCLUDE" or arguments and not may_be:
        raise Refused(2)
    return None


def qubit_of(word: bytes) -> int:
    if not word.isdigit():
        raise Refused(3)
    if int(word) >= MOST_QUBITS:
        raise Refused(6)
    return int(word)


def record_of(word: bytes) -> int:
    found = re.fullmatch(rb"rec\[-([0-9]+)\]", word)
    if not found or not 1 <= int(found[1]) <= MOST_LOOKBACK:
        raise Refused(3)
    return int(found[1])


def product_of(word: bytes) -> list[tuple[str, int, bool]]:
    """The factors of a product, each a letter, a qubit and whether `!` is before it."""
    parts = [re.fullmatch(rb"(!?)([XYZ])([0-9]+)", part.upper()) for part in word.split(b"*")]
    factors = [(part[2].decode(), int(part[3]), part[1] == b"!") for part in parts if part]
    if len(factors) < len(parts):
        raise Refused(3)
    if any(qubit >= MOST_QUBITS for _, qubit, _ in factors):
        raise Refused(6)
    if len({qubit for _, qubit, _ in factors}) < len(factors):
        raise Refused(3)
    return factors


def target_of(name: str, place: int, word: bytes) -> Any:
    """One target, in order from the left: 3 for its kind or spelling, 6 for a qubit's number."""
    if name in ("DETECTOR", "OBSERVABLE_INCLUDE"):
        return record_of(word)
    if name in ("TICK", "SHIFT_COORDS") or name == "REPEAT" and not word.isdigit():
        raise Refused(3)
    if name == "REPEAT":
        return word
    if name == "MPP":
        return product_of(word)
    if name in CONTROLLED and place % 2 == 0 and word.startswith(b"rec"):
        return ("record", record_of(word))
    if name in COLLAPSES:
        inverted = COLLAPSES[name][1] and word.startswith(b"!")
        return (qubit_of(word[1:] if inverted else word), inverted)
    return qubit_of(word)


def meaning_of(content: bytes) -> Item | str | None:
    """None for a blank line, "}" for a closing brace, else an operation or an empty block."""
    if content in (b"", b"}"):
        return content.decode() or None
    spelled, tag, arguments, words, opens = cut(content)
    name = ALIASES.get(spelled, spelled)
    if name not in NAMES:
        raise Refused(1)
    number = number_of(name, arguments)
    targets = [target_of(name, place, word) for place, word in enumerate(words)]
    is_paired = name in CONTROLLED or name == "SWAP"
    if is_paired and (len(targets) % 2 or any(a == b for a, b in zip(targets[::2], targets[1::2]))):
        raise Refused(4)
    is_count = len(targets) == 1 and name == "REPEAT" and len(targets[0]) <= MOST_COUNT_DIGITS and int(targets[0]) > 0
    if opens != (name == "REPEAT") or opens and not is_count:
        raise Refused(5)
    if number is not None and number >= MOST_OBSERVABLES:
        raise Refused(7)
    return Block(int(targets[0]), tag=tag) if opens else Operation(name, number, targets, tag, arguments)


def items_of(text: bytes, alone: bool = False) -> Items:
    """The items of a text; its first fault, with its line, if it has none.

    If only one item is asked for, a further one is refused where it begins, and so is a text without any.
    """
    if len(text) > MOST_BYTES:
        raise Refused(14)
    items: Items = []
    opened: list[tuple[Block, int]] = []
    for number, line in enumerate(text.split(b"\n"), 1):
        content = content_of(line)
        if alone and items and not opened and content not in (b"", b"}"):
            raise Refused(11, number)
        try:
            meaning = meaning_of(content)
        except Refused as refused:
            raise Refused(refused.number, number) from None
        if meaning is None:
            continue
        if isinstance(meaning, str):
            if not opened:
                raise Refused(5, number)
            opened.pop()
            continue
        body = opened[-1][0].body if opened else items
        if isinstance(meaning, Block):
            if len(opened) == MOST_DEPTH:
                raise Refused(10, number)
            opened.append((meaning, number))
        body.append(meaning)
    if opened:
        raise Refused(5, opened[-1][1])
    if alone and not items:
        raise Refused(11)
    return items


def item_of(text: bytes) -> Item:
    """The one item of a text."""
    return items_of(text, alone=True)[0]


def block_at(items: Items, place: int) -> Block:
    """The block in a place: 12 and 17 if there is none."""
    if place >= len(items):
        raise Refused(12)
    block = items[place]
    if not isinstance(block, Block):
        raise Refused(17)
    return block


def item_at(items: Items, path: Path) -> Item:
    """The item at a path: 12 and 17 along it."""
    place, *inner = path
    if inner:
        return item_at(block_at(items, place).body, inner)
    if place >= len(items):
        raise Refused(12)
    return items[place]
