"""Random edit scripts: each line suits the items that the lines before it left, or nearly."""

from random import Random

from . import numbers
from .making import Maker
from .reading import Block, Items
from .scripts import Session

SHOWN = ("measurements", "free", "detectors", "observables", "stabilisers", "circuit")
# A script that shows all of these.
SHOWS = "".join(f"show {what}\n" for what in SHOWN).encode()
FRAMED = ("mark", "show numbers", "show changed", "show changed", "show changed records", "show sign", "show item",
          "show place", "show way", "show deterministic", "split", "split", "split")


def path_to(random: Random, items: Items, past_end: bool) -> str:
    """A path into the items; often into a block, seldom past a list or through something that is no block."""
    path: list[int] = []
    while True:
        blocks = [(place, item) for place, item in enumerate(items) if isinstance(item, Block)]
        if blocks and len(path) < 17 and random.random() < 0.5:
            place, block = random.choice(blocks)
            path.append(place)
            items = block.body
            continue
        path.append(random.randint(0, len(items) + (random.random() < 0.1) - (not past_end and bool(items))))
        if random.random() < 0.03:
            path.append(random.randint(0, 2))
        return "/".join(map(str, path))


def edit_lines(random: Random, session: Session) -> list[str]:
    """The lines of one edit."""
    kind = random.choice(("insert", "insert", "replace", "delete"))
    path = path_to(random, session.items, kind == "insert")
    if kind == "delete":
        return [f"delete {path}"]
    maker = Maker(random, max(1, session.qubits + (random.random() < 0.05)))
    maker.records = random.randint(0, 4)
    first, *more = maker.block(1) if random.random() < 0.25 else [maker.line()]
    return [f"{kind} {path} {first}", *more]


def spoilt(random: Random, line: str) -> str:
    """A line with a word too many, a word misspelt, or spacing and a comment around it."""
    return random.choice((line + " 0", line.upper(), line[1:], "  " + line + "\t# why", line.replace(" ", "  ", 1), ""))


def string_word(random: Random, qubits: int) -> str:
    """A Pauli string for a session, by its letters or as a product, and sometimes one that is none."""
    sign = random.choice(("", "", "+", "-"))
    if random.random() < 0.4:
        return sign + "".join(random.choice("IXYZ_") for _ in range(qubits + (random.random() < 0.05)))
    places = random.sample(range(qubits + 1), random.randint(1, min(3, qubits + 1)))
    if random.random() < 0.9:
        places = [place for place in places if place < qubits] or [0]
    return sign + "*".join(random.choice(("", "", "", "!")) + random.choice("XYZ") + str(place) for place in places)


def blocks_of(items: Items, around: tuple[int, ...] = ()) -> list[tuple[tuple[int, ...], int]]:
    """The path and the number of rounds of each block."""
    found: list[tuple[tuple[int, ...], int]] = []
    for place, item in enumerate(items):
        if isinstance(item, Block):
            path = (*around, place)
            found += [(path, item.count), *blocks_of(item.body, path)]
    return found


def split_words(random: Random, session: Session) -> str:
    """A block and one of its rounds, often the first or the last, or nearly; or a path that may lead to no block."""
    blocks = blocks_of(session.items)
    if not blocks or random.random() < 0.1:
        return f"{path_to(random, session.items, True)} {random.randint(0, 3)}"
    path, count = random.choice(blocks)
    return f"{'/'.join(map(str, path))} {random.choice((0, 1, count - 1, count, random.randrange(count)))}"


def place_word(random: Random, session: Session) -> str:
    """A place at which a string is put in: a path, or a number of steps, which may be past the end."""
    return path_to(random, session.items, True) if random.random() < 0.6 else f"@{random.randint(0, 1 + len(numbers.unroll(session.items)))}"


def framed_line(random: Random, session: Session) -> str:
    """A line that only a counted script has."""
    line = random.choice(FRAMED)
    if line == "show sign":
        return f"{line} {string_word(random, session.qubits)}"
    if line == "show way":
        return f"{line} {place_word(random, session)} {string_word(random, session.qubits)}"
    if line == "split":
        return f"{line} {split_words(random, session)}"
    return f"{line} {path_to(random, session.items, False)}" if line in ("show item", "show place") else line


def lines_that_show(random: Random, session: Session) -> list[str]:
    """A line that shows something; in a script that is not counted seldom one that only a counted one has."""
    if random.random() < (0.6 if session.framed else 0.05):
        return [framed_line(random, session)]
    return ["show " + random.choice(SHOWN)]


def script(random: Random, session: Session) -> bytes:
    """A script for a session, which is played on the way so that its lines suit what they meet."""
    lines: list[str] = []
    for _ in range(random.randint(100, 300) if session.framed and random.random() < 0.05 else random.randint(1, 12)):
        more = edit_lines(random, session) if random.random() < 0.6 else lines_that_show(random, session)
        if random.random() < 0.06:
            more[0] = spoilt(random, more[0])
        session.play("\n".join(more).encode())
        lines += more
    return "\n".join(lines).encode() + (b"\n" if random.random() < 0.8 else b"")


def edits(random: Random, session: Session, count: int) -> bytes:
    """This many edits, and splits in a counted session, and nothing shown: of a session too large to be run by the oracle."""
    lines: list[str] = []
    for _ in range(count):
        splits = session.framed and random.random() < 0.2
        more = [f"split {split_words(random, session)}"] if splits else edit_lines(random, session)
        session.play("\n".join(more).encode())
        lines += more
    return "\n".join(lines).encode() + b"\n"
