"""Edits at random places: after each the session shows what one shows that is opened anew on the text that the oracle keeps, with few steps
between checkpoints and with many.

A surface code, written out and in a block, is edited by Pauli gates alone: its instructions are long enough that frames are propagated over
many qubits at once, and within the block each gate is in every round."""

from collections.abc import Callable, Iterator
from random import Random

from stabsim import codes

from . import numbers, printing
from .answers import Ended, Wrong
from .making import Maker
from .reading import Block, Refused, items_of
from .script_making import SHOWS, edit_lines
from .scripts import Session

# What runs the program with words on a circuit and a script over it.
Program = Callable[[list[str], bytes, bytes], Ended]

STRIDES = (1, 3, 64, 8192)
CIRCUITS = 10
EDITS = 20
QUBITS = 4
# What ends each random circuit, so that some edits are in front of a block of many rounds, and some in it.
LONG_BLOCK = ["REPEAT 70 {", "X 3", "M 3", "}"]
# A code of this distance has instructions of some forty qubits, and names this many qubits in all.
DISTANCE = 9
ROUNDS = 12
CODE_QUBITS = 188
CODE_STRIDES = (300, 1000, 3000)
CODE_EDITS = 25


def difference(what: str, found: object, wanted: object) -> Wrong:
    return None if found == wanted else f"{what}: found {str(found)[:400]}, and not {str(wanted)[:400]}"


def replies_of(written: bytes) -> list[list[bytes]]:
    """The replies of a counted session, of which the first says that it is ready, each with its lines."""
    lines, replies = iter(written.splitlines()), []
    for head in lines:
        replies.append([head, *(next(lines) for _ in range(int(head[3:]) if head.startswith(b"ok ") else 0))])
    return replies


class Edited:
    """A session and what the oracle keeps of it: edits are played to the oracle, and the program is then given all of them."""

    def __init__(self, text: str, qubits: int, stride: int) -> None:
        self.text = text.encode()
        items = items_of(self.text)
        numbers.check(items)
        self.session = Session(items, qubits)
        self.session.framed = True
        self.words = ["edit", "--framed", "--qubits", str(qubits), "--seed", "3", "--stride", str(stride)]
        self.edits: list[bytes] = []
        self.texts: list[bytes] = []

    def edit(self, text: str) -> None:
        self.edits.append(text.encode() + b"\n")
        self.session.play(self.edits[-1])
        self.texts.append(printing.printed(self.session.items))

    def cases(self, run: Program) -> Iterator[Wrong]:
        """What is wrong after each edit."""
        status, written, told = run(self.words, self.text, b"".join(edit + SHOWS for edit in self.edits))
        ready, *replies = replies_of(written)
        if (status, told, len(replies)) != (3 if self.session.refused else 0, b"", 7 * len(self.edits)):
            yield f"{self.words} ended with {status}, {told!r} and {len(replies)} replies\n{self.text!r}\n{self.edits}"
            return
        for number, text in enumerate(self.texts):
            reply, *shown = replies[7 * number : 7 * number + 7]
            status, anew, told = run(self.words, text, SHOWS)
            wanted = [self.session.replies[number].splitlines(), *replies_of(anew)[1:]]
            what = f"{self.words}, edits up to {number}\n{self.text!r}\n{self.edits[:number + 1]}\n"
            yield difference(what, (status, told, [reply, *shown]), (0, b"", wanted))

    def made(self) -> int:
        return sum(reply == b"ok 0\n" for reply in self.session.replies)


def edited_circuits(run: Program, stride: int) -> Iterator[Wrong]:
    """Edits of random circuits, at least half of which are made."""
    tried = made = 0
    for seed in range(2 * CIRCUITS):
        dice = Random(seed)
        try:
            edited = Edited("\n".join(Maker(dice, QUBITS).lines(12) + LONG_BLOCK), QUBITS, stride)
        except Refused:
            continue
        for _ in range(EDITS):
            edited.edit("\n".join(edit_lines(dice, edited.session)))
        yield from edited.cases(run)
        tried, made = tried + 1, made + edited.made()
        if tried == CIRCUITS:
            break
    yield difference(f"stride {stride}: circuits, and whether half of their edits are made", (tried, 2 * made >= CIRCUITS * EDITS), (CIRCUITS, True))


def pauli_edit(dice: Random, session: Session) -> tuple[str, str]:
    """The path and the text of a Pauli gate on one qubit or two, at a random place of the items, or of a block's if that is one."""
    gate = " ".join([dice.choice("XYZ"), *(str(dice.randrange(CODE_QUBITS)) for _ in range(dice.randint(1, 2)))])
    blocks = [(place, item) for place, item in enumerate(session.items) if isinstance(item, Block)]
    if blocks and dice.random() < 2 / 3:
        place, block = dice.choice(blocks)
        return f"{place}/{dice.randint(0, len(block.body))}", gate
    return str(dice.randint(0, len(session.items))), gate


def edited_code(run: Program, stride: int, written_out: bool) -> Iterator[Wrong]:
    """Puts Pauli gates into a surface code, and takes each third one out again."""
    dice = Random(stride)
    edited = Edited(codes.surface_code(DISTANCE, ROUNDS, written_out=written_out), CODE_QUBITS, stride)
    for number in range(CODE_EDITS):
        path, gate = pauli_edit(dice, edited.session)
        edited.edit(f"insert {path} {gate}")
        if number % 3 == 0:
            edited.edit(f"delete {path}")
    yield from edited.cases(run)
    yield difference(f"stride {stride}: edits of the code that are made", edited.made(), len(edited.edits))


def cases(run: Program) -> Iterator[Wrong]:
    for stride in STRIDES:
        yield from edited_circuits(run, stride)
    for stride in CODE_STRIDES:
        for written_out in (True, False):
            yield from edited_code(run, stride, written_out)
