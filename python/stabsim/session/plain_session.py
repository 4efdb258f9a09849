"""The process of an editing session: a circuit that is run and kept, and what is asked of it."""

import contextlib
import re
from collections.abc import Callable, Iterator
from types import TracebackType
from typing import Self

import numpy as np
from numpy.typing import NDArray

from stabsim import checking, program
from stabsim.errors import Refused
from stabsim.formats import bits
from stabsim.questions.distances import Distance, distance_of, of_marks
from stabsim.questions.random_bits import DecidingCoin, coins_of
from stabsim.questions.sure import Sure, deterministic_of
from stabsim.questions.ways import Way, place_word, way_of
from stabsim.session.framed import FramedProcess, OfOneProcess
from stabsim.session.history import Change, History, Request
from stabsim.session.script import Path, path_text
from stabsim.session.session_answers import Changed, ItemSteps, SessionNumbers

Bits = NDArray[np.bool_]

# The limits of the program.
MOST_QUBITS, MOST_STRIDE = 1024, 65_536
# What `sign` is asked of.
PAULIS = "a string of Paulis without spacing, as X0*Z3 or +XZ_"


class PlainSession(OfOneProcess):
    """A circuit that the program reads, run and kept, with the history of its edits, and what it answers: of a Session what needs no noise."""

    def __init__(self, text: str, *, qubits: int | None = None, seed: int = 0, stride: int | None = None) -> None:
        words = program.seed_words(seed)
        words += [] if qubits is None else ["--qubits", str(checking.whole("qubits", qubits, 0, MOST_QUBITS + 1))]
        words += [] if stride is None else ["--stride", str(checking.whole("stride", stride, 1, MOST_STRIDE + 1))]
        self.history = History()
        self.process = FramedProcess(words, text)

    def __repr__(self) -> str:
        state = self.process.ended or f"process {self.process.number}"
        return f"<stabsim.Session: {state}, {len(self.history.done)} edits to undo>"

    def __enter__(self) -> Self:
        return self

    def __exit__(self, kind: type[BaseException] | None, fault: BaseException | None, trace: TracebackType | None) -> None:
        self.close()

    def close(self) -> None:
        """Ends the session and its process. A session that has ended stays so."""
        self.process.close()

    @contextlib.contextmanager
    def one_step(self) -> Iterator[None]:
        """Makes what is edited meanwhile one step. If one edit fails, those before it are taken back."""
        before = len(self.history.done)
        try:
            yield
        except BaseException:
            while len(self.history.done) > before and not self.process.ended:
                self.undo()
            self.history.to_redo.clear()
            raise
        self.history.join(before)

    def undo(self) -> bool:
        """Takes the last edit back, by the edit that is its inverse; False if there is none."""
        return self.retrace(self.history.last_done(), self.history.undone)

    def redo(self) -> bool:
        """Makes the edit again that was last taken back; False if there is none."""
        return self.retrace(self.history.last_undone(), self.history.redone)

    # Questions.

    def numbers(self) -> SessionNumbers:
        """How many qubits, steps, records, detectors and observables there are now."""
        return SessionNumbers(*map(int, self.line("show numbers").split()))

    def records(self) -> Bits:
        """The records, bool (records,)."""
        return bits.of_text(self.line("show measurements"))

    def free(self) -> Bits:
        """For each measured target or product and each reset whether its coin decided the outcome, bool (coins,)."""
        return bits.of_text(self.line("show free"))

    def detectors(self) -> Bits:
        """The detectors, bool (detectors,): raw parities of records."""
        return bits.of_text(self.line("show detectors"))

    def observables(self) -> Bits:
        """The observables, bool (observables,)."""
        return bits.of_text(self.line("show observables"))

    def stabilisers(self) -> list[str]:
        """The reduced rows of the group that stabilises the state after the circuit: a signed string for each qubit."""
        return [line.decode() for line in self.process.ask(b"show stabilisers\n")]

    def printed(self) -> str:
        """The circuit as the program prints it."""
        return text_of_lines(self.process.ask(b"show circuit\n"))

    def printed_item(self, path: str) -> str:
        """The item at the path as the program prints it."""
        return text_of_lines(self.process.ask(f"show item {path}\n".encode()))

    def place(self, path: Path) -> ItemSteps:
        """Where the steps of the item at the path are in the unrolled circuit, and which records, detectors and coins they make."""
        numbers = list(map(int, self.line(f"show place {path_text(path)}").split()))
        return ItemSteps(*(range(first, first + count) for first, count in zip(numbers[::2], numbers[1::2], strict=True)))

    def deterministic(self) -> Sure:
        """Which detectors and observables of the circuit as it is now are the same for all random bits: `Circuit.deterministic` of it."""
        return deterministic_of(bits.of_text(self.line("show deterministic")), self.numbers().detectors)

    def why(self, bit: str) -> tuple[DecidingCoin, ...]:
        """The coins that decide a detector, as D37, or an observable, as L0: none if it is the same for all random bits.

        >>> import stabsim
        >>> with stabsim.Circuit("R 0\\nM 0\\nDETECTOR rec[-1]").edit() as session:
        ...     session.insert(1, "H 0")
        ...     session.why("D0")
        (DecidingCoin(number=1, path='2'),)
        """
        return coins_of(text_of_lines(self.process.ask(f"show why {bit_name(bit)}\n".encode())))

    def way(self, pauli: str, *, at: Path | None = None, after: int | None = None) -> Way:
        """What a Pauli string becomes that is put into the circuit as it is now, and what it flips: `Circuit.propagate` of it.

        >>> import stabsim
        >>> with stabsim.Circuit("CX 0 1").edit() as session:
        ...     session.insert(0, "H 0")
        ...     session.way("Z0", at=0).left
        'X0*X1'
        """
        place = place_word(None if at is None else path_text(at), after)
        return way_of(text_of_lines(self.process.ask(f"show way {place} {pauli_word(pauli)}\n".encode())))

    def distance(self, most: int, *, everywhere: bool = False) -> Distance:
        """The distance of the circuit as it is now, by the errors that it marks, or by errors everywhere, up to this many of them:
        `Circuit.distance` of it.

        >>> import stabsim
        >>> with stabsim.Circuit("R 0 1\\nI[X] 0 1\\nM 0 1\\nDETECTOR rec[-1] rec[-2]\\nOBSERVABLE_INCLUDE(0) rec[-1]").edit() as session:
        ...     print(session.distance(5))
        ...     session.replace(1, "I[X] 0")
        ...     print(session.distance(5))
        distance 2 of all marked errors
        none of all marked errors
        """
        checking.whole("most", most)
        found = distance_of(text_of_lines(self.process.ask(f"show distance {most}{' everywhere' * everywhere}\n".encode())), everywhere)
        return found if everywhere else of_marks(found, self.printed())

    def sign(self, pauli: str) -> int:
        """1 if the string, as X0*Z3 or -X0 or with a letter for each qubit, stabilises the state, -1 if its negative does, 0 if neither
        does.

        >>> import stabsim
        >>> with stabsim.Circuit("X 0\\nH 1").edit() as session:
        ...     [session.sign(it) for it in ("Z0", "+_X", "-ZX", "X0*X1")]
        [-1, 1, 1, 0]
        """
        return {b"+": 1, b"-": -1, b"0": 0}[self.line(f"show sign {pauli_word(pauli)}")]

    def mark(self) -> None:
        """From here on `changed` counts; the opening is the first mark."""
        self.process.ask(b"mark\n")

    def changed(self, *, records: bool = False) -> Changed:
        """What differs from the mark: detectors and observables, and records if they are asked for."""
        lines = self.process.ask(b"show changed\n") + (self.process.ask(b"show changed records\n") if records else [])
        places: dict[str, list[int]] = {"D": [], "L": [], "M": []}
        lengths = {}
        for line in lines:
            words = line.decode().split()
            if words and words[0] in ("detectors", "observables", "records"):
                lengths[words[0]] = (int(words[1]), int(words[2]))
            else:
                for word in words:
                    places[word[0]].append(int(word[1:]))
        found = {kind: np.array(numbers, dtype=np.int64) for kind, numbers in places.items()}
        return Changed(found["D"], found["L"], found["M"], lengths)

    # How edits are kept.

    def change(self, change: Change) -> None:
        """Makes an edit, and keeps how to take it back."""
        self.carry_out(change.forth)
        self.history.add(change)

    def retrace(self, requests: tuple[Request, ...], moved: Callable[[], None]) -> bool:
        """Makes the edits that go a step back, or forth again, if there are some."""
        if not requests:
            return False
        self.carry_out(requests)
        moved()
        return True

    def carry_out(self, requests: tuple[Request, ...]) -> None:
        """Makes edits in their order. If one is refused, those before it are taken back."""
        for number, request in enumerate(requests):
            try:
                self.process.ask(request.lines)
            except Refused:
                for made in reversed(requests[:number]):
                    self.process.ask(made.inverse)
                raise

    def old_item(self, path: str) -> str:
        """The text of an item that an edit is to take out; if there is none the edit itself is refused."""
        try:
            return self.printed_item(path)
        except Refused:
            return ""

    def line(self, request: str) -> bytes:
        """The reply of one line to a question."""
        if "\n" in request:
            raise ValueError("a question is one line")
        lines = self.process.ask(request.encode() + b"\n")
        if len(lines) != 1:
            raise self.process.broken(f"{request} was answered by {len(lines)} lines")
        return lines[0]


def pauli_word(pauli: str) -> str:
    """The word of a string of Paulis."""
    if len(checking.of_kind("pauli", pauli, str, PAULIS).split()) != 1:
        raise ValueError(f"pauli is {checking.shown(pauli)}: give {PAULIS}")
    return pauli.strip()


def bit_name(text: str) -> str:
    """The name of a detector or an observable."""
    if not re.fullmatch(r"[DL]\d+", checking.of_kind("bit", text, str, "a detector, as D37, or an observable, as L0")):
        raise ValueError(f"bit is {checking.shown(text)}: give a detector, as D37, or an observable, as L0")
    return text


def text_of_lines(lines: list[bytes]) -> str:
    return program.text_of(b"\n".join([*lines, b""]))
