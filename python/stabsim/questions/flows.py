"""Flows: which Paulis a circuit turns into which, up to records. By a reference qubit for each qubit, so for up to 512 qubits."""

import re
from collections.abc import Iterable, Mapping, Sequence
from dataclasses import dataclass

from stabsim import checking
from stabsim.text import targets
from stabsim.text.reading import closed_text
from stabsim.text.targets import Product

MOST_QUBITS = 512
RECORD = re.compile(r"rec\[(-?\d+)\]|obs\[(\d+)\]")
READER = "stabsim.Flow.of_text('X0 -> Z0')"
DENSE = re.compile(r"[IXYZ_]+")


@dataclass(frozen=True)
class Flow:
    """A Pauli in front of a circuit, and what it has become after it: `X0*Z1 -> -Y2 xor rec[-1]`.

    input, output: tuples of pairs of a qubit and its letter, ascending; is_negative: whether the output has a minus; records: tuple of
    int, records whose parity the output's sign has too, from the end, so -1 is the last; observables: tuple of int, observables of which
    it has the parity of all records too, as `obs[0]`.

    >>> import stabsim
    >>> flow = stabsim.Flow.of_text("_X -> -Z0*X1 xor rec[-2] xor rec[-1]")
    >>> str(flow), flow.input, flow.records
    ('X1 -> -Z0*X1 xor rec[-2] xor rec[-1]', ((1, 'X'),), (-2, -1))
    """

    input: tuple[tuple[int, str], ...]
    output: tuple[tuple[int, str], ...]
    is_negative: bool = False
    records: tuple[int, ...] = ()
    observables: tuple[int, ...] = ()

    def __post_init__(self) -> None:
        for name, letters in (("input", self.input), ("output", self.output)):
            if not is_product(letters):
                raise ValueError(f"{name} is {checking.shown(letters)}: give pairs of a qubit and a letter, as ((0, 'X'),), or take {READER}")
        for name, numbers in (("records", self.records), ("observables", self.observables)):
            if not isinstance(numbers, tuple) or not all(isinstance(it, int) for it in numbers):
                raise TypeError(f"{name} is {checking.shown(numbers)}: give a tuple of whole numbers, as (-1,), or take {READER}")

    @classmethod
    def of_text(cls, text: str) -> "Flow":
        """The flow of a text: Paulis as `X0*Z1`, a letter for each qubit as `XZ_`, or 1; records rec[-1] from the end, or rec[0] from
        the beginning; observables obs[0]. ValueError if it is misspelt."""
        before, arrow, behind = checking.of_kind("text", text, str, "a text, as 'X0 -> Z0 xor rec[-1]'").partition("->")
        words = [word.strip() for word in re.split(r"\bxor\b", behind)]
        if not arrow:
            raise ValueError(f"{checking.shown(text)} is no flow, as X0 -> Z0 xor rec[-1]")
        paulis, records = ("1", words) if RECORD.fullmatch(words[0]) else (words[0], words[1:])
        first, second = signed(before.strip(), text), signed(paulis, text)
        found, observables = set[int](), set[int]()
        for word in records:
            record = RECORD.fullmatch(word)
            if not record:
                raise ValueError(f"{checking.shown(word)} of {checking.shown(text)} is no record, as rec[-1], and no observable, as obs[0]")
            found ^= {int(record[1])} if record[1] else set()
            observables ^= {int(record[2])} if record[2] else set()
        return cls(first[1], second[1], first[0] ^ second[0], tuple(sorted(found)), tuple(sorted(observables)))

    @property
    def qubits(self) -> int:
        """One more than the greatest qubit that it names."""
        return max((qubit for qubit, _ in self.input + self.output), default=-1) + 1

    def __str__(self) -> str:
        words = [f"{'-' * self.is_negative}{pauli_text(self.output)}", *(f"rec[{record}]" for record in self.records)]
        words += [f"obs[{observable}]" for observable in self.observables]
        if not self.output and not self.is_negative and len(words) > 1:
            words = words[1:]
        return f"{pauli_text(self.input)} -> {' xor '.join(words)}"

    def placed(self, records: int) -> tuple[int, ...]:
        """Its records from the beginning, of a circuit with this many. IndexError if there is no such record."""
        found = tuple(record + records if record < 0 else record for record in self.records)
        if not all(0 <= record < records for record in found):
            raise IndexError(f"{self} names a record that is none of {records}")
        return found

    def with_records(self, of_observables: Mapping[int, set[int]], records: int) -> "Flow":
        """This flow with the records of its observables in their place, of a circuit with this many records."""
        found = set(self.placed(records))
        for observable in self.observables:
            found ^= of_observables.get(observable, set())
        return Flow(self.input, self.output, self.is_negative, tuple(sorted(found)))

    def joint(self, qubits: int) -> Product:
        """The letters of its output, and those of its input on the references of this many qubits."""
        return dict(self.output) | {qubit + qubits: letter for qubit, letter in self.input}

    @property
    def sign(self) -> bool:
        """Whether the joint product is negative if the records are 0: a Bell pair has the product of two Y with a minus."""
        return self.is_negative ^ (sum(letter == "Y" for _, letter in self.input) % 2 == 1)


@dataclass(frozen=True)
class SameFlows:
    """Whether two circuits have the same flows; it is true if they do.

    same: bool. flow: if not, a Flow that one has and the other does not have; first: bool, whether it is the first that has it.

    >>> import stabsim
    >>> found = stabsim.Circuit("S 0").same_flows(stabsim.Circuit("S_DAG 0"))
    >>> bool(found), str(found.flow), found.first
    (False, 'X0 -> Y0', True)
    """

    same: bool
    flow: Flow | None = None
    first: bool = False

    def __bool__(self) -> bool:
        return self.same


def is_product(letters: object) -> bool:
    """Whether a value is pairs of a qubit and its letter, no qubit twice."""
    if not isinstance(letters, tuple) or not all(isinstance(pair, tuple) and len(pair) == 2 for pair in letters):
        return False
    qubits = [qubit for qubit, _ in letters]
    are_qubits = all(isinstance(qubit, int) and qubit >= 0 for qubit in qubits)
    return are_qubits and len(set(qubits)) == len(qubits) and all(letter in ("X", "Y", "Z") for _, letter in letters)


def signed(text: str, whole: str) -> tuple[bool, tuple[tuple[int, str], ...]]:
    """A product with a sign, as whether it is negative and its letters by their qubits."""
    negative, rest = text.startswith("-"), text[1:] if text[:1] in ("+", "-") and len(text) > 1 else text
    if rest == "1":
        return negative, ()
    if DENSE.fullmatch(rest):
        return negative, tuple((qubit, letter) for qubit, letter in enumerate(rest) if letter not in "I_")
    product = targets.multiplied(rest) if "!" not in rest else None
    if product is None:
        raise ValueError(f"{checking.shown(text)} of {checking.shown(whole)} is no product, as X0*Z1, XZ_ or 1")
    return negative ^ product[0], tuple(sorted(product[1].items()))


def pauli_text(letters: Iterable[tuple[int, str]]) -> str:
    """Letters as they are written."""
    return "*".join(f"{letter}{qubit}" for qubit, letter in letters) or "1"


def with_references(text: str, qubits: int) -> str:
    """A circuit's text with a reference after its qubits for each: with Bell pairs of both in front."""
    if qubits > MOST_QUBITS:
        raise ValueError(f"flows are of circuits of up to {MOST_QUBITS} qubits, since each has a reference, and not of {qubits}")
    references = range(qubits, 2 * qubits)
    pairs = " ".join(f"{reference} {reference - qubits}" for reference in references)
    bells = f"H {' '.join(map(str, references))}\nCX {pairs}\n" if qubits else ""
    return bells + closed_text(text)


def measuring(products: Iterable[Product]) -> str:
    """A line that measures products."""
    return "".join(f"MPP {targets.text_of_product(False, product)}\n" for product in products)


def asking_text(text: str, flows: Sequence[Flow], qubits: int, records: int) -> str:
    """A circuit with references, then the joint product of each flow measured, and a detector for each, which is its sign."""
    products = [flow.joint(qubits) for flow in flows]
    total = records + sum(map(bool, products))
    lines, measured = [], records
    for flow, product in zip(flows, products):
        places = [*flow.placed(records), *([measured] if product else [])]
        measured += bool(product)
        lines.append(" ".join(["DETECTOR", *(f"rec[{place - total}]" for place in places)]) + "\n")
    return with_references(text, qubits) + measuring(filter(None, products)) + "".join(lines)
