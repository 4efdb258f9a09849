"""Stim's instructions that the program does not read, as lines that do the same.

The program's own explanations, as `check` writes them, have the same lines.
"""

import re
from collections.abc import Callable, Iterator, Sequence

from stabsim.text import sweeping, targets
from stabsim.text.names import MEASUREMENTS
from stabsim.text.reading import Parts, is_number

# Gates on one qubit, and those that do the same, the first one first.
ON_ONE = {
    "H_XY": ("S", "Y"),
    "H_YZ": ("SQRT_X", "Z"),
    "H_NXY": ("S", "X"),
    "H_NXZ": ("H", "Y"),
    "H_NYZ": ("SQRT_X", "Y"),
    "C_NXYZ": ("C_XYZ", "Z"),
    "C_XNYZ": ("C_XYZ", "X"),
    "C_XYNZ": ("C_XYZ", "Y"),
    "C_NZYX": ("C_ZYX", "X"),
    "C_ZNYX": ("C_ZYX", "Z"),
    "C_ZYNX": ("C_ZYX", "Y"),
}
# Gates on a pair, and those that do the same, each with what it is on: the first qubit is a, and the second b.
ON_TWO = {
    "II": ("I ab",),
    "XCX": ("H a", "CX ab", "H a"),
    "XCY": ("H a", "CY ab", "H a"),
    "XCZ": ("CX ba",),
    "YCX": ("SQRT_X a", "CX ab", "SQRT_X_DAG a"),
    "YCY": ("SQRT_X a", "CY ab", "SQRT_X_DAG a"),
    "YCZ": ("CY ba",),
    "CXSWAP": ("CX ab", "SWAP ab"),
    "SWAPCX": ("SWAP ab", "CX ab"),
    "CZSWAP": ("CZ ab", "SWAP ab"),
    "SWAPCZ": ("SWAP ab", "CZ ab"),
    "ISWAP": ("SWAP ab", "CZ ab", "S ab"),
    "ISWAP_DAG": ("SWAP ab", "CZ ab", "S_DAG ab"),
    "SQRT_XX": ("H ab", "CZ ab", "S ab", "H ab"),
    "SQRT_XX_DAG": ("H ab", "CZ ab", "S_DAG ab", "H ab"),
    "SQRT_YY": ("SQRT_X ab", "CZ ab", "S ab", "SQRT_X_DAG ab"),
    "SQRT_YY_DAG": ("SQRT_X ab", "CZ ab", "S_DAG ab", "SQRT_X_DAG ab"),
    "SQRT_ZZ": ("CZ ab", "S ab"),
    "SQRT_ZZ_DAG": ("CZ ab", "S_DAG ab"),
}
# Gates with a Z on the second qubit of a pair, which may be a record: the gate that this record controls.
BY_SECOND = {"XCZ": "CX", "YCZ": "CY", "CZ": "CZ"}
OF_PAIRS = {"MXX": "X", "MYY": "Y", "MZZ": "Z"}
# Square roots of a product, and of its negative.
ROOTS = {"SPP": ("S", "S_DAG"), "SPP_DAG": ("S_DAG", "S")}
GATES = frozenset((*ON_ONE, *ON_TWO, *BY_SECOND, *ROOTS))

SPACED_STAR = re.compile(r" ?\* ?")

# A line by its name and targets.
Written = tuple[str, Sequence[str]]


class WrongWord(ValueError):
    """A target or an argument that an instruction of Stim's does not take.

    word: the target or argument, or its number among them, or an empty text if it is all of them; number and name: those of the refusal;
    cure: what the instruction takes.
    """

    def __init__(self, word: str | int, number: int, name: str, cure: str) -> None:
        super().__init__(word, number, name, cure)
        self.word, self.number, self.name, self.cure = word, number, name, cure


def rewritten(line: Parts, spare: Callable[[], int]) -> list[Parts] | None:
    """The lines that do the same as a line, each with its tag, and measurements with its arguments; None if the line stays as it is.
    Raises WrongWord.

    spare: answers a qubit that the circuit names nowhere.
    """
    if line.arguments and line.name in GATES:
        raise WrongWord(0, 2, "BadArguments", f"{line.name} takes no arguments: take the brackets out.")
    lines = without_sweep_bits(line, spare) if sweeping.is_swept(line) else lines_for(line, spare)
    if lines is None:
        return None
    return [Parts(name, line.tag, line.arguments if name in MEASUREMENTS else (), tuple(on)) for name, on in lines]


def lines_for(line: Parts, spare: Callable[[], int]) -> list[Written] | None:
    """What does the same, as names and targets; None if the line stays as it is."""
    if line.name in ON_ONE:
        runs = targets.apart(qubits(line), lambda target: {int(target)})
        return [(gate, run) for run in runs for gate in ON_ONE[line.name]]
    if line.name in BY_SECOND:
        return controlled_from_behind(line)
    if line.name in ON_TWO:
        return on_pairs(line.name, pairs(line, qubits(line)))
    if line.name in OF_PAIRS:
        return [("MPP", [product_of_pair(OF_PAIRS[line.name], *pair) for pair in pairs(line, measured(line))])]
    if line.name in ROOTS:
        return [written for target in products(line) for written in root(line.name, target)]
    if line.name == "MPP":
        return shortened(line, spare)
    if line.name == "MPAD":
        return known([is_one(target) for target in line.targets], spare)
    return None


def without_sweep_bits(line: Parts, spare: Callable[[], int]) -> list[Written]:
    """What does the same while all sweep bits are 0."""
    try:
        left = tuple(target for pair in sweeping.pairs_of(line) if not sweeping.is_decided(pair) for target in pair)
    except IndexError as fault:
        cure = f"{line.name} takes pairs, of which a sweep bit, as sweep[0], may decide about a qubit."
        raise WrongWord(int(fault.args[0]), 3, "BadTarget", cure) from None
    rest = line._replace(targets=left)
    return [] if not left else lines_for(rest, spare) or [(line.name, left)]


def qubits(line: Parts) -> Sequence[str]:
    """The targets, which are qubits."""
    for target in line.targets:
        if not is_number(target):
            raise WrongWord(target, 3, "BadTarget", f"{line.name} takes qubits, which are numbers.")
    return line.targets


def measured(line: Parts) -> Sequence[str]:
    """The targets, which are qubits, each perhaps with a `!`."""
    for target in line.targets:
        if not targets.MEASURED.fullmatch(target):
            raise WrongWord(target, 3, "BadTarget", f"{line.name} takes qubits, each perhaps with one `!` before it.")
    return line.targets


def pairs(line: Parts, on: Sequence[str]) -> list[tuple[str, str]]:
    """Targets two by two."""
    if len(on) % 2:
        raise WrongWord(len(on) - 1, 4, "BadPairing", f"{line.name} takes pairs of qubits: this one has no partner.")
    found = list(zip(on[::2], on[1::2]))
    for place, (first, second) in enumerate(found):
        if int(first.removeprefix("!")) == int(second.removeprefix("!")):
            raise WrongWord(2 * place + 1, 4, "BadPairing", f"{line.name} takes pairs of two different qubits.")
    return found


def on_pairs(name: str, on: Sequence[tuple[str, str]]) -> list[Written]:
    """A gate on pairs, as gates that are read."""
    lines: list[Written] = []
    for run in targets.apart(on, lambda pair: {int(target) for target in pair}):
        for step in ON_TWO[name]:
            gate, _, letters = step.partition(" ")
            lines.append((gate, [pair["ab".index(letter)] for pair in run for letter in letters]))
    return lines


def controlled_from_behind(line: Parts) -> list[Written] | None:
    """A gate with a Z on the second qubit of each pair, which may be a record. Two records exchange no more than a phase."""
    gate = BY_SECOND[line.name]
    has_records = any(targets.RECORD.fullmatch(target) for target in line.targets[1::2])
    if gate == line.name and not has_records:
        return None
    if len(line.targets) % 2:
        raise WrongWord(len(line.targets) - 1, 4, "BadPairing", f"{line.name} takes pairs: this one has no partner.")
    on: list[str] = []
    for first, second in zip(line.targets[::2], line.targets[1::2]):
        is_record = bool(targets.RECORD.fullmatch(first))
        if is_record and gate != line.name:
            raise WrongWord(first, 3, "BadTarget", f"{line.name} takes a qubit first, and then a qubit or a record.")
        if not (is_record and targets.RECORD.fullmatch(second)):
            on += (first, second) if gate == line.name and is_number(second) else (second, first)
    return [(gate, on)] if on else []


def product_of_pair(letter: str, first: str, second: str) -> str:
    """A product of one letter on two qubits, each with its `!`."""
    return "*".join("!" * target.startswith("!") + letter + target.removeprefix("!") for target in (first, second))


def root(name: str, target: str) -> Iterator[Written]:
    """The square root of a product: its letters become Z, their parity goes to the last qubit and is taken back after the turn there."""
    product = targets.multiplied(target)
    if product is None:
        raise WrongWord(target, 3, "BadTarget", f"{name} takes products of X, Y and Z, as X0*!Y1, which are their own inverses.")
    negative, letters = product
    if not letters:
        return
    *others, last = letters
    of_x, of_y = ([str(qubit) for qubit, letter in letters.items() if letter == wanted] for wanted in "XY")
    parity = [str(end) for qubit in others for end in (qubit, last)]
    lines = [("H", of_x), ("SQRT_X", of_y), ("CX", parity), (ROOTS[name][negative], [str(last)]), ("CX", parity), ("SQRT_X_DAG", of_y), ("H", of_x)]
    yield from (line for line in lines if line[1])


def products(line: Parts) -> Sequence[str]:
    """The targets, which are products. Stim allows spacing around each `*`."""
    return SPACED_STAR.sub("*", " ".join(line.targets)).split(" ") if line.targets else ()


def shortened(line: Parts, spare: Callable[[], int]) -> list[Written] | None:
    """Measured products with each qubit once, and no spacing in them; None if they are so already, or misspelt, which the program
    says. One of no letters is a record that is known."""
    on = products(line)
    shorter = [real_product(target) if has_qubit_twice(target) else None for target in on]
    if not any(shorter):
        return None if len(on) == len(line.targets) else [("MPP", on)]
    lines: list[Written] = []
    for target, product in zip(on, shorter):
        if product is None or product[1]:
            lines.append(("MPP", [target if product is None else targets.text_of_product(*product)]))
        else:
            lines += known([product[0]], spare)
    return joined(lines)


def real_product(target: str) -> tuple[bool, targets.Product] | None:
    """A product multiplied out, as by `multiplied`, None if it is misspelt. Only without a factor of i it can be measured."""
    product = targets.multiplied(target)
    if product is None and all(map(targets.FACTOR.fullmatch, target.split("*"))):
        raise WrongWord(target, 3, "BadTarget", "Multiplied out, this is i or -i times a product of Paulis, which can't be measured.")
    return product


def has_qubit_twice(target: str) -> bool:
    """Whether a product has a qubit twice."""
    return len(targets.qubits_of(target)) < len(target.split("*"))


def joined(lines: list[Written]) -> list[Written]:
    """Neighbouring lines of the same name as one."""
    found: list[tuple[str, list[str]]] = []
    for name, on in lines:
        if not found or found[-1][0] != name:
            found.append((name, []))
        found[-1][1].extend(on)
    return list(found)


def is_one(target: str) -> bool:
    """The bit that a target of padding is."""
    if target not in ("0", "1"):
        raise WrongWord(target, 3, "BadTarget", "MPAD takes bits, 0 or 1.")
    return target == "1"


def known(bits: Sequence[bool], spare: Callable[[], int]) -> list[Written]:
    """Records that are known: those of a qubit that was reset, so that they depend on nothing in front of them."""
    if not bits:
        return [("M", [])]
    qubit = str(spare())
    return [("R", [qubit]), ("M", ["!" * bit + qubit for bit in bits])]
