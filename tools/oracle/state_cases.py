"""States of the first and the last of up to 1,024 qubits, and strings that are known by hand.

The other qubits stay zero. Of each state a session is asked which of the 32 signed strings on the two stabilise, its reduced rows, and
each outcome, free or fixed."""

from collections.abc import Iterable, Iterator
from itertools import product as all_of

from stabsim.text.names import ONE_QUBIT, TWO_QUBITS

from . import numbers
from .answers import Case
from .making import UNDONE_BY
from .reading import items_of

SIZES = (2, 63, 64, 65, 127, 128, 129, 255, 256, 257, 1023, 1024)
# Circuits have F and L for the first and the last qubit; here they are two.
STRINGS = ["".join(pair) for pair in all_of("IXYZ", repeat=2)]
BELL = ["H F", "CX F L"]
FLIPPED = ["H F", "H L", "CZ F L", "Z F"]
# A qubit is brought to +, then to the eigenstate of Y with the sign -, and is measured and flipped.
ONE_AFTER_ANOTHER = ["H F", "S_DAG F", "MPP ZF", "M F", "X F"]
# Lines of circuits, and coins.
STATES: list[tuple[list[str], str]] = [
    ([], ""),
    (BELL, ""),
    ([*BELL, "MPP ZF"], "1"),
    ([*BELL, "M F"], "1"),
    ([*BELL, "M F", "M L"], "01"),
    ([*BELL, "S_DAG F", "S_DAG L"], ""),
    (FLIPPED, ""),
    ([*FLIPPED, "MPP XF XF"], "01"),
    ([*FLIPPED, "MX F F"], "01"),
    ([*FLIPPED, "MX F", "MX !F"], "10"),
    (["X L"], ""),
    (["H L", "Z L"], ""),
    (["H L", "S L", "Z L"], ""),
    (["H L", "S_DAG L"], ""),
    *(([line.replace("F", place) for line in ONE_AFTER_ANOTHER[:length]], "10") for place in "FL" for length in range(1, len(ONE_AFTER_ANOTHER) + 1)),
    # Half of a pair is reset, and the state goes on.
    ([*BELL, "S F", "CY L F", "R F", "RX L", "H L", "H F", "CX F L", "M F"], "11111"),
    ([*BELL, "MR F", "MRX L", "MRY F", "RY L", "MY F L", "SWAP F L"], "1101111"),
    ([*BELL, "MPP !XF*XL YF*!YL ZF*ZL XF*ZL"], "0110"),
]

# Changes of one letter or more. S twice is Z; H and CZ are no letters.
CHANGES = [*([f"{letter} {place}"] for letter, place in all_of("IXYZ", "FL")),
           ["Y L", "Z F"], ["Z L", "X L"], ["S F", "S F"], ["S F F"], ["H F"], ["CZ F L"]]
# What is measured of zeros and of a pair, free or fixed, in shots of a seed.
MEASURED = ["MPP ZF*ZL", "MPP !ZL", "MPP XF", "MPP ZF*YL", "MPP !XF*XL", "MPP YF*YL", "MPP ZF", "MPP !XL", "MPP XF*ZL", "MPP YF*XL"]
MEASURED += ["MX F", "MX L", "MY F", "MY L", "M F", "M L"]
SHOTS = 70
SEED = 5


def written(lines: Iterable[str], size: int) -> bytes:
    """Lines with the numbers of the first and the last of this many qubits in the places of F and L."""
    numbered = [[name, *(it.replace("F", "0").replace("L", str(size - 1)) for it in rest)] for name, *rest in map(str.split, lines)]
    return "".join(" ".join(line) + "\n" for line in numbered).encode()


def shows(size: int) -> bytes:
    """What a script asks of a state: outcomes, rows, and the sign of each string on the two qubits, or on one if they are one."""
    strings = [zip(letters, (0, size - 1)) for letters in STRINGS if size > 1 or letters[1] == "I"]
    products = ["*".join(f"{letter}{qubit}" for letter, qubit in it if letter != "I") or "_" * size for it in strings]
    signs = [f"sign {sign}{product}" for product in products for sign in "+-"]
    return "".join(f"show {it}\n" for it in ["measurements", "free", "stabilisers", *signs]).encode()


def edited(size: int, lines: list[str], coins: str, edits: bytes = b"") -> Case:
    """A session on these lines, which shows its state after some edits."""
    settings = (("framed", True), ("qubits", size), ("coins", coins or "0"), ("stride", 1))
    return Case("edit", written(lines, size), settings, edits + shows(size))


def state(size: int, lines: list[str], coins: str) -> list[Case]:
    """A session shows the state, and `sample` writes the records."""
    return [edited(size, lines, coins), Case("sample", written(lines, size), (("coins", coins or "0"),))]


def gates(size: int) -> Iterator[Case]:
    """Each gate sends each letter, with either sign, to what its matrix says, and its inverse sends it back."""
    turns = [(f"MPP {letter}F", f"{gate} F", f"{UNDONE_BY.get(gate, gate)} F") for gate in ONE_QUBIT for letter in "XYZ"]
    turns += [(f"MPP {it}", f"{gate} F L", f"{gate} F L") for gate in TWO_QUBITS for it in ("XF", "ZF", "XL", "ZL")]
    for (measured, there, back), coin in all_of(turns, "01"):
        yield from state(size, [*BELL, measured, there], coin)
        yield from state(size, [*BELL, measured, there, back], coin)


def measurements(size: int) -> Iterator[Case]:
    """On each state each letter and each string is measured, with either coin."""
    asked = [f"{name} {place}" for name in ("M", "MX", "MY") for place in "FL"]
    asked += ["MPP " + "*".join(a + b for a, b in zip(string, "FL") if a != "I") for string in STRINGS[1:]]
    for (lines, coins), measured, coin in all_of(STATES, asked, "01"):
        before = sum(map(numbers.uses_coin, numbers.unroll(items_of(written(lines, size)))))
        yield edited(size, [*lines, measured], coins.ljust(before, "0")[:before] + coin)


def changed(size: int) -> Iterator[Case]:
    """What is put in after a pair changes the checkpoints after it, from where a later edit goes on: some of it by a Pauli frame."""
    for change, last in all_of(CHANGES, ("I F", "H L", "S F")):
        put = written(["REPEAT 1 {", *change, "}"], size), written([last], size)
        yield edited(size, [*BELL, "I F", "I L", "I F"], "", b"insert 2 %binsert 6 %b" % put)


def shots(size: int) -> Iterator[Case]:
    """Shots that are run together, as lanes that take a pivot on, are those that each has with its own coins."""
    for lines, measured in all_of((BELL[:0], BELL), MEASURED):
        yield Case("sample", written([*lines, measured, "M F", "MX L", "MPP YF*YL"], size), (("shots", SHOTS), ("seed", SEED)))


def states() -> Iterator[Case]:
    for size in (2, 65):
        yield from gates(size)
        yield from measurements(size)
    for size in SIZES:
        for lines, coins in STATES:
            yield from state(size, lines, coins)
        yield from changed(size)
        yield from shots(size)
    for length in range(len(ONE_AFTER_ANOTHER) + 1):
        yield from state(1, ONE_AFTER_ANOTHER[:length], "10")


def together(size: int) -> Case:
    """All qubits in X together, except for a phase flip on the first and a flip of the second."""
    lines = f"H 0\nCX {' '.join(f'0 {qubit}' for qubit in range(1, size))}\nZ 0\nX 1\n"
    rows = ["-" + "X" * size]
    rows += ["+-"[qubit == 1] + "_" * qubit + "Z" + "_" * (size - qubit - 2) + "Z" for qubit in range(size - 1)]
    return Case("stabilisers", lines.encode(), known="".join(row + "\n" for row in rows).encode())


def products(size: int) -> Case:
    """On zeros, X on all qubits is measured with the coin 1, and then Z and Y with 0 and 1. If the number of qubits is even, the two
    commute with it, Z stays 0, and Y is the product of both, with a sign for each two qubits; else both are free."""
    strings = ["*".join(f"{letter}{qubit}" for qubit in range(size)) for letter in "XZY"]
    records = "101" if size % 2 else f"10{1 ^ size // 2 % 2}"
    return Case("sample", f"MPP {' '.join(strings)}\n".encode(), (("coins", "101"),), known=f"{records}\n".encode())


def cases() -> Iterator[Case]:
    yield from states()
    yield from map(together, (3, 64, 65, 257, 1024))
    yield from map(products, (1, 2, 63, 64, 65, 66, 255, 256, 257, 258, 1022, 1023, 1024))
