"""The lines that `check` gives in place of each gate of Stim's that is not read make of letters what python/tests/gate_images.py says, and
are read."""

from itertools import product

import pytest
from gate_images import ON_ONE, ON_TWO, images_of_root
from oracle import numbers
from oracle.reading import NAMES, items_of
from oracle.states import images, sent, string_of
from running import run
from stabsim.text.names import ALIASES

ON_QUBITS = {**{f"{name} 0": it for name, it in ON_ONE.items()}, **{f"{name} 0 1": it for name, it in ON_TWO.items()}}
IMAGES = {instruction: it.split() for instruction, it in ON_QUBITS.items() if instruction.split()[0] not in [*NAMES, *ALIASES]}
IMAGES |= {f"SPP{end} X0*Y1*Z2": images_of_root("XYZ", end != "") for end in ("", "_DAG")}


def lines_for(instruction: str) -> list[str]:
    """The lines that the program gives in place of an instruction, and reads."""
    told = run(["check"], instruction + "\n")[1]
    lines = [line.strip() for line in told.partition(f"\nIn place of {instruction} write:\n")[2].splitlines()]
    assert lines and run(["check"], "\n".join(lines) + "\n")[0] == 0
    return lines


def made_of(lines: list[str], letter: str, qubit: int, size: int) -> str:
    """What gates make of a letter: a sign, and a letter for each qubit."""
    row = string_of([(letter, qubit)])
    for _, name, *qubits in numbers.unroll(items_of("\n".join(lines).encode())):
        row = sent(row, sum(1 << it for it in qubits), images(name, tuple(qubits)))
    return "+-"[row.negative()] + row.letters(size).replace("I", "_")


@pytest.mark.parametrize("instruction", IMAGES)
def test_lines_make_of_letters_what_the_gate_does(instruction: str) -> None:
    lines, size = lines_for(instruction), len(IMAGES[instruction]) // 2
    assert [made_of(lines, letter, qubit, size) for qubit, letter in product(range(size), "XZ")] == IMAGES[instruction]


@pytest.mark.parametrize("letter", "XYZ")
def test_measured_pairs_are_products(letter: str) -> None:
    assert lines_for(f"M{letter}{letter} 0 1") == [f"MPP {letter}0*{letter}1"]
