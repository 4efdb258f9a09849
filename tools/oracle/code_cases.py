"""Circuits of codes, the examples, and dense random circuits, large for the oracle."""

import time
from collections.abc import Iterator
from pathlib import Path
from random import Random

from stabsim import codes

from . import numbers
from .answers import Case
from .reading import items_of

EXAMPLES = Path(__file__).resolve().parent.parent.parent / "examples"
ROUNDS = 3
CODES = [
    codes.surface_code(3, ROUNDS), codes.surface_code(3, ROUNDS, basis="X"), codes.repetition_code(5, ROUNDS), codes.colour_code(5, ROUNDS),
    codes.bacon_shor_code(3, ROUNDS), codes.steane_code(ROUNDS),
]


def on_circuit(text: bytes, dice: Random) -> list[Case]:
    """What is asked of a circuit, with random coins."""
    coins = sum(map(numbers.uses_coin, numbers.unroll(items_of(text))))
    given = ("coins", "".join(dice.choice("01") for _ in range(coins)))
    return [Case("edit", text, (given,), b"show free\n"), Case("sample", text, (given,)),
            Case("detect", text, (given, ("append_observables", True))), Case("deterministic", text),
            Case("faults", text, (("everywhere", True), ("deterministic_only", True)))]


def cases(seconds: float, seed: int) -> Iterator[Case]:
    """Each circuit once, and then dense ones for some seconds."""
    dice = Random(seed)
    # Texts with noise are for the package.
    examples = [file.read_text() for file in sorted(EXAMPLES.glob("*.stim")) if not file.name.startswith("noisy_")]
    for text in (*examples, *CODES):
        yield from on_circuit(text.encode(), dice)
    end = time.monotonic() + seconds
    while time.monotonic() < end:
        qubits, number = dice.randint(2, 24), dice.randrange(2**32)
        yield from on_circuit(codes.dense_circuit(qubits, dice.randint(20, 900), number).encode(), dice)
