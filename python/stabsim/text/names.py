"""The names of instructions, as they are printed, by what their targets are."""

import json
from collections.abc import Iterable
from pathlib import Path
from typing import Any

# What the program reads, a row each; the page's instructions.js has the same file.
TABLE: dict[str, dict[str, Any]] = json.loads(
    (Path(__file__).resolve().parents[1] / "page" / "static" / "instructions.json").read_text(encoding="utf-8"))["instructions"]


def of_kinds(*kinds: str) -> tuple[str, ...]:
    """The instructions of these kinds, in the order of the table."""
    return tuple(name for name, row in TABLE.items() if row["kind"] in kinds)


def spellings(names: Iterable[str]) -> Iterable[str]:
    """These names, each with its other ones."""
    return (word for name in names for word in (name, *TABLE[name].get("aliases", ())))


ONE_QUBIT = of_kinds("gate")
CONTROLLED = of_kinds("controlled gate")
TWO_QUBITS = of_kinds("controlled gate", "pair gate")
MEASUREMENTS = of_kinds("measurement", "measurement and reset", "product measurement")
RESETS = of_kinds("reset")
DECLARATIONS = of_kinds("declaration")
ANNOTATIONS = of_kinds("declaration", "annotation")
# What acts on qubits by targets of its own.
ACTING = (*ONE_QUBIT, *TWO_QUBITS, *MEASUREMENTS, *RESETS)
READ = frozenset((*ACTING, *ANNOTATIONS))
# Gates that are not their own inverses.
INVERSES: dict[str, str] = {name: row["inverse"] for name, row in TABLE.items() if "inverse" in row}
# Other names of instructions, with those by which they are printed.
ALIASES = {alias: name for name in TABLE for alias in spellings([name]) if alias != name} | {"CORRELATED_ERROR": "E"}

# With those of Stim's that the program does not read: what pairs may have a record, and whose arguments are the chance of a wrong record.
FED_BACK = (*CONTROLLED, "XCZ", "YCZ")
PAIRS = ("MXX", "MYY", "MZZ")
MEASURING = (*MEASUREMENTS, *PAIRS, "MPAD")

# Noise, which it does not read.
FLIPS = {"X_ERROR": "X", "Y_ERROR": "Y", "Z_ERROR": "Z"}
CHANNELS = (*FLIPS, "DEPOLARIZE1", "DEPOLARIZE2", "PAULI_CHANNEL_1", "PAULI_CHANNEL_2")
# An error on several qubits, and one that may happen if those in front of it did not.
FIRST, ELSE = "E", "ELSE_CORRELATED_ERROR"
CORRELATED = (FIRST, ELSE)
# All noise that does something and makes no records.
NOISE = (*CHANNELS, *CORRELATED)
# Channels that do nothing.
IDLE = ("I_ERROR", "II_ERROR")
# Noise that makes records, each of which says whether an error happened.
HERALDED = ("HERALDED_ERASE", "HERALDED_PAULI_CHANNEL_1")
# Whatever is no instruction of a circuit without noise.
UNREAD_NOISE = frozenset((*NOISE, *IDLE, *HERALDED))
