"""Noise as it is written: how many chances an instruction takes, on what, and after what."""

import functools

from stabsim.text import names, targets
from stabsim.text.reading import Parts, is_number
from stabsim.text.rewriting import WrongWord, pairs

# How many chances a channel takes, if not one. Channels that do nothing take any number.
COUNTS = {"PAULI_CHANNEL_1": 3, "PAULI_CHANNEL_2": 15, "HERALDED_PAULI_CHANNEL_1": 4}
ON_PAIRS = ("DEPOLARIZE2", "PAULI_CHANNEL_2", "II_ERROR")
# What disjoint chances may add up to: fifteen that were written in six digits each.
MOST_IN_ALL = 1.0000001
CHANCE = "0123456789+-.eE"


def check_channel(line: Parts, before: str) -> None:
    """Raises what is wrong with a channel; before: the name of the instruction on the line before it."""
    if line.name == names.ELSE and before not in names.CORRELATED:
        raise WrongWord("", 1, "UnsupportedName", f"{names.ELSE} follows {names.FIRST} or another {names.ELSE} on the line before it.")
    count = len(line.arguments) if line.name in names.IDLE else COUNTS.get(line.name, 1)
    check_chances(line.name, line.arguments, count)
    if line.name in names.CORRELATED:
        check_paulis(line)
    # Targets that are no qubits are for the program to refuse.
    elif line.name in ON_PAIRS and all(map(is_number, line.targets)):
        pairs(line, line.targets)


def check_measurement(line: Parts) -> None:
    """Raises what is wrong with the chance of a wrong record."""
    check_chances(line.name, line.arguments, 1)


@functools.lru_cache(maxsize=8192)
def check_chances(name: str, arguments: tuple[str, ...], count: int) -> None:
    """Raises what is wrong with chances."""
    if len(arguments) != count:
        many = f"{count} chances" if count > 1 else "one chance"
        raise WrongWord("", 2, "BadArguments", f"{name} takes {many} in brackets, as {name}({', '.join(['0.01'] * count)}).")
    for argument in arguments:
        if not is_chance(argument):
            raise WrongWord(argument, 2, "BadArguments", "This is no chance: give a number from 0 to 1.")
    if sum(map(float, arguments)) > MOST_IN_ALL:
        raise WrongWord("", 2, "BadArguments", f"At most one of these errors happens: give {name} chances that are 1 or less in all.")


def is_chance(text: str) -> bool:
    """Whether a text is a number from 0 to 1."""
    try:
        return not set(text) - set(CHANCE) and 0 <= float(text) <= 1
    except ValueError:
        return False


def check_paulis(line: Parts) -> None:
    """Raises what is wrong with the targets of an error on several qubits."""
    for target in line.targets:
        if not targets.PAULI.fullmatch(target):
            raise WrongWord(target, 3, "BadTarget", f"{line.name} takes Paulis, each with its qubit, and spacing between them, as X0 Z3.")
