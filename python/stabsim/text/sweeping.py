"""Sweep bits: bits that are given with a shot, and decide about Paulis. All are 0 unless they are given, as in Stim."""

import itertools
import re
from collections.abc import Iterator, Sequence

from stabsim.text import names, targets
from stabsim.text.reading import Line, Parts, headed, is_number, lines_of

SWEEP = re.compile(r"sweep\[(\d{1,9})\]")
# The Pauli that a bit decides about, and at which place of a pair it may be.
PAULIS = {"CX": ("X", (0,)), "CY": ("Y", (0,)), "CZ": ("Z", (0, 1)), "XCZ": ("X", (1,)), "YCZ": ("Y", (1,))}
SWEEPING = re.compile(r"^[^#\n]*sweep\[.*", re.MULTILINE)


def is_swept(line: Parts) -> bool:
    """Whether a gate has sweep bits."""
    return line.name in PAULIS and any(target.startswith("sweep[") for target in line.targets)


def pairs_of(line: Parts) -> list[tuple[str, str]]:
    """The pairs of a gate that has sweep bits. Raises IndexError with the place of a target that it can't have."""
    if len(line.targets) % 2:
        raise IndexError(len(line.targets) - 1)
    pairs = list(zip(line.targets[::2], line.targets[1::2]))
    for place, target in enumerate(line.targets):
        is_bit = bool(SWEEP.fullmatch(target))
        other = line.targets[place ^ 1]
        is_controlled = is_number(other) or line.name == "CZ" and bool(SWEEP.fullmatch(other) or targets.RECORD.fullmatch(other))
        if target.startswith("sweep[") and not (is_bit and place % 2 in PAULIS[line.name][1] and is_controlled):
            raise IndexError(place)
    return pairs


def is_decided(pair: tuple[str, str]) -> bool:
    """Whether a sweep bit decides about a pair."""
    return any(map(SWEEP.fullmatch, pair))


def number_of_bits(text: str) -> int:
    """One more than the greatest sweep bit that a text names."""
    return max((int(number) + 1 for line in SWEEPING.findall(text) for number in SWEEP.findall(line.split("#")[0])), default=0)


def with_bits(text: str, bits: Sequence[bool]) -> str:
    """A text that was judged, with Paulis in the place of its sweep bits."""
    return "\n".join(written for line in lines_of(text) for written in lines_by(line, bits))


def lines_by(line: Line, bits: Sequence[bool]) -> Iterator[str]:
    """What a line becomes."""
    parts = line.parts
    if parts is None or not is_swept(parts):
        yield line.text
        return
    _, hash_sign, comment = line.text.partition("#")
    made = [pauli_or_pair(parts.name, pair, bits) for pair in pairs_of(parts)]
    runs = [(name, list(run)) for name, run in itertools.groupby(made, lambda it: it[0]) if name]
    end = f" #{comment}" if hash_sign else ""
    for name, run in runs:
        yield " ".join([line.indentation + headed(name, parts.tag), *(target for _, on in run for target in on)]) + end
        end = ""
    if end:
        yield line.indentation + end.lstrip()


def as_errors(text: str) -> tuple[str, dict[int, int]]:
    """A text that was judged, with an error that always happens in the place of each Pauli about which a sweep bit decides, and for each line
    of such an error, counted from 1, the bit. Other noise is left out, as far as it makes no records."""
    lines: list[str] = []
    bit_of_line: dict[int, int] = {}
    for line in lines_of(text):
        parts = line.parts
        if parts is None or not is_swept(parts):
            if parts is None or parts.name not in (*names.NOISE, *names.IDLE):
                lines.append(line.without_arguments() if parts and parts.name in names.MEASURING else line.text)
            continue
        for pair in pairs_of(parts):
            qubits = list(filter(is_number, pair))
            bits = [int(found[1]) for target in pair if (found := SWEEP.fullmatch(target))]
            if not bits:
                lines.append(" ".join([headed(parts.name, parts.tag), *pair]))
            elif qubits:
                lines.append(f"{PAULIS[parts.name][0]}_ERROR(1) {qubits[0]}")
                bit_of_line[len(lines)] = bits[0]
    return "\n".join(lines), bit_of_line


def pauli_or_pair(name: str, pair: tuple[str, str], bits: Sequence[bool]) -> tuple[str, tuple[str, ...]]:
    """A pair as it is, or a Pauli, by their names and targets; without a name if it is nothing."""
    if not is_decided(pair):
        return name, pair
    on = [target for target in pair if is_number(target)]
    decides = [bool(bits[int(found[1])]) for target in pair if (found := SWEEP.fullmatch(target))]
    return (PAULIS[name][0], tuple(on)) if on and decides[0] else ("", ())
