"""Dense random Clifford circuits."""

from collections.abc import Iterable, Sequence
from typing import TypeVar

from stabsim import checking
from stabsim.codes.limits import MOST_QUBITS, MOST_STEPS
from stabsim.codes.text import Text, titled

Item = TypeVar("Item")


class Numbers:
    """Random numbers that are the same everywhere: SplitMix64 (Steele, Lea and Flood 2014)."""

    def __init__(self, seed: int) -> None:
        self.state = seed

    def below(self, limit: int) -> int:
        self.state = (self.state + 0x9E3779B97F4A7C15) % 2**64
        z = self.state
        z = (z ^ z >> 30) * 0xBF58476D1CE4E5B9 % 2**64
        z = (z ^ z >> 27) * 0x94D049BB133111EB % 2**64
        return (z ^ z >> 31) % limit

    def pick(self, choices: Sequence[Item]) -> Item:
        return choices[self.below(len(choices))]

    def shuffled(self, items: Iterable[Item]) -> list[Item]:
        mixed = list(items)
        for i in range(len(mixed) - 1, 0, -1):
            j = self.below(i + 1)
            mixed[i], mixed[j] = mixed[j], mixed[i]
        return mixed


def dense_circuit(qubits: int, steps: int, seed: int = 0) -> str:
    """Random layers on this many qubits, cut off after exactly this many steps: gates on all qubits, each layer followed by
    some random measurements and resets, and by detectors over random earlier records."""
    checking.whole("qubits", qubits, 1, MOST_QUBITS + 1)
    checking.whole("steps", steps, 0, MOST_STEPS + 1)
    circuit = Text()
    numbers = Numbers(checking.seed("seed", seed))
    while circuit.steps < steps:
        add_layer(circuit, numbers, qubits, steps)
    return titled(f"Dense random Clifford circuit on {qubits} qubits, seed {seed}", circuit)


def add_layer(circuit: Text, numbers: Numbers, qubits: int, steps: int) -> None:
    """A gate on each qubit, a gate on each pair of a random pairing, measurements, and detectors."""
    order = numbers.shuffled(range(qubits))
    pairs = list(zip(order[0::2], order[1::2]))
    some = numbers.shuffled(range(qubits))[: 1 + qubits // 16]
    for name, ones in grouped(numbers, ["H", "S", "S_DAG"], range(qubits)):
        circuit.gate(name, ones[: steps - circuit.steps])
    for name, twos in grouped(numbers, ["CX", "CY", "CZ", "SWAP"], pairs):
        circuit.pairs(name, twos[: steps - circuit.steps])
    for name, ones in grouped(numbers, ["M", "MX", "MR", "R"], some):
        ones = ones[: steps - circuit.steps]
        if name == "R":
            circuit.reset(name, ones)
        else:
            circuit.measure(name, ones)
    for _ in range(min(4, steps - circuit.steps)):
        reach = min(circuit.records, 4 * qubits)
        circuit.detector((), [1 + numbers.below(reach) for _ in range(3 if reach else 0)])


def grouped(numbers: Numbers, names: Sequence[str], items: Iterable[Item]) -> list[tuple[str, list[Item]]]:
    """The items under a random one of the names each."""
    groups: dict[str, list[Item]] = {name: [] for name in names}
    for item in items:
        groups[numbers.pick(names)].append(item)
    return [(name, group) for name, group in groups.items() if group]
