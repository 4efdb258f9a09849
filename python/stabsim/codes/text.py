"""A circuit's text while it is made, and memory experiments in their three parts."""

from collections.abc import Iterable, Sequence

from stabsim import checking
from stabsim.codes.limits import MOST_STEPS
from stabsim.codes.noise import Noise

# What a flip in front of a measurement, or after a reset, is named.
FLIPS = {"X": "Z_ERROR", "Y": "X_ERROR", "Z": "X_ERROR"}


class Text:
    """A circuit's lines, with the steps and records that they stand for when unrolled. Noise is no step."""

    def __init__(self, noise: Noise | None = None) -> None:
        self.lines: list[str] = []
        self.steps = 0
        self.records = 0
        self.noise = Noise() if noise is None else checking.of_kind("noise", noise, Noise, "a codes.Noise, as codes.Noise.uniform(0.01)")

    def add(self, line: str, steps: int = 0, records: int = 0) -> None:
        self.lines.append(line)
        self.steps += steps
        self.records += records

    def err(self, channel: str, chance: float, qubits: Sequence[int]) -> None:
        """A noise channel, if its chance is not 0."""
        if chance:
            self.add(words(f"{channel}({chance!r})", qubits))

    def gate(self, name: str, qubits: Sequence[int]) -> None:
        """One step for each qubit."""
        self.add(words(name, qubits), steps=len(qubits))
        self.err("DEPOLARIZE1", self.noise.after_gate, qubits)

    def pairs(self, name: str, pairs: Iterable[Sequence[int]]) -> None:
        """One step for each pair."""
        qubits = [qubit for pair in pairs for qubit in pair]
        self.add(words(name, qubits), steps=len(qubits) // 2)
        self.err("DEPOLARIZE2", self.noise.after_gate, qubits)

    def reset(self, name: str, qubits: Sequence[int]) -> None:
        """One step for each qubit."""
        self.add(words(name, qubits), steps=len(qubits))
        self.err(FLIPS[letter_of(name)], self.noise.after_reset, qubits)

    def measure(self, name: str, qubits: Sequence[int]) -> None:
        """One step and one record for each qubit; a measurement that resets has the noise of both."""
        flip = FLIPS[letter_of(name)]
        self.err(flip, self.noise.before_measurement, qubits)
        self.add(words(name, qubits), steps=len(qubits), records=len(qubits))
        if name.startswith("MR"):
            self.err(flip, self.noise.after_reset, qubits)

    def products(self, letter: str, groups: Sequence[Sequence[int]]) -> None:
        """One step and one record for each group of qubits, on which the product of this letter is measured. Each qubit errs after
        it as after a gate, as often as it is in a group."""
        targets = ["*".join(f"{letter}{qubit}" for qubit in group) for group in groups]
        chance = self.noise.before_measurement
        self.add(words(f"MPP({chance!r})" if chance else "MPP", targets), steps=len(groups), records=len(groups))
        self.err("DEPOLARIZE1", self.noise.after_gate, [qubit for group in groups for qubit in group])

    def round_begins(self, data: Sequence[int]) -> None:
        """The errors of data qubits in front of a round."""
        self.err("DEPOLARIZE1", self.noise.before_round, data)

    def detector(self, coordinates: Sequence[float], lookbacks: Iterable[int]) -> None:
        """The parity of the records that lie this many before the end."""
        place = f"({', '.join(str(number) for number in coordinates)})" if coordinates else ""
        self.add(words("DETECTOR" + place, [f"rec[-{back}]" for back in lookbacks]), steps=1)

    def observable(self, number: int, lookbacks: Iterable[int]) -> None:
        self.add(words(f"OBSERVABLE_INCLUDE({number})", [f"rec[-{back}]" for back in lookbacks]), steps=1)

    def join(self, other: "Text") -> None:
        self.lines += other.lines
        self.steps += other.steps
        self.records += other.records

    def repeat(self, count: int, body: "Text", written_out: bool = False) -> None:
        """The body, this many times; a block if that is more than once and not to be written out."""
        if count == 1 or written_out:
            self.lines += count * body.lines
        elif count > 1:
            self.lines += [f"REPEAT {count} {{"] + ["    " + line for line in body.lines] + ["}"]
        self.steps += count * body.steps
        self.records += count * body.records


def words(name: str, targets: Iterable[object]) -> str:
    return " ".join([name] + [str(target) for target in targets])


def letter_of(name: str) -> str:
    """The letter that a measurement or reset is in, as X of MRX; Z if its name has none."""
    return name[-1] if name[-1] in "XYZ" else "Z"


class Memory:
    """A memory experiment in its three parts: a first round, a round to repeat, and the end."""

    def __init__(self, title: str, head: Text, body: Text, tail: Text) -> None:
        self.title = title
        self.head = head
        self.body = body
        self.tail = tail

    def deepest(self) -> int:
        """The most rounds that the limit on steps allows."""
        return 1 + (MOST_STEPS - self.head.steps - self.tail.steps) // self.body.steps

    def text(self, rounds: int, written_out: bool = False) -> str:
        """The circuit of this many rounds; raises ValueError if there are none, or over the limit on steps."""
        rounds = checking.whole("rounds", rounds)
        if not 1 <= rounds <= self.deepest():
            raise ValueError(f"rounds is {rounds}: give a whole number from 1 to {self.deepest()}, since a circuit has up to {MOST_STEPS} steps")
        circuit = Text()
        circuit.join(self.head)
        circuit.repeat(rounds - 1, self.body, written_out)
        circuit.join(self.tail)
        return titled(f"{self.title}, {rounds} round{'s' * (rounds != 1)}", circuit)


def titled(title: str, circuit: Text) -> str:
    first = f"# {title}: {circuit.steps} steps, {circuit.records} records"
    return "\n".join([first] + circuit.lines) + "\n"
