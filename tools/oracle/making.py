"""Random circuits by the grammar of circuit text, and what becomes of their bytes when they are damaged."""

from collections.abc import Callable, Sequence
from random import Random

from stabsim.text.names import ONE_QUBIT, TWO_QUBITS
from stabsim.text.names import ALIASES

from .reading import COLLAPSES

# Gates by their names and targets.
Gates = list[tuple[str, str]]

SPELLINGS = {name: [name] + [alias for alias, first in ALIASES.items() if first == name]
             for name in (*ONE_QUBIT, *TWO_QUBITS, "MPP", *COLLAPSES)}
# Tags of marks, and some that are almost one.
MARK_TAGS = ("a b", "X", "Y", "Z", "XZ", "XYZ", "pairs", "pairs", "Pairs", "x", "xz", "YX")
UNDONE_BY = {"S": "S_DAG", "SQRT_X": "SQRT_X_DAG", "SQRT_Y": "SQRT_Y_DAG", "C_XYZ": "C_ZYX"}
UNDONE_BY.update({undo: name for name, undo in UNDONE_BY.items()})


def spelled(random: Random, name: str) -> str:
    text = random.choice(SPELLINGS[name])
    return "".join(c.lower() if random.random() < 0.1 else c for c in text)


class Maker:
    """Writes lines of a circuit on some qubits, or on the first n, and counts records, so that most lookbacks reach one."""

    def __init__(self, random: Random, n: int, qubits: Sequence[int] = ()) -> None:
        self.random = random
        self.n = n
        self.qubits = qubits or range(n)
        self.records = 0
        self.names = list(SPELLINGS)

    def qubit(self) -> int:
        return self.random.choice(self.qubits)

    def record(self) -> str:
        reach = self.records if self.random.random() < 0.99 else self.records + 1
        return f"rec[-{self.random.randint(1, max(1, reach))}]"

    def mark(self) -> str:
        return "!" if self.random.random() < 0.2 else ""

    def product(self) -> str:
        places = self.random.sample(self.qubits, self.random.randint(1, self.n))
        return "*".join(f"{self.mark()}{self.random.choice('XYZxyz')}{place}" for place in places)

    def pair(self, name: str) -> str:
        if name != "SWAP" and self.records and self.random.random() < 0.3:
            return f"{self.record()} {self.qubit()}"
        if self.n < 2:
            return ""
        return "{} {}".format(*self.random.sample(self.qubits, 2))

    def targets(self, name: str) -> str:
        many = range(self.random.choice((1, 1, 1, 2, 3)))
        if name == "MPP":
            found = [self.product() for _ in many]
        elif name in TWO_QUBITS:
            found = [self.pair(name) for _ in many]
        elif name in COLLAPSES and COLLAPSES[name][1]:
            found = [self.mark() + str(self.qubit()) for _ in many]
        else:
            found = [str(self.qubit()) for _ in many]
        if name == "MPP" or (name in COLLAPSES and COLLAPSES[name][1]):
            self.records += len(found)
        return " ".join(found)

    def annotation(self) -> str:
        records = [self.record() for _ in range(self.random.randint(0, 3))] if self.records else []
        kind = self.random.choice(("DETECTOR", "DETECTOR(1, -2.5e3)", "TICK", "SHIFT_COORDS(0,1)", "QUBIT_COORDS(3)", "O"))
        if kind == "O":
            return " ".join([f"OBSERVABLE_INCLUDE({self.random.randint(0, 3)})"] + records)
        if kind.startswith("DETECTOR"):
            return " ".join([kind] + records)
        return f"{kind} {self.qubit()}" if kind.startswith("QUBIT") else kind

    def line(self) -> str:
        if self.random.random() < 0.2:
            return self.annotation()
        name = self.random.choice(self.names)
        tags = MARK_TAGS if name == "I" else ("a b",)
        tag = f"[{self.random.choice(tags)}]" if self.random.random() < (0.3 if name == "I" else 0.05) else ""
        note = " # why" if self.random.random() < 0.05 else ""
        return f"{spelled(self.random, name)}{tag} {self.targets(name)}{note}"

    def lines(self, count: int, depth: int = 0) -> list[str]:
        out: list[str] = []
        for _ in range(count):
            if depth < 3 and self.random.random() < 0.08:
                out += self.block(depth)
            else:
                out.append("  " * depth + self.line())
        return out

    def block(self, depth: int) -> list[str]:
        rounds = self.random.randint(1, 3)
        before = self.records
        body = self.lines(self.random.randint(0, 3), depth + 1)
        self.records += (rounds - 1) * (self.records - before)
        return [f"REPEAT {rounds} {{", *body, "}"]


def small_circuit(random: Random) -> bytes:
    n = random.randint(1, 4)
    return "\n".join(Maker(random, n).lines(random.randint(0, 18))).encode()


def random_gates(random: Random, n: int, count: int) -> Gates:
    """This many gates on n qubits, two at least, each by its name and targets."""
    gates: Gates = []
    for _ in range(count):
        if random.random() < 0.4:
            name = random.choice(TWO_QUBITS)
            gates.append((name, "{} {}".format(*random.sample(range(n), 2))))
        else:
            gates.append((random.choice(ONE_QUBIT), str(random.randrange(n))))
    return gates


def undoing(gates: Gates) -> Gates:
    """What undoes gates."""
    return [(UNDONE_BY.get(name, name), targets) for name, targets in reversed(gates)]


def lines_of(gates: Gates) -> list[str]:
    return [f"{name} {targets}" for name, targets in gates]


def damaged(random: Random, text: bytes, other: bytes) -> bytes:
    """The text cut, doubled in part, spliced with another, or with a byte or bit changed."""
    out = bytearray(text)
    for _ in range(random.randint(1, 3)):
        a, b = sorted(random.randint(0, len(out)) for _ in range(2))
        way = random.randrange(6)
        if way == 0:
            del out[a:b]
        elif way == 1:
            out[b:b] = out[a:b]
        elif way == 2:
            out[a:] = other[random.randint(0, len(other)):]
        elif way == 3 and out:
            out[min(a, len(out) - 1)] ^= 1 << random.randrange(8)
        elif way == 4:
            out[a:a] = bytes([random.choice(b"\n\t\r #{}[]()!*,-0123456789XYZMREC\x00\xff")])
        elif a < len(out):
            out[a] = random.randrange(256)
    return bytes(out)


def without_lines(text: bytes, differs: Callable[[bytes], object]) -> bytes:
    """A text with as many lines left out as still differ."""
    lines = text.split(b"\n")
    at = 0
    while at < len(lines):
        fewer = lines[:at] + lines[at + 1:]
        if differs(b"\n".join(fewer)):
            lines = fewer
        else:
            at += 1
    return b"\n".join(lines)
