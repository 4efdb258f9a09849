"""The Bacon-Shor code on a square, by MPP on pairs of neighbours."""

from collections.abc import Iterable

from stabsim.codes.noise import Noise
from stabsim.codes.text import Memory, Text

# The greatest distance of a Bacon-Shor code whose qubits are numbered below 1,024.
MOST_DISTANCE = 32


class BaconShor:
    """The pairs of the Bacon-Shor code. Those of one gap between two lines are side by side, and make a check."""

    def __init__(self, distance: int) -> None:
        self.lines = range(distance)
        self.gaps = self.lines[:-1]
        self.size = distance**2
        self.upright = [(self.qubit(x, y), self.qubit(x, y + 1)) for y in self.gaps for x in self.lines]
        self.level = [(self.qubit(x, y), self.qubit(x + 1, y)) for x in self.gaps for y in self.lines]

    def qubit(self, x: int, y: int) -> int:
        return x + y * len(self.lines)

    def back_of_gap(self, gap: int) -> list[int]:
        """How many records before the end of a round those of a gap's pairs of Z are."""
        return [len(self.level) - gap * len(self.lines) - i for i in self.lines]

    def back_of_columns(self, columns: Iterable[int]) -> list[int]:
        """The same for the data qubits of columns at the end, in ascending order."""
        return sorted(self.size - self.qubit(x, y) for x in columns for y in self.lines)

    def measure_pairs(self, text: Text) -> None:
        text.round_begins(range(self.size))
        text.add("TICK")
        text.products("X", self.upright)
        text.add("TICK")
        text.products("Z", self.level)


def bacon_shor_memory(distance: int, noise: Noise | None = None) -> Memory:
    """The Bacon-Shor code of a distance, as a memory of a logical 0."""
    code = BaconShor(distance)

    head = Text(noise)
    for y in code.lines:
        for x in code.lines:
            head.add(f"QUBIT_COORDS({x}, {y}) {code.qubit(x, y)}")
    head.reset("R", range(code.size))
    code.measure_pairs(head)
    for gap in code.gaps:
        head.detector((gap + 0.5, 0, 0), code.back_of_gap(gap))

    body = Text(noise)
    code.measure_pairs(body)
    body.add("SHIFT_COORDS(0, 0, 1)")
    each = len(code.upright) + len(code.level)
    for behind in (len(code.level), 0):
        # The checks of X are before those of Z, and lie between rows.
        for gap in code.gaps:
            back = [behind + it for it in code.back_of_gap(gap)]
            place = (0, gap + 0.5, 0) if behind else (gap + 0.5, 0, 0)
            body.detector(place, back + [each + it for it in back])

    tail = Text(noise)
    tail.measure("M", range(code.size))
    for gap in code.gaps:
        before = [code.size + it for it in code.back_of_gap(gap)]
        tail.detector((gap + 0.5, 0, 1), code.back_of_columns((gap, gap + 1)) + before)
    tail.observable(0, code.back_of_columns((0,)))
    return Memory(f"Bacon-Shor code of distance {distance}", head, body, tail)
