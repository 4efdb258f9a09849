"""The rotated surface code."""

from stabsim.codes.noise import Noise
from stabsim.codes.text import Memory, Text

Place = tuple[int, int]

# The greatest distance of a surface code whose qubits are numbered below 1,024.
MOST_DISTANCE = 21

# The neighbours of a measured qubit in the order in which its check visits them. The orders differ
# so that no two checks meet at a data qubit, and so that an error of a measured qubit spreads
# across the logical operator, not along it.
ORDERS: dict[str, tuple[Place, ...]] = {
    "X": ((1, 1), (-1, 1), (1, -1), (-1, -1)),
    "Z": ((1, 1), (1, -1), (-1, 1), (-1, -1)),
}
# With the two exchanged it spreads along the logical operator.
BAD_ORDERS = {"X": ORDERS["Z"], "Z": ORDERS["X"]}


class SurfaceCode:
    """The layout of the rotated surface code: places of qubits, their numbers, and one round.

    orders: for each letter of checks, the neighbours in the order in which a check visits them.
    """

    def __init__(self, distance: int, orders: dict[str, tuple[Place, ...]]) -> None:
        data = [(2 * x + 1, 2 * y + 1) for x in range(distance) for y in range(distance)]
        self.checks = surface_checks(distance)
        self.orders = orders
        measured = self.checks["X"] + self.checks["Z"]
        # A row of data qubits is numbered together with the row of measured ones above it.
        self.number = {(x, y): x + (y - x % 2) // 2 * (2 * distance + 1) for x, y in data + measured}
        self.data = sorted(data, key=self.number.__getitem__)
        self.measured = sorted(measured, key=self.number.__getitem__)

    def numbers(self, places: list[Place]) -> list[int]:
        return [self.number[place] for place in places]

    def back(self, check: Place) -> int:
        """How many records before the end of a round the check's own is."""
        return len(self.measured) - self.measured.index(check)

    def back_of_data(self, places: list[Place]) -> list[int]:
        """The same for data qubits at the end, those that there are, in ascending order."""
        return sorted(len(self.data) - self.data.index(place) for place in places if place in self.number)

    def visit(self, text: Text, step: int) -> None:
        """Each check meets one of its data qubits: those of X as controls, those of Z as targets."""
        pairs = [(check, beside(check, self.orders["X"][step])) for check in self.checks["X"]]
        pairs += [(beside(check, self.orders["Z"][step]), check) for check in self.checks["Z"]]
        inside = [pair for pair in pairs if pair[0] in self.number and pair[1] in self.number]
        text.add("TICK")
        text.pairs("CX", [self.numbers(list(pair)) for pair in inside])

    def measure_checks(self, text: Text) -> None:
        turned = sorted(self.numbers(self.checks["X"]))
        text.round_begins(self.numbers(self.data))
        text.add("TICK")
        text.gate("H", turned)
        for step in range(4):
            self.visit(text, step)
        text.add("TICK")
        text.gate("H", turned)
        text.add("TICK")
        text.measure("MR", self.numbers(self.measured))


def surface_checks(distance: int) -> dict[str, list[Place]]:
    """The places of the checks of X and of Z, each column by column."""
    checks: dict[str, list[Place]] = {"X": [], "Z": []}
    for x in range(distance + 1):
        for y in range(distance + 1):
            is_x = x % 2 != y % 2
            # X checks are on two of the four sides, Z checks on the other two.
            if is_x and x in (0, distance) or not is_x and y in (0, distance):
                continue
            checks["X" if is_x else "Z"].append((2 * x, 2 * y))
    return checks


def beside(place: Place, step: Place) -> Place:
    return (place[0] + step[0], place[1] + step[1])


def surface_memory(distance: int, basis: str = "Z", noise: Noise | None = None, bad_schedule: bool = False) -> Memory:
    """The rotated surface code of a distance, as a memory of the logical letter Z or X."""
    code = SurfaceCode(distance, BAD_ORDERS if bad_schedule else ORDERS)
    suffix = "" if basis == "Z" else basis
    deterministic = code.checks[basis]

    head = Text(noise)
    for place in sorted(code.number, key=code.number.__getitem__):
        head.add(f"QUBIT_COORDS({place[0]}, {place[1]}) {code.number[place]}")
    if basis == "Z":
        head.reset("R", code.numbers(code.data + code.measured))
    else:
        head.reset("R" + suffix, code.numbers(code.data))
        head.reset("R", code.numbers(code.measured))
    code.measure_checks(head)
    for check in deterministic:
        head.detector(check + (0,), [code.back(check)])

    body = Text(noise)
    code.measure_checks(body)
    body.add("SHIFT_COORDS(0, 0, 1)")
    for check in code.measured:
        body.detector(check + (0,), [code.back(check), code.back(check) + len(code.measured)])

    tail = Text(noise)
    tail.measure("M" + suffix, code.numbers(code.data))
    for check in deterministic:
        around = code.back_of_data([beside(check, step) for step in ORDERS["Z"]])
        tail.detector(check + (1,), around + [len(code.data) + code.back(check)])
    # The logical Z lies along a row, and the logical X along a column.
    along = 1 if basis == "Z" else 0
    tail.observable(0, code.back_of_data([place for place in code.data if place[along] == 1]))
    title = f"Rotated surface code of distance {distance}" + ("" if basis == "Z" else ", logical X")
    return Memory(title + (", bad schedule" if bad_schedule else ""), head, body, tail)
