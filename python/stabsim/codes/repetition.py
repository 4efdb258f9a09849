"""The repetition code."""

from stabsim.codes.limits import MOST_QUBITS
from stabsim.codes.noise import Noise
from stabsim.codes.text import Memory, Text

MOST_DISTANCE = MOST_QUBITS // 2


def repetition_memory(distance: int, noise: Noise | None = None) -> Memory:
    """The repetition code of a distance, as a memory of a logical 0."""
    data = list(range(0, 2 * distance - 1, 2))
    checks = list(range(1, 2 * distance - 1, 2))

    def measure_checks(text: Text) -> None:
        text.round_begins(data)
        text.add("TICK")
        text.pairs("CX", [(check - 1, check) for check in checks])
        text.add("TICK")
        text.pairs("CX", [(check + 1, check) for check in checks])
        text.add("TICK")
        text.measure("MR", checks)

    head = Text(noise)
    head.reset("R", list(range(2 * distance - 1)))
    measure_checks(head)
    for i, check in enumerate(checks):
        head.detector((check, 0), [len(checks) - i])

    body = Text(noise)
    measure_checks(body)
    body.add("SHIFT_COORDS(0, 1)")
    for i, check in enumerate(checks):
        body.detector((check, 0), [len(checks) - i, 2 * len(checks) - i])

    tail = Text(noise)
    tail.measure("M", data)
    for i, check in enumerate(checks):
        tail.detector((check, 1), [distance - i - 1, distance - i, distance + len(checks) - i])
    tail.observable(0, [1])
    return Memory(f"Repetition code of distance {distance}", head, body, tail)
