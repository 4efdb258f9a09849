"""The Steane code, with a qubit for each of its six checks."""

from stabsim.codes.noise import Noise
from stabsim.codes.text import Memory, Text

# Data qubits are 0 to 6. Check i of a letter acts on those whose number, counted from 1, has a 1 in binary digit i,
# and they are in the order in which it visits them: no two checks of a letter meet at a data qubit.
VISITS = ((0, 2, 4, 6), (1, 6, 5, 2), (6, 5, 3, 4))
DATA = range(7)
X_CHECKS = (7, 8, 9)
Z_CHECKS = (10, 11, 12)


def measure_checks(text: Text) -> None:
    text.round_begins(DATA)
    text.add("TICK")
    text.gate("H", X_CHECKS)
    for step in range(4):
        text.add("TICK")
        text.pairs("CX", [(check, visits[step]) for check, visits in zip(X_CHECKS, VISITS)])
    for step in range(4):
        text.add("TICK")
        text.pairs("CX", [(visits[step], check) for check, visits in zip(Z_CHECKS, VISITS)])
    text.add("TICK")
    text.gate("H", X_CHECKS)
    text.add("TICK")
    text.measure("MR", X_CHECKS + Z_CHECKS)


def steane_memory(noise: Noise | None = None) -> Memory:
    """The Steane code as a memory of a logical 0. Its distance is 3, and that of the circuit 2 under circuit-level noise."""
    head = Text(noise)
    head.reset("R", range(13))
    measure_checks(head)
    # Coordinates are the check's qubit, the letter, 0 for X and 1 for Z, and the time.
    for i, check in enumerate(Z_CHECKS):
        head.detector((check, 1, 0), [3 - i])

    body = Text(noise)
    measure_checks(body)
    body.add("SHIFT_COORDS(0, 0, 1)")
    for i, check in enumerate(X_CHECKS + Z_CHECKS):
        body.detector((check, int(check in Z_CHECKS), 0), [6 - i, 12 - i])

    tail = Text(noise)
    tail.measure("M", DATA)
    for i, check in enumerate(Z_CHECKS):
        tail.detector((check, 1, 1), sorted(7 - qubit for qubit in VISITS[i]) + [7 + 3 - i])
    tail.observable(0, [7 - qubit for qubit in DATA][::-1])
    return Memory("Steane code", head, body, tail)
