"""The fewest errors that flip the observable and no detector, for two schedules of a surface code.

    PYTHONPATH=python python3 examples/worst_fault.py

An error is any of circuit-level noise: Paulis on the qubits of a gate, after a reset or in front of a measurement, and wrong records. The
least number of them is the circuit's distance, which the program finds, with such errors. They are put into an editing session, which
says what they flip together. There the middle gates of each round are then exchanged, and the same is asked again: the code is the same, and
half of a measured qubit's errors now spread along the logical operator. It needs Debian's python3-numpy.
"""

import stabsim
from stabsim import codes

DISTANCE = 5


def told(session: stabsim.Session) -> list[str]:
    """The errors of a least set in words, and what they flip."""
    found = stabsim.Circuit(session.circuit()).distance(everywhere=True)
    session.mark()
    session.insert_errors(found.errors)
    changed = session.changed()
    session.undo()
    errors = [f"  {error} after {error.steps} steps, item {error.path}" for error in found.errors]
    return [f"{found}", *errors, f"  together: detectors {changed.detectors.tolist()}, observables {changed.observables.tolist()}"]


def exchange_middle_gates(session: stabsim.Session) -> None:
    """In the first round and in the block of the others, the second and third of the four lines of CX change places."""
    circuit = stabsim.Circuit(session.circuit())
    for items in (circuit.items, *(item.items for item in circuit if item.repeat)):
        _, second, third, _ = (item for item in items if item.name == "CX")
        session.replace(second.path, str(third))
        session.replace(third.path, str(second))


def main() -> None:
    with stabsim.Circuit(codes.surface_code(DISTANCE, 3)).edit() as session:
        for schedule in ("as it is", "with the middle gates of each round exchanged"):
            print(f"{schedule}:", *told(session), sep="\n")
            exchange_middle_gates(session)


if __name__ == "__main__":
    main()
