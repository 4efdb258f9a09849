"""What noise costs in Python: models of surface codes, models after an edit, and shots. tools/bench.py calls it."""

import resource
from collections.abc import Callable, Iterator

import stabsim
from stabsim import codes
from stabsim.session.session import Session
from stabsim.text.reading import Instruction

DISTANCES = (11, 21)
SHOTS = 1_000
CALLS = 5
NOISE = codes.Noise.uniform(0.001)


def milliseconds(call: Callable[[], object]) -> float:
    """The processor time of a call, with that of the programs that it runs."""
    before = seconds()
    call()
    return 1e3 * (seconds() - before)


def seconds() -> float:
    """The processor time of this process so far, with that of the programs that it ran."""
    own, others = (resource.getrusage(which) for which in (resource.RUSAGE_SELF, resource.RUSAGE_CHILDREN))
    return own.ru_utime + own.ru_stime + others.ru_utime + others.ru_stime


def least(calls: Iterator[float]) -> str:
    """The least time of some calls."""
    return f"{min(calls):.0f}"


def middle(circuit: stabsim.Circuit, name: str) -> Instruction:
    """The middle one of the instructions of a name."""
    some = [item for item in circuit.walk() if isinstance(item, Instruction) and item.name == name]
    return some[len(some) // 2]


def after_edits(session: Session, path: str, texts: tuple[str, ...]) -> Iterator[float]:
    """The time of the model after some items were put in at a path, several times."""
    for _ in range(CALLS):
        for text in texts:
            session.insert(path, text)
        yield milliseconds(session.error_model)
        for _ in texts:
            session.undo()
        session.error_model()


def costs_of(circuit: stabsim.Circuit) -> Iterator[str]:
    """What each column of the table says of a circuit."""
    yield least(milliseconds(lambda: stabsim.error_model(circuit.text)) for _ in range(CALLS))
    gate = middle(circuit, "CX")
    one, other = gate.targets[:2]
    with circuit.edit() as session:
        session.error_model()
        yield least(after_edits(session, middle(circuit, "DEPOLARIZE2").path, (f"X_ERROR(0.01) {one}",)))
        yield least(after_edits(session, gate.path, (f"CX {one} {other}",) * 2))
        yield least(after_edits(session, middle(circuit, "DETECTOR").path, (str(middle(circuit, "DETECTOR")),)))
    # The models that shots are drawn from are made first.
    circuit.detect(1), circuit.sample(1)
    yield least(milliseconds(lambda: circuit.detect(SHOTS, seed=1)) for _ in range(CALLS))
    yield least(milliseconds(lambda: circuit.sample(SHOTS, seed=1)) for _ in range(CALLS))


def measure(row: Callable[..., None]) -> None:
    """Prints the rows of the table."""
    for distance in DISTANCES:
        circuit = stabsim.Circuit(codes.surface_code(distance, distance, noise=NOISE))
        for form, its in (("", circuit), (", written out", circuit.flattened())):
            row(f"distance {distance}, {distance} rounds{form}", *costs_of(its))
