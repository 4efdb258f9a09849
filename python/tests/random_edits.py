"""Random edits of circuits with noise, after which a session's error model is that of the edited text made anew."""

import contextlib
import random

import numpy as np
import stabsim
from stabsim import codes

# Many rounds, without gates that records control: a check that is reset in each, and a qubit that is never reset.
ROUNDS = """R 0 1 2 3
M 2 3 3
REPEAT 9 {
    DEPOLARIZE1(0.03) 0 1 2
    REPEAT 2 {
        CX 0 3
        DEPOLARIZE2(0.125) 0 3
        CX 1 3
        MR(0.25) 3
        DETECTOR(1) rec[-1]
    }
    X_ERROR(0.0625) 2
    M(0.125) 2
    DETECTOR(2, 3) rec[-1] rec[-4]
    SHIFT_COORDS(1)
}
M(0.5) 0 2
DETECTOR rec[-1]
OBSERVABLE_INCLUDE(0) rec[-2]
"""
# Written out, in blocks, of few rounds and of many, with measurements by products, and what the program does not read.
TEXTS = (
    codes.repetition_code(3, 4, noise=codes.Noise.uniform(0.02)), str(stabsim.Circuit(codes.surface_code(2, 4, noise=codes.Noise.uniform(0.01))).flattened()),
    codes.surface_code(3, 3, noise=codes.Noise.uniform(0.01)), codes.toric_code(2, 2, noise=codes.Noise.uniform(0.01)),
    """R 0 1 2 3 4
X_ERROR(0.1) 0 1 2 3 4
REPEAT 3 {
    DEPOLARIZE1(0.02) 0 2 4
    CX 0 1 2 3
    DEPOLARIZE2(0.03) 0 1 2 3
    CX 2 1 4 3
    MR(0.01) 1 3
    DETECTOR(1) rec[-1]
    DETECTOR(2) rec[-2]
    SHIFT_COORDS(1)
}
CXSWAP 0 1
MZZ(0.05) 0 2
X_ERROR(0.05) 1
CXSWAP 1 0
DETECTOR rec[-1]
TICK
Z_ERROR(0.125) 0 2
DEPOLARIZE1(0.25) 4
M(0.02) 0 2 4
DETECTOR rec[-1] rec[-2]
OBSERVABLE_INCLUDE(0) rec[-3]
""",
    ROUNDS, codes.repetition_code(3, 12, noise=codes.Noise.uniform(0.02)), codes.surface_code(3, 9, noise=codes.Noise.uniform(0.01)),
)
CHANNELS = ("X_ERROR(0.25) {0} {1}", "Z_ERROR(0.125) {0}", "Y_ERROR(0.0625) {0} {1} {2}", "DEPOLARIZE1(0.03) {0} {2}", "DEPOLARIZE2(0.015) {0} {1}", "E(0.25) X{0} Z{1}",
            "PAULI_CHANNEL_1(0.125, 0, 0) {1}", "I_ERROR(0.1) {0}", "X_ERROR(0) {0}", "TICK")
# Gates that are put in with what undoes them.
GATES = ("H", "S", "SQRT_X", "C_XYZ", "X", "Y", "I", "SQRT_Y_DAG")
PAIRS = ("CX", "CZ", "SWAP", "CY", "ISWAP")


def edit(session, numbers):
    """Makes an edit: of noise or of gates, measurements, resets, detectors and blocks, most of which keep detectors deterministic."""
    circuit = stabsim.Circuit(session.circuit())
    items = list(circuit.walk())
    plain = [item for item in items if item.repeat is None]
    at = numbers.choice(plain)
    qubits = numbers.sample(range(circuit.num_qubits), 2)
    kind = numbers.choice(["noise", "pauli", "tick", "same", "same", "pair", "move", "delete", "detector", "measure", "order", "undo", "records", "split", "round", "sign"])
    if kind == "noise":
        session.insert(at.path, numbers.choice(CHANNELS).format(*numbers.sample(range(circuit.num_qubits), 3)))
    elif kind in ("pauli", "tick"):
        session.insert(at.path, "TICK" if kind == "tick" else f"{numbers.choice('XYZ')} {qubits[0]}")
    elif kind == "move":
        *around, last = at.path.split("/")
        session.move(at.path, "/".join([*around, str(max(int(last) - 1, 0))]))
    elif kind == "delete":
        session.delete(at.path, keep_records=numbers.random() < 0.7)
    elif kind == "undo":
        session.undo()
    elif kind in ("same", "pair", "order"):
        edit_gates(session, numbers, kind, plain, at, qubits)
    elif kind in ("split", "round"):
        split(session, numbers, [item for item in items if item.repeat], kind == "round")
    else:
        edit_records(session, numbers, kind, plain, at, qubits)


def split(session, numbers, blocks, is_edited):
    """Splits a round off one of the blocks, and perhaps edits gates in it."""
    if not blocks:
        return
    block = numbers.choice(blocks)
    number = numbers.randrange(block.repeat)
    session.split(block.path, number)
    circuit = stabsim.Circuit(session.circuit())
    *around, last = block.path.split("/")
    path = "/".join([*around, str(int(last) + min(number, 1))])
    some = [item for item in circuit.walk() if item.repeat is None and item.path.startswith(f"{path}/")]
    if is_edited and some:
        edit_gates(session, numbers, numbers.choice(["same", "pair"]), some, numbers.choice(some), numbers.sample(range(circuit.num_qubits), 2))


def several(session, numbers):
    """Makes an edit, or several by one step, which is most often in several places."""
    count = numbers.choice([1, 1, 1, 2, 3, 5])
    with session.one_step() if count > 2 else contextlib.nullcontext():
        for _ in range(count):
            told(lambda: edit(session, numbers))


def edit_gates(session, numbers, kind, plain, at, qubits):
    """Puts in a gate and what undoes it, perhaps with noise between; or the pairs of a gate get another order, or a gate another place."""
    some = [item for item in plain if item.name == "CX"]
    if kind == "same":
        name = numbers.choice(PAIRS + GATES)
        gate = f"{name} {qubits[0]}" + f" {qubits[1]}" * (name in PAIRS)
        session.insert(at.path, str(stabsim.Circuit(gate).inverse()).strip())
        session.insert(at.path, numbers.choice(["TICK", "X_ERROR(0.25) {}", "DEPOLARIZE1(0.1) {}"]).format(qubits[0]))
        session.insert(at.path, gate)
    elif kind == "pair" and some:
        item = numbers.choice(some)
        pairs = list(zip(item.targets[::2], item.targets[1::2]))
        numbers.shuffle(pairs)
        # Or one pair alone stays.
        session.replace(item.path, " ".join(["CX", *(qubit for pair in pairs[: numbers.choice([len(pairs), len(pairs), 1])] for qubit in pair)]))
    elif kind == "order" and len(some) > 1:
        one, other = numbers.sample([item.path for item in some], 2)
        if one.rpartition("/")[0] == other.rpartition("/")[0]:
            session.move(one, other)


def edit_records(session, numbers, kind, plain, at, qubits):
    """Edits detectors or measurements: puts some in or takes them out, or a measurement gets one more target, or another sign."""
    some = [item for item in plain if item.name == "DETECTOR"] if kind == "detector" else [item for item in plain if item.name in ("M", "MR", "MX")]
    if kind == "detector" and some and numbers.random() < 0.5:
        item = numbers.choice(some)
        numbers.choice([session.delete, lambda path: session.replace(path, f"DETECTOR(7) {' '.join(item.targets)}"), lambda path: session.insert(path, str(item))])(item.path)
    elif kind == "detector":
        session.insert(at.path, f"DETECTOR(1, 2) rec[-{numbers.randint(1, 4)}]")
    elif kind == "measure":
        session.insert(at.path, numbers.choice(["M {}", "MX {}", "MR(0.1) {}", "R {}", "RX {}", "MZZ {} {}", "MPP(0.2) X{}*X{}"]).format(*qubits), keep_records=numbers.random() < 0.7)
    elif some:
        item = numbers.choice(some)
        if kind == "records":
            session.replace(item.path, f"{item.name}(0.125) {' '.join(item.targets)} {qubits[0]}", keep_records=True)
        else:
            session.replace(item.path, f"{item.name} !{item.targets[0].lstrip('!')} {' '.join(item.targets[1:])}")


def told(call):
    """What a call gives, or by what words it is refused."""
    try:
        return call()
    except stabsim.StabsimError as refused:
        return str(refused)


def models_agree(seed, edits, seen):
    """Edits one circuit at random, and looks after each edit, or several, at the model, against the one of the edited text made anew: bit for bit, or
    refused in the same words. seen: takes the texts that have models."""
    numbers = random.Random(seed)
    with stabsim.Circuit(TEXTS[seed % len(TEXTS)]).edit() as session:
        session.error_model()
        for _ in range(edits):
            several(session, numbers)
            text = session.circuit()
            found, wanted = told(session.error_model), told(lambda: stabsim.error_model(text))
            assert type(found) is type(wanted), (seed, text, found, wanted)
            if isinstance(found, str):
                # A circuit that coins decide is refused, and most often the next edits are too: one goes on from before.
                assert found == wanted
                session.undo()
                continue
            seen.append(text)
            assert found == wanted and found.num_observables == wanted.num_observables, (seed, text)
            assert np.array_equal(found.chances, wanted.chances) and found.causes.mechanisms.tolist() == wanted.causes.mechanisms.tolist(), (seed, text)
            some = numbers.sample(range(len(found)), min(len(found), 3))
            assert [found.explain(it) for it in some] == [wanted.explain(it) for it in some]
