"""The mechanisms of a circuit with noise, found the slow way: each error by itself is put into a session, and looked at.

It shares nothing with the package's error models: no table of faults is asked for, and a wrong record is a record that is inverted.
"""

import itertools
import re

import stabsim

LINE = re.compile(r"(\w+)(?:\((.*?)\))?(.*)")
FLIPS = {"X_ERROR": "X", "Y_ERROR": "Y", "Z_ERROR": "Z"}
PAIRS = ["".join(it) for it in itertools.product("IXYZ", repeat=2)][1:]


def single_errors(name, arguments, targets):
    """The independent errors of a line of noise: the chance, and Paulis with their qubits, as X0 Z1."""
    if name in FLIPS:
        yield from ((arguments[0], [FLIPS[name] + target]) for target in targets)
    elif name == "E":
        yield arguments[0], targets
    elif name == "DEPOLARIZE1":
        each = (1 - (1 - 4 * arguments[0] / 3) ** 0.5) / 2
        yield from ((each, [letter + target]) for target in targets for letter in "XYZ")
    elif name == "DEPOLARIZE2":
        each = (1 - (1 - 16 * arguments[0] / 15) ** 0.125) / 2
        for first, second in zip(targets[0::2], targets[1::2]):
            yield from ((each, [letter + qubit for letter, qubit in zip(pair, (first, second)) if letter != "I"]) for pair in PAIRS)
    elif name == "PAULI_CHANNEL_1":
        assert arguments == [0.08, 0.02, 0.18], "X of chance 0.1 and Z of chance 0.2, each by itself"
        yield from ((chance, [letter + target]) for target in targets for letter, chance in (("X", 0.1), ("Z", 0.2)))


def edits_of(number, name, arguments, targets):
    """For each single error of a line its chance and the edits that put it in, each as a place and an item's text."""
    if name.startswith("M"):
        for at, target in enumerate(targets):
            inverted = target[1:] if target.startswith("!") else "!" + target
            yield arguments[0], [("replace", number, " ".join([name, *targets[:at], inverted, *targets[at + 1:]]))]
    else:
        for chance, paulis in single_errors(name, arguments, targets):
            yield chance, [("insert", number, f"{pauli[0]} {pauli[1:]}") for pauli in paulis]


def mechanisms_by_sessions(text):
    """What each set of errors that flip the same flips, as words, and the chance that an odd number of them happens."""
    lines = [LINE.fullmatch(line.split("#")[0].strip()).groups() for line in text.splitlines() if line.split("#")[0].strip()]
    parsed = [(name, list(map(float, (given or "").split(","))) if given else [], rest.split()) for name, given, rest in lines]
    # A line of noise becomes a TICK, so that each line keeps its number as an item; those of coordinates keep their arguments.
    quiet = [name if name not in FLIPS and name[:4] not in ("DEPO", "PAUL", "E") else "TICK" for name, _, _ in parsed]
    texts = ["TICK" if kind == "TICK" else " ".join([name, *rest]) if name.startswith("M") or given is None else f"{name}({given}){its}"
             for kind, (name, given, its), (_, _, rest) in zip(quiet, lines, parsed)]
    found = {}
    with stabsim.Circuit("\n".join(texts) + "\n").edit() as session:
        for number, (name, arguments, targets) in enumerate(parsed):
            if quiet[number] != "TICK" and not (name.startswith("M") and arguments) or not arguments:
                continue
            for chance, edits in edits_of(number, name, arguments, targets):
                flipped = flipped_by(session, edits)
                if flipped:
                    before = found.get(flipped, 0.0)
                    found[flipped] = before * (1 - chance) + chance * (1 - before)
    return found


def flipped_by(session, edits):
    """What a session's edits flip, as words; they are taken back."""
    for kind, place, text in edits:
        getattr(session, kind)(place, text)
    changed = session.changed()
    for _ in edits:
        session.undo()
    return " ".join([f"D{detector}" for detector in changed.detectors] + [f"L{observable}" for observable in changed.observables])
