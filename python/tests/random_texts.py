"""Random texts with noise and comments, and random edits of them in a session."""

import random

import stabsim

# Instructions as they are printed, with noise, and some that the program does not read or print so.
LINES = [
    "R 0 1 2", "H 0", "CX 0 1 1 2", "X 3", "I 0", "M 0 1", "M(0.25) 0 !1", "MR(0.125) 2", "MPP X0*X1 !Z2", "MPP(0.5) X0*Z1", "TICK", "TICK[~a]", "S[~] 1",
    "X_ERROR(0.25) 0 1", "Z_ERROR[why](0.5) 2", "DEPOLARIZE1(0.125) 0", "DEPOLARIZE2(0.0625) 0 1 2 3", "PAULI_CHANNEL_1(0.1, 0, 0) 1",
    "E(0.25) X0 Z1", "I_ERROR(0.5) 0", "ISWAP 0 1", "SQRT_XX 1 2", "MXX(0.25) 0 1", "MZZ 0 1 2 3", "MPAD 0 1", "MPAD(0.125) 1", "HERALDED_ERASE(0.25) 0 1", "HERALDED_PAULI_CHANNEL_1(0, 0.125, 0, 0.25) 2", "H_XY 0", "XCZ 0 1",
    "SPP X0*Y1", "MPP X0*X0", "CZ 1 0", "C_NXYZ 2", "II 0 1", "DETECTOR(1, 2.5) rec[-1]", "OBSERVABLE_INCLUDE(0) rec[-1]", "QUBIT_COORDS(1, 2) 3",
    "SHIFT_COORDS(1)", "CX rec[-1] 2", "CZ 2 rec[-1]", "M[tag] 1", "X[\\B\\n] 0", "DETECTOR", "E(0.5) Z2",
]
COMMENTS = ["# why", "#", "", "# ] \\ } {", "# ünï", "## REPEAT 3 {"]
ENDS = ["", "", "", " # a comment", "  # ]\\n#", " #"]


class Written:
    """An item of a text: the lines above it, its own, and of a block its items, the lines below these, and what is after its brace."""

    def __init__(self, numbers, depth=0):
        self.above = numbers.choices(COMMENTS, k=numbers.choice([0, 0, 0, 1, 2]))
        self.items, self.end = None, numbers.choice(ENDS)
        if depth < 2 and numbers.random() < 0.15:
            self.line = numbers.choice(["REPEAT 2 {", "REPEAT[~t] 3 {", "REPEAT 1 {"])
            self.items = [Written(numbers, depth + 1) for _ in range(numbers.randint(1, 3))]
            self.below = numbers.choices(COMMENTS, k=numbers.choice([0, 0, 1]))
            self.closing = numbers.choice(ENDS)
        else:
            self.line = numbers.choice(LINES)

    def lines(self, comments=True):
        lines = [*(self.above if comments else []), self.line + (self.end if comments else "")]
        if self.items is not None:
            body = [line for item in self.items for line in item.lines(comments)] + (self.below if comments else [])
            lines += [f"    {line}" if line else "" for line in body] + ["}" + (self.closing if comments else "")]
        return lines


def text_of(items, below=(), comments=True):
    return "".join(f"{line}\n" for line in [*(line for item in items for line in item.lines(comments)), *(below if comments else ())])


def place_in(items, numbers):
    """A list, the path that leads to it, and a place in it."""
    path = []
    while True:
        blocks = [place for place, item in enumerate(items) if item.items is not None]
        if not blocks or numbers.random() < 0.5:
            return items, path, numbers.randrange(len(items) + 1)
        path.append(numbers.choice(blocks))
        items = items[path[-1]].items


def edited(session, items, numbers):
    """Makes an edit in a session and in a text, if the session takes it; whether it did."""
    places, path, at = place_in(items, numbers)
    kind = numbers.choice(["insert", "replace", "delete", "move"]) if at < len(places) else "insert"
    new, to = Written(numbers, len(path)), numbers.randrange(len(places) + 1)
    try:
        if kind == "delete":
            session.delete([*path, at])
        elif kind == "move":
            session.move([*path, at], [*path, to])
        else:
            getattr(session, kind)([*path, at], text_of([new]))
    except stabsim.Refused:
        return False
    if kind == "replace":
        # What is above an item stays above what comes in its place.
        new.above = places[at].above + new.above
    if kind == "move":
        new = places.pop(at)
        places.insert(to - (to > at), new)
    else:
        places[at : at + (kind != "insert")] = [new] * (kind != "delete")
    return True


def opened(numbers):
    """A text that is read, as its items and what is below them, and its session."""
    while True:
        items, below = [Written(numbers) for _ in range(numbers.randint(1, 8))], numbers.choices(COMMENTS, k=numbers.choice([0, 1, 2]))
        try:
            return items, below, stabsim.from_stim(text_of(items, below)).edit(qubits=6)
        except stabsim.Refused:
            continue


def texts_agree(seed, edits=12):
    """Reads a text at random, edits it, and writes it: each time it is the edited text, line by line, with comments and without; and so it is
    after all edits are undone, and done again."""
    numbers = random.Random(seed)
    items, below, session = opened(numbers)
    first, made = text_of(items, below), 0
    with session:
        assert session.circuit(comments=True) == first
        for _ in range(edits):
            made += edited(session, items, numbers)
            assert session.circuit(comments=True) == text_of(items, below)
            assert session.circuit() == text_of(items, below, comments=False)
        for _ in range(made):
            assert session.undo()
        assert session.circuit(comments=True) == first and not session.undo()
        while session.redo():
            made -= 1
        assert session.circuit(comments=True) == text_of(items, below) and made == 0
