"""Random cases of the fuzzer, by families: small circuits, damaged ones, edit scripts, and circuits that are large in some way."""

from collections.abc import Callable
from dataclasses import replace
from random import Random

from . import fault_making, making, numbers, printing, script_making, ways
from .answers import Case, random_case, session_for
from .formats import FORMATS
from .making import Maker, lines_of, random_gates, small_circuit, undoing
from .reading import Block, Items, Refused, items_of
from .script_making import SHOWS
from .scripts import Session
from .states import TooLarge

# What leaves each qubit 0 or 1, so that hardly a coin decides and most rounds come again.
STILL = ["X", "Z", "CX", "CZ", "SWAP", "M", "MR", "R"]
# What uses up a coin on one qubit.
MEASURED = ["M", "MX", "MRY", "R"]
LISTS = SHOWS.removesuffix(b"show circuit\n")
# Commands that write bits, and those that write tables.
BITS, TABLES = ("sample", "detect"), ("deterministic", "faults", "coins")
# Where batches of shots may end.
EDGES = (64, 128, 256, 320, 384, 448, 512, 1024, 1280, 2048)
# Lines that are refused wherever they are, or if no block is open, or that leave one open.
WRONG_LINES = ["M 5000", "H rec[-1]", "CX 1 1", "FOO 1", "DETECTOR rec[-0]", "}", "REPEAT 3 {", "MPP X1*X1", "REPEAT 0 {"]


def on_small(dice: Random, text: bytes) -> list[Case]:
    """A command on a small circuit, seldom a table of faults."""
    commands = (*BITS, "stabilisers", "deterministic", "coins", "check")
    return [random_case(dice, "faults" if dice.random() < 0.03 else dice.choice(commands), text)]


def by_grammar(dice: Random) -> list[Case]:
    return on_small(dice, small_circuit(dice))


def damaged(dice: Random) -> list[Case]:
    return on_small(dice, making.damaged(dice, small_circuit(dice), small_circuit(dice)))


def undone(dice: Random) -> list[Case]:
    """Gates, then what undoes them backwards, then a measurement of all qubits: all zeros."""
    n = dice.randint(5, 80)
    gates = random_gates(dice, n, dice.randint(1, 6 * n))
    lines = [*lines_of(gates + undoing(gates)), f"M {' '.join(map(str, range(n)))}"]
    return [random_case(dice, "sample", "\n".join(lines).encode())]


def by_script(dice: Random) -> list[Case]:
    """A circuit with a script that suits it, which is sometimes damaged."""
    case = random_case(dice, "edit", small_circuit(dice))
    try:
        script = script_making.script(dice, session_for(case))
    except (Refused, TooLarge):
        script = b"show circuit\n"
    if dice.random() < 0.2:
        script = making.damaged(dice, script, b"insert 0 REPEAT 2 {\nX 0\n}\nshow free\n")
    return [Case("edit", case.text, case.settings, script)]


def deterministic_parities(dice: Random) -> list[Case]:
    """A table of a circuit that has marked places and deterministic parities."""
    return [random_case(dice, dice.choice(TABLES), fault_making.fault_circuit(dice))]


def large_text(dice: Random) -> tuple[int, bytes]:
    """Qubits, and the text of a circuit. Rows of more than 256 qubits are kept in another form."""
    n = dice.randint(257, 400) if dice.random() < 0.1 else dice.randint(5, 60)
    return n, "\n".join(Maker(dice, n).lines(dice.randint(5, 120))).encode()


def large(dice: Random) -> list[Case]:
    """Bits in each format, what each coin decides and what is random, of a large circuit."""
    text = large_text(dice)[1]
    tables = [random_case(dice, command, text) for command in ("coins", "deterministic", "check", "stabilisers")]
    return tables + [random_case(dice, dice.choice(BITS), text, coins=None, shots=3, out_format=form) for form in FORMATS]


def edited(dice: Random) -> list[Case]:
    """Edits and splits of a large circuit, and then what is shown, with checkpoints close to each other and far apart."""
    n, text = large_text(dice)
    case = random_case(dice, "edit", text, qubits=n, coins=None)
    script = script_making.edits(dice, session_for(Case("edit", text, (("qubits", n), ("framed", case.setting("framed"))))), dice.randint(1, 25))
    strides = dice.randint(1, 4), dice.randint(5, 60), 8192
    return [Case("edit", text, (*(it for it in case.settings if it[0] != "stride"), ("stride", stride)), script + SHOWS) for stride in strides]


def many_shots(dice: Random) -> list[Case]:
    """Shots of a seed that are run in batches."""
    number = dice.choice([2, 3, *(edge + dice.randint(-1, 1) for edge in EDGES)])
    first = dice.choice([0, 1, 63, 2**40, 2**64 - number])
    return [random_case(dice, dice.choice(BITS), large_text(dice)[1], coins=None, shots=number, first_shot=first,
                        out_format=dice.choice(["01", "b8", "hits", "dets"]))]


def twice_measured(dice: Random, maker: Maker) -> list[str]:
    """A product that is measured twice, with gates between that are undone again, a marked place among them, and a detector."""
    product = maker.product()
    gates = random_gates(dice, maker.n, dice.randint(0, 12))
    maker.records += 2
    between = lines_of(gates) + [f"I {maker.qubit()}"] + lines_of(undoing(gates))
    return [f"MPP {product}", *between, f"MPP {product}", "DETECTOR rec[-1] rec[-2]"]


def marked(dice: Random) -> list[Case]:
    """Faults at marked places of a large circuit, in blocks too, in which some detectors are deterministic."""
    maker = Maker(dice, dice.randint(5, 30))
    lines = []
    for _ in range(dice.randint(1, 8)):
        part = twice_measured(dice, maker)
        lines += part if dice.random() < 0.6 else [f"REPEAT {dice.randint(1, 3)} {{", *part, "}"]
        lines += maker.lines(dice.randint(0, 3)) + [f"I {maker.qubit()}"]
    text = "\n".join(lines).encode()
    return [random_case(dice, "faults", text, deterministic_only=True), random_case(dice, "deterministic", text)]


def long_block(dice: Random) -> tuple[int, bytes, bytes]:
    """Qubits, a block whose rounds may come again, with lines before and after it, and the same with the block written out."""
    maker = Maker(dice, dice.randint(1, 6))
    before = maker.lines(dice.randint(0, 5))
    if dice.random() < 0.7:
        maker.names = STILL
    first = maker.records
    body = maker.lines(dice.randint(1, 6), 1)
    # Now and then the block is in another one, which has nothing else that makes a step.
    outer = dice.choice([1, 1, 1, dice.randint(2, 20)])
    inner = dice.randint(300, 1500) // outer
    rounds = outer * inner
    maker.records += (rounds - 1) * (maker.records - first)
    after = maker.lines(dice.randint(0, 3))
    block = [f"REPEAT {inner} {{", *body, "}"]
    if outer > 1:
        block = [f"REPEAT {outer} {{", *block, dice.choice(["", "TICK", "REPEAT 3 {\nTICK\n}"]), "}"]
    return maker.n, "\n".join([*before, *block, *after]).encode(), "\n".join([*before, *body * rounds, *after]).encode()


def blocks(dice: Random) -> list[Case]:
    """What a long block gives, whose rounds may come again, and its lines as often as it counts."""
    _, block, lines = long_block(dice)
    seed, shots = dice.randrange(2**32), dice.randint(1, 4)
    cases = [random_case(dice, command, block, seed=seed, coins=None, shots=shots) for command in BITS]
    return cases + [replace(case, text=lines, shorter=block) for case in cases]


def written_out(items: Items) -> bytes:
    """The text of items, all blocks written out, up to 2,000 rounds of each: more has here only one that makes no step."""
    return b"".join(written_out(item.body) * min(item.count, 2000) if isinstance(item, Block) else printing.printed([item]) for item in items)


def sessions_on_blocks(dice: Random) -> list[Case]:
    """A session on a long block, and some edits of it, and one that is opened on the lines that they leave."""
    n, block, _ = long_block(dice)
    settings = (("qubits", n), ("seed", dice.randrange(2**32)), ("stride", dice.choice([1, 2, 7, 8, 30, 100, 300, 1000, 3000, 8192])))
    session: Session = session_for(Case("edit", block, settings))
    script = b""
    if dice.random() < 0.5:
        # After it all coins, and records except after a reset, have other numbers.
        script = f"insert {dice.randint(0, len(session.items))} {dice.choice(MEASURED)} {dice.randrange(n)}\n".encode()
        session.play(script)
    script += script_making.edits(dice, session, dice.randint(0, 4))
    left = written_out(session.items)
    return [Case("edit", block, settings, script + LISTS), Case("edit", left, settings, LISTS, printing.printed(session.items))]


def changed(dice: Random, maker: Maker, lines: list[str]) -> list[str]:
    """Lines, mostly as they are, else with some others among them."""
    out = list(lines)
    for _ in range(dice.choice((0, 0, 0, 1, 3))):
        place = dice.randint(0, len(out))
        out[place:place] = [dice.choice(("", "  # a note", "TICK", maker.line(), dice.choice(lines)))]
    return out


def lines_that_come_again(dice: Random) -> list[Case]:
    """The circuit that a text of the same lines over and over is read as, with others here and there, at times one that is refused."""
    maker = Maker(dice, dice.randint(2, 8))
    lines = maker.lines(dice.randint(0, 300))
    # At the greatest depth no block is made, so that a line by itself may be anywhere.
    body = maker.lines(dice.choice((3, 40, 100, 300, 700)), 3)
    for _ in range(max(2, 3000 // len(body))):
        lines += changed(dice, maker, body)
        if dice.random() < 0.03:
            lines += maker.block(0)
    if dice.random() < 0.3:
        place = dice.randint(0, len(lines))
        lines[place:place] = [dice.choice(WRONG_LINES)]
    end = dice.choice(("\n", "\n", "\r\n"))
    return [Case("edit", (end.join(lines) + dice.choice(("", end))).encode(), script=b"show circuit\n")]


def far_apart(dice: Random) -> list[Case]:
    """A circuit on a few qubits with others between them, which stay 0."""
    n = dice.randint(2, 12)
    qubits = sorted(dice.sample(range(dice.choice((64, 65, 256, 257, 300, 512, 513, 1024))), n))
    text = "\n".join(Maker(dice, n, qubits).lines(dice.randint(5, 120))).encode()
    return [random_case(dice, command, text, coins=None) for command in (*BITS, "stabilisers")]


def distances(dice: Random) -> list[Case]:
    """The distance of a random code, mostly of marked errors, which are fewer."""
    return [random_case(dice, "distance", fault_making.code_circuit(dice), everywhere=dice.random() < 0.05)]


def strings_put_in(dice: Random) -> list[Case]:
    """A string of some letters that is put into a small circuit."""
    text = small_circuit(dice)
    try:
        items = items_of(text)
        if not numbers.qubits(items):
            return []
        place, string = ways.asked(dice, items)
    except (Refused, TooLarge):
        return []
    written = "*".join(f"{letter}{qubit}" for letter, qubit in string)
    asked = Case("propagate", text, (("at", f"@{place}"), ("string", written), ("every", dice.random() < 0.4)))
    return [asked, random_case(dice, "propagate_each", text)]


FAMILIES: dict[str, Callable[[Random], list[Case]]] = {
    "by a script": by_script, "by the grammar": by_grammar, "damaged": damaged, "undone": undone, "with deterministic parities": deterministic_parities,
    "large": large, "edited": edited, "many shots": many_shots, "marked": marked, "blocks": blocks,
    "sessions on blocks": sessions_on_blocks, "lines that come again": lines_that_come_again, "far apart": far_apart, "distances": distances,
    "strings put in": strings_put_in,
}
# How often families are tried among those of small circuits. The others are large in some way.
WEIGHTS = {"by a script": 35, "by the grammar": 27, "damaged": 31, "undone": 3, "with deterministic parities": 2}
LARGE = list(FAMILIES)[len(WEIGHTS):]
