"""Rounds that come again, in a block or written out, give what their lines give if each is carried out: by runs, by shots at once and in
sessions."""

import random
from collections.abc import Sequence
from pathlib import Path

import pytest
from running import run

# The lines before rounds, how many rounds there are, the lines of a round, and those after them, on at most twelve qubits.
Case = tuple[str, int, str, str]

# A repetition code, whose rounds come again from the third on.
CODE = """\
CX 0 1 2 1 2 3 4 3
MR 1 3
DETECTOR rec[-1] rec[-3]
DETECTOR rec[-2] rec[-4]
OBSERVABLE_INCLUDE(0) rec[-1]
"""
# Five qubits go around, and seven others: after 35 rounds all are where they were.
AROUND = """\
SWAP 0 1 1 2 2 3 3 4 5 6 6 7 7 8 8 9 9 10 10 11
M 0 5
DETECTOR rec[-1] rec[-2]
"""
# A Bacon-Shor code of distance 3: eight or nine of the twelve outcomes are free in each round.
GAUGE = """\
MPP X0*X1 X1*X2 X3*X4 X4*X5 X6*X7 X7*X8
MPP Z0*Z3 Z3*Z6 Z1*Z4 Z4*Z7 Z2*Z5 Z5*Z8
DETECTOR rec[-12] rec[-10] rec[-8] rec[-24] rec[-22] rec[-20]
DETECTOR rec[-6] rec[-4] rec[-2] rec[-18] rec[-16] rec[-14]
OBSERVABLE_INCLUDE(0) rec[-1]
"""
# Two gauge operators of each kind, measured by two qubits that are reset before, without records: in each round one outcome of each kind
# is free, and so is each reset.
APART = """\
R 9 10
CX 0 9 3 9 1 10 4 10
M 9 10
RX 9 10
CX 9 0 9 1 10 3 10 4
MX 9 10
DETECTOR rec[-1] rec[-2] rec[-5] rec[-6]
OBSERVABLE_INCLUDE(0) rec[-3]
"""
# Free outcomes of all axes, inverted ones, pairs that a reset separates, and gates under a record.
MIXED = """\
H 0 2
CX 0 1 2 3
MR !1 3
MRX !0
S 4
MX 4
MY !4
CX rec[-2] 5 rec[-4] 6
M 2 !5 6
DETECTOR rec[-1] rec[-7]
"""
FLIP = "X 0\nM 0\nDETECTOR rec[-1] rec[-2]\n"
MEASURED_GAUGES = "R 0\nMPP X0*X1 X1*X2 X3*X4 X4*X5 X6*X7 X7*X8\nMPP Z0*Z3 Z3*Z6 Z1*Z4 Z4*Z7 Z2*Z5 Z5*Z8\n"
SWAPS_AND_AXES = """\
SWAP 0 1 1 2
MX 0
M 1
CZ rec[-2] 2
MY 3
M 3
DETECTOR rec[-1] rec[-4]
OBSERVABLE_INCLUDE(2) rec[-3] rec[-7]
"""
CODE_END = "M 0 2 4\nDETECTOR rec[-1] rec[-2] rec[-4]\n"

# All blocks except the first are long enough to be looked at.
BLOCKS: dict[str, Case] = {
    # Every other round is the same, or each third, fourth or thirty-fifth.
    "2 flips": ("M 0\n", 2, FLIP, "M 0\n"),
    "700 flips": ("M 0\n", 700, FLIP, "M 0\n"),
    "683 flips": ("M 0\n", 683, FLIP, "M 0\n"),
    "1001 flips": ("M 0\n", 1001, FLIP, "MX 0\n"),
    "turned pair": ("H 0\nCX 0 1\n", 515, "S 0 1\nMPP X0*X1 !Z0*Z1\n", "M 0 1\n"),
    "three around": ("X 0\n", 601, "SWAP 0 1 1 2\nM 0 1\n", "M 0 1 2\n"),
    "twelve around": ("X 0 5 7\n", 200, AROUND, "M 0 1 2 3 4 5\n"),
    # A first round in which a coin decides, and others in which none does.
    "code from zeros": ("R 0 1 2 3 4\nM 1 3\n", 230, CODE, CODE_END),
    "code": ("H 0 2 4\nM 1 3\n", 300, CODE, CODE_END),
    "one coin": ("H 0\n", 1101, "M 0\nOBSERVABLE_INCLUDE(1) rec[-1]\n", "MX 0\n"),
    # Coins decide in each round, or in each round of a block within.
    "coins": ("", 1100, "H 0\nM 0\n", "M 0\n"),
    "block within": ("", 300, "MX 1\nREPEAT 3 {\nM 0\nX 0\n}\nM 1\n", ""),
    # So they do, and leave a state that is as it was up to signs; a frame gives all further rounds.
    "gauges": (MEASURED_GAUGES, 190, GAUGE, "M 0 1 2 3 4 5 6 7 8\n"),
    "mixed": ("H 5 6\nCX 5 7\n", 230, MIXED, "M 0 1 2 3 4 5 6 7\nDETECTOR rec[-1] rec[-30]\n"),
    "gate under a coin": ("", 700, "H 0\nM 0\nCX rec[-1] 1\nM 1\nDETECTOR rec[-1] rec[-2]\n", "MX 0\n"),
    "two axes": ("M 0 0 0 0 0 0 0 0\n", 800, "MX 0\nM !0\nDETECTOR rec[-1] rec[-9]\n", "M 0\n"),
    "swaps and axes": ("M 0 1 2 3\n", 701, SWAPS_AND_AXES, "M 0 1 2 3\nMX 4\n"),
    # So it does if resets have coins, and no records.
    "resets": ("", 1000, "R 1\nH 0\nM 0\nCX 0 1\n", "M 0 1\n"),
    "gauges apart": ("H 0 1 3 4\nM 0 1 3 4\n", 230, APART, "M 0 1 3 4 9 10\n"),
    # A reset hides an outcome that a coin decides, and gates bring a state back after four rounds.
    "hidden outcome": ("", 600, "H 0\nCX 0 1\nR 0\nM 1\n", "M 0 1\n"),
    "four rounds": ("H 1 3\n", 601, "SWAP 1 2 2 3\nCX 3 4\nMX 4\nM 4\n", "M 1 2 3 4\n"),
    # A record decides which gate is applied, and a record of long before decides what a detector says.
    "gate under a record": ("X 0\nM 0\n", 599, "CX rec[-1] 0 rec[-1] 1\nM 0\nDETECTOR rec[-2]\n", "M 1\n"),
    "far record": ("M 0\nX 0\nM 0 0 0 0\n", 1100, "M 0\nDETECTOR rec[-5] rec[-1]\n", "M 0\n"),
    "gate under the one before": ("X 0\nM 0\nX 0\nM 0\n", 1100, "CX rec[-2] 0\nM 0\n", "M 0\n"),
}
WRITTEN: dict[str, Case] = {
    # A repetition code, after a first round in which coins decide.
    "written code": ("H 0 2 4\nM 1 3\n", 1000, CODE, CODE_END),
    # Five qubits go around, and seven others: after 35 rounds all are where they were.
    "written twelve around": ("X 0 5 7\n", 700, AROUND, "M 0 1 2 3 4 5\n"),
    # Coins decide in each round, or in none; the same instruction occurs twice in a round.
    "written coins": ("", 3000, "H 0\nM 0\nH 0\n", "M 0\n"),
    "written turned pair": ("H 0\nCX 0 1\n", 1500, "S 0 1\nMPP X0*X1 !Z0*Z1\nS 0 1\n", "M 0 1\n"),
    # A record decides which gate is applied.
    "written gate under a record": ("X 0\nM 0\n", 2100, "CX rec[-1] 0 rec[-1] 1\nM 0\nDETECTOR rec[-2]\n", "M 1\n"),
    # Resets and observables are alone; the first round is another one.
    "written resets": ("R 0 1 2\nX 0\nM 0\nDETECTOR rec[-1]\n", 1300,
                       "R 2\nCX 0 2 1 2\nM 2 !1\nDETECTOR rec[-1] rec[-3]\nOBSERVABLE_INCLUDE(1) rec[-2]\n", "M 0\n"),
}
# A block that does nothing. In a circuit with a block no written rounds are looked for, so that each line is carried out.
STILL_BLOCK = "REPEAT 2 {\nI 0\n}\n"
SHOTS = 3
STRIDES = (7, 100, 2048)
SCRIPT = "show measurements\nshow free\nshow detectors\nshow observables\n"
DETECT = ["detect", "--append_observables"]


def in_a_block(case: Case) -> str:
    before, rounds, body, after = case
    return f"{before}REPEAT {rounds} {{\n{body}}}\n{after}"


def written_out(case: Case) -> str:
    before, rounds, body, after = case
    return before + body * rounds + after


# A text whose rounds come again, and one of the same lines, of which each is carried out.
TEXTS = {name: (in_a_block(case), STILL_BLOCK + written_out(case)) for name, case in BLOCKS.items()}
TEXTS |= {name: (written_out(case), written_out(case) + STILL_BLOCK) for name, case in WRITTEN.items()}
each_case = pytest.mark.parametrize("text, lines", TEXTS.values(), ids=TEXTS)


def answer(words: Sequence[object], given: str) -> str:
    """What a run with the coins of a seed writes, if nothing is refused."""
    status, written, told = run([*words, "--seed", 3], given)
    assert (status, told) == (0, "")
    return written


def single_shots(words: Sequence[object], text: str) -> str:
    """The first shots of the seed, each by itself."""
    return "".join(answer([*words, "--first_shot", shot], text) for shot in range(SHOTS))


def session(circuit: Path, text: str, *words: object) -> list[str]:
    """What a session on a text shows."""
    circuit.write_text(text)
    return answer(["edit", "--qubits", 12, *words, "--in", circuit], SCRIPT).splitlines()


@each_case
@pytest.mark.parametrize("words", [["sample"], DETECT], ids=["sample", "detect"])
def test_shots_are_those_of_each_line_carried_out(words: list[str], text: str, lines: str) -> None:
    wanted = single_shots(words, lines)
    assert single_shots(words, text) == wanted
    assert answer([*words, "--shots", SHOTS], text) == wanted


@each_case
def test_sessions_show_what_a_run_of_each_line_gives(tmp_path: Path, text: str, lines: str) -> None:
    circuit = tmp_path / "circuit.stim"
    wanted = session(circuit, lines)
    records, _, detectors, observables = wanted
    assert [records + "\n", detectors + observables + "\n"] == [answer(["sample"], lines), answer(DETECT, lines)]
    for stride in STRIDES:
        assert session(circuit, text, "--stride", stride) == wanted


def edits(lines: list[str], seed: int) -> str:
    """Random edits of lines, which it makes, as a script: what is put in is taken out again, or stays."""
    chosen = random.Random(seed)
    script, put = "", []
    for line in ("H 1", "M 2", "X 0", "R 0", "CX 0 2", "M 1 0", "H 1", "M 2"):
        place = chosen.randrange(len(lines) // 20, len(lines))
        lines.insert(place, line)
        put = [other + (place <= other) for other in put] + [place]
        script += f"insert {place} {line}\n"
        if chosen.random() < 0.6:
            out = put.pop(chosen.randrange(len(put)))
            del lines[out]
            put = [other - (out < other) for other in put]
            script += f"delete {out}\n"
    return script


@pytest.mark.parametrize("case", WRITTEN.values(), ids=WRITTEN)
def test_edits_among_written_rounds_give_what_a_run_of_each_line_gives(tmp_path: Path, case: Case) -> None:
    circuit = tmp_path / "circuit.stim"
    for seed, stride in enumerate((7, 100, 2048, 8192)):
        lines = written_out(case).splitlines()
        circuit.write_text(written_out(case))
        script = edits(lines, seed)
        shown = answer(["edit", "--qubits", 12, "--stride", stride, "--in", circuit], script + SCRIPT).splitlines()
        assert shown[-4:] == session(circuit, "\n".join(lines) + "\n" + STILL_BLOCK)
