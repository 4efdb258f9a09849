"""The oracle itself: outcomes that are known by hand, and rows beside amplitudes."""

from random import Random

import pytest
from amplitudes import Amplitudes
from oracle import making, numbers
from oracle.reading import Refused, items_of
from oracle.states import Run
from oracle.sums import Sums, value

# A record is a sum: 1 is the part that is known, and these are coins by their numbers.
FIRST, SECOND = 2, 4
TELEPORTED = "R{letter} 0\n{flip} 0\nH 1\nCX 1 2\nCX 0 1\nH 0\nM 0 1\nCX rec[-1] 2\nCZ rec[-2] 2\nM{letter} 2"
KNOWN = {
    "a Bell pair agrees": ("H 0\nCX 0 1\nM 0 1", [FIRST, FIRST]),
    "two free outcomes are apart": ("H 0 1\nM 0 1", [FIRST, SECOND]),
    "S twice turns a state over": ("H 0\nS 0 0\nH 0\nM 0", [1]),
    "S_DAG on both of a pair makes -XX": ("H 0\nCX 0 1\nS_DAG 0 1\nMX 0 1", [FIRST, 1 ^ FIRST]),
    "a reset forgets an outcome": ("H 0\nCX 0 1\nR 0\nM 0 1", [0, FIRST]),
    "SWAP, CY and CZ": ("X 0\nSWAP 0 1\nCY 1 2\nCZ 1 2\nM 0 1 2", [0, 1, 1]),
    "XX times ZZ is -YY": ("MPP X0*X1 Z0*Z1 Y0*Y1", [FIRST, 0, 1 ^ FIRST]),
    "marks of factors add up": ("MPP !Z0*!Z1 !Z0*Z1 Z0*!Z1", [0, 1, 1]),
    # The reset uses up the first coin.
    **{f"teleportation of a 1 in {letter}": (TELEPORTED.format(letter=letter, flip=flip), [4, 8, 1]) for letter, flip in (("X", "Z"), ("Y", "X"), ("Z", "X"))},
    "resets of every letter": ("H 0\nCX 0 1\nRX 0\nRY 1\nMX 0\nMY 1", [0, 0]),
    "measured resets": ("RX 0\nMRX 0\nZ 0\nMX 0", [0, 1]),
    "marks on measured resets": ("RY 0\nX 0\nMRY !0\nMY 0", [0, 0]),
    # Each gate once and its inverse, from a state that neither keeps; and twice the square roots.
    **{f"{back} undoes {gate}": (f"{gate} 0\n{back} 0\nM 0\nRX 0\n{back} 0\n{gate} 0\nMX 0", [0, 0])
       for gate, back in [("C_XYZ", "C_ZYX"), ("SQRT_X", "SQRT_X_DAG"), ("SQRT_Y", "SQRT_Y_DAG")]},
    "what the gates make of zeros": ("SQRT_X 0 0 1\nSQRT_Y 2 2 3\nC_XYZ 4\nM 0 2\nMY !1\nMX 3 4", [1, 1, 0, 0, 0]),
}
# How many random circuits both states are tried on, and how many letters are put into each.
CIRCUITS, LETTERS = 300, 3


@pytest.mark.parametrize("what", KNOWN)
def test_rows_give_what_is_known_by_hand(what: str) -> None:
    text, records = KNOWN[what]
    assert Sums(items_of(text.encode())).run.records == records


def test_rows_and_amplitudes_agree() -> None:
    """With some letters put in, or not, as faults are."""
    tried = 0
    for seed in range(2 * CIRCUITS):
        dice = Random(seed)
        try:
            items = items_of(making.small_circuit(dice))
            numbers.check(items)
        except Refused:
            continue
        qubits, most = numbers.qubits(items), numbers.summary(items)[0]
        letters = [(dice.randint(0, most), dice.choice("XYZ"), dice.randrange(qubits)) for _ in range(LETTERS if qubits else 0)]
        sums = Sums(items, letters)
        chosen = dice.randrange(2 << len(sums.coin_places) + len(letters))
        steps = [(*step[:3], value(step[3], chosen)) if step[0] == "letter" else step for step in sums.steps_with(letters)]
        one = Run(Amplitudes(qubits), numbers.observables(items), steps, lambda coin: chosen >> coin & 1)
        assert one.free == sums.run.free
        assert [one.records, one.bits()] == [[value(sum_, chosen) for sum_ in them] for them in (sums.run.records, sums.bits)]
        assert one.state.reduced_rows() == [(value(sign, chosen), row) for sign, row in sums.run.state.reduced_rows()]
        tried += 1
    assert tried > CIRCUITS
