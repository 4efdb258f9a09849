"""What each coin flips, and why bits are random: by hand, and against the runs of all coins."""

import itertools
import random

import numpy as np
import pytest
import stabsim
from coins_by_runs import bits_of, deciding_coins
from stabsim import codes
from stabsim.questions.random_bits import bit_of, coins_of

TELEPORTATION = "R 0 1 2\nH 1\nCX 1 2 0 1\nH 0\nM 0 1\nCX rec[-1] 2\nCZ rec[-2] 2\nM 2\nDETECTOR rec[-1]\nDETECTOR rec[-2]\n"
# Circuits with the lines of their tables, worked out by hand: steps, path, number, and what is flipped.
BY_HAND = {
    # The second record is made by the first.
    "Bell pair": ("H 0\nCX 0 1\nM 0 1\nDETECTOR rec[-1]\nDETECTOR rec[-1] rec[-2]", ["2 2 c0 M0 M1 D0"]),
    # Both corrections leave the state as it was, which is 0.
    "teleportation": (TELEPORTATION, ["7 4 c3 M0", "8 4 c4 M1 D1"]),
    "a product twice": ("R 0 1\nMPP X0*X1 !X0*X1\nM 0\nOBSERVABLE_INCLUDE(1) rec[-1] rec[-2]", ["2 1 c2 M0 M1 L1", "4 2 c4 M2 L1"]),
    # A reset looks at its qubit, and the partner is what was seen.
    "a reset of an entangled qubit": ("H 0\nCX 0 1\nR 0\nM 0 1", ["2 2 c0 M1"]),
    # Each round measures anew, and a coin flips what its round shows alone: MX forgets Z.
    "a block": ("REPEAT 2 {\n    M 0\n    MX 0\n    DETECTOR rec[-1]\n}", ["1 0/1 c1 M1 D0", "3 0/0 c2 M2", "4 0/1 c3 M3 D1"]),
    "no coins": ("R 0\nX 0\nM 0\nDETECTOR rec[-1]", []),
    "an outcome that nobody sees": ("H 0\nR 0\nM 0", ["1 1 c0"]),
    # X0 and X2 were measured; Z0*Z2 anticommutes with both, so both are random anew, and their product is as it was.
    "a merge": ("MX 0 2\nMPP Z0*Z2\nMX 0 2\nDETECTOR rec[-1] rec[-4]\nDETECTOR rec[-2] rec[-5]\nDETECTOR rec[-1] rec[-2] rec[-4] rec[-5]",
                ["0 0 c0 M0 M4 D0 D1", "1 0 c1 M1 M4", "2 1 c2 M2", "3 2 c3 M3 M4 D0 D1"]),
}


def random_circuit(seed):
    """A circuit of three qubits with up to five coins, detectors and observables."""
    dice = random.Random(seed)
    lines, records = ["H 0", "CX 0 1"], 0
    for _ in range(14):
        one, other = dice.sample(range(3), 2)
        gates = [f"H {one}", f"S {one}", f"CX {one} {other}", f"X {one}", *[f"CY rec[-1] {one}"] * bool(records)]
        measured = [f"M {one}", f"MX !{one}", f"MPP X{one}*Z{other}", f"R {one}", f"MRY {one}"] if dice.random() < 0.5 else []
        lines.append(dice.choice(measured or gates))
        records += lines[-1].startswith("M")
        if records and dice.random() < 0.2:
            chosen = " ".join(f"rec[{-it}]" for it in dice.sample(range(1, records + 1), dice.randint(1, records)))
            lines.append(dice.choice(["DETECTOR", f"OBSERVABLE_INCLUDE({dice.randint(0, 1)})"]) + f" {chosen}")
    return stabsim.Circuit("\n".join(lines))


def line_of(table, row):
    """A row as the program writes it."""
    names = [f"M{it}" for it in range(table.num_records)] + [f"D{it}" for it in range(table.num_detectors)] + [f"L{it}" for it in range(table.num_observables)]
    return " ".join([f"{table.steps[row]} {table.paths[row]} c{table.numbers[row]}", *(names[it] for it in table.flipped(row))])


@pytest.mark.parametrize("name", BY_HAND)
def test_tables_by_hand(name):
    text, lines = BY_HAND[name]
    table = stabsim.Circuit(text).coins()
    assert [line_of(table, row) for row in range(len(table))] == lines


@pytest.mark.parametrize("seed", range(8))
def test_the_runs_of_all_coins_are_sums_of_rows(seed):
    circuit = random_circuit(seed)
    table, count = circuit.coins(), circuit.numbers().coins
    assert table.numbers.tolist() == deciding_coins(circuit.text)
    dice = random.Random(seed)
    sequences = list(itertools.product((0, 1), repeat=count))
    for sequence in dice.sample(sequences, min(32, len(sequences))):
        is_one = np.array(sequence, dtype=bool)[table.numbers]
        expected = table.constants() ^ np.logical_xor.reduce(table.dense()[is_one], axis=0, initial=False)
        assert bits_of(circuit.text, sequence) == "".join(map(str, expected.astype(int)))


@pytest.mark.parametrize("seed", range(20, 26))
def test_a_bit_is_random_by_the_coins_that_flip_it(seed):
    circuit = random_circuit(seed)
    table, deterministic = circuit.coins(), circuit.deterministic()
    dense = table.dense()[:, table.num_records :]
    names = [f"D{it}" for it in range(table.num_detectors)] + [f"L{it}" for it in range(table.num_observables)]
    found = {bit.name: bit for bit in circuit.explain()}
    assert list(found) == [name for name, stays in zip(names, [*deterministic.detectors, *deterministic.observables]) if not stays]
    with circuit.edit() as session:
        for place, name in enumerate(names):
            rows = np.flatnonzero(dense[:, place])
            coins = tuple(zip(table.numbers[rows].tolist(), table.paths[rows].tolist()))
            assert session.why(name) == coins == (found[name].coins if name in found else ())


def test_explanations_by_hand():
    circuit = stabsim.Circuit("QUBIT_COORDS(4) 0\nSHIFT_COORDS(0, 7)\nMX 0\nREPEAT 2 {\n    M 1\n    MY 0\n    DETECTOR(2) rec[-1] rec[-3]\n"
                              "    OBSERVABLE_INCLUDE(1) rec[-2]\n    OBSERVABLE_INCLUDE(0) rec[-1]\n}\nDETECTOR(3, 0.5) rec[-1]")
    # The first Y is random and repeats; what was measured before it in X is random too, of which detector 0 names one record.
    assert [str(bit) for bit in circuit.explain()] == [
        "D0 of item 3/2 is decided by items 2, 3/1", "D2 of item 4 is decided by item 3/1"]
    assert [(bit.coordinates, bit.coins) for bit in circuit.explain()] == [((2.0,), ((0, "2"), (2, "3/1"))), ((3.0, 7.5), ((2, "3/1"),))]
    assert stabsim.Circuit("R 0\nM 0\nDETECTOR rec[-1]").explain() == []
    # Of an observable it is the first item that adds to it.
    [bit] = stabsim.Circuit("M 1\nOBSERVABLE_INCLUDE(2) rec[-1]\nMX 0\nOBSERVABLE_INCLUDE(2) rec[-1]").explain()
    assert (bit.name, bit.path, bit.coordinates, bit.coins) == ("L2", "1", (), ((1, "2"),))


def test_a_spoilt_detector_of_a_code_is_explained_by_what_decides_it():
    circuit = stabsim.Circuit(codes.surface_code(3, 2, written_out=True))
    with circuit.edit() as session:
        # After the resets a corner of the code is measured in X. One check of Z has it, whose first outcome is random then.
        session.insert(next(item.path for item in circuit if item.name == "TICK"), "MX 15")
        edited = stabsim.Circuit(session.circuit())
        [bit] = edited.explain()
        [number] = np.flatnonzero(~session.deterministic().detectors)
        assert bit.name == f"D{number}" and session.why(bit.name) == bit.coins
        assert [coin.path for coin in bit.coins] == [next(item.path for item in edited if item.name == "MR")]


def test_the_lines_of_explanations_are_read():
    rows = np.array([[1.0, np.nan], [-3.5, 2.0]])
    # Coordinates are the circuit's, whether the program writes them or not.
    for line in ("D1 69 (-3.5, 2) c12@12 c40@66/3", "D1 69 c12@12 c40@66/3"):
        bit = bit_of(line, rows)
        assert (bit.name, bit.path, bit.coordinates, bit.coins) == ("D1", "69", (-3.5, 2.0), ((12, "12"), (40, "66/3")))
    assert bit_of("D0 2 c1@2", rows).coordinates == (1.0,)
    assert bit_of("L0 3/0 c1@2", rows).coordinates == () and coins_of("") == ()
    with pytest.raises(ValueError, match="says of no bit"):
        bit_of("M3 2 c1@2", rows)


def test_what_is_no_bit_has_no_coins():
    with stabsim.Circuit("M 0").edit() as session:
        with pytest.raises(ValueError, match="give a detector, as D37, or an observable"):
            session.why("M0")
