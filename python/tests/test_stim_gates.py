"""Each of Stim's gates, as it is rewritten, does what its table of images says: asked of the program on Bell pairs."""

import itertools
import pathlib
import re

import numpy as np
import pytest
import stabsim
from stabsim import program
from stabsim.text import rewriting, targets

from gate_images import ON_ONE, ON_TWO, images_of_root

LETTERS = {"X": np.array([[0, 1], [1, 0]]), "Y": np.array([[0, -1j], [1j, 0]]), "Z": np.array([[1, 0], [0, -1]])}


def pairs(size):
    """A Bell pair of each of some qubits with another after all of them."""
    return "".join(f"H {qubit}\nCX {qubit} {size + qubit}\n" for qubit in range(size))


def does(text, size, images):
    """Whether gates on the first qubits send X and Z of each of these to images: with its partner's letter each image then stabilises
    the pairs, and this many independent strings determine the whole state."""
    with stabsim.from_stim(pairs(size) + text).edit(qubits=2 * size) as session:
        wanted = [image + "_" * place + letter + "_" * (size - place - 1)
                  for image, (place, letter) in zip(images, itertools.product(range(size), "XZ"), strict=True)]
        return [session.sign(it) for it in wanted] == [1] * (2 * size)


@pytest.mark.parametrize("name", ON_ONE)
def test_a_gate_on_one_qubit_does_what_its_table_says(name):
    images = ON_ONE[name].split()
    assert does(f"{name} 0\n", 1, images)
    # The table is looked at: with another sign it is another gate.
    assert not does(f"{name} 0\n", 1, [images[0], "+-"[images[1][0] == "+"] + images[1][1:]])


@pytest.mark.parametrize("name", ON_TWO)
def test_a_gate_on_two_qubits_does_what_its_table_says(name):
    images = ON_TWO[name].split()
    assert does(f"{name} 0 1\n", 2, images)
    turned = [image[0] + image[:0:-1] for image in images]
    assert does(f"{name} 1 0\n", 2, turned[2:] + turned[:2])
    assert not does(f"{name} 0 1\n", 2, [*images[:3], "+-"[images[3][0] == "+"] + images[3][1:]])


@pytest.mark.parametrize("letters", ["".join(it) for size in (1, 2, 3) for it in itertools.product("_XYZ", repeat=size) if set(it) != {"_"}])
def test_a_root_of_a_product_does_what_its_rule_says(letters):
    factors = [f"{letter}{place}" for place, letter in enumerate(letters) if letter != "_"]
    for name, is_inverse in (("SPP", False), ("SPP_DAG", True)):
        assert does(f"{name} {'*'.join(factors)}\n", len(letters), images_of_root(letters, is_inverse))
        assert does(f"{name} {'*'.join(factors[::-1])}\n", len(letters), images_of_root(letters, is_inverse))
        assert does(f"{name} !{'*'.join(factors)}\n", len(letters), images_of_root(letters, not is_inverse))


def test_the_tables_have_all_gates_that_are_rewritten():
    assert set(rewriting.ON_ONE) <= set(ON_ONE) and set(rewriting.ON_TWO) <= set(ON_TWO)
    assert set(rewriting.ROOTS) == {"SPP", "SPP_DAG"}


@pytest.mark.parametrize("line, apart", [
    ("SQRT_XX 0 1 1 2 2 0", "SQRT_XX 0 1\nSQRT_XX 1 2\nSQRT_XX 2 0"), ("H_XY 0 1 0", "H_XY 0\nH_XY 1\nH_XY 0"), ("ISWAP 0 1 2 0", "ISWAP 0 1\nISWAP 2 0"),
    ("C_NXYZ 2 2 2", ""), ("SPP X0 Y0*Z1 X0", "SPP X0\nSPP Y0*Z1\nSPP X0"), ("XCZ 0 1 1 2", "XCZ 0 1\nXCZ 1 2"), ("YCX 0 1 1 0", "YCX 0 1\nYCX 1 0"),
])
def test_targets_of_a_line_come_one_after_another(line, apart):
    assert stabsim.from_stim(f"{pairs(3)}{line}\n").circuit.stabilisers() == stabsim.from_stim(f"{pairs(3)}{apart}\n").circuit.stabilisers()


def lines_of_check(instruction):
    """The lines that the program gives in place of an instruction."""
    try:
        program.run(["check"], instruction)
    except stabsim.Refused as refused:
        return [line.strip() for line in refused.explanation.partition(f"In place of {instruction} write:\n")[2].splitlines()]
    return []


NAMES = sorted({*rewriting.ON_ONE, *rewriting.ON_TWO, *rewriting.OF_PAIRS, *rewriting.ROOTS})


@pytest.mark.parametrize("name", NAMES)
def test_the_program_gives_the_same_lines(name):
    on = "0" if name in rewriting.ON_ONE else "X0*Y1*Z2" if name in rewriting.ROOTS else "0 1"
    lines = lines_of_check(f"{name} {on}")
    assert lines and stabsim.from_stim(f"{name} {on}").circuit.text.split("\n") == lines


def test_the_program_rewrites_no_others():
    source = pathlib.Path(__file__).parents[2] / "crates" / "stab_circuit" / "src" / "unread_names.rt"
    rewritings = source.read_text().split("const REWRITINGS", 1)[1].split(";", 1)[0]
    assert sorted(re.findall(r'"(\w+) [^"]*: ', rewritings)) == NAMES


def test_pairs_are_measured_as_products():
    # XX and ZZ stabilise a Bell pair, and their product -YY.
    bell = "H 0\nCX 0 1\n"
    assert stabsim.from_stim(f"{bell}MXX 0 1 !0 1 0 !1 !0 !1\nMYY 1 0\nMZZ 0 1\n").circuit.sample(1).tolist() == [[False, True, True, False, True, False]]
    # Free outcomes come again, and decide the signs.
    with stabsim.from_stim("R 0 1 2 3\nMXX 0 1 2 3\nMXX 0 1 2 3\nMZZ 0 1 2 3\n").edit() as session:
        records = session.records()
        assert session.sign("X0*X1") == (-1) ** int(records[0]) and session.sign("X2*X3") == (-1) ** int(records[1])
        assert records[:2].tolist() == records[2:4].tolist() and records[4:].tolist() == [False, False]


def test_padding_gives_its_bits_on_a_qubit_of_its_own():
    read = stabsim.from_stim("X 0 4\nMPAD 0 1 1\nM 4\nREPEAT 2 {\n    MPAD[a] 1\n}\n")
    assert read.circuit.sample(1).tolist() == [[False, True, True, True, True, True]]
    assert read.circuit.text == "X 0 4\nR 5\nM 5 !5 !5\nM 4\nREPEAT 2 {\n    R[a] 5\n    M[a] !5\n}\n"
    full = "X 0 1023\nMPAD 1\n"
    assert stabsim.from_stim(full).circuit.text == "X 0 1023\nR 1\nM !1\n" and stabsim.from_stim("MPAD").circuit.text == "M"
    with pytest.raises(stabsim.Refused, match="a qubit of its own") as told:
        stabsim.from_stim(f"X {' '.join(map(str, range(1024)))}\nMPAD 1\n")
    assert (told.value.number, told.value.line) == (6, 2)


@pytest.mark.parametrize("text, flows, no_flows", [
    ("MPAD 0 1", ["1 -> rec[-2]", "1 -> -1 xor rec[-1]"], ["Z0 -> rec[-2]", "1 -> rec[-1]"]),
    ("MPP X0*X0", ["1 -> rec[-1]", "X0 -> X0", "Z0 -> Z0"], ["Z1 -> rec[-1]", "1 -> -1 xor rec[-1]"]),
    ("H 0\nMPP X0*Z1*X0*Z1 !Z1 !Y2*Y2", ["1 -> rec[-3]", "1 -> -1 xor rec[-1]", "Z1 -> -1 xor rec[-2]", "X0 -> Z0"], ["1 -> -1 xor rec[-2]"]),
])
def test_a_known_record_depends_on_no_input(text, flows, no_flows):
    circuit = stabsim.from_stim(text).circuit
    assert all(map(circuit.has_flow, flows)) and not any(map(circuit.has_flow, no_flows))


@pytest.mark.parametrize("bit", [0, 1])
def test_a_record_controls_from_either_side(bit):
    for gate, on in [("CZ 0 rec[-1]", "Z"), ("CZ rec[-1] 0", "Z"), ("XCZ 0 rec[-1]", "X"), ("YCZ 0 rec[-1]", "Y"), ("CX rec[-1] 0", "X"), ("CY rec[-1] 0", "Y")]:
        sign = "-" if bit else "+"
        wanted = [sign + "XX" if on in "YZ" else "+XX", sign + "ZZ" if on in "XY" else "+ZZ"]
        text = f"H 0\nCX 0 1\n{'X 2' if bit else ''}\nM 2\n{gate}\nR 2\n"
        assert [row[:3] for row in stabsim.from_stim(text).circuit.stabilisers()][:2] == wanted


def test_two_records_do_nothing():
    read = stabsim.from_stim("X 0\nM 0\nCZ rec[-1] rec[-1]\nCZ 1 2 rec[-1] rec[-1] 1 rec[-1]\n")
    assert read.circuit.text == "X 0\nM 0\nCZ 1 2 rec[-1] 1\n"


def matrix(factors, size):
    """The matrix of a product of factors as !X0, in their order."""
    found = np.eye(2**size, dtype=complex)
    for factor in factors:
        sign, letter, qubit = targets.FACTOR.fullmatch(factor).groups()
        parts = [LETTERS[letter] if place == int(qubit) else np.eye(2) for place in range(size)]
        whole = parts[0]
        for part in parts[1:]:
            whole = np.kron(whole, part)
        found = found @ whole * (-1 if sign else 1)
    return found


def test_products_are_multiplied_out_as_matrices_are():
    dice = np.random.default_rng(3)
    measurable = 0
    for _ in range(400):
        factors = [dice.choice(["", "!"]) + dice.choice(list("XYZ")) + str(dice.integers(3)) for _ in range(dice.integers(1, 7))]
        wanted = matrix(factors, 3)
        product = targets.multiplied("*".join(factors))
        if not np.allclose(wanted, wanted.conj().T):
            assert product is None
            continue
        measurable += 1
        negative, letters = product
        assert np.allclose(matrix([f"{letter}{qubit}" for qubit, letter in letters.items()], 3) * (-1 if negative else 1), wanted)
    assert 100 < measurable < 350


def test_products_with_a_qubit_twice_are_measured_if_they_can_be():
    # X times Y is i times Z, so both pairs together are -1 times Z0*Z1, which zeros stabilise.
    read = stabsim.from_stim("MPP[a] X0*Y0*X1*Y1 Z0*Z0 !X2*X2*Z1 X1*!X1*Z3*Z3\nMPP X0*X1\n")
    assert read.circuit.text == "MPP[a] !Z0*Z1\nR[a] 4\nM[a] 4\nMPP[a] !Z1\nR[a] 4\nM[a] !4\nMPP X0*X1\n"
    assert read.circuit.sample(1)[0, :4].tolist() == [True, False, True, True]
    with pytest.raises(stabsim.Refused, match="is i or -i times a product"):
        stabsim.from_stim("MPP X0*Y0\n")


def test_products_may_have_spacing_around_their_stars():
    read = stabsim.from_stim("MPP X0 * X1 Z2* Z3 Y4 *!Y5\nSPP Z0 * Z1\n")
    assert read.circuit.text == "MPP X0*X1 Z2*Z3 Y4*!Y5\nCX 0 1\nS 1\nCX 0 1\n"
    with pytest.raises(stabsim.Refused, match="3 BadTarget"):
        stabsim.from_stim("MPP X0 * \n")


# All names of Stim's list of gates, with targets of each.
ON_QUBITS = "R RX RY RZ M MX MY MZ MR MRX MRY MRZ X_ERROR(0) Y_ERROR(0) Z_ERROR(0) I_ERROR(0) DEPOLARIZE1(0) PAULI_CHANNEL_1(0,0,0)"
ON_PAIRS = "MXX MYY MZZ DEPOLARIZE2(0) II_ERROR(0) PAULI_CHANNEL_2(0,0,0,0,0,0,0,0,0,0,0,0,0,0,0)"
WITH_TARGETS = [
    *(f"{name} 0" for name in [*ON_ONE, *ON_QUBITS.split()]), *(f"{name} 0 1" for name in [*ON_TWO, *ON_PAIRS.split()]),
    "MPP X0*Y1", "SPP X0", "SPP_DAG X0", "MPAD 0", "TICK", "SHIFT_COORDS(1)", "QUBIT_COORDS(1) 0", "DETECTOR", "OBSERVABLE_INCLUDE(0)",
    "E(0) X0\nELSE_CORRELATED_ERROR(0) X1", "CORRELATED_ERROR(0) X0", "REPEAT 2 {\nTICK\n}",
]


@pytest.mark.parametrize("text", WITH_TARGETS)
def test_every_name_of_stims_list_is_read(text):
    assert stabsim.from_stim(text).circuit.numbers().qubits in (0, 1, 2)
    assert stabsim.from_stim(text.lower()).circuit.numbers() == stabsim.from_stim(text).circuit.numbers()
