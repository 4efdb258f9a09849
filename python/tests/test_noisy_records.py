"""Records with noise: against all cases of small circuits, in which errors are gates, and on larger ones by the chances of parities."""

import itertools
import math
import random
from collections import Counter
from concurrent.futures import ThreadPoolExecutor

import numpy as np
import pytest
import stabsim
from stabsim import codes, program
from stabsim.formats import bits
from stabsim.formats.combining import rows_of
from stabsim.questions.coins import table_of

# A line of noise with what it may be instead, each by its chance; by the rest it is the last.
NOISE = {
    "X_ERROR(0.25) 0": [(0.25, "X 0"), (0, "")],
    "Z_ERROR(0.5) 1": [(0.5, "Z 1"), (0, "")],
    "Y_ERROR(0.125) 2": [(0.125, "Y 2"), (0, "")],
    "PAULI_CHANNEL_1(0.25, 0, 0.5) 1": [(0.25, "X 1"), (0.5, "Z 1"), (0, "")],
    # No independent errors make these two.
    "DEPOLARIZE1(0.9) 0": [(0.3, "X 0"), (0.3, "Y 0"), (0.3, "Z 0"), (0, "")],
    "PAULI_CHANNEL_2(0, 0.3, 0, 0, 0, 0, 0.2, 0, 0.4, 0, 0, 0, 0, 0, 0) 2 0": [(0.3, "Y 0"), (0.2, "X 2\nZ 0"), (0.4, "Y 2\nX 0"), (0, "")],
    "E(0.5) X0 Z2\nELSE_CORRELATED_ERROR(0.5) Y1": [(0.5, "X 0\nZ 2"), (0.25, "Y 1"), (0, "")],
    "M(0.25) 0": [(0.25, "M !0"), (0, "M 0")],
    "MRX(0.5) 2": [(0.5, "MRX !2"), (0, "MRX 2")],
    "MPP(0.125) X0*Z1": [(0.125, "MPP !X0*Z1"), (0, "MPP X0*Z1")],
}
QUIET = ["H 0", "H 1", "CX 0 1", "CX 1 2", "S 2", "X 1", "M 0", "MX 1", "MPP Z0*Z1", "MR 2", "R 0", "RX 1", "CX rec[-1] 2", "CZ rec[-1] 0"]


def random_lines(seed):
    """Lines of a circuit on three qubits, four of them noise, with up to 40 cases, and two of them in a block of two rounds."""
    dice = random.Random(seed)
    while True:
        lines = ["M 2", *dice.choices(QUIET, k=7)]
        for noise in dice.sample(sorted(NOISE), 4):
            lines.insert(dice.randint(1, len(lines)), noise)
        first = dice.randrange(1, len(lines) - 2)
        lines = [*lines[:first], ("REPEAT", 2, lines[first : first + 2]), *lines[first + 2 :], "M 0 1"]
        if math.prod(len(NOISE.get(line, [line])) for line in written_out(lines)) <= 40:
            return lines


def text_of(lines):
    """The text of lines, blocks as such."""
    return "".join(f"{it}\n" if isinstance(it, str) else f"REPEAT {it[1]} {{\n{text_of(it[2])}}}\n" for it in lines)


def written_out(lines):
    """Lines with blocks written out."""
    return [one for it in lines for one in ([it] if isinstance(it, str) else it[1] * written_out(it[2]))]


def cases_of(lines):
    """All texts in which each line of noise is one of those that it may be, with their chances."""
    every = []
    for line in written_out(lines):
        some = NOISE.get(line, [(0, line)])
        every.append([*some[:-1], (1 - sum(chance for chance, _ in some), some[-1][1])])
    for case in itertools.product(*every):
        yield math.prod(chance for chance, _ in case), "\n".join(line for _, line in case)


def space_of(text):
    """All lists of records of a circuit without noise, by what its coins flip; each comes as often as any other."""
    constants = bits.of_text(program.run(["sample", "--coins", ""], text).rstrip())
    found = {tuple(constants.tolist())}
    for row in table_of(program.run(["coins"], text), (len(constants), 0, 0), constants).dense().tolist():
        found |= {tuple(bit ^ flip for bit, flip in zip(records, row)) for records in found}
    return found


@pytest.mark.parametrize("seed", range(6))
def test_records_come_as_often_as_all_cases_of_errors_and_coins_make_them(seed):
    lines, shots = random_lines(seed), 20_000
    chances = Counter()
    for chance, text in cases_of(lines):
        space = space_of(text)
        for records in space:
            chances[records] += chance / len(space)
    assert sum(chances.values()) == pytest.approx(1)
    found = Counter(map(tuple, stabsim.Circuit(text_of(lines)).sample(shots, seed=seed).tolist()))
    assert not set(found) - {records for records, chance in chances.items() if chance > 1e-12}
    wanted = {records: shots * chance for records, chance in chances.items() if shots * chance > 8}
    assert len(wanted) > 3
    # Pearson's sum has about as many degrees of freedom as there are lists of records.
    total = sum((found[records] - count) ** 2 / count for records, count in wanted.items())
    assert total < len(wanted) + 4.5 * math.sqrt(2 * len(wanted)), (total, len(wanted))


@pytest.mark.parametrize("seed", range(24))
def test_errors_that_always_happen_are_gates(seed):
    sure = {"X_ERROR(1) 0 1": "X 0 1", "E(1) Z0 Y2": "Z 0\nY 2", "M(1) 0 !1": "M !0 1", "MRY(1) 2": "MRY !2", "MPP(1) X0*X1 Z2": "MPP !X0*X1 !Z2",
            "PAULI_CHANNEL_1(0, 0, 1) 1": "Z 1", "E(0) X1\nELSE_CORRELATED_ERROR(1) Z1": "Z 1", "Y_ERROR(0) 0": ""}
    dice = random.Random(seed)
    lines = ["M 0", *dice.choices(QUIET, k=8), *dice.choices(sorted(sure), k=5)]
    lines = [lines[0], *dice.sample(lines[1:], 13)]
    body = dice.choices([*QUIET, *sure], k=4)
    lines = [*lines[:5], ("REPEAT", 3, body), *lines[5:], "M 0 1 2"]
    gates = "\n".join(sure.get(line, line) for line in written_out(lines))
    shots = set(map(tuple, stabsim.Circuit(text_of(lines)).sample(100, seed=seed).tolist()))
    space = space_of(gates)
    assert shots <= space and (len(shots) == len(space) or len(shots) > 20)


def odd_chance(model, some):
    """How often an odd number of some detectors is flipped."""
    of_row, columns = rows_of(np.arange(len(model)), model.indptr, model.indices)
    is_odd = np.bincount(of_row[np.isin(columns, some)], minlength=len(model)) % 2 == 1
    return (1 - np.prod(1 - 2 * model.chances[is_odd])) / 2


@pytest.mark.parametrize("make", [codes.surface_code, codes.bacon_shor_code, codes.colour_code])
def test_parities_of_records_of_a_code_are_odd_as_often_as_its_error_model_says(make):
    circuit, shots = stabsim.Circuit(make(3, 4, noise=codes.Noise.uniform(0.01))), 20_000
    model = stabsim.error_model(circuit)
    drawn = np.concatenate(stabsim.m2d(circuit, circuit.sample(shots, seed=4), separate_observables=True), axis=1)
    numbers = np.random.default_rng(2)
    squares = 0.0
    for _ in range(200):
        some = numbers.choice(drawn.shape[1], size=numbers.integers(1, 4), replace=False)
        chance = odd_chance(model, some)
        away = (np.bitwise_xor.reduce(drawn[:, some], axis=1).mean() - chance) / math.sqrt(chance * (1 - chance) / shots)
        assert abs(away) < 4.5, (some, chance, away)
        squares += away**2
    assert abs(squares - 200) < 6 * math.sqrt(2 * 200)


def test_random_records_are_those_of_shots_without_noise():
    # Both records of a round are random, and their sum is that of the round before.
    text = "RX 0 1\nREPEAT 3 {\nM 0\nZ_ERROR(0.5) 0\nMPP X0*X1\nMX 1\n}"
    circuit = stabsim.Circuit(text)
    drawn = circuit.sample(3000, seed=8)
    assert abs(drawn[:, 0].mean() - 0.5) < 0.05 and np.array_equal(drawn[:, 0], circuit.circuit.sample(3000, seed=8)[:, 0])


def test_shots_of_several_blocks_are_the_same_in_parts_and_by_an_executor():
    circuit = stabsim.Circuit(codes.repetition_code(3, 3, noise=codes.Noise.uniform(0.04)))
    many = circuit.sample(9000, seed=3)
    assert len({many[first : first + 1000].tobytes() for first in range(0, 9000, 1000)}) == 9
    assert np.array_equal(circuit.sample(2100, seed=3, first_shot=1000), many[1000:3100])
    assert np.array_equal(np.concatenate(list(circuit.iter_sample(9000, 1700, seed=3))), many)
    assert np.array_equal(bits.unpacked(circuit.sample(77, seed=3, first_shot=8150, bit_packed=True), 9), many[8150:8227])
    with ThreadPoolExecutor(2) as executor:
        assert np.array_equal(circuit.sample(3000, seed=3, executor=executor, parts=3), many[:3000])


@pytest.mark.parametrize("rows, columns", [(0, 3), (8, 0), (8, 1), (40, 13)])
def test_bits_are_transposed(rows, columns):
    given = np.random.default_rng(rows).integers(0, 256, (rows, columns)).astype(np.uint8)
    assert np.array_equal(bits.unpacked(bits.transposed(given), rows), bits.unpacked(given, 8 * columns).T)


def test_what_is_too_much_for_the_program_is_refused():
    with pytest.raises(stabsim.Refused, match="9 TooManySteps\nA step more is counted for each qubit that an error may meet"):
        stabsim.from_stim("REPEAT 1000000000 {\nX_ERROR(0.1) 0\n}\nM 0\n").sample(1)
    with pytest.raises(stabsim.Refused, match="9 TooManySteps\n.*each reset is counted as three steps"):
        stabsim.from_stim(f"REPEAT 1024 {{\nR{' 0' * 1000}\n}}\nM(0.1) 0\n").sample(1)
    assert stabsim.from_stim("REPEAT 1000000000 {\nTICK\n}\nM(1) 0\n").sample(2).all()
