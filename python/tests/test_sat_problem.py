"""Tests of the problem for MaxSAT solvers: its assignments are the logical errors."""

import itertools
import shutil
import subprocess

import numpy as np
import pytest

import stabsim
from stabsim import codes
from stabsim.noise.sat_problem import UNSOLVABLE, sat_problem

optimize = pytest.importorskip("scipy.optimize")


def read(problem):
    """The number of variables, the weight that no assignment may break, and the clauses with their weights."""
    head, *lines = problem.splitlines()
    _, _, variables, clauses, top = head.split()
    rows = [tuple(map(int, line.split())) for line in lines]
    assert len(rows) == int(clauses) and all(row[-1] == 0 for row in rows)
    return int(variables), int(top), [(row[0], row[1:-1]) for row in rows]


def broken(clauses, assignment, top):
    """How many clauses of weight 1 an assignment breaks, or None if it breaks another one. assignment: variable to bool."""
    total = 0
    for weight, clause in clauses:
        if not any(assignment[abs(literal)] == (literal > 0) for literal in clause):
            if weight == top:
                return None
            total += weight
    return total


def logical_errors(rows, detectors):
    """All sets of rows that flip an observable and no detector."""
    found = set()
    for size in range(len(rows) + 1):
        for numbers in itertools.combinations(range(len(rows)), size):
            flipped = set()
            for number in numbers:
                flipped ^= set(rows[number])
            if flipped and min(flipped) >= detectors:
                found.add(numbers)
    return found


@pytest.mark.parametrize("seed", range(20))
def test_assignments_are_the_logical_errors_and_break_a_clause_for_each_error(seed):
    draw = np.random.default_rng(seed)
    errors, detectors, observables = draw.integers(1, 5), draw.integers(0, 3), draw.integers(1, 3)
    rows = [np.flatnonzero(draw.random(detectors + observables) < 0.5).tolist() for _ in range(errors)]
    flipping = [[number for number, row in enumerate(rows) if bit in row] for bit in range(detectors + observables)]
    variables, top, clauses = read(sat_problem(flipping, errors, detectors))
    found = {}
    for values in itertools.product([False, True], repeat=variables):
        assignment = dict(enumerate(values, 1))
        weight = broken(clauses, assignment, top)
        if weight is not None:
            found.setdefault(tuple(number for number in range(errors) if assignment[number + 1]), []).append(weight)
    # Each logical error has one assignment, which breaks as many clauses as it has errors.
    assert {numbers: [len(numbers)] for numbers in logical_errors(rows, detectors)} == found


def least_weight(problem):
    """The least weight by an integer program: a variable of 0 or 1 for each, and one more for each clause of weight 1 that is broken."""
    variables, top, clauses = read(problem)
    soft = [clause for weight, clause in clauses if weight != top]
    matrix = np.zeros((len(clauses), variables + len(soft)))
    least = np.ones(len(clauses))
    breaks = iter(range(variables, variables + len(soft)))
    for number, (weight, clause) in enumerate(clauses):
        for literal in clause:
            matrix[number, abs(literal) - 1] = 1 if literal > 0 else -1
            least[number] -= literal < 0
        if weight != top:
            matrix[number, next(breaks)] = 1
    cost = np.concatenate([np.zeros(variables), np.ones(len(soft))])
    answer = optimize.milp(cost, constraints=optimize.LinearConstraint(matrix, least), integrality=np.ones(len(cost)), bounds=optimize.Bounds(0, 1))
    return round(answer.fun) if answer.success else None


def models():
    """Error models of small codes."""
    noise = stabsim.NoiseModel.uniform(0.01)
    for circuit in (codes.repetition_code(3, 2), codes.surface_code(3, 2)):
        yield stabsim.error_model(noise.on(circuit))


def test_its_least_weight_is_the_distance():
    model = next(models())
    assert least_weight(model.shortest_error_sat_problem()) == model.distance().distance


@pytest.mark.skipif(not shutil.which("toulbar2"), reason="no toulbar2")
def test_a_solver_finds_the_distance(tmp_path):
    for number, model in enumerate(models()):
        path = tmp_path / f"{number}.wcnf"
        path.write_text(model.shortest_error_sat_problem())
        told = subprocess.run(["toulbar2", str(path)], capture_output=True, text=True, timeout=60, check=False).stdout
        assert f"Optimum: {model.distance().distance} " in told


def test_a_model_that_flips_no_observable_has_a_problem_without_solution():
    assert stabsim.ErrorModel.from_dem("error(0.1) D0").shortest_error_sat_problem() == UNSOLVABLE
    assert least_weight(UNSOLVABLE) is None


def test_an_error_without_a_chance_is_no_variable():
    model = stabsim.ErrorModel.from_dem("error(0) L0\nerror(0.1) L0")
    assert read(model.shortest_error_sat_problem())[0] == 1


def asked_of(circuit, letters):
    """What the program writes of a circuit's errors everywhere as a problem."""
    words = [stabsim.program.find_program(), "distance", "--everywhere", "--letters", letters, "--wcnf"]
    return subprocess.run(words, input=str(circuit), capture_output=True, text=True, check=True).stdout


def test_the_least_weight_of_the_program_s_problem_is_the_distance():
    circuit = stabsim.Circuit(codes.repetition_code(3, 2))
    problem = asked_of(circuit, "XZ")
    distance = circuit.distance(everywhere=True, letters="XZ")
    assert least_weight(problem) == distance.distance == 3
    # Its first variables are the errors that are searched, a clause of weight 1 for each.
    _, top, clauses = read(problem)
    assert [clause for weight, clause in clauses if weight != top] == [(-number,) for number in range(1, top)]


@pytest.mark.skipif(not shutil.which("toulbar2"), reason="no toulbar2")
def test_a_solver_finds_the_distance_by_the_program_s_problem(tmp_path):
    path = tmp_path / "surface.wcnf"
    path.write_text(asked_of(codes.surface_code(3, 2), "XZ"))
    told = subprocess.run(["toulbar2", str(path)], capture_output=True, text=True, timeout=60, check=False).stdout
    assert "Optimum: 3 " in told
