"""The distance of an error model, by that of a circuit whose marked errors flip what its mechanisms flip."""

from dataclasses import replace
from typing import TYPE_CHECKING

import numpy as np
from numpy.typing import NDArray

from stabsim.formats.combining import combined, rows_of, starts_of
from stabsim.noise.sat_problem import sat_problem
from stabsim.questions.distance_search import distance_text
from stabsim.questions.distances import CHANCELESS, Distance, distance_of, option_words

if TYPE_CHECKING:
    from stabsim.noise.models import ErrorModel

# Two steps are a mechanism's, its mark and its measurement, and one is before all.
STEPS_BEFORE, STEPS_OF_EACH = 1, 2
PARTS = "graph-like parts of errors"
# The most records that one line of an observable names.
MOST_OF_LINE = 1000


def circuit_text(flipping: list[NDArray[np.int64]], detectors: int, mechanisms: int) -> str:
    """A circuit with a mark and a record for each mechanism, of which the one flips the other.

    flipping: for each detector, and then each observable, which mechanisms flip it.
    """
    lines = ["R 0\n"]
    if mechanisms:
        lines.append(f"REPEAT {mechanisms} {{\n    I[X] 0\n    MR 0\n}}\n")
    for number, its in enumerate(flipping):
        records = [f"rec[{mechanism - mechanisms}]" for mechanism in its.tolist()]
        name, most = ("DETECTOR", len(records)) if number < detectors else (f"OBSERVABLE_INCLUDE({number - detectors})", MOST_OF_LINE)
        for first in range(0, max(len(records), 1), max(most, 1)):
            lines.append(" ".join([name, *records[first : first + most]]) + "\n")
    return "".join(lines)


def edges_of(model: "ErrorModel", mechanisms: NDArray[np.int64]) -> tuple[NDArray[np.int64], NDArray[np.int64], NDArray[np.int64]]:
    """The different parts of some mechanisms: for each one that has it, by itself if there is such a one, and as `indptr` and `indices`
    what they flip."""
    parts = model.all_parts.of(mechanisms)
    counts = np.diff(parts.starts)
    order = np.argsort(np.repeat(counts > 1, counts), kind="stable")
    owners = np.repeat(mechanisms, counts)[order]
    found = combined(np.zeros(len(order)), *rows_of(order, parts.indptr, parts.indices))
    numbers, first = np.unique(found.mechanisms, return_index=True)
    return owners[first[numbers >= 0]], found.indptr, found.indices


def flipping_of(rows: NDArray[np.int64], columns: NDArray[np.int64], bits: int) -> list[NDArray[np.int64]]:
    """For each bit, which rows name it: rows[i] names columns[i]."""
    bounds = starts_of(np.bincount(columns, minlength=bits))[1:-1]
    return np.split(rows[np.argsort(columns, kind="stable")], bounds) if bits else []


def flipping_of_model(model: "ErrorModel", is_of_parts: bool = False) -> tuple[NDArray[np.int64], list[NDArray[np.int64]]]:
    """The mechanisms that have a chance, or one that has it for each of their different parts; and for each bit the places of those that flip it."""
    numbers = np.flatnonzero(model.chances > 0)
    if is_of_parts:
        numbers, indptr, columns = edges_of(model, numbers)
        rows = np.repeat(np.arange(len(numbers)), np.diff(indptr))
    else:
        rows, columns = rows_of(numbers, model.indptr, model.indices)
    return numbers, flipping_of(rows, columns, model.num_detectors + model.num_observables)


def mechanisms_of(found: Distance, numbers: NDArray[np.int64]) -> tuple[int, ...]:
    """The mechanisms, by their numbers, whose marks in `circuit_text` are the errors of an answer."""
    places = [(error.steps - STEPS_BEFORE) // STEPS_OF_EACH for error in found.errors]
    return tuple(sorted(numbers[places].tolist())) if places else ()


def sat_problem_of_model(model: "ErrorModel") -> str:
    """The problem of the least number of mechanisms that have a chance and flip an observable and no detector."""
    numbers, flipping = flipping_of_model(model)
    return sat_problem([its.tolist() for its in flipping], len(numbers), model.num_detectors)


def distance_of_model(model: "ErrorModel", most: int | None, graphlike: bool, count: bool, workers: int) -> Distance:
    """The distance over the mechanisms that have a chance, or over their parts if the model is decomposed and graph-like errors are asked
    for: with the numbers of the mechanisms. Its errors are left to be placed."""
    is_of_parts = graphlike and model.parts is not None
    numbers, flipping = flipping_of_model(model, is_of_parts)
    text = circuit_text(flipping, model.num_detectors, len(numbers))
    found = distance_of(distance_text(text, option_words(graphlike, count, workers), most, workers))
    searched = PARTS if is_of_parts else "graph-like errors" if graphlike else "all errors"
    return replace(found, errors=(), mechanisms=mechanisms_of(found, numbers), searched=searched if model.chances.any() else CHANCELESS)
