"""Distances of small tables of errors at random are those of all sets of their errors."""

import os
from random import Random

import pytest
from oracle import tables
from oracle.tables import Table
from running import run

# How many tables of each shape are tried, and in how many parts, which run side by side.
COUNT, PARTS = (10_000, 10) if "STABSIM_RELEASE" in os.environ else (100, 1)
# What is said of a table without errors.
NONE_MARKED = "stabsim: no place is marked by I; --everywhere asks for all places\n"


def wrong(table: Table, most: int | None, observable: int | None) -> str | None:
    """What is wrong in the program's answer of at most `most` errors that flip some observable, or this one."""
    options = [f"--{name}={value}" for name, value in (("most", most), ("observable", observable)) if value is not None]
    status, written, told = run(["distance", *options], table.circuit())
    least = table.least(observable)
    first, *lines = written.splitlines()
    kind = "none" if least is None else f"distance {least}" if most is None or least <= most else f"none up to {most}"
    # Within a limit it need not be found that there is none at all.
    kinds = [kind] if least is not None or most is None else [kind, f"none up to {most}"]
    errors = [int(line.split()[2].removeprefix("X")) for line in lines]
    named = first.split(" of ")[0].split(" for ")[0]
    right = status == 0 and told == ("" if table.rows else NONE_MARKED) and named in kinds and len(set(errors)) == len(errors)
    if named.startswith("distance"):
        right = right and len(errors) == least and table.is_logical(table.flipped(errors), observable)
    return None if right else f"{options} on\n{table.circuit()}\n{least}: {written}{told}"


@pytest.mark.parametrize("part", range(PARTS))
@pytest.mark.parametrize("shape", tables.SHAPES)
def test_distances_of_tables_at_random_are_those_of_all_sets(shape: str, part: int) -> None:
    dice, tried = Random(f"{shape} {part}"), 0
    for table in tables.tables(shape, part, COUNT // PARTS):
        most, observable = dice.choice([None, None, None, dice.randint(0, 6)]), dice.choice([None, None, None, dice.randrange(table.observables)])
        assert wrong(table, most, observable) is None
        tried += 1
    assert tried == COUNT // PARTS


def test_what_least_says_is_known_by_hand() -> None:
    # A repetition code of distance 3, and an error that flips both observables of a detector that another one flips alone.
    line = Table(2, 1, (0b1_01, 0b11, 0b10))
    assert line.least() == 3 and line.is_logical(line.flipped([0, 1, 2])) and not line.is_logical(line.flipped([0, 1]))
    pair = Table(1, 2, (0b11_1, 0b00_1, 0b10_1))
    assert (pair.least(), pair.least(0), pair.least(1)) == (2, 2, 2)
    assert Table(1, 2, (0b01_1, 0b1)).least(1) is None
    assert line.circuit().splitlines()[3:] == ["DETECTOR rec[-3] rec[-2]", "DETECTOR rec[-2] rec[-1]", "OBSERVABLE_INCLUDE(0) rec[-3]"]


@pytest.mark.parametrize("shape", tables.SHAPES)
def test_tables_of_a_shape_differ_and_have_some_large_distances(shape: str) -> None:
    found = [table.least() for table in tables.tables(shape, 0, 60)]
    assert None in found and max(it or 0 for it in found) > 3
