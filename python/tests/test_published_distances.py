"""The page of exact distances has what the program answers."""

import os
import pathlib
import re
import subprocess
import sys

import pytest
import stabsim

PAGE = (pathlib.Path(__file__).resolve().parents[2] / "docs/use/distances.md").read_text(encoding="utf-8")
ANSWERED = re.findall(r"^\| `([^`]+)` \| (all|X and Z) \| (\d+) \|", PAGE, re.MULTILINE)
# Its search takes minutes, so it is tried before a release alone.
GROSS = "bivariate_bicycle_code --orders 12 6 --rounds 12"
# Codes that are kept in X too.
IN_X = ("surface_code", "unrotated_surface_code", "toric_code", "bivariate_bicycle_code")
TRIED = [(words + basis, errors, distance) for words, errors, distance in ANSWERED for basis in ["", " --basis X"][:1 + words.startswith(IN_X)]]


def circuit_of(words):
    """What the command prints of a row's words."""
    done = subprocess.run([sys.executable, "-m", "stabsim.codes", *words.split()], capture_output=True, text=True, check=True)
    return stabsim.Circuit(done.stdout)


def test_each_row_of_the_page_is_tried():
    assert len(ANSWERED) == sum(line.startswith("| `") for line in PAGE.splitlines()) == 14
    assert (GROSS, "X and Z", "10") in ANSWERED


@pytest.mark.parametrize("words, errors, distance", TRIED)
def test_a_circuit_has_the_distance_of_its_row(words, errors, distance):
    if words.startswith(GROSS) and "STABSIM_RELEASE" not in os.environ:
        pytest.skip("tried before a release, with STABSIM_RELEASE set")
    found = circuit_of(words).distance(everywhere=True, letters="all" if errors == "all" else "XZ")
    assert found.distance == int(distance) == len(found.errors)


@pytest.mark.parametrize("basis, most", [("Z", 8), ("X", 7)])
def test_errors_of_the_gross_code_do_not_go_unseen(basis, most):
    found = circuit_of(f"{GROSS} --basis {basis}").distance(everywhere=True, letters="XZ", most=most)
    assert (found.distance, found.most) == (None, most)
