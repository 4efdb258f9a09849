"""What the examples find, against exhaustive search on small codes."""

import importlib.util
import itertools
import pathlib
import subprocess
import sys
from collections import Counter

import numpy as np
import pytest
import stabsim
from searching import Search
from stabsim import codes

EXAMPLES = pathlib.Path(__file__).resolve().parents[2] / "examples"


def example(name):
    """The module of an example; what it needs besides numpy may be missing."""
    pytest.importorskip("networkx")
    spec = importlib.util.spec_from_file_location(name, EXAMPLES / f"{name}.py")
    module = importlib.util.module_from_spec(spec)
    spec.loader.exec_module(module)
    return module


def test_the_matching_refuses_parities_of_detectors_that_are_1_without_noise():
    threshold = example("threshold")
    # The last data qubits are turned over, so some detectors of their checks are 1.
    text = codes.surface_code(3, 3, noise=codes.Noise.uniform(0.01))
    turned = stabsim.from_stim(text.replace("\nM ", "\nX 1\nM "))
    decode = threshold.decoder(stabsim.error_model(turned, decompose=True))
    assert turned.circuit.detect(1).any()
    with pytest.raises(ValueError, match="flips=True"):
        decode(turned.detect(5, seed=1))
    plain = stabsim.from_stim(text)
    assert np.array_equal(decode(turned.detect(5, seed=1, flips=True)), decode(plain.detect(5, seed=1)))


def test_a_picture_is_drawn(tmp_path):
    pytest.importorskip("matplotlib")
    threshold = example("threshold")
    sums = [stabsim.Sums("", 100, 5 + distance, metadata={"distance": distance, "chance": chance}) for distance, chance in
            itertools.product(threshold.DISTANCES, threshold.CHANCES)]
    threshold.draw(sums, str(tmp_path / "picture.png"))
    assert (tmp_path / "picture.png").read_bytes().startswith(b"\x89PNG")


def test_the_worst_fault_of_the_other_schedule_has_an_error_less(monkeypatch, capsys):
    worst = example("worst_fault")
    # Of distance 3, if no two errors of the good schedule go unseen and two of the bad one do: test_codes.py looks through all.
    monkeypatch.setattr(worst, "DISTANCE", 3)
    worst.main()
    lines = capsys.readouterr().out.splitlines()
    assert [line for line in lines if not line.startswith(" ")] == [
        "as it is:", "distance 3 of all errors everywhere",
        "with the middle gates of each round exchanged:", "distance 2 of all errors everywhere"]
    assert lines.count("  together: detectors [], observables [0]") == 2 and len(lines) == 4 + 2 + 3 + 2


def by_hand_of(of_x, of_z):
    """The distance of the surface code of distance 3 with these orders of the corners, or None if the checks are not measured by them. Checks
    of X and of Z that lie side by side share two data qubits: they don't meet one at once, and they are measured if the check of X
    meets both of them first, or none. Errors of a check of X spread to the last two of its qubits: if these lie one below the other, so
    does the logical X, of which one more error makes the rest."""
    for aside in ((2, 0), (-2, 0), (0, 2), (0, -2)):
        shared = [(x, (x[0] - aside[0], x[1] - aside[1])) for x in of_x if (x[0] - aside[0], x[1] - aside[1]) in of_z]
        order = [of_x.index(x) - of_z.index(z) for x, z in shared]
        if 0 in order or sum(it < 0 for it in order) == 1:
            return None
    return 2 if of_x[2][0] == of_x[3][0] else 3


def test_the_orders_of_a_surface_code_have_the_distances_that_are_worked_out_by_hand():
    schedules = example("schedules")
    wanted = Counter(by_hand_of(*orders) for orders in itertools.product(itertools.permutations(schedules.CORNERS), repeat=2))
    del wanted[None]
    assert schedules.surface_orders() == wanted and set(wanted) == {2, 3}


def test_the_best_order_of_a_colour_code_meets_each_check_and_no_three_errors_go_unseen():
    schedules = example("schedules")
    found, best = schedules.colour_orders(250, seed=1)
    assert set(found) == {3, 4} and found.total() == 250
    schedule = schedules.colour(5)
    layers = [list(map(int, line.split()[1:])) for line in best]
    assert all(len(set(layer)) == len(layer) for layer in layers)
    met = sorted(pair for layer in layers for pair in zip(layer[::2], layer[1::2]))
    assert met == sorted(pair for step in schedules.AROUND for pair in schedule.layer("X", step)) and len(met) == 42
    with schedule.session:
        for path, line in zip(schedule.paths[:6] + schedule.paths[12:18], best * 2):
            schedule.session.replace(path, line)
        noisy = stabsim.NoiseModel.uniform(0.01).on(schedule.session.circuit())
    search = Search.of_model(stabsim.error_model(noisy))
    assert search.least(3) is None and search.distance() == 4


def test_the_first_hour_finds_what_the_file_hides(tmp_path):
    pytest.importorskip("matplotlib")
    pytest.importorskip("networkx")
    words = [sys.executable, "-B", EXAMPLES / "first_hour.py", "threshold.png"]
    done = subprocess.run(words, cwd=tmp_path, capture_output=True, text=True, check=True)
    lines = done.stdout.splitlines()
    # The detector at (4, 4) in the first round, line 46, names the record of a check of X, which line 42 makes.
    assert lines[1] == "D2 of item 44 is decided by item 40, which are lines 46 and 42"
    assert lines[2:4] == ["Parity(records=(6,), value=False, is_logical=False)", "True True False"]
    # Without it two errors go unseen, and with the right record three.
    assert lines[4:7] == ["distance 2 of all errors", "DETECTOR(4, 4, 0) rec[-2] True", "distance 3 of all errors everywhere"]
    assert "detectors=array([]," in lines[8] and "observables=array([0])" in lines[8] and len(lines) == 9 + 6
    assert (tmp_path / "threshold.png").read_bytes().startswith(b"\x89PNG")
