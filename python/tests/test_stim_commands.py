"""Stim's commands that the package has: what they write is what its calls give, or was worked out by hand."""

import io
import os
import signal
import subprocess
import sys

import numpy as np
import pytest
import stabsim
from stabsim import __main__, codes, stim_commands

NOISY = "R 0 1\nX_ERROR(0.125) 0\nTICK\nCX 0 1\nM(0.25) 0 1\nDETECTOR(2, 4) rec[-1]\nDETECTOR(2, 5) rec[-2] rec[-1]\nOBSERVABLE_INCLUDE(0) rec[-2]\n"
# A detector that is 1 without noise.
ODD = "X 0\nM 0 1\nDETECTOR rec[-2]\nDETECTOR rec[-1]\nOBSERVABLE_INCLUDE(0) rec[-2] rec[-1]\n"


@pytest.fixture(name="run")
def run_here(tmp_path, monkeypatch, capfdbinary):
    """Runs a command in a folder of its own: what it writes, its status and what it says."""
    monkeypatch.chdir(tmp_path)

    def run(*words, given=b""):
        monkeypatch.setattr(sys, "stdin", io.TextIOWrapper(io.BytesIO(given)))
        try:
            status = stim_commands.main(words)
        except SystemExit as ended:
            status = ended.code
        sys.stdout.flush()
        output, said = capfdbinary.readouterr()
        return status, output, said.decode()

    return run


@pytest.fixture(name="wrote")
def written_here(run):
    """What a command writes that has nothing to say."""

    def wrote(*words, given=b""):
        status, output, said = run(*words, given=given)
        assert (status, said) == (0, "")
        return output

    return wrote


def test_the_package_has_the_commands_that_its_help_names():
    assert set(__main__.PACKAGED) == set(stim_commands.COMMANDS)
    words = [sys.executable, "-m", "stabsim"]
    first = subprocess.run([*words, "--help"], capture_output=True, text=True, check=True).stdout.splitlines()[0]
    assert all(name in first for name in stim_commands.COMMANDS)
    done = subprocess.run([*words, "sample_dem"], input="error(1) D1\n", capture_output=True, text=True, check=True)
    assert (done.stdout, done.stderr) == ("01\n", "")


@pytest.mark.parametrize("words, text", [
    ("surface_code rotated_memory_x", codes.surface_code(3, 2, basis="X", noise=codes.Noise(0.1, 0.2, 0.3, 0.4))),
    ("surface_code unrotated_memory_z", codes.unrotated_surface_code(3, 2, noise=codes.Noise(0.1, 0.2, 0.3, 0.4))),
    ("repetition_code memory", codes.repetition_code(3, 2, noise=codes.Noise(0.1, 0.2, 0.3, 0.4))),
])
def test_gen_prints_circuits_of_codes(words, text, tmp_path, wrote):
    code, task = words.split()
    chances = ["--before_round_data_depolarization", "0.1", "--after_clifford_depolarization=0.2", "--after_reset_flip_probability", "0.3",
               "--before_measure_flip_probability", "0.4"]
    asked = ["gen", "--code", code, "--task", task, "--distance", "3", "--rounds", "2", *chances]
    assert wrote(*asked).decode() == text
    assert wrote(*asked, "--out", "made.stim") == b"" and (tmp_path / "made.stim").read_text() == text


@pytest.mark.parametrize("words, output", [
    ([], b"00\n10\n01\n"), (["--skip_reference_sample"], b"10\n00\n11\n"), (["--append_observables"], b"000\n101\n011\n"),
    (["--append_observables", "--out_format", "dets"], b"shot\nshot D0 L0\nshot D1 L0\n"),
    (["--out_format", "b8", "--obs_out", "obs", "--obs_out_format", "dets"], b"\x00\x01\x02"),
])
def test_m2d_writes_what_is_flipped_against_a_run_without_noise(words, output, tmp_path, wrote):
    (tmp_path / "odd.stim").write_text(ODD)
    assert wrote("m2d", "--circuit", "odd.stim", "--in_format", "01", *words, given=b"10\n00\n11\n") == output
    if "--obs_out" in words:
        assert (tmp_path / "obs").read_text() == "shot\nshot L0\nshot L0\n"


@pytest.mark.parametrize("words, output", [
    ([], b"00\n01\n10\n"), (["--skip_reference_sample"], b"10\n11\n00\n"), (["--append_observables"], b"00000\n01001\n10000\n"),
])
def test_m2d_takes_out_what_sweep_bits_flip(words, output, tmp_path, wrote):
    # The records are 1 and bit 0, added up, and bit 1: 0 0, then 1 0, then 0 1. The second one is wrong in the second shot, the first in the third.
    (tmp_path / "swept.stim").write_text("X_ERROR(0.5) 0\nX 0\nCX sweep[0] 0 0 1 sweep[1] 1\nCX 0 1\nM(0.1) 0 1\n"
                                         "DETECTOR rec[-2]\nDETECTOR rec[-1]\nOBSERVABLE_INCLUDE(2) rec[-1]\n")
    (tmp_path / "bits.dets").write_text("shot M0\nshot\nshot M1 M0\n")
    asked = ["m2d", "--circuit", "swept.stim", "--in_format", "01", "--sweep", "bits.dets", "--sweep_format", "dets", *words]
    assert wrote(*asked, given=b"00\n11\n11\n") == output


def test_sample_dem_writes_which_errors_happen_and_takes_them_again(tmp_path, wrote):
    (tmp_path / "model.dem").write_text("error(0.5) D0 L0\nerror(0.25) D0\nerror(0) D1\nerror(1) D1 ^ D0\n")
    words = ["sample_dem", "--in", "model.dem", "--shots", "3000", "--seed", "4"]
    drawn = wrote(*words, "--err_out", "errors.hits", "--err_out_format", "hits", "--obs_out", "obs.01")
    # It is what is drawn without that, and what these errors flip by hand.
    assert drawn == wrote(*words)
    errors = stabsim.read_shots(tmp_path / "errors.hits", format="hits", num_measurements=4)
    first, second, third, last = errors.T
    assert not third.any() and last.all() and abs(first.mean() - 0.5) < 0.04 and abs(second.mean() - 0.25) < 0.04
    detectors = np.array([list(line) for line in drawn.decode().split()]) == "1"
    assert np.array_equal(detectors, np.stack([first ^ second ^ last, third ^ last], axis=1))
    assert (tmp_path / "obs.01").read_text().split() == ["01"[bit] for bit in first.astype(int)]
    again = ["sample_dem", "--in", "model.dem", "--shots", "2000", "--replay_err_in", "errors.hits", "--replay_err_in_format", "hits"]
    assert wrote(*again, "--err_out", "again.01") == drawn[: 3 * 2000]
    assert np.array_equal(stabsim.read_shots(tmp_path / "again.01", format="01", num_measurements=4), errors[:2000])


def test_analyze_errors_prints_the_model(tmp_path, wrote):
    (tmp_path / "noisy.stim").write_text(NOISY)
    # X on 0 flips both records; a wrong record of 0 flips D1 and L0, and one of 1 both detectors.
    assert wrote("analyze_errors", "--in", "noisy.stim", "--fold_loops").decode().splitlines() == [
        "error(0.25) D0 D1", "error(0.125) D0 L0", "error(0.25) D1 L0", "detector(2, 4) D0", "detector(2, 5) D1", "logical_observable L0",
    ]
    text = codes.surface_code(3, 2, noise=codes.Noise.uniform(0.01))
    words = ["analyze_errors", "--decompose_errors", "--block_decompose_from_introducing_remnant_edges"]
    assert wrote(*words, given=text.encode()).decode() == stabsim.error_model(text, decompose=True).dem
    disjoint = b"R 0\nPAULI_CHANNEL_1(0.1, 0.1, 0) 0\nM 0\nDETECTOR rec[-1]\nMX 0\n"
    assert wrote("analyze_errors", "--approximate_disjoint_errors", given=disjoint).decode().splitlines()[1].startswith("error(0.18")
    coin = b"H 0\nCX 0 1\nM 0 1\nDETECTOR rec[-1]\nDETECTOR rec[-2]\n"
    assert wrote("analyze_errors", "--allow_gauge_detectors", given=coin) == b"error(0.5) D0 D1\ndetector D0\ndetector D1\n"


def test_sample_dem_writes_the_shots_of_the_model(tmp_path, wrote):
    model = stabsim.error_model(codes.surface_code(3, 2, noise=codes.Noise.uniform(0.02)))
    (tmp_path / "model.dem").write_text(model.dem)
    words = ["sample_dem", "--in", "model.dem", "--shots", "9000", "--seed", "7"]
    wrote(*words, "--out", "det.b8", "--out_format", "b8", "--obs_out", "obs.hits", "--obs_out_format", "hits")
    detectors, observables = model.sample(9000, seed=7)
    assert np.array_equal(stabsim.read_shots(tmp_path / "det.b8", format="b8", num_detectors=model.num_detectors), detectors)
    assert np.array_equal(stabsim.read_shots(tmp_path / "obs.hits", format="hits", num_observables=1), observables)
    assert wrote("sample_dem", given=b"error(1) D1\n") == b"01\n"


def test_explain_errors_names_the_lines_that_make_an_error(tmp_path, wrote):
    noisy = b"R 0\nREPEAT 2 {\n    X_ERROR(0.25) 0\n}\nM(0.125) 0\nDETECTOR rec[-1]\n" + b"R 1\nX_ERROR(0.5) 1\nM 1\nDETECTOR rec[-1]\n"
    causes = ["    line 3 in round 0: X0 of X_ERROR, chance 0.25", "    line 3 in round 1: X0 of X_ERROR, chance 0.25",
              "    line 5: record of 0 of M, chance 0.125"]
    first, *rest = wrote("explain_errors", given=noisy).decode().splitlines()
    # One or three of them happen with (1 - (1 - 0.5)**2 * (1 - 0.25)) / 2.
    assert first == "error(0.40625) D0" and rest == [*causes, "error(0.5) D1", "    line 8: X1 of X_ERROR, chance 0.5"]
    assert wrote("explain_errors", "--single", given=noisy).decode().splitlines() == [first, causes[0], *rest[3:]]
    (tmp_path / "some.dem").write_text("error(0.1) D1\n")
    assert wrote("explain_errors", "--dem_filter", "some.dem", given=noisy).decode().splitlines() == rest[3:]


@pytest.mark.parametrize("words, asked", [
    (["timeline-svg"], {"kind": "timeline"}), (["match-graph-svg"], {"kind": "matchgraph"}), (["timeslice-svg", "--tick", "1"], {"kind": "timeslice", "tick": 1}),
    (["time-slice-svg"], {"kind": "timeslice", "tick": range(2)}), (["detslice-svg", "--tick", "0:2"], {"kind": "detslice", "tick": range(2)}),
    (["detector-slice-svg", "--tick=1", "--filter_coords", "2,5:L0"], {"kind": "detslice", "tick": 1, "detectors": ["D1", "L0"]}),
    (["detslice-with-ops-svg", "--tick=1"], {"kind": "detslice-with-ops", "tick": 1}),
    (["detslice-svg", "--tick=1", "--filter_coords", "D0:2"], {"kind": "detslice", "tick": 1, "detectors": ["D0", "D1"]}),
])
def test_diagram_draws_what_the_package_draws(words, asked, wrote):
    noisy = stabsim.from_stim(NOISY)
    assert wrote("diagram", "--type", *words, given=NOISY.encode()).decode() == noisy.diagram(asked.pop("kind"), **asked).svg()


def test_diagram_leaves_noise_out_if_it_is_asked_to(wrote):
    clean = wrote("diagram", "--type", "timeline-svg", "--remove_noise", given=NOISY.encode()).decode()
    assert clean == stabsim.from_stim(NOISY).circuit.diagram("timeline").svg()


def test_each_code_and_task_that_gen_names_is_made(run, wrote):
    _, _, said = run("gen", "--code", "color_code", "--task", "memory_xyz", "--distance", "3", "--rounds", "2")
    named = [it.split(":") for it in said.split(" is none of ")[1].split("; ")[0].split(", ")]
    assert len(named) == 5
    for code, task in named:
        assert b"DETECTOR" in wrote("gen", "--code", code, "--task", task, "--distance", "3", "--rounds", "2")
    help_text = " ".join(wrote("gen", "--help").decode().split())
    assert "surface_code or repetition_code" in help_text and "color" not in help_text


@pytest.mark.parametrize("words, status, said", [
    (["m2d", "--circuit", "noisy.stim", "--in_format", "01", "--ran_without_feedback"], 2, "--ran_without_feedback: feedback is carried out here"),
    (["sample_dem", "--in", "one.dem", "--shots", "3", "--replay_err_in", "one.01"], 1, "one.01 has 1 shots, and --shots asks for 3"),
    (["m2d", "--circuit", "swept.stim", "--in_format", "01", "--in", "one.01", "--sweep", "two.01"], 1, "sweep_bits is of 2 shots, and records is of 1"),
    (["m2d", "--circuit", "swept.stim", "--in_format", "01", "--in", "one.01", "--sweep", "wide.01"], 1, "it has 2 characters"),
    (["m2d", "--circuit", "coin.stim", "--in_format", "01", "--in", "one.01", "--sweep", "one.01", "--skip_reference_sample"], 1, "refused 18"),
    (["gen", "--code", "color_code", "--task", "memory_xyz", "--distance", "3", "--rounds", "2"], 1, "stabsim gen: color_code:memory_xyz is none of"),
    (["gen", "--code", "repetition_code", "--task", "memory", "--distance", "1", "--rounds", "2"], 1, "stabsim gen: distance is 1: give a whole number from 2 to 512"),
    (["analyze_errors", "--in", "none.stim"], 1, "none.stim"), (["analyze_errors", "--approximate_disjoint_errors", "0.5"], 1, "no other chance than 1"),
    (["analyze_errors"], 1, "stabsim analyze_errors: line 2: refused 1"), (["sample_dem"], 1, "stabsim sample_dem: line 1: "),
    (["sample_dem", "--in", "noisy.stim"], 1, "line 1: r is nothing that an error model has, but a circuit may have it: "),
    (["m2d", "--circuit", "noisy.stim", "--in_format", "01"], 1, "stabsim m2d: line 1: "),
    (["sample_dem", "--shots", "100000", "--in", "wide.dem"], 1, "of 67108864 bits each, which memory does not hold"),
    (["diagram", "--type", "timeline-svg", "--in", "noisy.stim", "--out", "x.png"], 1, "to a file that ends in .svg: x.svg in place of x.png"),
    (["diagram", "--type", "timeline-text"], 2, "invalid choice"), (["diagram", "--type", "timeslice-svg", "--tick", "a"], 1, "a is no tick"),
])
def test_what_is_wrong_is_said_in_a_line(words, status, said, tmp_path, run):
    (tmp_path / "noisy.stim").write_text(NOISY)
    for name, text in (("wide.dem", "detector D67108863\n"), ("one.dem", "error(1) D0\n"), ("one.01", "0\n"), ("two.01", "0\n1\n"), ("wide.01", "00\n"),
                       ("swept.stim", "CX sweep[0] 0\nM 0\n"), ("coin.stim", "H 0\nCX sweep[0] 0\nM 0\nDETECTOR rec[-1]\n")):
        (tmp_path / name).write_text(text)
    given = NOISY if words[0] == "diagram" else "M 0\nNOPE 1\n"
    ended, output, told = run(*words, given=given.encode())
    assert (ended, output) == (status, b"") and said in told and "Traceback" not in told


def test_a_command_of_the_package_says_in_a_line_that_numpy_is_missing(tmp_path):
    (tmp_path / "numpy.py").write_text("raise ModuleNotFoundError('No module named numpy', name='numpy')\n")
    words = [sys.executable, "-m", "stabsim", "analyze_errors"]
    place = os.pathsep.join([str(tmp_path), os.environ["PYTHONPATH"]])
    done = subprocess.run(words, env={**os.environ, "PYTHONPATH": place}, cwd=tmp_path, capture_output=True, text=True, check=False)
    assert (done.returncode, done.stdout) == (1, "") and done.stderr.startswith("stabsim analyze_errors: needs numpy: ") and done.stderr.count("\n") == 1


def test_an_interrupted_command_says_so_in_a_line(tmp_path):
    (tmp_path / "noisy.stim").write_text(NOISY)
    words = [sys.executable, "-m", "stabsim", "m2d", "--circuit", "noisy.stim", "--in_format", "01", "--in", "records"]
    os.mkfifo(tmp_path / "records")
    with subprocess.Popen(words, cwd=tmp_path, stderr=subprocess.PIPE, text=True) as running:
        # The pipe opens once the command reads it, and gives nothing.
        with (tmp_path / "records").open("wb"):
            running.send_signal(signal.SIGINT)
            assert (running.stderr.read(), running.wait()) == ("stabsim m2d: interrupted\n", 130)


def test_a_closed_pipe_ends_a_command_without_a_word(tmp_path):
    (tmp_path / "model.dem").write_text("error(0.5) D0\n")
    words = [sys.executable, "-m", "stabsim", "sample_dem", "--in", "model.dem", "--shots", "1000000"]
    with subprocess.Popen(words, cwd=tmp_path, stdout=subprocess.PIPE, stderr=subprocess.PIPE) as running:
        running.stdout.readline()
        running.stdout.close()
        assert running.stderr.read() == b"" and running.wait() < 0
