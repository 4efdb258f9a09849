"""Counts of several files together, pictures of them, and the command that counts."""

import csv
import io
import os
import re
import signal
import subprocess
import sys
import time

import numpy as np
import pytest
import stabsim
from stabsim import codes
from stabsim.collecting.collecting import seed_of

import deciding

MODELS = {f"d={distance}": stabsim.error_model(codes.repetition_code(distance, 2, noise=codes.Noise.uniform(0.03))) for distance in (3, 5)}
METADATA = {"d=3": {"d": 3}, "d=5": {"d": 5}}


def count(path, **words):
    return {it.name: it for it in stabsim.collect(MODELS, deciding.nothing, save=path, metadata=METADATA, part_shots=1024, **words)}


def test_files_of_other_seeds_add_up_and_a_copy_counts_once(tmp_path):
    first, second, copy = (tmp_path / name for name in ("first.csv", "second.csv", "copy.csv"))
    one, other = count(first, shots=3000, seed=4), count(second, shots=2048, seed=5)
    copy.write_bytes(first.read_bytes())
    alone = stabsim.combine(first)
    assert [(it.name, it.shots, it.errors, it.seed, it.metadata) for it in alone] == [
        (name, 3000, one[name].errors, seed_of(name, 4), METADATA[name]) for name in MODELS]
    both = stabsim.combine(first, second, copy)
    assert [(it.name, it.decoder, it.shots, it.errors, it.seed) for it in both] == [
        (name, "deciding.nothing", 5048, one[name].errors + other[name].errors, None) for name in MODELS]
    rows = [row for path in (first, second) for row in csv.DictReader(path.read_text().splitlines()) if row["name"] == "d=3"]
    assert both[0].seconds == pytest.approx(sum(float(row["seconds"]) for row in rows))


def test_a_line_that_was_cut_off_counts_for_nothing(tmp_path):
    path = tmp_path / "counts.csv"
    count(path, shots=3072, seed=4)
    path.write_bytes(path.read_bytes()[:-5])
    assert sorted(it.shots for it in stabsim.combine(path)) == [2048, 3072]


def test_counts_that_do_not_fit_are_refused(tmp_path):
    first, other = tmp_path / "first.csv", tmp_path / "other.csv"
    count(first, shots=2048, seed=4)
    for change in (lambda text: text.replace(MODELS["d=3"].fingerprint, "0" * 16),
                   lambda text: text.replace(",1024,1024,", ",512,1024,")):
        other.write_text(change(first.read_text()))
        assert other.read_text() != first.read_text()
        with pytest.raises(stabsim.OtherExperiment):
            stabsim.combine(first, other)
    rows = first.read_text().splitlines()
    fields = rows[1].split(",")
    fields[6] = str(int(fields[6]) + 1)
    other.write_text("\n".join([rows[0], ",".join(fields), ""]))
    with pytest.raises(stabsim.OtherExperiment, match="other counts"):
        stabsim.combine(first, other)
    other.write_text("a,b\n1,2\n")
    with pytest.raises(stabsim.OtherExperiment, match="no file of counts"):
        stabsim.combine(other)


def test_a_picture_has_a_line_for_each_group_and_a_bar_for_each_point():
    matplotlib = pytest.importorskip("matplotlib")
    matplotlib.use("Agg")
    from matplotlib import pyplot

    counted = [stabsim.Sums(f"{d} {p}", 1000, errors, metadata={"d": d, "p": p, "r": 2}) for d, p, errors in
               [(3, 0.02, 100), (3, 0.01, 50), (5, 0.01, 0), (5, 0.02, 20)]]
    axes = stabsim.plot(counted, x="p", group=lambda it: it.metadata["d"], rounds="r", axes=pyplot.figure().subplots())
    three, five = axes.containers
    assert [three.get_label(), five.get_label()] == ["3", "5"] and axes.get_yscale() == "log" and axes.get_ylabel() == "logical error rate of a round"
    line, _, [bars] = three
    assert line.get_xdata().tolist() == [0.01, 0.02]
    wanted = [stabsim.fit_rate(1000, errors).per_round(2) for errors in (50, 100)]
    np.testing.assert_allclose(line.get_ydata().astype(float), [rate.best for rate in wanted])
    np.testing.assert_allclose([segment[:, 1] for segment in bars.get_segments()], [(rate.low, rate.high) for rate in wanted])
    # The point without errors is no part of the line: a triangle is at the end of its interval.
    assert five[0].get_xdata().tolist() == [0.02]
    triangles = [it for it in axes.get_lines() if it.get_marker() == r"$\triangledown$" and len(it.get_xdata())]
    assert [(it.get_xdata().tolist(), it.get_ydata().tolist()) for it in triangles] == [([0.01], [stabsim.fit_rate(1000, 0).per_round(2).high])]
    with pytest.raises(ValueError, match="has no q"):
        stabsim.plot(counted, x="q")
    pyplot.close("all")


def run(tmp_path, *words):
    place = os.pathsep.join([os.environ["PYTHONPATH"]])
    return subprocess.run([sys.executable, "-m", "stabsim.collect_command", *words], cwd=tmp_path, capture_output=True, text=True,
                          env={**os.environ, "PYTHONPATH": place}, check=False)


def test_the_command_counts_what_files_have(tmp_path):
    texts = {distance: codes.repetition_code(distance, 2, noise=codes.Noise.uniform(0.03)) for distance in (3, 5)}
    (tmp_path / "d=3,p=0.03.stim").write_text(texts[3])
    (tmp_path / "five.dem").write_text(stabsim.error_model(texts[5]).dem)
    (tmp_path / "mine.py").write_text("import deciding\ndecoder = deciding.nothing\n")
    words = ["d=3,p=0.03.stim", "five.dem", "--decoder", "mine:decoder", "--seed", "4", "--save", "counts.csv", "--processes", "2"]
    done = run(tmp_path, *words, "--shots", "9000")
    assert (done.returncode, done.stderr) == (0, "")
    three, five = csv.DictReader(io.StringIO(done.stdout))
    wanted = {}
    for name, distance in (("d=3,p=0.03", 3), ("five", 5)):
        _, observables = MODELS[f"d={distance}"].sample(9000, seed=seed_of(name, 4))
        wanted[name] = str(int(observables.any(axis=1).sum()))
    assert (three["name"], three["decoder"], three["shots"], three["errors"]) == ("d=3,p=0.03", "mine.decoder", "9000", wanted["d=3,p=0.03"])
    assert three["metadata"] == '{"d": 3, "p": 0.03}' and (five["name"], five["errors"], five["metadata"]) == ("five", wanted["five"], "")
    assert float(three["low"]) < float(three["rate"]) == float(f"{int(wanted[three['name']]) / 9000:.6g}") < float(three["high"])
    # It goes on from the file, and files add up.
    kept = (tmp_path / "counts.csv").read_text()
    assert run(tmp_path, *words, "--shots", "9000").stdout == done.stdout and (tmp_path / "counts.csv").read_text() == kept
    assert run(tmp_path, "--combine", "counts.csv").stdout == done.stdout


def test_the_command_is_interrupted_and_goes_on_from_its_file(tmp_path):
    (tmp_path / "three.stim").write_text(codes.repetition_code(3, 2, noise=codes.Noise.uniform(0.03)))
    words = ["three.stim", "--decoder", "deciding:slowly_nothing", "--save", "counts.csv", "--processes", "2", "--seed", "4"]
    with subprocess.Popen([sys.executable, "-m", "stabsim.collect_command", *words, "--shots", "100000000"], cwd=tmp_path, stdout=subprocess.PIPE,
                          stderr=subprocess.PIPE, text=True, start_new_session=True) as running:
        until = time.monotonic() + 300
        while not (tmp_path / "counts.csv").exists() or (tmp_path / "counts.csv").read_text().count("\n") < 3:
            assert time.monotonic() < until and running.poll() is None
            time.sleep(0.05)
        # As a terminal does, which signals all processes of the command.
        os.killpg(running.pid, signal.SIGINT)
        out, said = running.communicate(timeout=300)
    assert (running.returncode, out, said) == (130, "", "stabsim-collect: interrupted; the same words go on from counts.csv\n")
    [kept] = stabsim.combine(tmp_path / "counts.csv")
    done = run(tmp_path, *words, "--shots", str(kept.shots))
    assert done.returncode == 0 and [it["shots"] for it in csv.DictReader(io.StringIO(done.stdout))] == [str(kept.shots)]


@pytest.mark.parametrize("words, status, said", [
    (["a.stim"], 2, "--decoder"), (["a.stim", "--decoder", "deciding"], 2, "--decoder"),
    (["none.stim", "--decoder", "deciding:nothing", "--shots", "5"], 1, "none.stim"),
    (["a.stim", "--decoder", "deciding:nobody", "--shots", "5"], 1, "nobody"),
    (["a.stim", "--decoder", "nowhere:nobody", "--shots", "5"], 1, "nowhere"),
    (["a.stim", "--decoder", "deciding:nothing"], 1, "enough"), (["a.stim", "b/a.stim", "--decoder", "deciding:nothing"], 1, "two files are named a"),
    (["a.stim", "bad.stim", "--decoder", "deciding:nothing", "--shots", "5"], 1, "stabsim-collect: bad.stim: line 1"),
    (["a.stim", "random.stim", "--decoder", "deciding:nothing", "--shots", "5"], 1, "stabsim-collect: random.stim: refused 18"),
    (["a.stim", "latin.dem", "--decoder", "deciding:nothing", "--shots", "5"], 1, "stabsim-collect: latin.dem: line 1"),
    (["a.stim", "--decoder", "deciding:nothing", "--shots", "5", "--processes", "0"], 1, "max_workers"),
    (["wide.dem", "--decoder", "deciding:same", "--shots", "5"], 1, "stabsim-collect: the decoder of wide gave an array (5, 2), and not one of"),
    (["--combine", "a.stim"], 1, "no file of counts"), (["--combine", "latin.dem"], 1, "latin.dem is no file of counts"),
])
def test_the_command_says_what_is_wrong_and_in_which_file(words, status, said, tmp_path):
    (tmp_path / "a.stim").write_text("M 0\n")
    (tmp_path / "bad.stim").write_text("T 0\n")
    (tmp_path / "random.stim").write_text("H 0\nX_ERROR(0.1) 0\nM 0\nDETECTOR rec[-1]\n")
    (tmp_path / "wide.dem").write_text("error(0.5) D0 D1 L0\n")
    (tmp_path / "latin.dem").write_bytes("größer\n".encode("latin-1"))
    done = run(tmp_path, *words)
    assert done.returncode == status and said in done.stderr and "Traceback" not in done.stderr and not done.stdout


def test_a_comment_in_latin_1_is_no_fault_of_a_circuit(tmp_path):
    (tmp_path / "latin.stim").write_bytes("# größer\nM 0\nOBSERVABLE_INCLUDE(0) rec[-1]\n".encode("latin-1"))
    done = run(tmp_path, "latin.stim", "--decoder", "deciding:nothing", "--shots", "5")
    assert (done.returncode, done.stderr) == (0, "") and done.stdout.splitlines()[1].startswith("latin,deciding.nothing,5,0,0,")


def test_a_closed_pipe_ends_the_command_without_a_word(tmp_path):
    count(tmp_path / "counts.csv", shots=10, seed=4)
    reader, writer = os.pipe()
    os.close(reader)
    words = [sys.executable, "-m", "stabsim.collect_command", "--combine", "counts.csv"]
    done = subprocess.run(words, cwd=tmp_path, stdout=writer, stderr=subprocess.PIPE, text=True, check=False)
    os.close(writer)
    assert (done.returncode, done.stderr) == (-signal.SIGPIPE, "")


@pytest.mark.parametrize("code, kind", [
    ("def decoder(model):\n    raise ValueError('mine')", "ValueError"),
    ("def decoder(model):\n    return lambda detectors: open('mine')", "FileNotFoundError"),
    ("import stabsim\ndef decoder(model):\n    raise stabsim.NotDecomposed('mine')", "NotDecomposed"), ("raise ValueError('mine')", "ValueError"),
    ("import mine", "ModuleNotFoundError"),
])
def test_what_a_decoder_raises_is_shown_as_its_own(code, kind, tmp_path):
    (tmp_path / "d=3.stim").write_text("M 0\nOBSERVABLE_INCLUDE(0) rec[-1]\n")
    (tmp_path / "failing.py").write_text(code + "\n")
    done = run(tmp_path, "d=3.stim", "--decoder", "failing:decoder", "--shots", "5")
    assert done.returncode == 1 and not done.stdout and "stabsim-collect:" not in done.stderr
    assert "Traceback" in done.stderr and "failing.py" in done.stderr and re.search(f"{kind}: .*mine", done.stderr)
    # Only what is raised in a decoder is one model's.
    assert ("raised by the decoder of d=3" in done.stderr) == ("decoder" in code)


@pytest.mark.parametrize("output, why", [(">&-", "standard output is closed"), (">/dev/full", "No space left on device")])
def test_an_output_that_is_closed_or_full_has_a_line(tmp_path, output, why):
    count(tmp_path / "counts.csv", shots=1024, seed=1)
    done = subprocess.run(["sh", "-c", f'exec "$0" -m stabsim.collect_command --combine counts.csv {output}', sys.executable], cwd=tmp_path, capture_output=True, text=True,
                          check=False)
    assert (done.returncode, done.stderr.count("\n")) == (1, 1) and done.stderr.endswith(f"{why}\n")
