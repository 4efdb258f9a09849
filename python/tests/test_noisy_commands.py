"""`sample` and `detect` of `python3 -m stabsim`: the package draws circuits with noise, and all else is the program's, byte for byte."""

import os
import pathlib
import signal
import subprocess
import sys

import pytest
import stabsim
from stabsim import codes, stim_answers
from stabsim.formats.formats import WRITERS

STABSIM = [sys.executable, "-m", "stabsim"]
# Errors happen each time, so all is known: records are 0 1 0, detectors 0 1, and the observable is 1.
KNOWN = "X 0\nX_ERROR(1) 0 1\nM 0 1 2\nDETECTOR rec[-3]\nDETECTOR rec[-2]\nOBSERVABLE_INCLUDE(0) rec[-2] rec[-1]\n"
QUIET = "H 0\nCX 0 1\nM 0 1\nDETECTOR rec[-1]\n"


@pytest.fixture(name="folder", autouse=True)
def folder_of_circuits(tmp_path, monkeypatch):
    monkeypatch.chdir(tmp_path)
    for name, text in (("known", KNOWN), ("quiet", QUIET), ("half", "X_ERROR(0.5) 0 1 2\nM 0 1 2\nDETECTOR rec[-1]\n")):
        (tmp_path / f"{name}.stim").write_text(text)
    return tmp_path


def run(words, given="", **more):
    """What a command writes, its status, and what it says."""
    done = subprocess.run([*STABSIM, *words.split()], input=given.encode(), capture_output=True, check=False, **more)
    return done.stdout, done.returncode, done.stderr.decode()


def said_by_program(words, given=""):
    """The same of the program itself, by the name of the command."""
    done = subprocess.run(["stabsim", *words.split()], executable=stabsim.find_program(), input=given.encode(), capture_output=True, check=False)
    return done.stdout, done.returncode, done.stderr.decode()


@pytest.mark.parametrize("words, output", [
    ("sample", b"010\n"), ("sample --shots 2", b"010\n010\n"), ("sample --shots=2 --out_format=hits", b"1\n1\n"), ("sample --out_format dets", b"shot M1\n"),
    # Bit 1 of a byte; a zero, the 1 and a zero in front of the end.
    ("sample --shots 3 --out_format b8", b"\x02\x02\x02"), ("sample --out_format r8", b"\x01\x01"),
    ("sample --shots 64 --out_format ptb64", bytes(8) + b"\xff" * 8 + bytes(8)), ("sample --shots 0", b""),
    # X 0 and its error are nothing together: D0 is 0, where Stim, which says what is flipped, has 1.
    ("detect", b"01\n"), ("detect --append_observables", b"011\n"), ("detect --append_observables --out_format dets", b"shot D1 L0\n"),
    ("detect --shots 2 --out_format b8 --append_observables", b"\x06\x06"), ("detect --first_shot 7 --shots +1 --seed 3", b"01\n"),
])
def test_noise_that_always_happens_is_in_each_format(words, output):
    assert run(words, KNOWN) == run(f"{words} --in known.stim") == (output, 0, "")


@pytest.mark.parametrize("text, output", [
    ("H_XY 0\nM 0\n", b"1\n"), ("X 0\nISWAP 0 1\nM 0 1\n", b"01\n"), ("X 0\nMZZ 0 1\n", b"1\n"), ("MPAD 1 0\n", b"10\n"),
    ("X 0\nCX sweep[0] 0\nM 0\n", b"1\n"), ("M(1) 0 !0\n", b"10\n"), ("X 0\nHERALDED_ERASE(1) 1\nM 0\n", b"11\n"),
])
def test_what_the_program_does_not_read_is_drawn(text, output):
    assert said_by_program("sample", text)[1] == 1
    assert run("sample", text) == (output, 0, "")


def test_coins_of_a_circuit_with_gates_that_the_program_does_not_read_are_those_of_the_seed():
    expected = said_by_program("detect --shots 40 --seed 9", "MPP X0*X1\nDETECTOR rec[-1]\n")
    assert 0 < expected[0].count(b"1") < 40
    assert run("detect --shots 40 --seed 9", "MXX 0 1\nDETECTOR rec[-1]\n") == expected


@pytest.mark.parametrize("words", [
    "sample --shots 30 --seed 5", "detect --shots 30", "sample --coins 1", "sample --shots 3 --first_shot 9 --out_format b8", "sample --out_format ptb64",
    "sample --shots 1000001", "sample --shots -1", "sample --shots 1 --shots 2", "sample --shot 2", "sample --append_observables", "sample more",
    "sample --seed 18446744073709551616",
])
def test_a_circuit_without_noise_is_the_programs(words):
    assert run(words, QUIET) == said_by_program(words, QUIET)


@pytest.mark.parametrize("name", [" --in quiet.stim", " --in=quiet.stim"])
def test_a_circuit_of_a_file_without_noise_is_the_programs(name):
    assert run("sample --shots 30 --seed 5" + name) == said_by_program("sample --shots 30 --seed 5", QUIET)


@pytest.mark.parametrize("name", [" --in pipe", " --in=pipe"])
@pytest.mark.parametrize("circuit", ["quiet", "known"])
def test_a_circuit_is_read_from_a_pipe_with_a_name(circuit, name, folder):
    os.mkfifo(folder / "pipe")
    expected = said_by_program("sample --shots 30 --seed 5", QUIET) if circuit == "quiet" else (30 * b"010\n", 0, "")
    # It waits until the pipe is read.
    with subprocess.Popen(["sh", "-c", f"exec cat {circuit}.stim > pipe"]) as writing:
        assert run("sample --shots 30 --seed 5" + name) == expected
        writing.kill()


def test_standard_input_is_read_from_where_it_is():
    with open("quiet.stim", "rb") as file:
        file.seek(len("H 0\nCX 0 1\n"))
        done = subprocess.run([*STABSIM, "sample"], stdin=file, capture_output=True, check=True)
    assert done.stdout == b"00\n"


@pytest.mark.parametrize("words", ["sample --shot 2", "sample --out_format b9", "detect --shots 1 --shots 1", "sample --append_observables", "detect --seed -1"])
def test_a_wrong_option_is_said_as_the_program_says_it(words):
    assert run(words, KNOWN) == said_by_program(words, KNOWN)
    assert run(words, KNOWN)[1] == 2


@pytest.mark.parametrize("words, text, said", [
    ("sample", "M 0\nX_ERROR(0.1) 0\nNOPE 1\n", "line 3: refused 1 UnsupportedName"), ("sample", "X_ERROR(1.5) 0\n", "line 1: refused 2 BadArguments"),
    ("detect", "H 0\nX_ERROR(0.1) 0\nM 0\nDETECTOR rec[-1]\n", "refused 18 NotDeterministic: detector 0, item 3, is not the same for all coins: c0@2 decides it"),
    ("sample --shots 65 --out_format ptb64", KNOWN, "ptb64 has a multiple of 64 shots, and not 65"),
    ("sample --out none/here", KNOWN, "[Errno 2] No such file or directory: 'none/here'"),
])
def test_what_is_refused_is_said_in_a_line(words, text, said, folder):
    assert run(words, text) == (b"", 1, f"stabsim: {said}\n")
    assert not (folder / "none").exists()


@pytest.mark.parametrize("text", ["T 0\n", "M 0\nX 2000\n", "REPEAT 2 {\nM 0\n", "M 0\nDETECTOR rec[-2]\n", "REPEAT 9999999 {\nM 0\n}\n"])
def test_a_circuit_that_is_wrong_without_noise_is_refused_as_by_the_program(text):
    expected = said_by_program("sample", text)
    assert expected[1] == 1 and expected[2].startswith("stabsim: ")
    assert run("sample", text) == expected


def test_a_text_that_is_too_long_is_refused_as_by_the_program():
    text = "\n" * 17_000_000
    assert run("sample", text) == said_by_program("sample", text) == (b"", 1, "stabsim: refused 14 TooLong\n")


def test_a_file_is_written_and_an_older_one_stays_if_shots_are_refused(folder):
    assert run("detect --in known.stim --out shots --shots 2") == (b"", 0, "") and (folder / "shots").read_text() == "01\n01\n"
    assert run("detect --out shots", "H 0\nX_ERROR(0.1) 0\nM 0\nDETECTOR rec[-1]\n")[1] == 1
    assert (folder / "shots").read_text() == "01\n01\n"
    assert run("sample --in known.stim --out known.stim") == (b"", 2, "stabsim: --in and --out are one file\n")
    assert (folder / "known.stim").read_text() == KNOWN


def test_a_seed_gives_the_same_shots_twice_and_none_is_seed_0():
    first, again, other = (run(f"sample --in half.stim --shots 50 --seed {seed}")[0] for seed in (7, 7, 8))
    assert first == again != other
    assert run("sample --in half.stim --shots 50")[0] == run("sample --in half.stim --shots 50 --seed 0")[0] != first


def test_shots_in_chunks_are_those_of_the_package(folder):
    text = codes.surface_code(3, 3, noise=codes.Noise.uniform(0.02))
    (folder / "code.stim").write_text(text)
    circuit, shots = stabsim.from_stim(text), 2 * stim_answers.TOGETHER + 100
    run(f"sample --in code.stim --shots {shots} --seed 5 --out records --out_format b8")
    records = stabsim.read_shots("records", format="b8", num_measurements=circuit.num_records)
    assert records.any() and (records == circuit.sample(shots, seed=5)).all()
    run(f"detect --in code.stim --shots {shots} --seed 5 --first_shot 3 --out both --out_format r8 --append_observables")
    both = stabsim.read_shots("both", format="r8", num_detectors=circuit.num_detectors, num_observables=1)
    detectors, observables = circuit.detect(shots, seed=5, first_shot=3, separate_observables=True)
    assert detectors.any() and (both[:, :-1] == detectors).all() and (both[:, -1:] == observables).all()


def test_wide_shots_are_drawn_in_fewer_together():
    # 2**26 bits are 8192 shots of 8192 bits, 2 blocks of 1024 shots of 24000 bits, and one block at least.
    assert [stim_answers.together(width) for width in (0, 8192, 24000, 10**6)] == [8192, 8192, 2048, 1024]


def test_half_of_the_shots_are_flipped_by_an_error_of_chance_a_half():
    lines = run("sample --in half.stim --shots 4000 --seed 1")[0].decode().split()
    # The deviation of each mean is 0.008.
    assert len(lines) == 4000 and all(abs(sum(line[it] == "1" for line in lines) / 4000 - 0.5) < 0.04 for it in range(3))


def test_a_closed_pipe_ends_it_without_a_word():
    words = [*STABSIM, "sample", "--in", "half.stim", "--shots", "1000000"]
    with subprocess.Popen(words, stdout=subprocess.PIPE, stderr=subprocess.PIPE) as running:
        running.stdout.readline()
        running.stdout.close()
        assert running.stderr.read() == b"" and running.wait() == -signal.SIGPIPE


def test_it_is_interrupted_while_it_waits_for_a_circuit(folder):
    os.mkfifo(folder / "pipe")
    with subprocess.Popen([*STABSIM, "sample", "--in", "pipe"], stderr=subprocess.PIPE, text=True) as running:
        with (folder / "pipe").open("wb"):
            running.send_signal(signal.SIGINT)
            assert (running.stderr.read(), running.wait()) == ("stabsim: interrupted\n", 130)


def test_help_says_what_of_noise_is_drawn():
    for words in ("sample --help", "help detect", "detect -h"):
        output, status, _ = run(words)
        assert status == 0 and b"detectors are raw parities of records then too" in output and b"Usage: stabsim " in output


def test_without_numpy_circuits_without_noise_are_still_sampled(folder):
    (folder / "numpy.py").write_text("raise ModuleNotFoundError('No module named numpy', name='numpy')\n")
    lacking = {**os.environ, "PYTHONPATH": os.pathsep.join([str(folder), os.environ["PYTHONPATH"]])}
    assert run("sample --seed 5", QUIET, env=lacking) == said_by_program("sample --seed 5", QUIET)
    output, status, said = run("sample", KNOWN, env=lacking)
    assert (output, status) == (b"", 1) and said.startswith("stabsim sample: needs numpy: ") and said.count("\n") == 1


def test_each_format_of_the_package_is_written():
    for name in WRITERS:
        expected = WRITERS[name](stabsim.from_stim(KNOWN).sample(64), {"M": 3, "D": 0, "L": 0})
        assert run(f"sample --shots 64 --out_format {name} --in known.stim") == (expected, 0, "")
        assert pathlib.Path("known.stim").read_text() == KNOWN


@pytest.mark.parametrize("words", ["sample --in known.stim", "gen --code repetition_code --task memory --distance 3 --rounds 2"])
@pytest.mark.parametrize("output, why", [(">&-", "standard output is closed"), (">/dev/full", "No space left on device")])
def test_an_output_that_is_closed_or_full_has_a_line(words, output, why):
    done = subprocess.run(["sh", "-c", f'exec "$0" -m stabsim {words} {output}', sys.executable], capture_output=True, text=True, check=False)
    assert done.returncode == 1 and done.stderr.count("\n") == 1 and done.stderr.endswith(f"{why}\n")
