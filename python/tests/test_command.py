"""The installed command `stabsim`, as `python3 -m stabsim` runs it: the program, under its own name, that a closed pipe ends without a word."""

import pathlib
import signal
import subprocess
import sys

import pytest
import stabsim

STABSIM = [sys.executable, "-m", "stabsim"]
PROGRAM = pathlib.Path(stabsim.__file__).parent / "programs" / "stabsim"
MANY = ["sample", "--shots", "1000000"]


def run(words, text="", **given):
    return subprocess.run([*STABSIM, *words], input=text, stderr=subprocess.PIPE, text=True, check=False, **given)


@pytest.mark.parametrize("words, text", [
    (["sample", "--shots", "2"], "X 0\nM 0"), (MANY, "M 0"), (["sample"], "T 0"), (["edit"], "insert 0 NOPE\n"), (["sample", "--shot", "2"], ""),
])
def test_output_and_status_are_the_programs_into_a_pipe_and_into_a_file(words, text, tmp_path):
    alone = subprocess.run(["sh", PROGRAM, *words], input=text, capture_output=True, text=True, check=False)
    piped = run(words, text, stdout=subprocess.PIPE)
    with open(tmp_path / "out", "w") as file:
        filed = run(words, text, stdout=file)
    assert (piped.returncode, piped.stdout) == (filed.returncode, (tmp_path / "out").read_text()) == (alone.returncode, alone.stdout)
    # The program's file is named after the processor.
    assert piped.stderr == filed.stderr and piped.stderr.split("Usage:")[0] == alone.stderr.split("Usage:")[0]


def first_line_of(words, text):
    """The first line that a command writes of a circuit, its status, and what it says, if its pipe is closed after that line."""
    with subprocess.Popen(words, stdin=subprocess.PIPE, stdout=subprocess.PIPE, stderr=subprocess.PIPE, text=True, bufsize=1) as running:
        running.stdin.write(text)
        running.stdin.close()
        line = running.stdout.readline()
        running.stdout.close()
        said = running.stderr.read()
    return line, running.returncode, said


def test_a_closed_pipe_ends_the_command_without_a_word_and_the_program_with_16():
    assert first_line_of([*STABSIM, *MANY], "M 0 1") == ("00\n", 128 + signal.SIGPIPE, "")
    assert first_line_of(["sh", str(PROGRAM), *MANY], "M 0 1") == ("00\n", 1, "stabsim: refused 16 WriteFault\n")


@pytest.mark.parametrize("number", [signal.SIGHUP, signal.SIGINT, signal.SIGTERM])
def test_a_signal_ends_the_program_too(number):
    # Its end closes the pipe of standard error.
    with subprocess.Popen([*STABSIM, "edit"], stdin=subprocess.PIPE, stdout=subprocess.PIPE, stderr=subprocess.PIPE, text=True, bufsize=1) as running:
        running.stdin.write("show numbers\n")
        assert running.stdout.readline() == "refused 13 BadCommand\n"
        running.send_signal(number)
        assert running.stderr.read() == "" and running.wait(60) == 128 + number


def test_the_program_that_the_variable_names_is_run_or_refused(monkeypatch, tmp_path):
    (tmp_path / "other").write_text("#!/bin/sh\n[ \"$1\" = --version ] && echo stabsim 9.0.0 && exit\necho other $*\n")
    (tmp_path / "other").chmod(0o755)
    monkeypatch.setenv("STABSIM", str(tmp_path / "other"))
    for output in (subprocess.PIPE, None):
        done = run(["sample"], "M 0", **({"stdout": output} if output else {}))
        assert done.returncode == 0 and done.stdout in (None, "other sample\n")
    for path, why in (("/nonexistent", "does not start"), (str(tmp_path), "does not start"), ("/bin/true", "is no program stabsim")):
        monkeypatch.setenv("STABSIM", path)
        done = run(["sample"], "M 0", stdout=subprocess.PIPE)
        assert (done.returncode, done.stdout) == (2, "") and done.stderr.startswith(f"stabsim: STABSIM names {path}, which {why}")


@pytest.mark.parametrize("words", [["--help"], ["help", "sample"], ["sample", "-h"]])
def test_help_has_the_name_of_the_command(words):
    done = run(words, stdout=subprocess.PIPE)
    assert done.returncode == 0 and "Usage: stabsim " in done.stdout and "x86" not in done.stdout
