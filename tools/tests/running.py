"""Runs of the program for tests, and what it says about what is wrong."""

import os
import subprocess
from collections.abc import Sequence
from pathlib import Path

from oracle import answers
from program import TOP

PROGRAM = Path(os.environ["STABSIM"])
# The longest, in seconds, that a run is waited for.
TIME_LIMIT = 60
COMMANDS = [*answers.OPTIONS]
NO_MARKS = answers.NO_MARKS.decode()
TOO_LONG = "stabsim: refused 14 TooLong\n"
READ_FAULT = "stabsim: refused 15 ReadFault\n"
WRITE_FAULT = "stabsim: refused 16 WriteFault\n"
MISSING = "No such file or directory (os error 2)"
FOLDER = "Is a directory (os error 21)"

# Status, output and error output.
Ended = tuple[int, str, str]


def run(words: Sequence[object], given: str | int = "", closed: tuple[int, ...] = (), output: int = subprocess.PIPE,
        errors: int = subprocess.PIPE) -> Ended:
    """A run at the top of the repository on a text or an open file, with these streams closed, and output to these files."""

    def close() -> None:
        for number in closed:
            os.close(number)

    source, text = (given, None) if isinstance(given, int) else (subprocess.PIPE, given.encode())
    with subprocess.Popen([PROGRAM, *map(str, words)], cwd=TOP, stdin=source, stdout=output, stderr=errors, preexec_fn=close) as process:
        try:
            written, told = process.communicate(text, TIME_LIMIT)
        finally:
            process.kill()
    return process.returncode, (written or b"").decode(), (told or b"").decode()
